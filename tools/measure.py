#!/usr/bin/env python3
"""Measures the proved program: its time and memory on scripts of several shapes, by their number of events.

    tools/measure.py [--threads] [--quick] [--sizes N,N,..] [--program PATH]

Prints a Markdown table, and fails where time grows faster than events, where a script of just under a
megabyte takes too long, or where a script takes too much memory. A time is the least of five runs of
the process, from its start to its end, with the script and the report in files; memory is the most
that was resident in any of them. A run counts only where it ends with status 0, with one outcome for each
event, none of which is a refusal or a gap. It needs some minutes, and a machine that does nothing else.

With --threads it measures runs in threads, by their number of calls, and fails where time grows faster than
calls. Such a run counts only where each future is answered with a number and every actor retired after
all its calls. The largest crew is run on one core, too, and must come to its end there.
"""
import argparse
import bisect
import functools
import itertools
import math
import pathlib
import re
import shutil
import subprocess
import sys
import tempfile
from dataclasses import dataclass
from typing import Callable

from program import PROVED, TOP, proved

LONGEST_SCRIPT = 1_048_576
SHORTEST_EVENT = len("deliver 0\n")
SIZES = [5_000, 10_000, 20_000, 40_000]
CALLERS = [1, 16]
SIZES_IN_THREADS = [2_500, 5_000, 10_000, 20_000]
CREWS = [(1, 1), (2, 2), (4, 4), (16, 8)]  # callers and actors
CALLS_ON_ONE_CORE = 5_000
RUNS = 5

MAX_FOR_DOUBLING = 2.3
NOISE = 0.020  # seconds; less is taken for this much
MAX_SECONDS = 2.0  # for a script of just under a megabyte
MAX_MEMORY = 100  # bytes for each byte of a script
LEAST_FOR_MEMORY = 100_000  # bytes of script; in a shorter one the program's start weighs too much
SECONDS_OF_A_RUN = {"play": 60, "threads": 240}  # of the processor's time, and of the clock


# The shapes. Each takes a number of callers, who take turns, and a number of events, and gives the
# script's roles and its events. Where a shape's pieces don't fill the number, it gives a few events less.


def roles(callers, *kinds):
    """Actors a1, a2, .. of these kinds, which all callers may call."""
    names = " ".join(f"c{number}" for number in range(1, callers + 1))
    return [f"actor a{number} {kind} {names}" for number, kind in enumerate(kinds, 1)]


@dataclass(frozen=True)
class Turn:
    """The call at a place of a script, where callers take turns in submitting."""

    place: int
    callers: int

    @property
    def caller(self):
        return f"c{self.place % self.callers + 1}"

    @property
    def future(self):
        return self.place // self.callers

    def submit(self, words):
        return f"submit {self.caller} {words}"

    def send(self):
        return f"send {self.caller} {self.future}"

    def run(self):
        return f"run a1 {self.caller}"


def turns(callers, count):
    return [Turn(place, callers) for place in range(count)]


def through(calls):
    """Each call sent, brought, run and collected, before the next one is sent."""
    for call in calls:
        yield from [call.send(), f"deliver {call.place}", call.run(), f"collect {call.place}"]


def reversed_deliveries(callers, events):
    """All calls are submitted, then sent, brought in reversed order, run, and collected."""
    calls = turns(callers, events // 5)
    lines = [call.submit("a1 add 1") for call in calls] + [call.send() for call in calls]
    lines += [f"deliver {call.place}" for call in reversed(calls)]
    return roles(callers, "counter"), lines + [call.run() for call in calls] + [f"collect {call.place}" for call in calls]


def chains(callers, events):
    """Each call waits for the answer of its caller's call before it, and all are submitted first."""
    calls = turns(callers, events // 5)
    lines = [call.submit(f"a1 add @{call.future - 1}" if call.future else "a1 add 0") for call in calls]
    return roles(callers, "counter"), lines + list(through(calls))


def one_awaited(callers, events):
    """All calls of a caller wait for the answer of its first one, four times each."""
    calls = turns(callers, events // 5)
    lines = [call.submit("a1 push @0 @0 @0 @0" if call.future else "a1 len") for call in calls]
    return roles(callers, "list"), lines + list(through(calls))


def deaths(callers, events):
    """An actor dies with half of the open futures, and its deaths are collected over and over."""
    calls = turns(callers, (events - callers) // 2 - 1)
    lines = [call.submit(f"a{1 + call.future % 2} get") for call in calls]
    lines += ["kill c1 a1", "take a1", *(f"tell a1 c{number}" for number in range(1, callers + 1))]
    return roles(callers, "counter", "counter"), lines + [f"collect {place % callers}" for place in range(events - len(lines))]


def repeats(callers, events):
    """Each call's letter arrives eight times before the call runs, and eight times after."""
    lines = []
    for call in turns(callers, events // 20):
        brought = [f"deliver {call.place}"] * 8
        lines += [call.submit("a1 add 1"), call.send(), *brought, call.run(), f"collect {call.place}", *brought]
    return roles(callers, "counter"), lines


def sent_again(callers, events):
    """Each caller has one call, as long as a call may be, and sends it over and over."""
    long_text = '"%s"' % ("x" * 64)
    lines = [call.submit(f"a1 push {' '.join([long_text] * 4)}") for call in turns(callers, callers)]
    return roles(callers, "list"), lines + [f"send c{place % callers + 1} 0" for place in range(events - callers)]


def few_sent(callers, events):
    """Nine events in ten are submissions; of these calls the first few go all the way."""
    calls = turns(callers, events - events // 40 * 4)
    return roles(callers, "list"), [call.submit("a1 len") for call in calls] + list(through(calls[: events // 40]))


def submissions(callers, events):
    """Submissions alone, of the shortest line."""
    return roles(callers, "list"), [call.submit("a1 at") for call in turns(callers, events)]


SHAPES = {
    "reversed deliveries": reversed_deliveries,
    "chains of futures": chains,
    "one future awaited": one_awaited,
    "deaths collected again": deaths,
    "letters repeated": repeats,
    "long calls sent again": sent_again,
    "many calls, few sent": few_sent,
    "submissions alone": submissions,
}


# The shapes in threads. Each takes the numbers of callers and of actors, and the number of calls, which the callers
# submit in turns, each of them to all actors in turns.


def submit_in_threads(call, actors):
    return call.submit(f"a{(call.future + call.place) % actors + 1} add 1")


def all_at_once(callers, actors, count):
    """Each caller submits all its calls, and waits for no answer."""
    return roles(callers, *["counter"] * actors), [submit_in_threads(call, actors) for call in turns(callers, count)]


def each_awaited(callers, actors, count):
    """Each caller awaits the answer of each call before it submits the next one."""
    lines = []
    for call in turns(callers, count):
        lines += [submit_in_threads(call, actors), f"await {call.caller} {call.future}"]
    return roles(callers, *["counter"] * actors), lines


SHAPES_IN_THREADS = {"all submitted at once": all_at_once, "each awaited": each_awaited}


@dataclass(frozen=True)
class Series:
    """Scripts of one shape, by their number of events; in threads by that of their calls."""

    mode: str
    shape: str
    crew: str
    build: Callable

    def script(self, events):
        header, lines = self.build(events)
        counted = [line for line in lines if self.mode == "play" or line.startswith("submit ")]
        return Script(self, len(counted), "".join(f"{line}\n" for line in header + lines).encode())

    def largest_script(self):
        """The one with the most events that a script has room for."""
        sizes = range(LONGEST_SCRIPT // SHORTEST_EVENT)
        fitting = bisect.bisect_right(sizes, LONGEST_SCRIPT, lo=1_000, key=lambda events: len(self.script(events).text))
        return self.script(fitting - 1)


@dataclass
class Script:
    series: Series
    events: int
    text: bytes

    def __str__(self):
        counted = "events" if self.series.mode == "play" else "calls"
        return f"{self.series.shape} ({self.series.crew}), {self.events:,} {counted}"

    def is_largest(self):
        return len(self.text) > LONGEST_SCRIPT - 1_000


def series_of_events():
    for (shape, build), callers in itertools.product(SHAPES.items(), CALLERS):
        yield Series("play", shape, str(callers), functools.partial(build, callers))


def series_of_threads():
    for (shape, build), (callers, actors) in itertools.product(SHAPES_IN_THREADS.items(), CREWS):
        yield Series("threads", shape, f"{callers} x {actors}", functools.partial(build, callers, actors))


# The runs.


class Failed(Exception):
    """The program didn't do what the script says."""


@dataclass
class Measured:
    script: Script
    seconds: float
    memory: int  # bytes

    def for_each_byte(self):
        """The bytes of memory for each byte of the script, where that tells something."""
        size = len(self.script.text)
        return self.memory / size if size >= LEAST_FOR_MEMORY else None


def build_timed(folder):
    """The program that runs another one, and tells its time and the most memory that it held."""
    timed = pathlib.Path(folder, "timed")
    subprocess.run(["cc", "-O2", "-o", timed, TOP / "tools/timed.c"], check=True)
    return timed


class Runner:
    """Runs the program, with files of its own in the folder."""

    def __init__(self, folder, program):
        self.timed = build_timed(folder)
        self.given = pathlib.Path(folder, "script")
        self.report = pathlib.Path(folder, "report")
        self.program = program

    def run(self, chosen, through=()):
        """Seconds and bytes of memory of one run, through another program if one is given."""
        mode = chosen.series.mode
        self.given.write_bytes(chosen.text)
        timed = [self.timed, str(SECONDS_OF_A_RUN[mode]), self.given, self.report]
        done = subprocess.run([*timed, *through, self.program, mode], stdout=subprocess.PIPE, check=True)
        status, nanoseconds, memory = map(int, done.stdout.split())
        if status:
            raise Failed(f"status {status} after {nanoseconds / 1e9:.1f} seconds")
        CHECK_OF_REPORT[mode](self.report, chosen.events)
        return nanoseconds / 1e9, memory

    def measure(self, chosen):
        runs = [self.run(chosen) for _ in range(RUNS)]
        return Measured(chosen, min(seconds for seconds, _ in runs), max(memory for _, memory in runs))


def check_report_of_events(path, events):
    """Fails where the report has another number of outcomes, or one that no shape should come to."""
    told = 0
    with open(path, "rb") as report:
        for line in report:
            place, found, outcome = line.partition(b": ")
            if not (found and place.isdigit()):
                break  # the summary
            if outcome.startswith((b"refused", b"gap")):
                raise Failed(f"the outcome {line!r}")
            told += 1
    if told != events:
        raise Failed(f"{told} outcomes for {events} events")


LINE_OF_THREADS = re.compile(rb"(c\d+\.\d+ a\d = \d+|a\d retired counter (\d+)|a\d\.\d+ c\d+\.\d+ add 1)\n")


def check_report_of_threads(path, calls):
    """Fails where a future has no number, an actor hasn't retired, or the actors together ran or added another
    number than that of the calls."""
    futures = items = added = 0
    with open(path, "rb") as report:
        for line in report:
            found = LINE_OF_THREADS.fullmatch(line)
            if not found:
                raise Failed(f"the line {line!r}")
            futures += line.startswith(b"c")
            added += int(found[2] or 0)
            items += line.startswith(b"a") and line[2:3] == b"."
    if not futures == items == added == calls:
        raise Failed(f"{futures} answers, {items} calls that ran and {added} additions for {calls} calls")


CHECK_OF_REPORT = {"play": check_report_of_events, "threads": check_report_of_threads}


# The verdict.


def half_as_long(rows):
    """The longest of the rows before the last one with at most half as many events."""
    return next((row for row in reversed(rows[:-1]) if 2 * row.script.events <= rows[-1].script.events), None)


def growth(before, row):
    """How much time a doubling of events costs between two rows."""
    doublings = math.log2(row.script.events / before.script.events)
    return (max(row.seconds, NOISE) / max(before.seconds, NOISE)) ** (1 / doublings)


def complaints(rows):
    """What is wrong with the last of the rows of a series."""
    row, before = rows[-1], half_as_long(rows)
    in_threads = row.script.series.mode == "threads"
    if before and growth(before, row) > MAX_FOR_DOUBLING:
        times = f"{before.seconds:.3f} s for {before.script.events:,}, {row.seconds:.3f} s for {row.script.events:,}"
        yield f"a doubling costs {growth(before, row):.2f} times ({times})"
    if in_threads:
        return
    if row.script.is_largest() and row.seconds > MAX_SECONDS:
        yield f"{len(row.script.text):,} bytes of script take {row.seconds:.2f} seconds"
    if (row.for_each_byte() or 0) > MAX_MEMORY:
        yield f"{row.for_each_byte():.0f} bytes of memory for each byte of the script"


HEADINGS = ["Bytes of script", "Seconds", "For a doubling", "Memory, MB", "Memory for a byte"]
HEADINGS_OF = {
    "play": ["Shape", "Callers", "Events", *HEADINGS],
    "threads": ["Shape", "Callers x actors", "Calls", *HEADINGS],
}


def show_cells(cells):
    print(f"| {' | '.join(cells)} |", flush=True)


def show(rows):
    """Prints the line of the last row."""
    row, before = rows[-1], half_as_long(rows)
    compared = before and max(before.seconds, row.seconds) > NOISE
    doubling = f"{growth(before, row):.2f}" if compared else "-"
    memory = f"{row.for_each_byte():.0f}" if row.for_each_byte() else "-"
    sizes = [f"{row.script.events:,}", f"{len(row.script.text):,}", f"{row.seconds:.3f}"]
    series = row.script.series
    show_cells([series.shape, series.crew, *sizes, doubling, f"{row.memory / 1e6:.1f}", memory])


def measure_series(runner, series, sizes, with_largest):
    """How many scripts of one series were measured, and what is wrong; what is longer than a failed run isn't tried."""
    wrong, rows = [], []
    scripts = (series.script(events) for events in sizes)
    largest = (series.largest_script() for _ in range(with_largest))
    for chosen in itertools.chain(scripts, largest):
        try:
            rows.append(runner.measure(chosen))
        except Failed as failed:
            return len(rows), [*wrong, f"{chosen}: {failed}; longer ones aren't tried"]
        show(rows)
        wrong += [f"{chosen}: {complaint}" for complaint in complaints(rows)]
    return len(rows), wrong


def run_on_one_core(runner):
    """What is wrong with a run of the largest crew on one core, in each shape. Prints the times."""
    through = [shutil.which("taskset"), "-c", "0"]
    if not through[0]:
        yield "the command taskset, which gives a run one core, is not there"
        return
    for series in series_of_threads():
        chosen = series.script(CALLS_ON_ONE_CORE)
        if series.crew == "{} x {}".format(*CREWS[-1]):
            try:
                print(f"- On one core: {chosen}: {runner.run(chosen, through)[0]:.3f} seconds.", flush=True)
            except Failed as failed:
                yield f"{chosen}, on one core: {failed}"


NOTES = f"""
A doubling is told from the longest script of the shape with at most half as many {{counted}}, where one of the two takes
more than {NOISE * 1000:.0f} ms; a time below that is taken for {NOISE * 1000:.0f} ms. Memory for a byte is told of scripts of at least
{LEAST_FOR_MEMORY:,} bytes."""
NOTE_ON_LARGEST = f"""
The last script of each shape has as many events as {LONGEST_SCRIPT:,} bytes have room for. That is fewer than 65,536 calls,
a caller's most: the shortest submission has 16 bytes with its line end, so at most 65,534 of one caller fit beside a role,
and fewer of sixteen callers, whose names are longer; where calls are sent too, there is room for fewer still."""


NOTE_ON_LARGEST_IN_THREADS = f"""
The last script of each shape has as many calls as {LONGEST_SCRIPT:,} bytes have room for."""


def show_shapes(shapes):
    print("\nShapes:")
    print("".join(f"- {name}: {build.__doc__}\n" for name, build in shapes.items()), end="")


def show_notes(with_largest):
    show_shapes(SHAPES)
    print(NOTES.format(counted="events") + (NOTE_ON_LARGEST if with_largest else ""))
    print()


def show_notes_on_threads(with_largest):
    show_shapes(SHAPES_IN_THREADS)
    print(NOTES.format(counted="calls") + (NOTE_ON_LARGEST_IN_THREADS if with_largest else ""))
    print()


def chosen_options():
    options = argparse.ArgumentParser(description=__doc__.splitlines()[0])
    options.add_argument("--threads", action="store_true", help="runs in threads, in place of plays")
    options.add_argument("--quick", action="store_true", help="the two smallest sizes only")
    options.add_argument("--sizes", help="numbers of events or calls, in place of the usual ones, with commas between them")
    options.add_argument("--program", type=pathlib.Path, default=PROVED)
    chosen = options.parse_args()
    usual = SIZES_IN_THREADS if chosen.threads else SIZES
    chosen.sizes = sorted(int(size) for size in chosen.sizes.split(",")) if chosen.sizes else usual
    chosen.with_largest = chosen.sizes == usual and not chosen.quick
    if chosen.sizes[0] < 100:
        options.error("a script of fewer than 100 events has no room for each shape")
    chosen.program = proved("measure", chosen.program)
    return chosen


def main():
    chosen = chosen_options()
    sizes = chosen.sizes[:2] if chosen.quick else chosen.sizes
    measured, wrong = 0, []
    headings = HEADINGS_OF["threads" if chosen.threads else "play"]
    show_cells(headings)
    show_cells(["---", *["---:"] * (len(headings) - 1)])
    with tempfile.TemporaryDirectory(prefix="measure-") as folder:
        runner = Runner(folder, chosen.program)
        for series in series_of_threads() if chosen.threads else series_of_events():
            more, complaints_of_series = measure_series(runner, series, sizes, chosen.with_largest)
            measured += more
            wrong += complaints_of_series
        if chosen.threads:
            show_notes_on_threads(chosen.with_largest)
            wrong += run_on_one_core(runner)
            print()
        else:
            show_notes(chosen.with_largest)
    print("".join(f"{each}\n" for each in wrong), end="")
    print(f"measure: {measured} scripts measured, {len(wrong)} failures")
    sys.exit(1 if wrong else 0)


if __name__ == "__main__":
    main()
