#!/usr/bin/env python3
"""Measures what `ray_commands check` takes for histories, by their number of calls.

    tools/history_cost.py [--small] [--sizes N,N,..] [--program PATH] [--runs PATH]

A history is a script for threads and what a run of it left. Callers submit all their calls at once, or await each
answer. Each history is checked as it is, where a play must be found. It is checked with its last answer told as another
one, too, where the fault must be told. Prints a Markdown table, and fails where twice the calls take more than 2.3
times as long, or a verdict is another. A time is the least of three runs of the process, from its start to its end;
memory is the most that was resident in any of them. With --small two short histories of each are checked, to see that
all works, and no times are compared. Figures need a machine that does nothing else.
"""
import argparse
import itertools
import pathlib
import re
import subprocess
import sys
import tempfile
from dataclasses import dataclass

from measure import CREWS, MAX_FOR_DOUBLING, NOISE, SHAPES_IN_THREADS, build_timed
from program import CHECKS, PROVED, proved

SIZES = [1_250, 2_500, 5_000, 10_000]
SMALL_SIZES = [200, 400]
RUNS = 3
MAX_SECONDS = 120
PLAY, REFUSED = 0, 5
LAST_ANSWER = re.compile(rb"(?s)(.*\nc\d+\.\d+ a\d = )(\d+)\n")
FAULT = re.compile(rb"line \d+: the answer at a\d\.\d+ is \d+ by the rules, and the history tells \d+ \(line \d+\)\n")


class Failed(Exception):
    """What was checked isn't as it must be."""


@dataclass
class Checked:
    calls: int
    size: int
    seconds: float
    memory: int


def text_of(lines):
    return "".join(f"{line}\n" for line in lines).encode()


def history_of(runs, build, callers, actors, calls):
    """A script of this shape, and what a run of it left."""
    header, lines = build(callers, actors, calls)
    script = text_of(header + lines)
    done = subprocess.run([runs, "threads"], input=script, capture_output=True, timeout=MAX_SECONDS)
    if done.returncode:
        raise Failed(f"the run ended with status {done.returncode}")
    return script + done.stdout


def damaged(history):
    """The same with the last answer told as another one."""
    found = LAST_ANSWER.match(history)
    if not found:
        raise Failed("no answer is told")
    before, number = found.groups()
    return b"%s%d\n%s" % (before, int(number) + 1, history[found.end() :])


class Checker:
    """Runs the program over a history, with files of its own in the folder."""

    def __init__(self, folder, program):
        self.timed = build_timed(folder)
        self.given, self.told = pathlib.Path(folder, "history"), pathlib.Path(folder, "told")
        self.program = program

    def run(self, status):
        """Seconds and bytes of memory of one run, which must end so."""
        words = [self.timed, str(MAX_SECONDS), self.given, self.told, self.program, *CHECKS.words]
        done = subprocess.run(words, stdout=subprocess.PIPE, check=True)
        got, nanoseconds, memory = map(int, done.stdout.split())
        if got != status:
            raise Failed(f"status {got} where {status} is due: {self.told.read_bytes()!r:.200}")
        return nanoseconds / 1e9, memory

    def measure(self, history, calls, status):
        self.given.write_bytes(history)
        runs = [self.run(status) for _ in range(RUNS)]
        told = self.told.read_bytes()
        if status == PLAY and told.count(b"\nsubmit ") != calls or status == REFUSED and not FAULT.fullmatch(told):
            raise Failed(f"with status {status} this is told: {told!r:.200}")
        return Checked(calls, len(history), min(seconds for seconds, _ in runs), max(memory for _, memory in runs))


def growth(rows):
    """How much longer the last one takes than the one before, which has half of the calls, if one was measured."""
    return max(rows[-1].seconds, NOISE) / max(rows[-2].seconds, NOISE) if len(rows) > 1 else None


def show(*cells):
    print(f"| {' | '.join(cells)} |", flush=True)


def measure_series(checker, runs, shape, crew, chosen):
    """Measures histories of one shape, prints their lines, and yields what is wrong."""
    rows = {PLAY: [], REFUSED: []}
    for calls in chosen.sizes:
        history = history_of(runs, SHAPES_IN_THREADS[shape], *crew, calls)
        for status, text in (PLAY, history), (REFUSED, damaged(history)):
            mine = rows[status]
            mine.append(checker.measure(text, calls, status))
            last, times = mine[-1], growth(mine)
            told = f"{times:.2f}" if times and last.seconds > NOISE else "-"
            crew_told, found = "{} x {}".format(*crew), "a play" if status == PLAY else "a fault"
            taken = [f"{last.size:,}", f"{last.seconds:.3f}", told, f"{last.memory / 1e6:.1f}"]
            show(shape, crew_told, f"{calls:,}", found, *taken)
            if times and times > MAX_FOR_DOUBLING and not chosen.small:
                yield f"{shape}, {crew_told}, {calls:,} calls: twice the calls take {times:.2f} times as long"


def chosen_options():
    options = argparse.ArgumentParser(description=__doc__.splitlines()[0])
    options.add_argument("--small", action="store_true", help="two short histories of each shape")
    options.add_argument("--sizes", help="numbers of calls, each twice the one before, with commas between them")
    options.add_argument("--program", type=pathlib.Path, default=CHECKS.proved, help="check by this one")
    options.add_argument("--runs", type=pathlib.Path, default=PROVED, help="run scripts by this one")
    chosen = options.parse_args()
    usual = SMALL_SIZES if chosen.small else SIZES
    chosen.sizes = [int(size) for size in chosen.sizes.split(",")] if chosen.sizes else usual
    return chosen


def main():
    chosen = chosen_options()
    program, runs = proved("history_cost", chosen.program), proved("history_cost", chosen.runs)
    show("Shape", "Callers x actors", "Calls", "Found", "Bytes of history", "Seconds", "For a doubling", "Memory, MB")
    show("---", *["---:"] * 2, "---", *["---:"] * 4)
    wrong = []
    with tempfile.TemporaryDirectory(prefix="history-cost-") as folder:
        checker = Checker(folder, program)
        for shape, crew in itertools.product(SHAPES_IN_THREADS, (CREWS[0], CREWS[-1])):
            try:
                wrong += measure_series(checker, runs, shape, crew, chosen)
            except (Failed, subprocess.TimeoutExpired) as why:
                wrong.append(f"{shape}, {crew[0]} x {crew[1]}: {why}")
    print("".join(f"{each}\n" for each in wrong), end="")
    print(f"history_cost: {len(wrong)} failures")
    sys.exit(1 if wrong else 0)


if __name__ == "__main__":
    main()
