#!/usr/bin/env python3
"""Counts what one call of a run in threads costs: instructions, and bytes of memory.

    tools/call_cost.py [--small] [--may-miss] [--program PATH]

The proved program ray_bench runs under valgrind. Its callers have plans, send all their calls and then take the
answers. Each shape makes a number of calls, and then twice as many. What a call costs is the difference of the two, so
that the start of the program and of its threads falls out.

Instructions are those of the threads alone, counted by callgrind, with the passes in which a thread waits. Those of the
main thread stand beside them: it makes the plans, checks them, and lets all go. Bytes are what the program has asked
for where that is the most, counted by dhat. A list that grows by doubling is full then, since the calls of each actor
are a power of two; at worst such a list has room for twice as many.

Other work on the machine changes the instructions by some hundredths, where a thread waits more often: they are the
median of three. Bytes are the least of three: where a caller's thread begins late, its whole plan stands beside the
calls of the others. With --small each is one count of shorter runs, taken anew, up to three times, where it is too high.

It fails where a program does, and where a call takes more than 1.5 times the instructions of docs/measures.md, or 1.1
times the bytes. Where valgrind isn't there it says so, counts nothing and ends with status 2, as a failure of the
machine's set-up; with --may-miss that is no failure.
"""
import argparse
import itertools
import os
import pathlib
import re
import shutil
import statistics
import subprocess
import sys
import tempfile
from dataclasses import dataclass

from peers import NO_SETUP, PROGRAM, Contender, Failed, show_table
from program import TOP, proved

PAGE = TOP / "docs/measures.md"
SHAPES = {  # callers and actors, and the style of tools/peers.py
    "1 x 1": ((1, 1), "all sent, one actor"),
    "4 x 4, to one actor": ((4, 4), "all sent, one actor"),
    "4 x 4, to all": ((4, 4), "all sent, all actors"),
    "16 x 8, to all": ((16, 8), "all sent, all actors"),
}
FIRST = "Callers x actors"
HEADINGS = ["Instructions a call", "Of the main thread", "Bytes a call"]
CALLS = 16_384  # of all callers, in the shorter run
SMALL_CALLS = 4_096
TRIES = 3
# Times what the page has. Passes in which a thread waits count, and how many there are depends on the machine.
MOST_INSTRUCTIONS, MOST_BYTES = 1.5, 1.1
MAX_SECONDS = 600
VALGRIND = ["valgrind", "--fair-sched=try"]  # threads take turns, so that a count hardly changes
MAIN_THREAD = 1
OF_A_THREAD = re.compile(r"^thread: (\d+)$.*?^totals: (\d+)$", re.MULTILINE | re.DOTALL)
AT_THE_MOST = re.compile(r"At t-gmax: ([\d,]+) bytes")


@dataclass(frozen=True)
class Cost:
    """What a call costs."""

    threads: float  # instructions
    main: float
    bytes: float

    def cells(self):
        return [f"{each:,.0f}" for each in (self.threads, self.main, self.bytes)]


# The counts of one run.


def run_under(tool, *words):
    """What valgrind says of a run."""
    command = [*VALGRIND, f"--tool={tool}", *map(str, words)]
    try:
        done = subprocess.run(command, stdin=subprocess.DEVNULL, capture_output=True, text=True, timeout=MAX_SECONDS)
    except subprocess.TimeoutExpired:
        raise Failed(f"{tool} does not end in {MAX_SECONDS} seconds") from None
    if done.returncode:
        own = [line for line in done.stderr.splitlines() if not line.startswith("==")]
        raise Failed(f"{tool} ends with {done.returncode}{': ' + own[0].strip() if own else ''}")
    return done.stderr


def instructions(words):
    """Those of all other threads, and those of the main one."""
    counts = {}
    with tempfile.TemporaryDirectory(prefix="call-cost-") as folder:
        run_under("callgrind", "--separate-threads=yes", f"--callgrind-out-file={folder}/counts", *words)
        for path in pathlib.Path(folder).glob("counts-*"):
            counts.update((int(thread), int(count)) for thread, count in OF_A_THREAD.findall(path.read_text()))
    if MAIN_THREAD not in counts or len(counts) < 2:
        raise Failed(f"callgrind tells of {len(counts)} threads")
    main = counts.pop(MAIN_THREAD)
    return sum(counts.values()), main


def most_bytes(words):
    """The most that the program had asked for at one time."""
    found = AT_THE_MOST.search(run_under("dhat", f"--dhat-out-file={os.devnull}", *words))
    if not found:
        raise Failed("dhat tells no bytes")
    return int(found[1].replace(",", ""))


# What a call costs.


class Counter:
    """Counts runs of a program, of so many calls and of twice as many."""

    def __init__(self, program, calls):
        self.program, self.calls = program, calls

    def words(self, shape, times):
        crew, style = SHAPES[shape]
        return Contender("Plans", crew, (self.program,)).words(style, times * self.calls // crew[0], 1)

    def grown(self, before, after):
        return (after - before) / self.calls

    def instructions(self, shape):
        """Those of a call, in the threads and in the main one."""
        short, long = (instructions(self.words(shape, times)) for times in (1, 2))
        return tuple(map(self.grown, short, long))

    def bytes(self, shape):
        return self.grown(*(most_bytes(self.words(shape, times)) for times in (1, 2)))

    def cost(self, shape):
        """By the medians of several counts of instructions, and the least of several of bytes."""
        threads, main = map(statistics.median, zip(*(self.instructions(shape) for _ in range(TRIES))))
        return Cost(threads, main, min(self.bytes(shape) for _ in range(TRIES)))

    def small_cost(self, shape, bound):
        """By the first count that is within the bound, or else the last one: of instructions, and then of bytes."""
        for _ in range(TRIES):
            threads, main = self.instructions(shape)
            if bound is None or threads <= MOST_INSTRUCTIONS * bound.threads:
                break
        for _ in range(TRIES):
            asked_for = self.bytes(shape)
            if bound is None or asked_for <= MOST_BYTES * bound.bytes:
                break
        return Cost(threads, main, asked_for)


# The verdict.


def number_in(cell):
    return int(cell.replace(",", ""))


def costs_on_page():
    """What the page says that a call costs, by shape. Its table is the one with these headings."""
    _, _, behind = PAGE.read_text().partition(f"| {' | '.join([FIRST, *HEADINGS])} |\n")
    lines = itertools.takewhile(lambda line: line.startswith("| "), behind.splitlines())
    rows = (line.strip("| ").split(" | ") for line in lines)
    return {row[0]: Cost(*map(number_in, row[1:])) for row in rows if row[0] in SHAPES}


def complaints(shape, cost, bound):
    """What is wrong with a shape's cost."""
    if bound is None:
        yield f"{shape}: {PAGE.relative_to(TOP)} has no row of it"
        return
    page, pairs = PAGE.relative_to(TOP), [("instructions", cost.threads, bound.threads, MOST_INSTRUCTIONS)]
    for what, now, then, most in [*pairs, ("bytes", cost.bytes, bound.bytes, MOST_BYTES)]:
        if now > most * then:
            yield f"{shape}: {now:,.0f} {what} a call, more than {most} times the {then:,.0f} of {page}"


def count_all(counter, is_small):
    """The row of each shape, and what is wrong."""
    rows, wrong, page = [], [], costs_on_page()
    for shape in SHAPES:
        bound = page.get(shape)
        try:
            cost = counter.small_cost(shape, bound) if is_small else counter.cost(shape)
        except Failed as failed:
            wrong.append(f"{shape}: {failed}")
            continue
        rows.append([shape, *cost.cells()])
        wrong += complaints(shape, cost, bound)
    return rows, wrong


def chosen_options():
    options = argparse.ArgumentParser(description=__doc__.splitlines()[0])
    options.add_argument("--small", action="store_true", help="shorter runs, counted once")
    options.add_argument("--may-miss", action="store_true", help="no failure where valgrind isn't there")
    options.add_argument("--program", type=pathlib.Path, default=PROGRAM)
    chosen = options.parse_args()
    chosen.program = proved("call_cost", chosen.program)
    return chosen


def main():
    chosen = chosen_options()
    if not shutil.which(VALGRIND[0]):
        print("call_cost: nothing was counted, for want of the machine's set-up: valgrind is not there")
        sys.exit(0 if chosen.may_miss else NO_SETUP)
    calls = SMALL_CALLS if chosen.small else CALLS
    rows, wrong = count_all(Counter(chosen.program, calls), chosen.small)
    print(f"What a call costs, as {calls:,} calls and twice as many differ (valgrind's counts):\n")
    show_table(HEADINGS, rows, FIRST)
    print("".join(f"{each}\n" for each in wrong), end="")
    print(f"call_cost: {len(rows)} shapes counted, {len(wrong)} failures")
    sys.exit(1 if wrong else 0)


if __name__ == "__main__":
    main()
