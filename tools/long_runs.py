#!/usr/bin/env python3
"""Measures long runs: what a million calls cost in time and memory, in play, in threads and by other actor systems.

    tools/long_runs.py [--small] [--may-miss] [--turns N] [--sizes N,N,..]

Sixteen callers call eight counters in turns, up to 62,500 times each; a caller's most is 65,536. Three proved programs
are ours: ray_bench_play plays the calls as events of a world, in one thread; the callers of ray_bench have plans, and
those of ray_bench_code have code. The peers are those of tools/peers.py. Each turn is a process of its own, so that
the most memory that it held is that turn's. All programs run by turns.

A rate is the median of a program's turns, by its own clock, and a memory the most of them, by the system's count.
Bytes a call are what the largest run took beyond one of a call for each caller. What grows is told as the ratio of a
size to the one before it. Ours keep each call and its answer to the end, since all of it is looked at then. A peer that
awaits each answer keeps none.

It fails where one of ours or a peer that was built does, or where a doubling of ours costs more than tools/measure.py
allows, in time or in memory. Where no peer can be built it ends with status 2, and with --may-miss that is no failure.
With --small each runs once, with 1,600 calls, to see that all works. Figures need a machine that does nothing else.
"""
import argparse
import collections
import itertools
import math
import os
import pathlib
import shutil
import statistics
import subprocess
import sys
import tempfile
from dataclasses import dataclass

from measure import MAX_FOR_DOUBLING, NOISE, build_timed
from peers import CODE, MAX_SECONDS, NO_SETUP, PROGRAM, Contender, Failed, build_peers, load, micros_in, show_table, shown
from program import TOP, proved

OURS = {"Play": TOP / "crates/ray_bench_play/out/ray_bench_play", "Plans": PROGRAM, "Code": CODE}
CREW = (16, 8)  # callers and actors
CALLERS, _ = CREW
MAX_OF_A_CALLER = 65_536
LONG_STYLES = ["all sent, all actors", "each awaited, all actors"]
SIZES = [250_000, 500_000, 1_000_000]  # calls of all callers
SMALL_SIZES = [1_600]
TURNS = 3


@dataclass(frozen=True)
class Cost:
    """What so many calls took: in one turn, or in the turns of one size."""

    calls: int
    seconds: float
    memory: int  # bytes

    @classmethod
    def of(cls, turns):
        """The median of their seconds, and the most of their memory."""
        seconds = statistics.median(turn.seconds for turn in turns)
        return cls(turns[0].calls, seconds, max(turn.memory for turn in turns))


# The runs.


class Runner:
    """Runs programs one at a time, with files of its own in the folder."""

    def __init__(self, folder):
        self.timed = build_timed(folder)
        self.told = pathlib.Path(folder, "told")

    def run(self, contender, style, calls):
        """One turn of so many calls, in a process of its own."""
        program, *words = contender.words(style, calls // CALLERS, 1)
        found = shutil.which(program)
        if found is None:
            raise Failed(f"{program} is not there")
        timed = [self.timed, str(MAX_SECONDS), os.devnull, self.told, found, *words]
        done = subprocess.run(timed, capture_output=True, text=True, check=True)
        status, nanoseconds, memory = map(int, done.stdout.split())
        if status:
            raise Failed(f"status {status} after {nanoseconds / 1e9:.1f} seconds and {memory / 1e6:,.0f} MB")
        (micros,) = micros_in(self.told.read_text(), 1)
        return Cost(calls, micros / 1e6, memory)


def measure(runner, contenders, sizes, turns):
    """The turns of each contender in each style, by size, and what went wrong. What failed isn't run again in that style."""
    taken, wrong = collections.defaultdict(lambda: collections.defaultdict(list)), {}
    for _, style, calls, contender in itertools.product(range(turns), LONG_STYLES, [CALLERS, *sizes], contenders):
        if (contender, style) in wrong:
            continue
        try:
            taken[contender, style][calls].append(runner.run(contender, style, calls))
        except Failed as failed:
            wrong[contender, style] = f"{contender}, {style}, {calls:,} calls: {failed}"
    return taken, list(wrong.values())


# The verdict.


def growth(before, cost):
    """How many times its time and its memory a doubling of the calls takes. Short times are taken for noise."""
    doublings = math.log2(cost.calls / before.calls)
    time = max(cost.seconds, NOISE) / max(before.seconds, NOISE)
    memory = cost.memory / before.memory
    return {"time": time ** (1 / doublings), "memory": memory ** (1 / doublings)}


def complaints(name, costs):
    """Which doublings of a series cost too much."""
    for before, cost in zip(costs, costs[1:]):
        for what, times in growth(before, cost).items():
            if times > MAX_FOR_DOUBLING:
                yield f"{name}: from {before.calls:,} to {cost.calls:,} calls a doubling takes {times:.2f} times the {what}"


# What is told.


def series_of(taken, contender, style, sizes):
    """What the runs took at each size at which the program came to its end."""
    by_calls = taken[contender, style]
    return [Cost.of(by_calls[calls]) for calls in sizes if by_calls[calls]]


def bytes_a_call(smallest, costs):
    """What a call of the largest run took, beyond a run of a call for each caller."""
    return f"{max(costs[-1].memory - smallest.memory, 0) / costs[-1].calls:,.0f}" if costs else "-"


def grown(costs, what):
    return ", ".join(f"{growth(*pair)[what]:.2f}" for pair in zip(costs, costs[1:])) or "-"


def row_of(name, smallest, costs, sizes):
    """A program's cells, with a dash for a size at which it failed."""
    by_calls = {cost.calls: cost for cost in costs}
    there = [by_calls.get(calls) for calls in sizes]
    rates = [shown(cost.calls / cost.seconds / 1_000) if cost else "-" for cost in there]
    memory = [f"{cost.memory / 1e6:,.0f}" if cost else "-" for cost in there]
    return [name, *rates, *memory, bytes_a_call(smallest, costs), grown(costs, "time"), grown(costs, "memory")]


def show_style(taken, contenders, style, sizes):
    rows = []
    for contender in contenders:
        smallest, *_ = [*series_of(taken, contender, style, [CALLERS]), None]
        rows.append(row_of(contender.name, smallest, series_of(taken, contender, style, sizes), sizes))
    headings = [f"{unit}, {calls:,}" for unit in ["K/s", "MB"] for calls in sizes]
    print(f"{style.capitalize()}:\n")
    show_table([*headings, "Bytes a call", "Time grows", "Memory grows"], rows, "Program")


def show(taken, contenders, chosen, load_before):
    print(f"Turns of each program at each size: {chosen.turns}, each of {CREW[0]} callers and {CREW[1]} actors, on {os.cpu_count()} cores.")
    print(f"The load average was {load_before} before the first turn and {load()} after the last one. K/s are thousands")
    print("of calls a second; what grows is told for each doubling.\n")
    for style in LONG_STYLES:
        show_style(taken, contenders, style, chosen.sizes)


def sizes_of(words):
    """The sizes that these words name, each a number of calls of all callers."""
    sizes = sorted(int(word) for word in words.split(","))
    if any(not CALLERS < calls <= CALLERS * MAX_OF_A_CALLER or calls % CALLERS for calls in sizes):
        raise ValueError(words)
    return sizes


def chosen_options():
    options = argparse.ArgumentParser(description=__doc__.splitlines()[0])
    options.add_argument("--small", action="store_true", help="one turn of each, with few calls")
    options.add_argument("--may-miss", action="store_true", help="no failure where no peer can be built")
    options.add_argument("--turns", type=int, default=TURNS, help="turns of each program, each a process")
    options.add_argument("--sizes", type=sizes_of, default=SIZES, help=f"calls of all callers, multiples of {CALLERS}")
    chosen = options.parse_args()
    if chosen.small:
        chosen.sizes, chosen.turns = SMALL_SIZES, 1
    if chosen.turns < 1:
        options.error("turns are 1 or more")
    return chosen


def main():
    chosen = chosen_options()
    ours = {name: [proved("long_runs", path)] for name, path in OURS.items()}
    with tempfile.TemporaryDirectory(prefix="long-runs-") as folder:
        peers, missing = build_peers(folder)
        contenders = [Contender(name, CREW, tuple(command)) for name, command in {**ours, **peers}.items()]
        load_before = load()
        taken, wrong = measure(Runner(folder), contenders, chosen.sizes, chosen.turns)
        show(taken, contenders, chosen, load_before)
    for contender, style in itertools.product(contenders[: len(OURS)], LONG_STYLES):
        wrong += complaints(f"{contender}, {style}", series_of(taken, contender, style, chosen.sizes))
    print("".join(f"Not built: {name}: {failed}\n" for name, failed in missing.items()), end="")
    print("".join(f"{each}\n" for each in wrong), end="")
    print(f"long_runs: {len(contenders) - len(peers)} of ours and {len(peers)} peers measured, {len(missing)} not built, {len(wrong)} failures")
    sys.exit(1 if wrong else NO_SETUP if not peers and not chosen.may_miss else 0)


if __name__ == "__main__":
    main()
