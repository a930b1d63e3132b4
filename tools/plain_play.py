#!/usr/bin/env python3
"""Measures plays of the proved program beside a plain program in Rust that does the same, byte for byte.

    tools/plain_play.py [--turns N] [--small] [--may-miss] [--program PATH]

The plain one (tools/peers/plain_play.rs, std alone) is what an engineer would write without proofs: it plays
each line as it reads it, and its texts are pieces of the script. Both take the longest scripts of
tools/measure.py, of 1 and of 16 callers, in turns; a time is the median of a process's turns, from its start to
its end, and memory the most that was resident in any of them. It fails where the two reports differ, or one
program fails. Where the plain one can't be built it says so, measures nothing and ends with status 2, as a failure
of the machine's set-up; with --may-miss that is no failure. It wants a machine that does nothing
else; --small takes short scripts and one turn, to see that it works.
"""
import argparse
import os
import pathlib
import shutil
import statistics
import subprocess
import sys
import tempfile

import measure
from program import PROVED, proved

SOURCE = measure.TOP / "tools/peers/plain_play.rs"
TURNS = 15
SMALL = 1_000  # events
NO_SETUP = 2  # the status where the machine lacks what the plain program is built with
HEADINGS = ["Shape", "Callers", "Proved, ms", "Plain, ms", "Times", "Proved, MB", "Plain, MB", "Times"]


class NotBuilt(Exception):
    """Why the plain program can't be built on this machine."""


def build_plain(folder):
    """The plain program."""
    rustc = shutil.which("rustc")
    if not rustc:
        raise NotBuilt("rustc is not there")
    built = pathlib.Path(folder, "plain_play")
    # It knows as much of the rules as the proved one.
    knowing = {**os.environ, "PEER_TERMINATE": "1", "PEER_LIMIT": "1"}
    done = subprocess.run([rustc, "-O", "--edition", "2021", SOURCE, "-o", built], env=knowing)
    if done.returncode:
        raise NotBuilt(f"rustc ends with {done.returncode}")
    return built


def runner_in(folder, name, program):
    own = pathlib.Path(folder, name)
    own.mkdir()
    return measure.Runner(own, program)


def compare(runners, script, turns):
    """The seconds and the bytes of each program, and whether their reports differ."""
    runs = [[], []]
    for _ in range(turns):
        for told, runner in zip(runs, runners):
            told.append(runner.run(script))
    differ = runners[0].report.read_bytes() != runners[1].report.read_bytes()
    return [(statistics.median(run[0] for run in told), max(run[1] for run in told)) for told in runs], differ


def show(script, proved, plain):
    times, memories = ([one[at] for one in (proved, plain)] for at in (0, 1))
    cells = [f"{seconds * 1000:.1f}" for seconds in times] + [f"{times[0] / times[1]:.2f}"]
    cells += [f"{size / 1e6:.1f}" for size in memories] + [f"{memories[0] / memories[1]:.2f}"]
    measure.show_cells([script.series.shape, script.series.crew, *cells])
    return times[0] / times[1], memories[0] / memories[1]


def compare_all(runners, turns, is_small):
    """What is wrong. Prints a line for each shape, and the means."""
    ratios = []
    measure.show_cells(HEADINGS)
    measure.show_cells(["---", *["---:"] * (len(HEADINGS) - 1)])
    for series in measure.series_of_events():
        script = series.script(SMALL) if is_small else series.largest_script()
        try:
            (proved, plain), differ = compare(runners, script, turns)
        except measure.Failed as failed:
            yield f"{script}: {failed}"
            continue
        ratios.append(show(script, proved, plain))
        if differ:
            yield f"{script}: the reports differ"
    if ratios:
        time, memory = (statistics.geometric_mean(each) for each in zip(*ratios))
        print(f"\nIn the mean (geometric) {time:.2f} times the time and {memory:.2f} times the memory.")


def chosen_options():
    options = argparse.ArgumentParser(description=__doc__.splitlines()[0])
    options.add_argument("--turns", type=int, default=TURNS)
    options.add_argument("--small", action="store_true", help="short scripts and one turn")
    options.add_argument("--may-miss", action="store_true", help="no failure where the plain program can't be built")
    options.add_argument("--program", type=pathlib.Path, default=PROVED)
    chosen = options.parse_args()
    chosen.program = proved("plain_play", chosen.program)
    return chosen


def main():
    chosen = chosen_options()
    with tempfile.TemporaryDirectory(prefix="plain-play-") as folder:
        try:
            plain = build_plain(folder)
        except NotBuilt as why:
            print(f"plain_play: nothing was measured, for want of the machine's set-up: {why}")
            sys.exit(0 if chosen.may_miss else NO_SETUP)
        runners = [runner_in(folder, "proved", chosen.program), runner_in(folder, "plain", plain)]
        wrong = list(compare_all(runners, 1 if chosen.small else chosen.turns, chosen.small))
    print(f"Load of the machine, over the last minute: {os.getloadavg()[0]:.2f}, of {os.cpu_count()} cores.")
    print("".join(f"{each}\n" for each in wrong), end="")
    print(f"plain_play: {len(wrong)} failures")
    sys.exit(1 if wrong else 0)


if __name__ == "__main__":
    main()
