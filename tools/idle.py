#!/usr/bin/env python3
"""Measures what a run in threads costs while it idles, and how soon it goes on.

    tools/idle.py [--small | --seconds N] [--program PATH]

The proved program ray_bench_idle runs 16 callers and 8 actors. All callers wait for an answer of the first actor, which
waits for a line of standard input; the other actors have nothing to do. So 23 threads wait for others, as they do in a
service that has nothing to serve. What processor time they take is counted over the idle time alone, by the system's
count for each thread. Then the line is written. A caller gets its answer, and calls the second actor, which writes a
line before it runs the call. How long that takes is the second figure: two threads that waited have to go on for it.

It fails where the idle run takes more than 3% of one processor, or where the line comes later than 50 ms. Other work on
the machine delays the line, so the least of the runs counts there. With --small each run idles for two seconds and not
for twenty; with --seconds for as many as that says.
"""
import argparse
import pathlib
import subprocess
import sys
import time

from peers import show_table
from program import TOP, proved

PROVED = TOP / "crates/ray_bench_idle/out/ray_bench_idle"
RUNS, SMALL_RUNS = 5, 3
SECONDS, SMALL_SECONDS, MAX_SECONDS = 20, 2, 60
BEFORE = 1.0  # until all threads wait
MOST_SHARE, MOST_DELAY = 0.03, 0.050  # of one processor, and seconds
TOLD = "called\n"


def processor_time(process):
    """The nanoseconds that all threads of the process ran, those of the system for them included."""
    threads = pathlib.Path(f"/proc/{process.pid}/task").glob("*/schedstat")
    return sum(int(each.read_text().split()[0]) for each in threads)


def idled(process, seconds):
    """The share of a processor that the process takes while it idles."""
    time.sleep(BEFORE)
    begun, taken = time.monotonic(), processor_time(process)
    time.sleep(seconds)
    return (processor_time(process) - taken) / 1e9 / (time.monotonic() - begun)


def went_on(process):
    """The seconds from a line that is written to the line that is told then."""
    begun = time.monotonic()
    process.stdin.write("\n")
    process.stdin.flush()
    told = process.stdout.readline()
    return time.monotonic() - begun, told


def run_once(program, seconds):
    """The share and the delay of a run, and what went wrong."""
    process = subprocess.Popen([program], stdin=subprocess.PIPE, stdout=subprocess.PIPE, text=True)
    try:
        share = idled(process, seconds)
        delay, told = went_on(process)
        status = process.wait(MAX_SECONDS)
    finally:
        process.kill()
        process.wait()
    wrong = None if (told, status) == (TOLD, 0) else f"status {status}, and it told {told!r}"
    return share, delay, wrong


def chosen_options():
    options = argparse.ArgumentParser(description=__doc__.splitlines()[0])
    options.add_argument("--small", action="store_true", help="two seconds each, in place of twenty")
    options.add_argument("--seconds", type=int, help="as many each, in place of twenty")
    options.add_argument("--program", type=pathlib.Path, default=PROVED)
    return options.parse_args()


def main():
    chosen = chosen_options()
    program = proved("idle", chosen.program)
    count, seconds = (SMALL_RUNS, SMALL_SECONDS) if chosen.small else (RUNS, chosen.seconds or SECONDS)
    runs = [run_once(program, seconds) for _ in range(count)]
    rows = [[str(at), f"{share:.3%}", f"{delay * 1e3:.2f}"] for at, (share, delay, _) in enumerate(runs, 1)]
    show_table(["Share of a processor", "Goes on after, ms"], rows, "Run")
    share, delay = min(run[0] for run in runs), min(run[1] for run in runs)
    wrong = [why for *_, why in runs if why]
    wrong += [f"an idle run takes {share:.1%} of a processor"] if share > MOST_SHARE else []
    wrong += [f"it goes on after {delay * 1e3:.0f} ms"] if delay > MOST_DELAY else []
    for complaint in wrong:
        print(f"idle: {complaint}")
    print(f"idle: {count} runs of {seconds} seconds: {len(wrong)} failed")
    return 1 if wrong else 0


if __name__ == "__main__":
    sys.exit(main())
