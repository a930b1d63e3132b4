#!/usr/bin/env python3
"""Runs the proved program, as both compilers make it, on the worked scripts beside it.

    tools/rows.py [--program PATH]

A script crates/ray_actors/rows/NAME.actors stands with the output that it must have, NAME.report,
and with its status, NAME.status, where that is not 0. So does a script for threads, in thread_rows,
but one whose report depends on the schedule, which has none; tools/threads.py runs it. Scripts of a
megabyte are made here. With --program that program alone is run.
"""
import argparse
import pathlib
import subprocess
import sys

from program import PROVED, TOP, proved

ROWS = TOP / "crates/ray_actors/rows"
THREAD_ROWS = TOP / "crates/ray_actors/thread_rows"
PROGRAMS = [PROVED, PROVED.with_name("ray_actors.by-rattle")]
LONGEST = 1_048_576
MAX_COPIES = 65_535
MAX_ITEMS = 4_096
LARGE_LIMIT = 60_000
USAGE = b"usage: ray_actors play|threads\n"
ROLE = b"actor a1 counter c1\n"


def full_limit():
    """A script with one submission more than its limit takes, and its output."""
    script = b"actor a1 counter max %d c1\n" % LARGE_LIMIT + b"submit c1 a1 get\n" * (LARGE_LIMIT + 1)
    report = b"".join(b"%d: future c1.%d\n" % (place, place) for place in range(LARGE_LIMIT))
    report += b"%d: refused PendingLimit\n" % LARGE_LIMIT
    report += b"".join(b"c1.%d a1 ?\n" % place for place in range(LARGE_LIMIT))
    return script, report + b"a1 live counter 0\n"


def large_scripts():
    """Name, script, output and status of the scripts of events that are too large to lie as files."""
    yield "a million line ends", b"\n" * LONGEST, b"", 0
    yield "one byte too many", b"\n" * (LONGEST + 1), b"line 0: TooLong\n", 1
    deliveries = LONGEST // 10 - 2
    script = ROLE + b"deliver 0\n" * deliveries
    report = b"".join(b"%d: refused NoMail\n" % place for place in range(deliveries))
    yield "a megabyte of deliveries", script, report + b"a1 live counter 0\n", 0
    yield "a fault after a megabyte", ROLE + b"#\n" * 524_000 + b"run", b"line 524002: BadLine\n", 1
    yield "a large limit", *full_limit(), 0


def full_list(limit):
    """A script with one push more than a list takes, and its output, which is the same under any limit."""
    places = range(MAX_ITEMS + 1)
    answers = [b"%d" % (place + 1) for place in range(MAX_ITEMS)] + [b"KindFull"]
    report = b"".join(b"c1.%d a1 = %s\n" % answer for answer in enumerate(answers))
    report += b"a1 retired list" + b" 1" * MAX_ITEMS + b"\n"
    report += b"".join(b"a1.%d c1.%d push 1\n" % (place, place) for place in places)
    return b"actor a1 list" + limit + b" c1\n" + b"submit c1 a1 push 1\n" * len(places), report


def large_thread_scripts():
    """The same for threads."""
    yield "a million line ends", b"\n" * LONGEST, b"", 0
    yield "one byte too many", b"\n" * (LONGEST + 1), b"line 0: TooLong\n", 1
    copies = ROLE + b"copy c1 a1\n" * (MAX_COPIES - 1)
    yield "as many copies as can be", copies, b"a1 retired counter 0\n", 0
    yield "one copy too many", copies + b"copy c1 a1\n", b"line %d: BadPlan\n" % (MAX_COPIES + 1), 1
    yield "a fault after a megabyte", ROLE + b"#\n" * 524_000 + b"take a1", b"line 524002: BadLine\n", 1
    yield "a stranger after a megabyte", ROLE + b"#\n" * 524_000 + b"kill c2 a1", b"line 524002: BadPlan\n", 1
    yield "a full list", *full_list(b""), 0
    yield "a full list under a limit of one", *full_list(b" max 1"), 0


def rows_in(folder):
    """Name, script, output and status of every worked script of a folder; in threads of those with a fixed report."""
    for path in sorted(folder.glob("*.actors")):
        status, report = path.with_suffix(".status"), path.with_suffix(".report")
        wanted = int(status.read_text()) if status.exists() else 0
        if folder == ROWS or report.exists():
            yield path.stem, path.read_bytes(), report.read_bytes(), wanted


def rows():
    """Mode, name, script, output and status of every worked script."""
    for row in [*rows_in(ROWS), *large_scripts()]:
        yield "play", *row
    for row in [*rows_in(THREAD_ROWS), *large_thread_scripts()]:
        yield "threads", *row


def run(program, words, script):
    """Output, standard error and status of one run."""
    try:
        done = subprocess.run([program, *words], input=script, capture_output=True, timeout=60)
    except subprocess.TimeoutExpired:
        return b"", b"", "no end within 60 seconds"
    return done.stdout, done.stderr, done.returncode


def command_lines():
    """Words and what they must give: no output, one line on standard error, and a status. With no input
    a mode alone has nothing to tell."""
    wrong = [["play", "play"], ["play", "--"], ["threads", "threads"], ["threads", "--"], ["play", "threads"], ["thread"]]
    for words in [], ["--help"], ["help"], ["run"], *wrong, ["-x"], [""]:
        yield words, (b"", USAGE, 2)
    for mode in "play", "threads":
        yield [mode], (b"", b"", 0)


def chosen_programs():
    options = argparse.ArgumentParser(description=__doc__.splitlines()[0])
    options.add_argument("--program", type=pathlib.Path, help="run this one alone")
    chosen = options.parse_args()
    return [chosen.program.resolve()] if chosen.program else PROGRAMS


def checks_of(program):
    """Name of every check, what the program gives, and what it must give."""
    for mode, name, script, report, status in rows():
        yield f"{mode}: {name}", run(program, [mode], script), (report, b"", status)
    for words, wanted in command_lines():
        yield f"words {words}", run(program, words, b""), wanted


def main():
    passed = failed = 0
    for program in chosen_programs():
        for name, got, wanted in checks_of(proved("rows", program)):
            if got == wanted:
                passed += 1
                continue
            failed += 1
            print(f"{program.name}: {name}: got {got!r:.600}, wanted {wanted!r:.600}")
    print(f"rows: {passed} passed, {failed} failed")
    sys.exit(1 if failed or not passed else 0)


if __name__ == "__main__":
    main()
