#!/usr/bin/env python3
"""Tells every end of a script for threads: what can be left, whatever the schedule, each with a play that leads there.

    ./explore [OPTION..] [FILE]

Without FILE, or where it is `-`, the script is read from the standard input: roles, and each caller's lines as its
plan. Each end that is told has a play of the plans that ends so, which is proved. That no other is left out is proved
for the view report, whose last line says so; for the other views it is tested, and the last line says how many were
found.

    --view report     ends that differ in an answer, in how an actor ended, or in a run list (this is the default)
    --view answers    ends that differ in an answer or in how an actor ended; run lists are left out
    --view ends       ends that differ in how an actor ended
    --most N          looks at so many states at most (100000)
    --never LINE      tells only the ends that have this line, each with its play; it may stand more than once
    --holds FILE      tells only the ends that lack a line of this file, each with its play
    --plays FOLDER    writes the play of each end that is told to FOLDER/end_1.play and so on, for ./run play and ./draw

The status is 0 where all was searched; 1 for a script fault; 2 for wrong words, and for a file that can't be read; 3
for no memory; 4 where reading or writing failed; 5 where an end has a line that is never to be, or lacks one that is to
hold; 6 where states are left; 7 where no play was found of an end.
"""
import argparse
import contextlib
import os
import pathlib
import re
import subprocess
import sys
import threading
import time

import program

TOOL = "explore"
EXPLORES = program.Program("ray_explore")
FAULT, BAD_END, CUT = 1, 5, 6
SIGN_OF_LIFE_SECONDS = 5
VIEWS = ["report", "answers", "ends"]
# The lines that each view shows: futures, how actors ended, and run lists.
SHOWN = {
    "report": re.compile(r"[ac]\d"),
    "answers": re.compile(r"c\d|a\d+ "),
    "ends": re.compile(r"a\d+ "),
}
# The view report tells no states.
CLOSING = re.compile(r"(whole|part): (\d+) ends(?:, (\d+) states)?\n\Z")


class Words(argparse.ArgumentParser):
    def error(self, message):
        raise program.Stop(f"{message}; ./explore --help tells the words")


def words_of(words):
    reader = Words(add_help=False, allow_abbrev=False)
    reader.add_argument("file", nargs="?", default="-")
    reader.add_argument("--view", choices=VIEWS, default="report")
    reader.add_argument("--most", type=int, default=100_000)
    reader.add_argument("--never", action="append", default=[])
    reader.add_argument("--holds")
    reader.add_argument("--plays", type=pathlib.Path)
    return reader.parse_args(words)


def kept():
    """The program, proved or else built unproved."""
    name = EXPLORES.name
    if program.is_fresh(EXPLORES.proved, name, program.PROVED_CODE):
        program.say(TOOL, f"the proved program, {EXPLORES.proved.relative_to(program.TOP)}")
        return EXPLORES.proved
    for path in (folder / program.name_of(name) for folder in program.folders()):
        if os.access(path, os.X_OK):
            break
    else:
        import unproved  # its imports are dear, and a build is rare

        path = unproved.build(TOOL, name, program.name_of(name))
    program.say(TOOL, f"an unproved program of these sources, {program.shown(path)} (./test makes a proved one)")
    return path


class Pulse(threading.Thread):
    """Reads how far the search is, and says so every few seconds at a terminal."""

    def __init__(self, lines):
        super().__init__(daemon=True)
        self.lines, self.others = lines, []

    def run(self):
        said, is_seen = time.monotonic(), os.isatty(2)
        for line in self.lines:
            if not re.match(r"\d+ states, ", line):
                self.others.append(line)
            elif is_seen and time.monotonic() - said >= SIGN_OF_LIFE_SECONDS:
                said = time.monotonic()
                program.say(TOOL, line.rstrip("\n"))


class Count(threading.Thread):
    """Says every few seconds how many ends there are so far: of the view report the program tells no states."""

    def __init__(self):
        super().__init__(daemon=True)
        self.ends, self.is_over = 0, threading.Event()

    def run(self):
        while not self.is_over.wait(SIGN_OF_LIFE_SECONDS):
            program.say(TOOL, f"{self.ends} end{plural(str(self.ends))} so far")


class End:
    """An end: its lines, and those of its play."""

    def __init__(self):
        self.lines, self.play = [], []

    def shown(self, view):
        return [line for line in self.lines if SHOWN[view].match(line)]


def ends_in(lines):
    """The ends of the program's output, and at last what else it wrote."""
    end, part = None, None
    for line in lines:
        if re.fullmatch(r"end \d+\n", line):
            if end:
                yield end
            end = End()
            part = end.lines
        elif end and line == "play\n":
            part = end.play
        elif CLOSING.match(line) or end is None:
            if end:
                yield end
            end = None
            yield line
        else:
            part.append(line)


class Judge:
    """Which ends are told, and how."""

    def __init__(self, words):
        self.view, self.plays = words.view, words.plays
        self.never = {line + "\n" for line in words.never}
        self.holds = set(lines_of_file(words.holds)) if words.holds else set()
        for line in sorted(self.never | self.holds):
            if not SHOWN[self.view].match(line):
                raise program.Stop(f"the view {self.view} shows no line like `{line.rstrip()}`")
        self.judges = bool(words.never or words.holds)
        self.told = 0

    def is_told(self, lines):
        return not self.judges or bool(self.never & {*lines}) or not self.holds <= {*lines}

    def tell(self, end):
        lines = end.shown(self.view)
        if not self.is_told(lines):
            return
        self.told += 1
        text = [f"end {self.told}\n", *lines]
        if self.judges:
            text += ["its play\n", *end.play]
        if self.plays:
            path = self.plays / f"end_{self.told}.play"
            path.write_text("".join(end.play))
            text.append(f"# ./run play {path}\n")
        program.write_out("".join(text))


def lines_of_file(path):
    lines = program.bytes_in(path).decode(errors="replace").splitlines(keepends=True)
    return [line if line.endswith("\n") else line + "\n" for line in lines if line.strip() and not line.startswith("#")]


def plural(count):
    return "" if count == "1" else "s"


def found_of(states):
    """What is said of a search that was whole. The view report is proved to have all ends, and tells no states."""
    return f" found ({states} state{plural(states)})" if states else ""


def after_of(states):
    return f", after {states} state{plural(states)}" if states else ""


def closing_text(judge, searched, ends, states):
    """The last line. It claims no more than what was searched."""
    found = f"{ends} end{plural(ends)}"
    if judge.judges:
        found += f", {judge.told} of them as they must never be"
    if searched == "whole":
        return f"{found}, and no other{found_of(states)}\n"
    coarser = " or ".join(f"--view {view}" for view in VIEWS[VIEWS.index(judge.view) + 1 :])
    more = f", or try {coarser}" if coarser else ""
    return f"{found} so far{after_of(states)}, and there may be more: raise --most{more}\n"


def explore(words, script):
    judge = Judge(words)
    if judge.plays:
        judge.plays.mkdir(parents=True, exist_ok=True)
    pipes = {name: subprocess.PIPE for name in ("stdin", "stdout", "stderr")}
    command = [kept(), words.view, str(words.most)]
    searched = None
    with subprocess.Popen(command, **pipes, text=True, errors="replace") as process:
        pulse, count = Pulse(process.stderr), Count()
        pulse.start()
        if words.view == "report" and os.isatty(2):
            count.start()
        with contextlib.suppress(BrokenPipeError):
            process.stdin.buffer.write(script)
        with contextlib.suppress(BrokenPipeError):
            process.stdin.close()
        for told in ends_in(process.stdout):
            if isinstance(told, End):
                count.ends += 1
                judge.tell(told)
            elif closing := CLOSING.match(told):
                searched = closing
        count.is_over.set()
        pulse.join()
    program.note("".join(pulse.others))
    status = process.returncode
    if status < 0:
        raise program.Stop(f"the program was ended by signal {-status}", 128 - status)
    if status == FAULT:
        import run  # a fault is rare, and its imports are dear

        program.note(run.explanation(script, "threads"))
    if searched:
        program.write_out(closing_text(judge, *searched.groups()))
    return BAD_END if judge.judges and judge.told and status in (0, CUT) else status


def main():
    words = sys.argv[1:]
    if program.asks_for_help(words):
        program.write_out(__doc__)
        return 0
    words = words_of(words)
    if words.file == "-" and sys.stdin is not None and sys.stdin.isatty():
        raise program.Stop("usage: ./explore [OPTION..] [FILE]    (--help tells the options)")
    return explore(words, program.script_in(words.file))


if __name__ == "__main__":
    program.ended(TOOL, main)
