#!/usr/bin/env python3
"""Checks runs of other actor systems by `./check`: correct ones, and ones with a fault that was planted.

    tools/peers_checked.py [--small] [--may-miss] [--runs N] [--keep FOLDER] [--program PATH]

Callers make random calls of counters, in Erlang, in CAF, and over the channels of crossbeam and of Rust's std; the
sources are tools/peers/call_history.*. Each run leaves a history: what callers submitted, waited for and were answered,
and what counters ran. There are three works, each with so many seeds, which stay:

  - correct: a play must be found, which the second reading of the rules plays to the same end.
  - two senders: of two calls in a row of one caller to one counter the second is sent first. It must be refused, and
    the reason must be that the first call is skipped, at the place where it is, and where it runs.
  - run twice: a caller sends a call again that had arrived. It must be refused, and the reason must be that this call
    runs again, at its second place, after its first one.

A run that ends otherwise is a failure. Which call is planted, a comment of the history says. Threads and processes are
joined, and no fault depends on time: the first of two calls is sent once the second has its answer.

The examples of such runs in examples/ are judged in the same way, and a picture beside one must be what is drawn of its
play.

The programs are built into a temporary folder, offline, as those of tools/peers.py. What can't be built is named, and
the others are checked. Where none can be built, it ends with status 2, as a failure of the machine's set-up; with
--may-miss that is no failure. With --small it takes std alone, and a few seeds. With --keep it writes each history into
that folder.
"""
import argparse
import collections
import pathlib
import re
import shutil
import subprocess
import sys
import tempfile

import reading_of_rules as reading
from check_histories import wrong_play
from peers import NO_SETUP, REGISTRY, SOURCES, Failed, run, show_table
from program import CHECKS, TOP, program_of

EXAMPLES = TOP / "examples"
NAME = "call_history"
CORRECT, TWO_SENDERS, RUN_TWICE = "correct", "two_senders", "run_twice"
WORKS = {CORRECT: "correct", TWO_SENDERS: "two senders", RUN_TWICE: "run twice"}
RUNS, FEW = 20, 4
MAX_SECONDS = 60
MAX_SHOWN = 5
PLAY, REFUSED = 0, 5
HEADINGS = ["Work", "Runs", "A play", "Refused for it", "Otherwise", "What is told of seed 1"]
PLANTED = re.compile(r"^# planted: (c\d+)\.(\d+) is sent (?:after|(twice))", re.M)
RAN = re.compile(r"(a\d+\.\d+) (c\d+)\.(\d+) ")
# The examples of these systems: a correct run, and one with each fault.
EXAMPLES_OF_PEERS = ["erlang_counters.history", "two_senders.history", "run_twice.history"]


# The programs. Each builder takes a folder of its own, and gives the command that runs what it built there.


def build_std(folder):
    run(["rustc", "--edition", "2021", "-o", folder / NAME, SOURCES / f"{NAME}.rs"])
    return [folder / NAME]


def build_crossbeam(folder):
    shutil.copy(SOURCES / f"{NAME}.rs", folder)
    package = (SOURCES / "Cargo.toml").read_text().replace("add_calls", NAME)
    (folder / "Cargo.toml").write_text(package)
    configs = ['source.crates-io.replace-with="debian"', f'source.debian.directory="{REGISTRY}"']
    words = [word for config in configs for word in ("--config", config)]
    run(["cargo", "build", "--offline", "--features", "crossbeam", "--target-dir", "built", *words], cwd=folder)
    return [folder / "built/debug" / NAME]


def build_erlang(folder):
    run(["erlc", "-o", folder, SOURCES / f"{NAME}.erl"])
    main = f"{NAME}:main(init:get_plain_arguments()), halt(0)."
    return ["erl", "-noshell", "-noinput", "-pa", folder, "-eval", main, "-extra"]


def build_caf(folder):
    run(["g++", "-O1", "-std=c++17", "-o", folder / NAME, SOURCES / f"{NAME}.cpp", "-lcaf_core", "-pthread"])
    return [folder / NAME]


SMALL = "Rust, std"
PEERS = {SMALL: build_std, "Rust, crossbeam": build_crossbeam, "Erlang": build_erlang, "CAF": build_caf}


def build(names, top):
    """The commands of the systems that could be built, and why the others couldn't, by name."""
    commands, missing = {}, {}
    for name in names:
        folder = pathlib.Path(top, name.replace(", ", "-").lower())
        folder.mkdir()
        try:
            commands[name] = PEERS[name](folder)
        except Failed as failed:
            missing[name] = failed
    return commands, missing


def size_of(seed):
    """How many callers and counters a run has, and how many calls each caller makes."""
    return 2 + seed % 5, 1 + seed % 4, 10 + seed * 7 % 31


# What is said of a history.


def check(program, history):
    """What `./check` says, and its status."""
    done = subprocess.run([program, *CHECKS.words], input=history.encode(), capture_output=True, timeout=MAX_SECONDS)
    return done.stdout.decode(), done.returncode


def parts_of(history):
    """The roles and steps of a history, and the summary below them."""
    lines = history.splitlines(keepends=True)
    first = next(place for place, line in enumerate(lines) if re.match(r"[ac]\d", line))
    return "".join(lines[:first]).encode(), "".join(lines[first:]).encode()


def runs_of(history, caller):
    """The calls of a caller that ran: the number of the line, the place and the number of the call."""
    lines = ((line, RAN.match(text)) for line, text in enumerate(history.splitlines(), 1))
    return [(line, run[1], int(run[3])) for line, run in lines if run and run[2] == caller]


def reason_due(history):
    """What has to be told of a history with a planted fault, as the comment names it, if the fault shows in it."""
    planted = PLANTED.search(history)
    caller, number = planted[1], int(planted[2])
    runs = runs_of(history, caller)
    own = [(line, place) for line, place, ran in runs if ran == number]
    if planted[3] and len(own) == 2:
        (before, first), (line, at) = own
        return f"line {line}: {at} runs {caller}.{number} again, after {first} (line {before})\n"
    if planted[3]:
        return None
    line, at = own[0]
    actor = at.partition(".")[0]
    passed = [(earlier, place) for earlier, place, ran in runs if ran > number and place.startswith(f"{actor}.")]
    if not passed or passed[0][0] > line:
        return None
    return "line {}: {} skips {}.{}, which runs at {} (line {})\n".format(*passed[0], caller, number, at, line)


def verdict(program, history):
    """Whether a history is judged as it should be, and what was told of it in one line."""
    text, status = check(program, history)
    first = text.partition("\n")[0]
    if PLANTED.search(history):
        return status == REFUSED and text == reason_due(history), first
    if status != PLAY:
        return False, first
    wrong = wrong_play(*parts_of(history), text.encode())
    return wrong is None, wrong or f"a play of {sum(not line.startswith('actor') for line in text.splitlines())} events"


class Kept:
    """A folder for histories, or none."""

    def __init__(self, folder):
        self.folder = folder
        if folder:
            folder.mkdir(parents=True, exist_ok=True)

    def keep(self, name, history):
        if self.folder:
            (self.folder / f"{name}.history").write_text(history)


class Judge:
    """Runs the systems and counts what was said, by system and work."""

    def __init__(self, program, kept):
        self.program, self.kept = program, kept
        self.counts, self.told, self.wrong = collections.Counter(), {}, []

    def judge(self, name, command, work, seed):
        words = [*map(str, size_of(seed)), str(seed), work]
        history = run([*command, *words])
        self.kept.keep(f"{name.replace(', ', '-').lower()}-{work}-{seed}", history)
        is_well, told = verdict(self.program, history)
        self.counts[name, work, is_well] += 1
        self.told.setdefault((name, work), told)
        if not is_well:
            self.wrong.append(f"{name}, {work}: {NAME} {' '.join(words)}: {told}")

    def judge_all(self, name, command, runs):
        try:
            for work in WORKS:
                for seed in range(1, runs + 1):
                    self.judge(name, command, work, seed)
        except Failed as failed:
            self.wrong.append(f"{name}: {failed}")

    def rows(self, names):
        for name in names:
            for work, title in WORKS.items():
                well, ill = self.counts[name, work, True], self.counts[name, work, False]
                both = [str(well), "-"] if work == CORRECT else ["-", str(well)]
                yield [name, title, str(well + ill), *both, str(ill), self.told.get((name, work), "-")]


# The examples.


def drawn(name, play):
    """The picture of a play of this name."""
    report, _ = reading.play(play.encode())
    with tempfile.TemporaryDirectory() as folder:
        paths = [pathlib.Path(folder, f"{name}.{end}") for end in ("play", "report")]
        paths[0].write_text(play)
        paths[1].write_bytes(report)
        command = [sys.executable, TOP / "tools/draw.py", *paths]
        return subprocess.run(command, stdout=subprocess.PIPE, check=True).stdout


def wrong_examples(program):
    """What is wrong with the examples."""
    for name in EXAMPLES_OF_PEERS:
        path = EXAMPLES / name
        history, picture = path.read_text(), path.with_suffix(".svg")
        if not history.startswith(f"# Checked, not run: ./check examples/{name}\n"):
            yield f"{name}: its first line isn't its command"
        is_well, told = verdict(program, history)
        if not is_well:
            yield f"{name}: {told}"
        elif picture.exists() and picture.read_bytes() != drawn(path.stem, check(program, history)[0]):
            yield f"{picture.name}: it isn't what ./draw makes of {path.stem}.play, which ./check writes of {name}"


def chosen_options():
    options = argparse.ArgumentParser(description=__doc__.splitlines()[0])
    options.add_argument("--small", action="store_true", help="std alone, and a few seeds")
    options.add_argument("--may-miss", action="store_true", help="no failure where no system can be built")
    options.add_argument("--runs", type=int, default=RUNS, help="how many seeds of each work")
    options.add_argument("--keep", type=pathlib.Path, help="a folder for the histories")
    options.add_argument("--program", type=pathlib.Path, help="the program that checks")
    chosen = options.parse_args()
    if chosen.runs < 1:
        options.error("runs are 1 or more")
    chosen.runs = FEW if chosen.small else chosen.runs
    chosen.program = program_of("peers_checked", chosen.program, CHECKS)
    return chosen


def main():
    chosen = chosen_options()
    judge = Judge(chosen.program, Kept(chosen.keep))
    with tempfile.TemporaryDirectory(prefix="peers-checked-") as folder:
        commands, missing = build([SMALL] if chosen.small else list(PEERS), folder)
        for name, command in commands.items():
            judge.judge_all(name, command, chosen.runs)
    show_table(HEADINGS, judge.rows(commands), "System")
    examples = list(wrong_examples(chosen.program))
    wrong = [*judge.wrong, *examples]
    print("".join(f"Not built: {name}: {failed}\n" for name, failed in missing.items()), end="")
    print("".join(f"{each}\n" for each in wrong[:MAX_SHOWN]), end="")
    right = sum(judge.counts.values()) + len(EXAMPLES_OF_PEERS)
    print(f"peers_checked: {right - len(wrong)} histories judged as they should be, {len(wrong)} failures")
    sys.exit(1 if wrong else NO_SETUP if not commands and not chosen.may_miss else 0)


if __name__ == "__main__":
    main()
