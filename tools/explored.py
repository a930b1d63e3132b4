#!/usr/bin/env python3
"""Compares the ends that the program ray_explore tells with those of every play, and with runs in threads.

    tools/explored.py [--seed N] [--count N] [--runs N] [--program PATH] [--runner PATH]

The scripts are random small plans of tools/small_plans.py. There each event is tried after each other one, and nothing
is done as early as it can be; here a kill that was asked may stay untaken, as the rules let it. A script fails where

  - the program's ends aren't exactly the reports of those plays, or two of its ends are the same;
  - the last line doesn't say that all was searched, or the status isn't 0;
  - in the view `answers` or `ends` the program tells other ends than those that the view shows of the first ones;
  - a play that it tells has other roles than the script, does a caller's steps in another order, or ends otherwise by
    the second reading of the rules;
  - a run in threads, of a few, leaves what is no end;
  - with room for one state less than the view `ends` has, or of several ends with room for one state alone in the view
    `report`, the program says that all was searched, or ends with 0.

Without `--seed` there are two seeds, as in tools/recorded.py.
"""
import argparse
import concurrent.futures
import random
import subprocess
import sys

import explore
import program
import reading_of_rules as reading
import seeds
import small_plans

COUNT = 200  # scripts of each seed
MOST_STATES = 60_000  # of a script's plays; one that has more is left out
RUNS = 3  # in threads, of each script; --runs asks for others
MAX_SECONDS = 300
MAX_SHOWN = 5
AT_ONCE = 4
VIEWS = ["report", "answers", "ends"]


class Plays(small_plans.Plays):
    """All plays of the plans by the rules alone: an actor retires once it ran all, whatever was asked."""

    def is_end(self, state):
        everyone = frozenset(self.actors)
        return super().is_end((*state[:6], everyone))


def told(command, script):
    """What a command says to a script: its status, and its lines."""
    how = {"input": script, "capture_output": True, "timeout": MAX_SECONDS}
    done = subprocess.run(list(map(str, command)), **how)
    return done.returncode, done.stdout.decode().splitlines(keepends=True)


def explored(path, script, view, most=None):
    """The status, the ends, and the last line."""
    status, lines = told([path, view, *([most] if most is not None else [])], script)
    parts = [*explore.ends_in(lines)]
    ends = [part for part in parts if isinstance(part, explore.End)]
    return status, ends, "".join(part for part in parts if not isinstance(part, explore.End))


def shown(report, view):
    return "".join(line for line in report.splitlines(keepends=True) if explore.SHOWN[view].match(line))


# What is wrong with what the program tells.


def complaint_of_ends(path, script, view, wanted):
    """What is wrong with the ends of a view, by the reports of all plays."""
    status, ends, last = explored(path, script, view)
    texts = ["".join(end.shown(view)) for end in ends]
    closing = explore.CLOSING.fullmatch(last)
    if status != 0 or not closing or closing[1] != "whole" or closing[2] != str(len(ends)):
        return f"{view}: it ends with {status} and {last!r}"
    if len({*texts}) != len(texts):
        return f"{view}: an end is told twice"
    other = {*texts} ^ {shown(report, view) for report in wanted}
    if other:
        which = "isn't told" if min(other) not in texts else "is told, and no play ends so"
        return f"{view}: {len(texts)} ends; one {which}:\n{min(other)}"
    return None


def steps_of(plans, events):
    """The steps of each caller that the lines of a play show, without awaits and the releases at its end."""
    steps = {caller: [] for caller in plans.callers}
    for line in events:
        verb, *words = line.split()
        if verb in ("submit", "kill"):
            steps[int(words[0][1:])].append(line.strip())
    return steps


def complaint_of_play(plans, script, end):
    """What is wrong with the play of an end, by the second reading."""
    roles = [line for line in script.decode().splitlines(keepends=True) if line.startswith("actor ")]
    if end.play[: len(roles)] != roles:
        return "a play has other roles"
    wanted = {caller: [] for caller in plans.callers}
    for caller, steps in plans.steps.items():
        lines = (small_plans.line_of(caller, *step) for step in steps)
        wanted[caller] += [line for line in lines if not line.startswith("await")]
    told_steps = steps_of(plans, end.play[len(roles) :])
    for caller, steps in wanted.items():
        submits = any(line.startswith("submit") for line in steps)
        if submits and told_steps[caller] != steps:
            return f"c{caller} does other steps in a play: {told_steps[caller]}"
    script = reading.read_script("".join(end.play).encode())
    world = reading.World(script.roles)
    outcomes = [world.after(*event) for event in script.events]
    bad = [outcome for outcome in outcomes if outcome.split()[0] in ("refused", "gap")]
    if bad or [line + "\n" for line in world.summary()] != end.lines:
        return f"a play ends otherwise, or has an event that is refused: {bad}"
    return None


def complaint_of_cuts(path, script, count):
    """What is wrong with searches that aren't whole: with one state less, and of several ends with one state alone."""
    _, _, last = explored(path, script, "ends")
    states = int(explore.CLOSING.fullmatch(last)[3])
    for view, most in [("ends", states - 1), *([("report", 1)] if count > 1 else [])]:
        status, _, last = explored(path, script, view, most)
        if status != explore.CUT or not last.startswith("part: "):
            return f"with room for {most} states the view {view} ends with {status} and {last!r}"
    return None


def complaint(path, runner, runs, plans):
    """What is wrong with what is told of a script, or nothing. None of a script with too many plays."""
    script = plans.script()
    reports = Plays(plans).reports(MOST_STATES)
    if reports is None:
        return None
    wanted = {report.decode() for report in reports}
    for view in VIEWS:
        if wrong := complaint_of_ends(path, script, view, wanted):
            return wrong
    _, ends, _ = explored(path, script, "report")
    for end in ends:
        if wrong := complaint_of_play(plans, script, end):
            return wrong
    if wrong := complaint_of_cuts(path, script, len(ends)):
        return wrong
    for _ in range(runs):
        status, lines = told([runner, "threads"], script)
        if status != 0 or "".join(lines) not in wanted:
            return f"a run in threads is no end:\n{''.join(lines)}"
    return ""


def checked(path, runner, runs, seed, count):
    """How many scripts of a seed were compared, and what is wrong with some."""

    def one(place):
        plans = small_plans.Plans(random.Random(f"explored {seed}.{place}"))
        return plans.script(), complaint(path, runner, runs, plans)

    with concurrent.futures.ThreadPoolExecutor(AT_ONCE) as pool:
        answers = [*pool.map(one, range(count))]
    wrong = [(script, answer) for script, answer in answers if answer]
    return sum(answer is not None for _, answer in answers), wrong


def main():
    words = argparse.ArgumentParser(usage=__doc__)
    words.add_argument("--seed", type=int)
    words.add_argument("--count", type=int, default=COUNT)
    words.add_argument("--runs", type=int, default=RUNS)
    words.add_argument("--program")
    words.add_argument("--runner")
    words = words.parse_args()
    path = program.proved("explored", explore.EXPLORES.proved) if words.program == "proved" else words.program
    path = path or explore.kept()
    runner = words.runner or program.kept("explored")
    failed = False
    for seed in seeds.chosen(words.seed, "explored"):
        compared, wrong = checked(path, runner, words.runs, seed, words.count)
        print(f"explored: seed {seed}: {compared} scripts compared, {len(wrong)} wrong", flush=True)
        for script, answer in wrong[:MAX_SHOWN]:
            print(f"{script.decode()}{answer}")
        failed = failed or bool(wrong)
    return 1 if failed else 0


if __name__ == "__main__":
    try:
        sys.exit(main())
    except program.Stop as why:
        sys.exit(f"explored: {why}")
