#!/usr/bin/env python3
"""Measures runs in threads beside other actor systems, which do the same work on the same machine.

    tools/peers.py [--small] [--may-miss] [--crews CxA,..] [--calls N] [--turns N] [--rounds N] [--program PATH] [--code PATH]

Callers add 1 to counters, in four styles: each waits for each answer before its next call, or sends all its
calls and then takes their answers; and each calls one counter, or all in turns. Two proved programs are ours: the
callers of ray_bench have plans, and those of ray_bench_code have code, which submits its calls as it goes, looks at
each answer, and gives up at a fault. Both and the peers, whose sources stand in tools/peers, are measured side by
side with each number of callers and actors. All programs run by turns in each round, and a figure is the median of
all turns. Large crews make fewer calls a caller.

A peer's clock begins when its counters stand and ends when its callers have ended. Ours takes in the whole of
run_plans, or of run_callers: it opens the lines, starts a thread for each actor and each caller, retires the actors
and compares what all of them left. Plans are made before, and so are the arguments of the code's calls. Each program
looks at the counts after a turn, and fails where a call is missing.

Beside that it tells what the system counted of each program: processor time, the program's own and the system's, page
faults, and involuntary switches. Such a switch is one of a thread that could have gone on: the system took its
processor away, or it yielded. All are of the whole process, by its turns and calls. So its start counts too, and with
ours the making of plans, which no clock sees. With few calls they tell of little else.

The peers are built into a temporary folder, offline, with what Debian has (erlang-base, libcaf-dev,
librust-crossbeam-channel-dev). What can't be built is named, and the others are measured. Where none can be built, it
ends with status 2, as a failure of the machine's set-up; with --may-miss that is no failure. It fails where
one of ours or a peer that was built does, or prints no figure. With --small each runs once, with few calls, to see
that all works. Figures need a machine that does nothing else.
"""
import argparse
import collections
import concurrent.futures
import itertools
import os
import pathlib
import re
import shutil
import signal
import statistics
import subprocess
import sys
import tempfile
import threading
import time
from dataclasses import dataclass

from program import TOP, proved

PROGRAM = TOP / "crates/ray_bench/out/ray_bench"
CODE = TOP / "crates/ray_bench_code/out/ray_bench_code"
SOURCES = TOP / "tools/peers"
REGISTRY = "/usr/share/cargo/registry"  # Debian's crates

OURS = ["Plans", "Code"]
CREWS = [(1, 1), (2, 2), (4, 4), (16, 8)]  # callers and actors
STYLES = {
    "each awaited, one actor": ["wait", "own"],
    "each awaited, all actors": ["wait", "both"],
    "all sent, one actor": ["future", "own"],
    "all sent, all actors": ["future", "both"],
}
GOALS = {"all sent, all actors": 1.0}  # of ours beside the best peer
GOAL = 1.25  # in the other styles
CALLS = 60_000  # of each caller
CALLERS_WITH_ALL = 4  # a larger crew makes as many calls in all as this one
TURNS = 3
ROUNDS = 5
SMALL_CALLS = 2_000
MAX_SECONDS = 240
# What the system counts of a program, its heading, how it is told, and with how many places.
COUNTED = {
    "own": ("its own time, us", 1, 2),
    "system": ("the system's time, us", 1, 2),
    "faults": ("page faults", 1_000, 0),
    "switches": ("involuntary switches", 1_000, 0),
}
NO_SETUP = 2  # the status where the machine lacks what the peers are built with
FIGURE = re.compile(r"^(?:.*, )?(\d+) us\b", re.MULTILINE)


class Failed(Exception):
    """A program can't be built, or has no figures."""


@dataclass(frozen=True)
class Used:
    """What the system counted of a process, or of a call of it: microseconds, and numbers."""

    own: float
    system: float
    faults: float
    switches: float  # of a thread that could have gone on; a yield is one

    @classmethod
    def of(cls, counted):
        faults = counted.ru_minflt + counted.ru_majflt
        return cls(counted.ru_utime * 1e6, counted.ru_stime * 1e6, faults, counted.ru_nivcsw)

    def of_a_call(self, calls):
        return Used(self.own / calls, self.system / calls, self.faults / calls, self.switches / calls)


def waited_for(process):
    """The status of the process once it has ended, if that isn't too late, and what the system counted of it."""
    timer = threading.Timer(MAX_SECONDS, os.kill, [process.pid, signal.SIGKILL])
    begun = time.monotonic()
    timer.start()
    try:
        _, status, counted = os.wait4(process.pid, 0)
    except BaseException:
        process.kill()
        raise
    finally:
        timer.cancel()
    process.returncode = os.waitstatus_to_exitcode(status)
    is_late = process.returncode and time.monotonic() - begun >= MAX_SECONDS
    return None if is_late else process.returncode, Used.of(counted)


def run_counted(command, **options):
    """What the command writes to its standard output, and what the system counted of it."""
    with tempfile.TemporaryFile("w+") as told, tempfile.TemporaryFile("w+") as complained:
        streams = {"stdin": subprocess.DEVNULL, "stdout": told, "stderr": complained}
        try:
            process = subprocess.Popen(command, **streams, **options)
        except FileNotFoundError:
            raise Failed(f"{command[0]} is not there") from None
        status, used = waited_for(process)
        told.seek(0)
        complained.seek(0)
        written, errors = told.read(), complained.read().splitlines()
    if status is None:
        raise Failed(f"{command[0]} does not end in {MAX_SECONDS} seconds")
    if status:
        first = [line for line in errors if "error" in line] or errors
        raise Failed(f"{command[0]} ends with {status}{': ' + first[0].strip() if first else ''}")
    return written, used


def run(command, **options):
    """What the command writes to its standard output."""
    return run_counted(command, **options)[0]


# The peers. Each builder takes a folder of the peer's own, and gives the command that runs what it built there.


def build_std(folder):
    run(["rustc", "-O", "--edition", "2021", "-o", folder / "add_calls", SOURCES / "add_calls.rs"])
    return [folder / "add_calls"]


def build_crossbeam(folder):
    for name in ["Cargo.toml", "add_calls.rs"]:
        shutil.copy(SOURCES / name, folder)
    debian = ['source.crates-io.replace-with="debian"', f'source.debian.directory="{REGISTRY}"']
    configs = itertools.chain.from_iterable(("--config", config) for config in debian)
    target = ["--features", "crossbeam", "--target-dir", "built"]
    run(["cargo", "build", "--release", "--offline", *target, *configs], cwd=folder)
    return [folder / "built/release/add_calls"]


def build_erlang(folder):
    run(["erlc", "-o", folder, SOURCES / "add_calls.erl"])
    main = "add_calls:main(init:get_plain_arguments()), halt(0)."
    return ["erl", "-noshell", "-noinput", "-pa", folder, "-eval", main, "-extra"]


def build_caf(folder):
    run(["g++", "-O2", "-std=c++17", "-o", folder / "add_calls", SOURCES / "add_calls.cpp", "-lcaf_core", "-pthread"])
    return [folder / "add_calls"]


PEERS = {
    "Rust, std": build_std,
    "Rust, crossbeam": build_crossbeam,
    "Erlang": build_erlang,
    "CAF": build_caf,
}


def built_or_failed(name, top):
    folder = pathlib.Path(top, name.replace(", ", "-").lower())
    folder.mkdir()
    try:
        return PEERS[name](folder)
    except Failed as failed:
        return failed


def build_peers(top):
    """The commands of the peers that could be built, and why the others couldn't, by name."""
    with concurrent.futures.ThreadPoolExecutor() as pool:
        ended = dict(zip(PEERS, pool.map(lambda name: built_or_failed(name, top), PEERS)))
    missing = {name: end for name, end in ended.items() if isinstance(end, Failed)}
    return {name: end for name, end in ended.items() if name not in missing}, missing


# The runs.


@dataclass(frozen=True)
class Contender:
    """A program, with its numbers of callers and of actors."""

    name: str
    crew: tuple
    command: tuple

    def __str__(self):
        return "{} ({} x {})".format(self.name, *self.crew)

    def words(self, style, each, turns):
        """The command that takes these turns, each with so many calls of each caller."""
        return [*self.command, *map(str, self.crew), str(each), *STYLES[style], str(turns)]

    def take_turns(self, style, calls, turns):
        """How many thousand calls a second each turn had, and what the system counted of a call."""
        callers, _ = self.crew
        each = calls_of_each(callers, calls)
        told, used = run_counted(self.words(style, each, turns))
        rates = [callers * each * 1_000 / took for took in micros_in(told, turns)]
        return rates, used.of_a_call(callers * each * turns)


def micros_in(told, turns):
    """The microseconds that a program told of each of its turns."""
    micros = [max(int(figure), 1) for figure in FIGURE.findall(told)]
    if len(micros) != turns:
        raise Failed(f"{len(micros)} figures for {turns} turns")
    return micros


def calls_of_each(callers, calls):
    return calls if callers <= CALLERS_WITH_ALL else max(1, calls * CALLERS_WITH_ALL // callers)


def contenders_of(programs, peers, crews):
    """Ours, by plans and by code, and the peers, for each crew."""
    commands = {**{name: [program] for name, program in zip(OURS, programs)}, **peers}
    return [Contender(name, crew, tuple(command)) for crew in crews for name, command in commands.items()]


@dataclass
class Taken:
    """Of each contender in each style the rates of its turns, and what a call used in each of its processes."""

    rates: dict
    used: dict

    def rate(self, contender, style):
        """The median, where there is one."""
        rates = self.rates[contender, style]
        return statistics.median(rates) if rates else None

    def median(self, contender, style, what):
        """That of one of the things that the system counts."""
        counts = [getattr(used, what) for used in self.used[contender, style]]
        return statistics.median(counts) if counts else None


def measure(contenders, calls, turns, rounds):
    """What each contender took in each style, and what went wrong. What failed isn't run again in that style."""
    taken, wrong = Taken(collections.defaultdict(list), collections.defaultdict(list)), {}
    for _, style, contender in itertools.product(range(rounds), STYLES, contenders):
        if (contender, style) in wrong:
            continue
        try:
            rates, used = contender.take_turns(style, calls, turns)
        except Failed as failed:
            wrong[contender, style] = f"{contender}, {style}: {failed}"
            continue
        taken.rates[contender, style] += rates
        taken.used[contender, style].append(used)
    return taken, list(wrong.values())


# What is told.


def show_table(headings, rows, first="Style"):
    cells = [[first, *headings], ["---", *["---:"] * len(headings)], *rows]
    print("".join(f"| {' | '.join(row)} |\n" for row in cells))


def shown(rate):
    return f"{rate:,.0f}" if rate else "-"


def ratio(one, other):
    return f"{one / other:.2f}" if one and other else "-"


def show_crew(taken, plans, code, peers):
    """The figures of a crew: ours and the peers', and how ours compare."""
    rows = []
    for style in STYLES:
        by_plans, by_code, *rest = (taken.rate(each, style) for each in [plans, code, *peers])
        best = max(filter(None, rest), default=None)
        goal = f"{GOALS.get(style, GOAL):.2f}"
        rows.append([style, *map(shown, [by_plans, by_code, *rest]), ratio(by_code, by_plans), ratio(by_plans, best), goal])
    names = [each.name for each in [plans, code, *peers]]
    show_table([*names, "Code / plans", "Plans / best peer", "Goal"], rows)


def show_used(taken, contenders):
    """What the system counted of a crew: a row for each style and each thing that it counts."""
    rows = []
    for style, (what, (heading, scale, places)) in itertools.product(STYLES, COUNTED.items()):
        counts = (taken.median(each, style, what) for each in contenders)
        cells = ["-" if count is None else f"{count * scale:,.{places}f}" for count in counts]
        rows.append([f"{style}: {heading}", *cells])
    show_table([each.name for each in contenders], rows, "What the system counted")


def load():
    return pathlib.Path("/proc/loadavg").read_text().split()[0]


def show(taken, contenders, chosen, load_before):
    turns = f"{chosen.rounds * chosen.turns} turns of {chosen.calls:,} calls a caller"
    print(f"Thousands of calls a second, the median of {turns}, on {os.cpu_count()} cores. The load average was")
    print(f"{load_before} before the first turn and {load()} after the last one. Of more than {CALLERS_WITH_ALL} callers")
    print(f"each makes fewer calls: as many in all as of {CALLERS_WITH_ALL}.\n")
    print(f"What the system counted is of whole processes, the median of {chosen.rounds}: microseconds of a call, and")
    print("page faults and involuntary switches of 1,000 calls.\n")
    for crew in chosen.crews:
        print("{} x {}, callers x actors:\n".format(*crew))
        plans, code, *peers = (each for each in contenders if each.crew == crew)
        show_crew(taken, plans, code, peers)
        show_used(taken, [plans, code, *peers])


def crews_of(words):
    """The crews that these words name, as 2x2,16x8."""
    crews = [tuple(map(int, word.split("x"))) for word in words.split(",")]
    if any(len(crew) != 2 or not 1 <= crew[0] <= 16 or not 1 <= crew[1] <= 8 for crew in crews):
        raise ValueError(words)
    return crews


def chosen_options():
    options = argparse.ArgumentParser(description=__doc__.splitlines()[0])
    options.add_argument("--small", action="store_true", help="one turn of each, with few calls")
    options.add_argument("--may-miss", action="store_true", help="no failure where no peer can be built")
    options.add_argument("--crews", type=crews_of, default=CREWS, help="callers x actors, as 2x2,16x8")
    options.add_argument("--calls", type=int, default=CALLS, help="calls of each caller")
    options.add_argument("--turns", type=int, default=TURNS, help="turns of each program in a round")
    options.add_argument("--rounds", type=int, default=ROUNDS)
    options.add_argument("--program", type=pathlib.Path, default=PROGRAM, help="the one with plans")
    options.add_argument("--code", type=pathlib.Path, default=CODE, help="the one with code")
    chosen = options.parse_args()
    if chosen.small:
        chosen.calls, chosen.turns, chosen.rounds = SMALL_CALLS, 1, 1
    if min(chosen.calls, chosen.turns, chosen.rounds) < 1:
        options.error("calls, turns and rounds are 1 or more")
    chosen.programs = [proved("peers", path) for path in (chosen.program, chosen.code)]
    return chosen


def main():
    chosen = chosen_options()
    with tempfile.TemporaryDirectory(prefix="peers-") as folder:
        peers, missing = build_peers(folder)
        contenders = contenders_of(chosen.programs, peers, chosen.crews)
        load_before = load()
        taken, wrong = measure(contenders, chosen.calls, chosen.turns, chosen.rounds)
        show(taken, contenders, chosen, load_before)
    print("".join(f"Not built: {name}: {failed}\n" for name, failed in missing.items()), end="")
    print("".join(f"{each}\n" for each in wrong), end="")
    print(f"peers: {len(peers)} peers measured, {len(missing)} not built, {len(wrong)} failures")
    if not peers:
        print("peers: ours has nothing beside it, for want of the machine's set-up")
    sys.exit(1 if wrong else NO_SETUP if not peers and not chosen.may_miss else 0)


if __name__ == "__main__":
    main()
