#!/usr/bin/env python3
"""Runs the bank of crates/example_bank on random requests, judges its answers, and measures it.

    tools/bank_runs.py [--small] [--may-miss] [--program PATH] [--seed N]

The requests are of all sorts, and one of ten is at fault. What each is answered is worked out here by a bank that does
one request after another, written from docs/guide.md and not from the program. Beside it runs the same service over
channels of Rust's std (tools/peers/bank_std.rs), which is judged in the same way. Each run is a process of its own, and
its memory the most that it held, by the system's count.

It fails where an answer differs, or where ten times the requests take twice the memory of our bank. Where the peer
can't be built it ends with status 2, and with --may-miss that is no failure. With --small each runs once, with 20,000
requests, and only the answers count. Figures need a machine that does nothing else.
"""
import argparse
import pathlib
import random
import subprocess
import sys
import tempfile

import seeds
from measure import build_timed
from peers import SOURCES, Failed, load, run, show_table
from program import TOP, proved

OURS, PEER = "example_bank", "Rust, std"
PROVED = TOP / "crates/example_bank/out/example_bank"
SIZES, SMALL_SIZES = [100_000, 1_000_000, 10_000_000], [20_000]
MAX_SECONDS = 1_200  # of the clock and of the processor
TIMES_THE_MEMORY = 2
ACCOUNTS, BRANCH, BRANCHES = 1_000, 250, 4
MAX_AMOUNT = 1_000  # so that no branch is ever full
FAULTS = [
    ("close 7", "? no such request"), ("", "? no such request"), ("pay_in 7", "? no such request"),
    ("pay_in 1000 5", "? no such account"), ("funds ten", "? no such account"), ("total 5", "? no such branch"),
    ("pay_in 7 ten", "? no amount"), ("transfer 249 250 5", "? account of another branch"),
    ("pay_out 7 0", "! BadAmount"),
]  # fmt: skip


class Bank:
    """A bank that does one request after another."""

    def __init__(self, source):
        self.source, self.balances = source, [0] * ACCOUNTS

    def pay_out(self, account, amount):
        if self.balances[account] < amount:
            return False
        self.balances[account] -= amount
        return True

    def next(self):
        """A request, and its answer."""
        draw = self.source.randrange
        if draw(10) == 0:
            return FAULTS[draw(len(FAULTS))]
        account, amount = draw(ACCOUNTS), draw(MAX_AMOUNT) + 1
        sort = draw(100)
        if sort < 40:
            self.balances[account] += amount
            return f"pay_in {account} {amount}", f"= {self.balances[account]}"
        if sort < 60:
            done = self.pay_out(account, amount)
            return f"pay_out {account} {amount}", f"= {self.balances[account]}" if done else "! TooLittle"
        if sort < 80:
            to = account // BRANCH * BRANCH + draw(BRANCH)
            done = self.pay_out(account, amount)
            self.balances[to] += amount if done else 0
            return f"transfer {account} {to} {amount}", f"= {self.balances[account]}" if done else "! TooLittle"
        if sort < 99:
            return f"funds {account}", f"= {self.balances[account]}"
        branch = draw(BRANCHES)
        return f"total {branch + 1}", f"= {sum(self.balances[branch * BRANCH : (branch + 1) * BRANCH])}"


def write_requests(seed, count, requests, answers):
    """Writes so many requests, and their answers."""
    bank = Bank(random.Random(seed))
    with requests.open("w") as asked, answers.open("w") as told:
        for _ in range(count):
            request, answer = bank.next()
            asked.write(request + "\n")
            told.write(answer + "\n")


def first_difference(got, wanted):
    """The number of the first line in which two files differ, with both lines, or None."""
    with got.open() as ours, wanted.open() as theirs:
        for number, (one, other) in enumerate(zip(ours, theirs), 1):
            if one != other:
                return f"line {number}: {one.rstrip()!r} and not {other.rstrip()!r}"
        left = (*ours, *theirs)
    return f"{len(left)} lines too many or too few" if left else None


def build_peer(folder):
    run(["rustc", "-O", "--edition", "2021", "-o", folder / "bank_std", SOURCES / "bank_std.rs"])
    return folder / "bank_std"


def served(folder, timed, program, requests, answers):
    """Seconds and bytes of memory of one run, whose answers are judged."""
    told = folder / "told"
    done = subprocess.run([timed, str(MAX_SECONDS), requests, told, program], capture_output=True, text=True, check=True)
    status, nanoseconds, memory = map(int, done.stdout.split())
    if status:
        raise Failed(f"status {status}")
    if difference := first_difference(told, answers):
        raise Failed(difference)
    return nanoseconds / 1e9, memory


def taken_by(folder, programs, sizes, seed):
    """What each program took at each size, and what went wrong."""
    timed, taken, wrong = build_timed(folder), {}, []
    requests, answers = folder / "requests", folder / "answers"
    for count in sizes:
        write_requests(seed, count, requests, answers)
        for name, path in programs.items():
            try:
                taken[name, count] = served(folder, timed, path, requests, answers)
            except Failed as failed:
                wrong.append(f"{name}, {count:,} requests: {failed}")
    return taken, wrong


def show(taken, programs, sizes, load_before):
    print(f"The load average was {load_before} before the first run and {load()} after the last one.\n")
    rows = []
    for name in programs:
        there = [taken.get((name, count)) for count in sizes]
        rates = [f"{count / it[0] / 1_000:,.0f}" if it else "-" for count, it in zip(sizes, there)]
        rows.append([name, *rates, *(f"{it[1] / 1e6:,.1f}" if it else "-" for it in there)])
    show_table([f"{unit}, {count:,}" for unit in ("K/s", "MB") for count in sizes], rows, "Bank")


def grows(taken, sizes):
    """What is wrong with the memory that our bank takes."""
    memory = [taken[OURS, count][1] for count in sizes if (OURS, count) in taken]
    pairs = zip(memory, memory[1:])
    return [f"memory grows from {one:,} to {other:,} bytes" for one, other in pairs if other > TIMES_THE_MEMORY * one]


def chosen_options():
    options = argparse.ArgumentParser(description=__doc__.splitlines()[0])
    options.add_argument("--small", action="store_true", help="20,000 requests, whose answers alone count")
    options.add_argument("--may-miss", action="store_true", help="no failure where the peer can't be built")
    options.add_argument("--program", type=pathlib.Path, default=PROVED)
    options.add_argument("--seed", type=int, default=seeds.FIXED)
    return options.parse_args()


def main():
    chosen, load_before = chosen_options(), load()
    sizes = SMALL_SIZES if chosen.small else SIZES
    programs, missing = {OURS: proved("bank_runs", chosen.program)}, None
    with tempfile.TemporaryDirectory(prefix="bank-runs-") as folder:
        try:
            programs[PEER] = build_peer(pathlib.Path(folder))
        except (Failed, OSError) as failed:
            missing = failed
        taken, wrong = taken_by(pathlib.Path(folder), programs, sizes, chosen.seed)
    if not chosen.small:
        show(taken, programs, sizes, load_before)
        wrong += grows(taken, sizes)
    for complaint in wrong:
        print(f"bank_runs: {complaint}")
    if missing:
        print(f"bank_runs: not built: {PEER}: {missing}")
    print(f"bank_runs: {len(taken)} runs of {len(programs)} banks judged: {len(wrong)} failed")
    return 1 if wrong else 2 if missing and not chosen.may_miss else 0


if __name__ == "__main__":
    sys.exit(main())
