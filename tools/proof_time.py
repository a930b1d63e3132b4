#!/usr/bin/env python3
"""Tells which functions of a crate are dear to prove, and what of them is.

    tools/proof_time.py [--tests] [--only PATH] [--most N] [--folder CHECKOUT] CRATE

Proves the crate from nothing, on one processor, over the libraries that the last `rt ci` of the checkout left, and
keeps nothing. The prover writes a file for each module that it has checked, and a module's time is from the file before
it to its own. So a module that is the first to need a library pays for the reading of that, and other work on the
machine counts, too. A function has several modules: its code with each drop and each step written out, its borrows,
its goals with what `search` finds, and the answers and invariants that stand in its folder. Files of lemmas have their
own rows. With --tests the crate is proved with its tests, and with --only one function of it, or one module.
"""
import argparse
import collections
import os
import pathlib
import re
import subprocess
import tempfile

from program import TOP, Stop, crates_of, ended, listed
from unproved import kit

MODULE = re.compile(r"Rattle-\w+-(?:proofs|specs\.contracts)\.(.*?)(?:\.decls)?\.oantt")
# What the modules of a function are for, by their last names; those of its code have modules below them.
COLUMNS = {"Code": ("Lts", "Code", "Mir", "Layout", "Reads", "Named", "Kinds"), "Borrows": ("Tie",),
           "Goals": ("Proof", "Goals"), "Answers": ("Answers", "Invariants")}
BELOW = ("Lts", "Code")


def command(checkout, crate, with_tests, only):
    """The prover's command for the crate, and the rlibs that it names."""
    tools, crates = kit(), listed()
    made = {name: checkout / f"crates/{name}/out/rlib/{name}.rlib" for name in crates_of(crate, crates)[:-1]}
    rlibs = {name: made.get(name, tools / f"rlibs/{name}.rlib") for name in ["std", *crates[crate]]}
    root = next(file for file in ("src/main.rt", "src/lib.rt") if (checkout / "crates" / crate / file).exists())
    words = [tools / "bin/rattle", "check", "--crate-name", crate, root, *["--test"] * with_tests]
    words += [word for name, rlib in rlibs.items() for word in ("--extern", f"{name}={rlib}")]
    words += [word for at in [tools / "rlibs", *(rlib.parent for rlib in made.values())] for word in ("-L", f"dependency={at}")]
    words += ["--antt-project", tools / "rattle/logic/antt-project.json", "--logic-built", tools / "logic_built"]
    words += ["--only", only] if only else ["--empty-contracts"]
    return [*words, "--jobs", "1"], [*made.values()]


def place_of(file):
    """The function or file of lemmas that a module belongs to, and its column."""
    found = MODULE.match(file)
    if not found:
        return "what is of no function", "Code"
    names = found[1].split(".")
    at = len(names) - 1
    while at > 1 and names[at - 1] in BELOW:
        at -= 1
    kind = names[at].partition("-")[0]
    column = next((column for column, kinds in COLUMNS.items() if kind in kinds), None)
    is_lemmas = column is None and at == 0
    return ("lemmas " + names[0], "Code") if is_lemmas else ("::".join(names[:at]), column or "Code")


def times_in(folder):
    """The seconds of each function and column, by when the files of its modules were written."""
    files = sorted((path.lstat().st_mtime_ns, path.name) for path in folder.rglob("*.oantt"))
    told = collections.defaultdict(collections.Counter)
    for (before, _), (written, name) in zip(files, files[1:]):
        function, column = place_of(name)
        told[function][column] += (written - before) / 1e9
    return told


def proved_in(checkout, crate, words):
    """The same of the crate, which is proved for that."""
    with tempfile.TemporaryDirectory(prefix="proof-time-") as kept:
        here = checkout / "crates" / crate
        ran = subprocess.run([*words, "--incremental", kept], cwd=here, stdout=subprocess.PIPE, stderr=subprocess.STDOUT, text=True)
        if ran.returncode:
            raise Stop(f"{crate} isn't proved: {ran.stdout.strip().splitlines()[-1]}", 1)
        return times_in(pathlib.Path(kept))


def main():
    parser = argparse.ArgumentParser(description=__doc__, formatter_class=argparse.RawDescriptionHelpFormatter)
    parser.add_argument("crate")
    parser.add_argument("--tests", action="store_true")
    parser.add_argument("--only", metavar="PATH")
    parser.add_argument("--most", type=int, default=20, metavar="N")
    parser.add_argument("--folder", type=pathlib.Path, default=TOP, metavar="CHECKOUT")
    arguments = parser.parse_args()
    checkout = arguments.folder.resolve()
    if arguments.crate not in listed():
        raise Stop(f"{arguments.crate} is no crate of crates.txt")
    words, rlibs = command(checkout, arguments.crate, arguments.tests, arguments.only)
    if missing := [rlib for rlib in rlibs if not rlib.exists()]:
        raise Stop(f"{missing[0]} is not there: run rt ci {arguments.crate} first")
    told = proved_in(checkout, arguments.crate, words)
    spent = os.times()
    print(f"{arguments.crate}: {spent.children_user + spent.children_system:.0f} seconds of a processor\n")
    print(f"| Function | Seconds | {' | '.join(COLUMNS)} |\n| --- |{' ---: |' * (1 + len(COLUMNS))}")
    for name, times in sorted(told.items(), key=lambda it: -it[1].total())[: arguments.most]:
        print(f"| {name} | {times.total():.1f} | " + " | ".join(f"{times[column]:.1f}" for column in COLUMNS) + " |")


if __name__ == "__main__":
    ended("proof_time", main)
