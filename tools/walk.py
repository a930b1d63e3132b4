#!/usr/bin/env python3
"""Counts what one call passes on its way through the program: functions, files and crates.

    tools/walk.py [--names] [MODE ..]

The program runs a script of one call, `add 5`, from the script's bytes to the report's, under the debugger gdb: as
a play, and in threads. A function counts once it is entered; closures, and what lets values go, aren't counted. It
builds an unproved program, none of whose functions are merged. With --names each file's functions are listed. Needs
gdb with Python, nm and strip.
"""
import argparse
import collections
import os
import pathlib
import shutil
import subprocess
import tempfile

import program
import unproved

TOOL = "walk"
SCRIPTS = {
    "play": "actor a1 counter c1\nsubmit c1 a1 add 5\nsend c1 0\ndeliver 0\nrun a1 c1\ncollect 0\n",
    "threads": "actor a1 counter c1\nsubmit c1 a1 add 5\n",
}
# Run by gdb: a breakpoint at each function of these crates, which notes its name and is put away.
IN_GDB = """
import gdb, os
entered = []
class Entry(gdb.Breakpoint):
    def __init__(self, address, name):
        super().__init__(f"*{address:#x}", internal=True)
        self.name = name
    def stop(self):
        entered.append(self.name)
        self.enabled = False
        return False
gdb.execute("set confirm off")
gdb.execute(f"starti {os.environ['WALK_MODE']} < {os.environ['WALK_SCRIPT']} > {os.devnull}")
mapped = gdb.execute("info proc mappings", to_string=True).splitlines()
path = os.environ["WALK_PROGRAM"]
base = next(int(line.split()[0], 16) for line in mapped if line.split()[-1:] == [path])
for line in open(os.environ["WALK_NAMES"]):
    offset, name = line.rstrip("\\n").split(" ", 1)
    Entry(base + int(offset, 16), name)
gdb.execute("continue")
open(os.environ["WALK_ENTERED"], "w").write("\\n".join(entered))
"""


def functions_in(binary, crates):
    """The address and the name of each function of these crates."""
    lines = subprocess.run(["nm", binary], capture_output=True, text=True, check=True).stdout.splitlines()
    for line in lines:
        address, kind, name = line.split(" ", 2)
        if kind in "tT" and name.partition("::")[0] in crates:
            yield address, name


def entered(binary, mode, crates):
    """The names of the functions that a run of this mode enters."""
    with tempfile.TemporaryDirectory() as folder:
        room = pathlib.Path(folder)
        bare = room / "program"
        subprocess.run(["strip", "-g", "-o", bare, binary], check=True)
        (room / "script").write_text(SCRIPTS[mode])
        (room / "names").write_text("".join(f"{address} {name}\n" for address, name in functions_in(bare, crates)))
        (room / "walk.py").write_text(IN_GDB)
        places = {"PROGRAM": bare, "SCRIPT": room / "script", "NAMES": room / "names", "ENTERED": room / "entered"}
        named = {f"WALK_{name}": str(path) for name, path in places.items()}
        # The debugger and the check for leaks can't both watch a program.
        environment = {**os.environ, **named, "WALK_MODE": mode, "LSAN_OPTIONS": "detect_leaks=0"}
        words = ["gdb", "-q", "-batch", "-x", room / "walk.py", bare]
        ran = subprocess.run(words, env=environment, capture_output=True, text=True)
        if ran.returncode or not (room / "entered").exists():
            raise program.Stop("gdb can't run the program:\n" + ran.stderr.strip())
        return (room / "entered").read_text().splitlines()


def is_own(name):
    """Whether a function is one that a source has, and no closure, nor what lets a value go or starts the program."""
    return "::" in name and not any(each in name for each in ("Destruct", "fn::", "+Fn", "main+"))


def place_of(name):
    """The file of a function, and its name there. Its name begins with its crate and its modules."""
    crate, *words = name.partition("::<")[0].split("::")
    folder = program.CRATES / crate / "src"
    file = folder / ("lib.rt" if (folder / "lib.rt").exists() else "main.rt")
    while words and (folder / f"{words[0]}.rt").is_file():
        file, folder = folder / f"{words[0]}.rt", folder / words[0]
        words = words[1:]
    return file.relative_to(program.CRATES), "::".join(words)


def walk(binary, mode, crates):
    """Of each file that a call passes, the functions."""
    files = collections.defaultdict(set)
    for name in filter(is_own, entered(binary, mode, crates)):
        file, function = place_of(name)
        files[file].add(function)
    return files


def main():
    parser = argparse.ArgumentParser(description=__doc__, formatter_class=argparse.RawDescriptionHelpFormatter)
    parser.add_argument("--names", action="store_true")
    parser.add_argument("modes", nargs="*", metavar="MODE", default=list(SCRIPTS))
    arguments = parser.parse_args()
    for needed in ("gdb", "nm", "strip"):
        if shutil.which(needed) is None:
            raise program.Stop(f"the command {needed} is not on the PATH")
    runs = program.RUNS.name
    crates = program.crates_of(runs, program.listed())
    with tempfile.TemporaryDirectory(prefix="walk-") as folder:
        binary = unproved.build_in(TOOL, unproved.kit(), runs, pathlib.Path(folder), passes=None)
        for mode in arguments.modes:
            tell(mode, walk(binary, mode, crates), arguments.names)
    return 0


def tell(mode, files, with_names):
    """Prints what a call of this mode passes, with the functions of each file if that is wanted."""
    if with_names:
        print("\n".join(f"{file}: {', '.join(sorted(files[file]))}" for file in sorted(files)))
    count = sum(map(len, files.values()))
    print(f"{mode}: {count} functions in {len(files)} files of {len({file.parts[0] for file in files})} crates")


if __name__ == "__main__":
    program.ended(TOOL, main)
