#!/usr/bin/env python3
"""Puts the crates of this library into a repository of one's own, as copies: those that the door `actors` stands on.

    tools/vendor.py FOLDER

FOLDER is the top of that repository, outside of this one: `rt ci` takes crates of its own folder crates/ alone, and
neither a link nor a repository within. Of each crate its src/, specs/ and proofs/ are copied, and its line is put into
FOLDER/crates.txt, between two lines that tell of it. The wrong bodies and the tests stay here, where the gate tries
them. HANDLES and .gitignore are written where they are missing, and the licence is put beside the door.

Called again, as after a `git pull` here, it writes these crates and lines anew and nothing else. A crate of one's own
that has the name of one of these is refused, and then nothing is written.
"""
import re
import shutil
import sys
from pathlib import Path

import program
from new_app import DOOR, ignore_out
from program import TOP, Stop

PARTS = ("src", "specs", "proofs")
LICENCE = ("LICENSE", "NOTICE")
BEGIN = "# ray_actors {version}: tools/vendor.py writes the lines from here .."
BEGUN, END = re.compile(r"# ray_actors \S+: tools/vendor\.py writes "), "# .. to here"


def version():
    """The version that crates.txt here names."""
    return re.search(r"\d+\.\d+\.\d+", (TOP / "crates.txt").read_text())[0]


def lines_of_library():
    """The lines of crates.txt of the door and of all crates below it, in their order."""
    names = set(program.crates_of(DOOR, program.listed()))
    lines = (line.partition("#")[0].strip() for line in (TOP / "crates.txt").read_text().splitlines())
    return {line.split()[0].rstrip(":"): line for line in lines if line and line.split()[0].rstrip(":") in names}


def parted(text):
    """The lines of a crates.txt that are its own, before and after those of this library, and which crates these name."""
    own, mine, within = [], [], False
    for line in text.splitlines():
        if BEGUN.match(line):
            within = True
        elif within and line == END:
            within = False
        elif within:
            mine += [word.rstrip(":") for word in line.split()[:1]]
        else:
            own.append(line)
    if within:
        raise Stop(f"crates.txt has no line '{END}' behind that of tools/vendor.py")
    return own, set(mine)


def fault_of(folder, lines, own, mine):
    """Why the crates can't be put there, or None."""
    if not folder.is_dir():
        return f"{folder} is no folder"
    if folder == TOP or TOP in folder.parents or folder in TOP.parents:
        return f"{folder} and this repository are one within the other: take a folder beside it"
    named = {line.split()[0].rstrip(":") for line in own if line.partition("#")[0].strip()}
    for name in lines:
        if name in named or (name not in mine and (folder / "crates" / name).exists()):
            return f"{name} is a crate of your own there, and of this library"
    return None


def copy_crate(name, folder):
    """Writes a crate anew: what is proved of it."""
    to = folder / "crates" / name
    for part in PARTS:
        shutil.rmtree(to / part, ignore_errors=True)
        if (TOP / "crates" / name / part).is_dir():
            shutil.copytree(TOP / "crates" / name / part, to / part)


def write_beside(folder):
    """Writes what else a repository of crates has, where it is missing, and the licence."""
    if not (folder / "HANDLES").exists():
        shutil.copy(TOP / "HANDLES", folder)
    ignore_out(folder)
    for name in LICENCE:
        shutil.copy(TOP / name, folder / "crates" / DOOR)


def vendor(folder):
    """Puts the crates there, and gives their names."""
    crates, lines = folder / "crates.txt", lines_of_library()
    own, mine = parted(crates.read_text() if crates.exists() else "")
    if fault := fault_of(folder, lines, own, mine):
        raise Stop(fault)
    for name in lines:
        copy_crate(name, folder)
    for name in mine - set(lines):
        shutil.rmtree(folder / "crates" / name, ignore_errors=True)
    write_beside(folder)
    block = [BEGIN.format(version=version()), *lines.values(), END]
    crates.write_text("\n".join([*block, *own]) + "\n")
    return list(lines)


def main(words):
    if len(words) != 1 or words[0].startswith("-"):
        sys.exit("usage: tools/vendor.py FOLDER (the top of a repository of your own)")
    folder = Path(words[0]).resolve()
    try:
        names = vendor(folder)
    except OSError as why:
        raise Stop(f"the crates can't be put there: {why}") from None
    print(f"vendor: {len(names)} crates of ray_actors {version()} stand in {folder / 'crates'}")
    handles, wanted = (folder / "HANDLES").read_text().strip(), (TOP / "HANDLES").read_text().strip()
    if handles != wanted:
        print(f"vendor: {folder / 'HANDLES'} says '{handles}', and these crates need '{wanted}'")
    print(f"vendor: next: python3 {TOP / 'tools/new_app.py'} NAME --in {folder}")
    return 0


if __name__ == "__main__":
    program.ended("vendor", lambda: main(sys.argv[1:]))
