#!/usr/bin/env python3
"""Makes an app: a crate with a program that runs and is proved, and one with a test.

    tools/new_app.py NAME [--in FOLDER]

The app is crates/NAME, and its test crates/tests_of_NAME. Both get a line at the end of crates.txt, and a README.md.
They begin as example_first and as the test of a call in tests_of_door, which the gate proves: to be changed from there.

With --in they are made in a repository of one's own, whose crates.txt names the door of this library: as actors, where
tools/vendor.py put it there, or by a path, as ray_actors/crates/actors, where this repository is a folder of that one.
A repository without a folder crates/ has its crates at its top, as `rt` takes them.

A name that is taken, or that no crate can have, is refused, and then nothing is made. Last it tells what to call next.
"""
import argparse
import re
import shutil
import tempfile
from pathlib import Path

import program
from program import TOP, Stop
from trying import kit

DOOR = "actors"
PROGRAM, TESTED = "example_first", "tests_of_door"
TEST = "one_call"
# The line of crates.txt below which apps stand.
HEADING = program.APPS
MAX_NAME = 40
# Words of the language, which no crate can be named by.
KEYWORDS = set(
    "as async await box break const continue crate dyn else ensures enum extern false final fn for ghost if impl in let"
    " loop macro match mod move mut pub ref requires return self static struct super trait true try type unsafe use"
    " where while yield core std".split()
)
LIBRARY = """//! Tests of {name}, by public calls alone.
#![tactic(auto)]

#[cfg(test)]
mod {test};
"""
PAGE = """# {name}

A program of your own, as `tools/new_app.py` made it: a counter, a caller with a limit, and the five events of one call.

- **Carried by**: none yet: that `main` meets the premises of `World::open` and `World::apply` is what is proved of it.
- **Stands on**: actors; of the kit: anyhow.
- **Why it stands alone**: it is a program. What it must print is in `stdout`, and the gate compares.
- **Read next**: `src/main.rt`; then `{at}tests_of_{name}`.

As `{name}/src/main.rt` has it:

```rust {at}{name}/src/main.rt
for event in &events {{
    ensure!(world.has_room(1), "the world is full");
    let did = world.apply(event)?;
    println!(rt; "{{did}}")?;
}}
```
"""
PAGE_OF_TESTS = """# tests_of_{name}

Tests of {name}, by public calls alone: so far of one call that is played, and answered.

- **Carried by**: none: these are tests. What they expect comes from outside, never from the program's own output.
- **Stands on**: actors.
- **Why it stands alone**: a crate with tests is proved twice, so the tests have one of their own.
- **Read next**: `src/{test}.rt`.

As `tests_of_{name}/src/{test}.rt` has it:

```rust {at}tests_of_{name}/src/{test}.rt
let text = Shown(answer).to_string(alloc)?;
assert_eq!(rt; text.as_str(), "5");
```
"""
# What to type next, and what that does.
NEXT = {
    "(cd {app} && rt try)": "runs it unproved",
    "(cd {app} && rt check)": "proves it; the first time all crates below it, too",
    "(cd {app} && rt run)": "proves what changed, and runs it",
    "(cd {tests} && rt test)": "proves its test, and runs it",
    "rt must-fail {name}": "tries its wrong bodies",
}
# All of that at once. In this clone it would try the wrong bodies of all crates below, too, one at a time, for hours; and
# where this repository is a folder, `rt ci` takes none within another.
GATE = {"rt ci {name} tests_of_{name}": "does all of that, and compares what the program prints with its file stdout"}


def libraries_of_kit():
    """The names of the kit's libraries, where it is there: no crate may have one."""
    return set(kit().TAKEN) if shutil.which("rt") else set()


def fault_of_name(name, top):
    """Why an app of this repository can't have this name, or None."""
    if not re.fullmatch(r"[a-z][a-z0-9_]*", name):
        return f"{name!r} is no name of a crate: small letters, digits and _, a letter first"
    if len(name) > MAX_NAME:
        return f"{name} has more than {MAX_NAME} letters"
    if name in KEYWORDS:
        return f"{name} is a word of the language"
    if name.startswith("tests_of_"):
        return f"{name} would be the tests of another crate: each app gets its own"
    if name in libraries_of_kit():
        return f"{name} is a library of the kit"
    for crate in (name, f"tests_of_{name}"):
        if crate in program.listed(top):
            return f"{crate} is a crate of crates.txt already"
        if (path := folder_of_crates(top) / crate).exists():
            return f"{path.relative_to(top)} is there already"
    return None


# Where an app goes.


def door_of(top):
    """The name by which that repository's crates.txt has the door."""
    names = program.listed(top) if (top / "crates.txt").is_file() else ()
    door = next((name for name in names if name.rpartition("/")[2] == DOOR), None)
    if door is None:
        raise Stop(f"{top} has no crates.txt that names actors: docs/guide.md tells how it comes there")
    return door


def has_copies(top):
    """Whether a repository has the crates of this library as copies, which tools/vendor.py put there."""
    return top != TOP and door_of(top) == DOOR


def folder_of_crates(top):
    """The folder in which `rt` looks for a crate of this name."""
    return top / "crates" if (top / "crates").is_dir() else top


# The app.


def write_program(folder, name, at):
    """Writes the app: the first program's files, and a page of its own, by where the crates are in the repository."""
    first = TOP / "crates" / PROGRAM
    for part in ("src", "must-fail"):
        shutil.copytree(first / part, folder / part)
    shutil.copy(first / "stdout", folder)
    (folder / "README.md").write_text(PAGE.format(name=name, at=at))


def write_tests(folder, name, at):
    """Writes its test: a crate with the call that tests_of_door plays."""
    (folder / "src").mkdir(parents=True)
    shutil.copy(TOP / "crates" / TESTED / f"src/{TEST}.rt", folder / "src")
    (folder / "src/lib.rt").write_text(LIBRARY.format(name=name, test=TEST))
    (folder / "README.md").write_text(PAGE_OF_TESTS.format(name=name, test=TEST, at=at))


def with_lines(text, name, door):
    """crates.txt with the lines of an app at its end."""
    heading = "" if HEADING in text.split("\n") else f"\n{HEADING}\n"
    return f"{text.rstrip()}\n{heading}{name}: {door} anyhow\ntests_of_{name}: {door}\n"


def make(name, top):
    """Makes the app, or stops and has made nothing. Gives the folders of both crates."""
    door, crates = door_of(top), top / "crates.txt"
    if fault := fault_of_name(name, top):
        raise Stop(fault)
    made = {name: write_program, f"tests_of_{name}": write_tests}
    with tempfile.TemporaryDirectory(prefix="new_app-", dir=top) as room:
        for crate, write in made.items():
            Path(room, crate).mkdir()
            write(Path(room, crate), name, "" if folder_of_crates(top) == top else "crates/")
        for crate in made:
            Path(room, crate).rename(folder_of_crates(top) / crate)
    crates.write_text(with_lines(crates.read_text(), name, door))
    ignore_out(top)
    return [folder_of_crates(top) / crate for crate in made]


def ignore_out(top):
    """Has git pass over what `rt` makes."""
    ignored = top / ".gitignore"
    text = ignored.read_text() if ignored.exists() else ""
    if "out/" not in text.split():
        ignored.write_text(f"{text}out/\n")


def next_steps(name, top, folders):
    """What was made, and what to type next: lines to print."""
    app, tests = (folder.relative_to(top) for folder in folders)
    steps = {**NEXT, **(GATE if has_copies(top) else {})}
    calls = {call.format(name=name, app=app, tests=tests): what for call, what in steps.items()}
    yield f"made {app} and {tests}, and their lines of crates.txt"
    yield f"next, in {top}:"
    yield from (f"  {call:{max(map(len, calls))}}  {what}" for call, what in calls.items())


def main(words=None):
    parser = argparse.ArgumentParser(usage="tools/new_app.py NAME [--in FOLDER]", description=__doc__.split("\n")[0])
    parser.add_argument("name", metavar="NAME", help="the app's name, as a crate is named")
    parser.add_argument("--in", dest="folder", metavar="FOLDER", default=TOP, help="a repository of one's own")
    given = parser.parse_args(words)
    top = Path(given.folder).resolve()
    try:
        made = make(given.name, top)
    except OSError as why:
        raise Stop(f"{given.name} can't be made: {why}") from None
    print(*next_steps(given.name, top, made), sep="\n")
    return 0


if __name__ == "__main__":
    program.ended("new_app", main)
