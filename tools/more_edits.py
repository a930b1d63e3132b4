#!/usr/bin/env python3
"""Tries wrong bodies: the prover must refuse each crate with each of its must-fail edits.

A crate's folder must-fail has what the gate, tools/gate.py, tries each time: an edit for each public function, and the
wrong bodies that the promises rule out. Its folder more-must-fail has further ones, of which the gate tries a share.

    tools/more_edits.py --check          says, in a second, whether each edit of both folders can be applied,
                                         and tells of which crates docs/edits.md is older than the sources
    tools/more_edits.py [--jobs N] --all | CRATE..
                                         tries all further edits, or those of these crates, over what the
                                         last checks kept, and writes what came of it into docs/edits.md
    tools/more_edits.py [--jobs N] --own CRATE..
                                         tries the edits of must-fail of these crates in the same way, and
                                         writes nothing

Here and in the gate, one that can't be applied, compiled or read isn't refused. Nor is one that is refused only by its
shape, as what is written of the proof no longer fits it: tools/refusals.py tells these apart.
"""
import argparse
import hashlib
import math
import re
import subprocess
import sys
import textwrap
import time
from concurrent.futures import ThreadPoolExecutor

from edits import GATE, MORE, PARTS, TOP, edits_in, fault_of, strangers
from trying import BY_SHAPE, UNTRIED, Tried, kit, try_crate

PAGE = TOP / "docs/edits.md"
SHARE = 20
# What the page says of an edit that is refused only since what is written of the proof no longer fits it.
OF_SHAPE = "**by its shape**"
HEAD = """# Further wrong bodies

`tools/more_edits.py` makes this page. It lists the edits of `more-must-fail/`, for which the gate has no time, each
with the function that it changes. Each run of `./test` tries a twentieth of those refused here, which changes with
the commit. The edits of `must-fail/` aren't listed: the gate tries them all.

An edit counts only where it is refused for what it does: a goal doesn't follow of its body. One is marked that is
refused by its shape alone, since what is written of the proof no longer fits it. The sum of a crate's sources tells
whether its section is of those that stand there now: `tools/more_edits.py --check` compares.

The two were told apart on 2026-11-28. Twelve of some 490 edits of `must-fail/` were refused by their shape then, and
fifteen of the 338 further ones. Each of these has another body since, or an equivalent beside it.
"""
COUNTS = re.compile(r"Refused: (\d+) of (\d+)\.")
SOURCES = re.compile(r",\s+sources (\w+)\.")


def output_of(*command):
    return subprocess.run(command, cwd=TOP, stdout=subprocess.PIPE, text=True).stdout.strip()


# What can be applied.


def check():
    """Whether each edit can be applied, and nothing else lies beside them."""
    edits = [*edits_in(GATE), *edits_in(MORE)]
    faults = [f"{edit.name}: {fault}" for edit in edits if (fault := fault_of(edit))]
    faults += [f"{path.relative_to(TOP)}: no name of an edit" for path in strangers()]
    for fault in faults:
        print(fault)
    if stale():
        print(f"more_edits: docs/edits.md is older than the sources of {', '.join(stale())}")
    print(f"more_edits: {len(edits)} edits looked at: {len(faults)} failed")
    return not faults and bool(edits)


def digest_of(crate):
    """A sum of what is proved of a crate, and of its further edits."""
    sum = hashlib.sha256()
    for path in sorted(path for part in (*PARTS, MORE) for path in TOP.glob(f"crates/{crate}/{part.rstrip('/')}/**/*")):
        if path.is_file():
            sum.update(f"{path.relative_to(TOP)}\n".encode() + path.read_bytes())
    return sum.hexdigest()[:16]


def stale():
    """The crates of which the page is older than their sources, or says nothing."""
    told = {text.split()[0]: SOURCES.findall(text) for text in sections()}
    have = sorted({edit.crate for edit in edits_in(MORE)})
    return [crate for crate in have if told.get(crate) != [digest_of(crate)]]


def sections():
    """What the page says of each crate."""
    return re.split(r"^## ", PAGE.read_text(), flags=re.M)[1:] if PAGE.exists() else []


# The share of the gate.


def listed_as_refused():
    """The edits that the page has as refused. One that was never tried has to be tried by hand first."""
    rows = ((text.split()[0], row) for text in sections() for row in re.findall(r"^- (.*)", text, re.M))
    return {f"{crate}/{row.partition(':')[0]}.edit" for crate, row in rows if not row.endswith("**")}


def share_of(edits, commit):
    """A twentieth of the edits, which the commit draws: the least by a sum of both."""
    rank = lambda edit: hashlib.sha256(f"{commit} {edit.name}".encode()).hexdigest()
    return sorted(sorted(edits, key=rank)[: math.ceil(len(edits) / SHARE)], key=lambda edit: edit.name)


# All further edits, and the page.


def try_those_of(crate, kind):
    edits, found = edits_in(kind, [crate]), []
    for each in try_crate(crate, edits):
        print(f"{each.edit.name}: {each.came}: {each.told}", flush=True)
        found.append(each)
    missed = {edit.name for edit in edits} - {each.edit.name for each in found}
    return found + [Tried(edit, UNTRIED, f"{crate} isn't proved") for edit in edits if edit.name in missed]


def section(crate, tried, stamp):
    """What the page says of a crate."""
    refused = sum(each.is_refused for each in tried)
    lines = [f"## {crate}", "", f"{stamp}. Refused: {refused} of {len(tried)}.", ""]
    return "\n".join([*lines, *sorted(map(row, tried)), ""])


def row(tried):
    places = sorted({f"`{place.name}` in {place.file}" for place in tried.edit.places() or ()})
    told = " and ".join(places) or "definitions"
    came = "" if tried.is_refused else f", {OF_SHAPE}" if tried.came == BY_SHAPE else ", **not refused**"
    return f"- {tried.edit.path.stem}: {told}{came}"


def write_section(crate, tried):
    """Writes the section of this crate anew, and keeps those of the others that have further edits."""
    commit, version = output_of("git", "rev-parse", "--short=12", "HEAD"), output_of("rt", "version")
    stamp = f"{time.strftime('%Y-%m-%d', time.gmtime())}, commit {commit}, {version}, sources {digest_of(crate)}"
    old = {text.split()[0]: f"## {text.rstrip()}\n" for text in sections()}
    every = {**old, crate: section(crate, tried, stamp)}
    have = sorted({edit.crate for edit in edits_in(MORE)})
    kept = [every[crate] for crate in have if crate in every]
    PAGE.write_text("\n".join([HEAD, summary(kept, [crate for crate in have if crate not in every]), *kept]))


def summary(told, missing):
    """How many edits were refused in all, by these sections, and of which crates none was tried."""
    refused, tried = (sum(map(int, counts)) for counts in zip(*(COUNTS.search(text).groups() for text in told)))
    shapes = sum(text.count(OF_SHAPE) for text in told)
    untried = f" Not tried yet: those of {', '.join(missing)}." if missing else ""
    by_shape = f"{shapes or 'none'} by {'their' if shapes > 1 else 'its'} shape alone"
    text = f"In all {refused} of {tried} were refused for what they do, and {by_shape}.{untried}"
    return textwrap.fill(text, 118) + "\n"


def try_all_of(crates, kind, jobs):
    """Whether each edit of this kind of these crates is refused. What came of further ones is written."""
    every = []
    kit()
    with ThreadPoolExecutor(jobs) as pool:
        for crate, tried in zip(crates, pool.map(lambda crate: try_those_of(crate, kind), crates)):
            if kind == MORE:
                write_section(crate, tried)
            every += tried
    failed = [each for each in every if not each.is_refused]
    for each in failed:
        print(f"more_edits: {each.edit.name}: {each.came}: {each.told}")
    print(f"more_edits: {len(every)} edits tried: {len(failed)} failed")
    return not failed and bool(every)


def main():
    parser = argparse.ArgumentParser(description=__doc__, formatter_class=argparse.RawDescriptionHelpFormatter)
    parser.add_argument("--check", action="store_true")
    parser.add_argument("--all", action="store_true")
    parser.add_argument("--own", action="store_true")
    parser.add_argument("--jobs", type=int, default=1)
    parser.add_argument("crates", nargs="*", metavar="CRATE")
    given = parser.parse_args()
    kind = GATE if given.own else MORE
    have = sorted({edit.crate for edit in edits_in(kind)})
    is_one = given.check + given.all + bool(given.crates) == 1
    if not is_one or {*given.crates} - {*have} or given.own and not given.crates:
        parser.error(f"one of --check, --all and [--own] CRATE.., each of: {' '.join(have)}")
    if not check():
        return False
    return given.check or try_all_of(given.crates or have, kind, given.jobs)


if __name__ == "__main__":
    sys.exit(0 if main() else 1)
