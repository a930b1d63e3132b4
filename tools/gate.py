#!/usr/bin/env python3
"""Runs the gate: `rt ci`, and beside it each wrong body, several of a crate in one check.

    tools/gate.py [COMMAND..]

`rt ci` proves every crate from nothing, runs the tests and the programs, and judges all of these. The edits of
must-fail it would try one at a time, each crate's over a second proof of it, which takes longer than all else. So they
are out of its sight meanwhile, in crates/NAME/must-fail-aside, and this tool tries each of them once `rt ci` has
proved its crate. With them it tries a twentieth of the further edits that docs/edits.md lists as refused, which the
commit draws.

An edit counts as refused where a message tells of a goal that doesn't follow of its function (tools/trying.py). Each
that wasn't refused, or only by its shape, or wasn't tried, is a failure, and named at the end. tools/by_shape.txt
lists those that are known to be refused by their shape alone: one that isn't there fails, and so does one that needn't
be there. Checks of edits take the processor time that `rt ci` leaves, and all of it once that has ended. Where it
passed, COMMAND runs beside the last of them: what tries the programs, as they are proved by then.

What is shown is a page (tools/page.py): a line for each crate that is proved and for each crate's edits, and all that
`rt ci` says of one that failed. The full text is in .built/test.log.
"""
import collections
import os
import queue
import re
import signal
import subprocess
import sys
import threading
import time
from contextlib import contextmanager, suppress
from pathlib import Path

import program
from edits import GATE, MORE, TOP, edits_in
from functions_told import functions_of
from more_edits import check, listed_as_refused, output_of, share_of
from page import Page
from trying import BY_SHAPE, UNTRIED, Tried, kit, symbols_in, try_crate

ASIDE = "must-fail-aside"
KNOWN = TOP / "tools/by_shape.txt"
# What ./test --help asks for each core.
MEMORY_OF_A_CHECK = 4 << 30
PROVED = re.compile(r"rt: (\w+) (proved$|is kept: )")
# What `rt ci` says of a crate: a part with this head, and what it comes to.
HEAD = re.compile(r"== (\w+)")
VERDICT = re.compile(r"rt: (\w+)(: its tests are)? (proved$|is kept|NOT PROVED)")
# The lines that end a part of which nothing else is shown.
GOOD = re.compile(r"rt: (\w+( proved$| is kept: |: its tests (are proved|passed)$| ran\b)|note: |ok; )")
COUNTS = re.compile(r"(\d+) passed, (\d+) failed")


# The edits, out of sight.


def put_back():
    """Gives the crates their edits again: after this run, or after one that was killed."""
    for folder in TOP.glob(f"crates/*/{ASIDE}"):
        if folder.with_name(GATE).exists():
            where = folder.parent.relative_to(TOP)
            sys.exit(f"gate: {where} has {GATE} and {ASIDE}, which a killed run left: remove one")
        folder.rename(folder.with_name(GATE))


@contextmanager
def out_of_sight():
    """Has the folders of edits elsewhere for a while."""
    signal.signal(signal.SIGTERM, lambda *_: sys.exit(1))
    try:
        for folder in TOP.glob(f"crates/*/{GATE}"):
            folder.rename(folder.with_name(ASIDE))
        yield
    finally:
        put_back()


# What there is to work with.


def free_memory():
    """The bytes that are free, under the limit of the control group where it has one."""
    available = 1024 * int(re.search(r"MemAvailable:\s+(\d+)", Path("/proc/meminfo").read_text())[1])
    limit = Path("/sys/fs/cgroup/memory.max")
    told = limit.read_text().strip() if limit.exists() else "max"
    return min(available, int(told)) if told.isdigit() else available


def wait_for_memory():
    """Waits until a check has its memory, but ten minutes at most: the prover says where there is too little."""
    for _ in range(600):
        if free_memory() >= MEMORY_OF_A_CHECK:
            return
        time.sleep(1)


def jobs_of_the_gate(processors, free):
    """As many checks side by side as there are processors, where each has its memory. Else `rt` decides: it reckons
    with more memory for a check than one takes, and leaves processors idle."""
    return {"RT_JOBS": str(processors)} if free >= processors * MEMORY_OF_A_CHECK else {}


# The edits, tried.


def dearness(edit):
    """What a check of this edit takes, beside one of a function of a library: a program's code is read whole, and what
    changes more than functions has a check of its own."""
    return 4 if (edit.folder / "src/main.rt").exists() else 1 if edit.places() else 2


class Lanes:
    """Threads that try the edits of crates, of those that wait the dearest first."""

    def __init__(self, edits, page, known=frozenset()):
        self.edits, self.page, self.known = edits, page, known
        self.waiting, self.threads, self.tried = queue.PriorityQueue(), [], []
        self.of_crate = collections.defaultdict(list)
        for edit in edits:
            self.of_crate[edit.crate].append(edit)

    def add(self, crate, symbols):
        """Has the edits of a crate wait, which is proved."""
        mine = self.of_crate.get(crate)
        if mine:
            self.waiting.put((-sum(map(dearness, mine)), crate, mine, symbols))

    def begin(self, count):
        """Begins so many more threads."""
        for _ in range(count):
            self.threads.append(threading.Thread(target=self.work, daemon=True))
            self.threads[-1].start()

    def work(self):
        """Tries the edits of one crate after another, until there will be no more."""
        os.setpriority(os.PRIO_PROCESS, threading.get_native_id(), 19)
        while True:
            rank, crate, edits, symbols = self.waiting.get()
            if rank > 0:
                return
            self.try_those_of(crate, edits, symbols)

    def try_those_of(self, crate, edits, symbols):
        """Tries these edits of a crate, and tells how many fail, and why."""
        began, failed = time.monotonic(), 0
        with self.page.running(f"{len(edits)} edits of {crate}"):
            for each in try_crate(crate, edits, wait_for_memory, lambda trial: trial.knows(symbols)):
                self.tried.append(each)
                failed += self.is_told_as_failed(each)
        took = time.monotonic() - began
        self.page.tell(f"edits of {crate}: {len(edits)} tried, {failed} failed, in {took:.0f} s")

    def is_told_as_failed(self, tried):
        """Tells what came of an edit, and returns whether that is a failure, which is shown at once."""
        fault = fault_of(tried, self.known)
        tell = self.page.show if fault else self.page.keep
        tell(f"{tried.edit.name}: {tried.came}: {tried.told}")
        return fault is not None

    def end(self):
        """Waits until all is tried. Returns what came of each edit."""
        for _ in self.threads:
            self.waiting.put((1, "", [], ()))
        for thread in self.threads:
            thread.join()
        missed = {edit.name for edit in self.edits} - {each.edit.name for each in self.tried}
        lacking = [edit for edit in self.edits if edit.name in missed]
        return self.tried + [Tried(edit, UNTRIED, "its crate isn't proved, or a check failed") for edit in lacking]


# The gate.


def proved_crates(lines):
    """The crates that these lines call proved, each as it is told, with its functions as the prover names them: none
    where an earlier run proved it."""
    said = []
    for line in lines:
        if line.startswith("== "):
            said = []
        said.append(line)
        proved = PROVED.match(line)
        if proved:
            yield proved[1], symbols_in(said) if proved[2] == "proved" else []


def parts_of(lines):
    """What these lines say, in parts: all that is said of a crate, which ends by its verdict, or of its tests; and else
    what ends by a line of `rt` itself, as the run of a program does."""
    part, crate = [], None
    for line in lines:
        part.append(line)
        head, verdict = HEAD.match(line), VERDICT.match(line)
        crate = head[1] if head else crate
        if verdict and verdict[1] == crate if crate else line.startswith("rt: ") or COUNTS.match(line):
            yield part
            part, crate = [], None
    if part:
        yield part


def is_good(part):
    """Whether a part tells of no failure."""
    counts = COUNTS.match(part[-1])
    return counts[2] == "0" if counts else bool(GOOD.match(part[-1]))


class Crates:
    """Which crates are proved, of those that there are. One that has tests counts with them."""

    def __init__(self, tested):
        self.left = {crate: {None, ": its tests are"} if has_tests else {None} for crate, has_tests in tested.items()}
        self.count = len(self.left)

    def takes(self, verdict):
        """What is told by a crate's verdict, or None where its tests are still to be proved, or itself."""
        crate, of_tests, came = verdict.groups()
        left = self.left.get(crate, set())
        left.discard(of_tests)
        if crate not in self.left or left and came == "proved":
            return None
        del self.left[crate]
        return f"{self.told()}: {crate} {came}"

    def told(self):
        return f"crate {self.count - len(self.left)} of {self.count}"


def crates_with_tests():
    """Each crate of crates.txt, and whether it has tests."""
    return {crate: any("#[test]" in path.read_text() for path in sources_of(crate)) for crate in program.listed()}


def sources_of(crate):
    return program.CRATES.joinpath(crate, "src").rglob("*.rt")


def shown(lines, crates, page):
    """These lines, of which the page shows each failure in full, and of what passes the verdicts alone."""
    for part in parts_of(lines):
        yield from part
        if not is_good(part):
            page.show_kept(*part)
        if COUNTS.match(part[-1]):
            page.sum_up(f"rt ci: {part[-1]}")
        verdict = VERDICT.match(part[-1])
        told = verdict and crates.takes(verdict)
        if told:
            page.head = crates.told()
            page.tell(told)


def parents_now():
    """Each process, and the one that began it."""
    for stat in Path("/proc").glob("[0-9]*/stat"):
        with suppress(OSError, IndexError):  # it has ended meanwhile
            yield int(stat.parent.name), int(stat.read_text().rpartition(")")[2].split()[1])


def crates_below(process):
    """What the prover's processes below this one work on: names of crates, and of those whose tests they check."""
    parents, found, more = dict(parents_now()), set(), {process}
    while more:
        found |= more
        more = {one for one, parent in parents.items() if parent in more} - found
    return [told for told in map(crate_of, sorted(found)) if told]


def crate_of(process):
    """The crate that a process of the prover works on, or its tests, or None."""
    with suppress(OSError):
        words = Path(f"/proc/{process}/cmdline").read_bytes().decode(errors="replace").split("\0")
        if words[0].endswith("/rattle") and "--crate-name" in words:
            return ("tests of " if "--test" in words else "") + words[words.index("--crate-name") + 1]
    return None


def show_all(stream, page):
    for line in stream:
        page.show(line.rstrip("\n"))


@contextmanager
def notes_shown(stream, page):
    """Shows meanwhile each line of what comes on the standard error."""
    notes = threading.Thread(target=show_all, args=(stream, page), daemon=True)
    notes.start()
    yield
    notes.join()


def run(lanes, page):
    """Runs `rt ci`, and has the edits of each crate wait that it proves. Returns its status."""
    processors = len(os.sched_getaffinity(0))
    environment = {**jobs_of_the_gate(processors, free_memory()), **os.environ}
    how = {"cwd": TOP, "env": environment, "stdout": subprocess.PIPE, "stderr": subprocess.PIPE, "text": True}
    lanes.begin(processors)
    with out_of_sight(), subprocess.Popen(["rt", "ci"], errors="replace", **how) as ran:
        with notes_shown(ran.stderr, page), page.running(lambda: crates_below(ran.pid)):
            lines = shown(page.kept_lines(ran.stdout), Crates(crates_with_tests()), page)
            for crate, symbols in proved_crates(lines):
                lanes.add(crate, functions_of(crate, symbols, kit_id()))
    return ran.returncode


def kit_id():
    """What names the kit."""
    return Path(kit().rtlib.KIT, "KIT-ID").read_text()


def known_by_shape():
    """The edits that are known to be refused by their shape alone, or the folder of such. The list may only become
    shorter."""
    return {line for line in KNOWN.read_text().splitlines() if line and not line.startswith("#")}


def fault_of(tried, known):
    """What is wrong with what came of an edit, or None."""
    if tried.is_refused and tried.edit.name in known:
        return f"{tried.edit.name}: is refused for what it does, so {KNOWN.name} is not to have it"
    if tried.is_refused or tried.came == BY_SHAPE and known & {tried.edit.name, tried.edit.path.parent.name}:
        return None
    return f"{tried.edit.name}: {tried.came}: {tried.told}"


def gate(page, then=None):
    """Whether the gate passes, then what is to run after it, and each edit of must-fail and of the share is refused."""
    commit = output_of("git", "rev-parse", "HEAD") or "none"
    listed = listed_as_refused()
    further = [edit for edit in edits_in(MORE) if edit.name in listed]
    share = share_of(further, commit)
    page.tell(f"tries {len(share)} of the {len(further)} edits that docs/edits.md has, by the commit {commit[:12]}")
    for edit in share:
        page.keep(f"    {edit.name}")
    known = known_by_shape()
    lanes = Lanes([*edits_in(GATE), *share], page, known)
    kit()
    is_well = run(lanes, page) == 0 and (then is None or then())
    return is_told_as_passed(lanes.end(), known, is_well, page)


def is_told_as_passed(tried, known, is_well, page):
    """Tells what came of all edits, and whether all else is well. Returns whether both are."""
    failed = [fault for each in tried if (fault := fault_of(each, known))]
    page.show(*(f"gate: {fault}" for fault in failed))
    by_shape = sum(each.came == BY_SHAPE for each in tried)
    if by_shape:
        page.show(f"gate: {by_shape} of these edits are refused by their shape alone, and count for nothing")
    if not is_well:
        page.show("gate: rt ci failed, or what runs after it")
    page.show(f"gate: {len(tried)} edits tried: {len(failed)} failed")
    page.sums.append(f"{len(tried)} edits tried, {len(failed)} failed")
    return is_well and not failed


def main(command):
    with Page() as page:
        return check() and gate(page, lambda: page.run(command) if command else True)


if __name__ == "__main__":
    put_back()
    sys.exit(0 if main(sys.argv[1:]) else 1)
