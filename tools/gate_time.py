#!/usr/bin/env python3
"""Tells where the gate's minutes go: the processor time of each crate's proof, tests and edits.

    tools/gate_time.py [--every SECONDS] [--edits N] [COMMAND ..]

Runs the command (`rt ci`, where none is given) at the top of a checkout and looks at the prover's processes meanwhile,
about once a second. A process counts for the crate that it checks. It is an edit's, or that of several, where it works
on a changed copy of the crate, and `again` where that copy is the crate as it stands, which is proved once more for
its edits. It is the tests' where it checks these, and else the proof's. What a process did after the last look at it is
missed, so the row `else` has that, the compilers, the linker and the tests as they run. With --edits the N dearest
checks of edits are told, too.
The table comes on standard output when the command ends, or when this is interrupted, and the status is the command's.
Figures need a machine that does nothing else.
"""
import argparse
import collections
import os
import resource
import signal
import subprocess
import sys
import time
from pathlib import Path

from edits import GATE, MORE, PARTS, TOP, BadEdit, edits_in

KINDS = ("proof", "tests", "again", "edits")
# A crate from nothing is built; an edit of one, and its tests, are checked.
WORKS = ("build", "check")
OF_AN_EDIT = "/rt-edit-"
TICKS = os.sysconf("SC_CLK_TCK")
HEADINGS = "| Crate | Proof | Tests | Again, for edits | Edits | All, processor minutes |"


def is_as_it_stands(crate, room):
    """Whether a copy of the crate is the crate as it stands."""
    files = [file for part in PARTS for file in Path(crate, part).rglob("*") if file.is_file()]
    copies = [(Path(room, file.relative_to(crate)), file) for file in files]
    return all(copy.is_file() and copy.read_bytes() == file.read_bytes() for copy, file in copies)


def is_made_in(edit, room):
    """Whether each line that the edit changes is so in a copy of its crate."""
    try:
        changed = edit.applied({})
    except BadEdit:
        return False
    return all(has_lines_of(Path(room, file), (edit.folder / file).read_text(), text) for file, text in changed.items())


def has_lines_of(copy, old, new):
    """Whether the copy of a file is there, and has each of the new lines that isn't an old one: at its place, or below
    all, where copies of functions stand."""
    if not copy.is_file():
        return False
    lines, old_lines, new_lines = (text.split("\n") for text in (copy.read_text(), old, new))
    below = {*lines[len(old_lines) - 1 :]}
    rows = zip(lines, old_lines, new_lines)
    return all(row == new or new in below for row, old, new in rows if old != new)


def crate_and_kind(words, folder, edits):
    """Which crate a process of the prover checks, as what, and with which of the edits, or None."""
    if len(words) < 2 or not words[0].endswith("/rattle") or words[1] not in WORKS or "--crate-name" not in words:
        return None
    crate = words[words.index("--crate-name") + 1]
    if OF_AN_EDIT not in folder:
        return crate, "tests" if "--test" in words else "proof", ()
    if is_as_it_stands(TOP / "crates" / crate, folder):
        return crate, "again", ()
    made = tuple(edit.name for edit in edits if edit.crate == crate and is_made_in(edit, folder))
    return crate, "edits", made or (f"{crate}/?",)


def stat_of(process):
    """The session of a process, when it began (numbers of processes come again), and its processor time so far."""
    with open(f"/proc/{process}/stat") as stat:
        fields = stat.read().rpartition(")")[2].split()
    return int(fields[3]), fields[19], (int(fields[11]) + int(fields[12])) / TICKS


class Watch:
    """What the processes of the prover worked, of those that a command begins."""

    def __init__(self, session, edits):
        self.session, self.edits, self.kinds, self.seconds = session, edits, {}, {}

    def look(self):
        """Notes how long each process has worked by now."""
        for process in filter(str.isdigit, os.listdir("/proc")):
            try:
                self.note(process)
            except OSError:
                continue  # it has ended meanwhile

    def note(self, process):
        session, start, seconds = stat_of(process)
        if session != self.session:
            return
        one = process, start
        if one not in self.kinds:
            words = Path(f"/proc/{process}/cmdline").read_bytes().decode(errors="replace").split("\0")
            found = crate_and_kind(words, os.readlink(f"/proc/{process}/cwd"), self.edits)
            # A process is first its parent's copy, and becomes the prover then.
            if not found:
                return
            self.kinds[one] = found
        self.seconds[one] = seconds

    def spent(self):
        """The seconds of each crate and kind, and those of the edits that were checked together."""
        crates, checks = collections.Counter(), collections.Counter()
        for one, (crate, kind, made) in self.kinds.items():
            crates[crate, kind] += self.seconds[one]
            checks[made] += self.seconds[one]
        del checks[()]
        return crates, checks


def minutes(seconds):
    return f"{seconds / 60:.1f}" if seconds else "-"


def table(spent, whole, elapsed):
    """The lines of the table, the dearest crate first."""
    yield HEADINGS
    yield "| --- | ---: | ---: | ---: | ---: | ---: |"
    crates = sorted({crate for crate, _ in spent}, key=lambda crate: -sum(spent[crate, kind] for kind in KINDS))
    for crate in crates:
        figures = [spent[crate, kind] for kind in KINDS]
        yield f"| {crate} | " + " | ".join(map(minutes, [*figures, sum(figures)])) + " |"
    sums = [sum(spent[crate, kind] for crate in crates) for kind in KINDS]
    yield f"| else | - | - | - | - | {minutes(whole - sum(sums))} |"
    yield "| all | " + " | ".join(map(minutes, [*sums, whole])) + " |"
    yield f"\n{elapsed / 60:.1f} minutes in all, on {os.cpu_count()} processors."


def dearest(checks, count):
    """The lines that tell the dearest checks of edits, and what an edit takes in the mean."""
    edits = {edit for made in checks for edit in made}
    mean = sum(checks.values()) / max(1, len(edits))
    yield f"\n{len(edits)} edits were tried in {len(checks)} checks, each in {mean:.0f} s of a processor in the mean."
    for (edit, *others), seconds in checks.most_common(count):
        yield f"- {edit}{f' and {len(others)} others' if others else ''}: {seconds:.0f} s"


def interrupt(_signal, _frame):
    raise KeyboardInterrupt


def main():
    parser = argparse.ArgumentParser(description=__doc__, formatter_class=argparse.RawDescriptionHelpFormatter)
    parser.add_argument("--every", type=float, default=0.5, metavar="SECONDS")
    parser.add_argument("--edits", type=int, default=0, metavar="N")
    parser.add_argument("command", nargs=argparse.REMAINDER)
    arguments = parser.parse_args()
    # Read before the command begins: tools/gate.py has the edits elsewhere for a while.
    every = [*edits_in(GATE), *edits_in(MORE)]
    began = time.monotonic()
    signal.signal(signal.SIGTERM, interrupt)
    with subprocess.Popen(arguments.command or ["rt", "ci"], start_new_session=True) as ran:
        watch = Watch(ran.pid, every)
        try:
            while ran.poll() is None:
                watch.look()
                time.sleep(arguments.every)
        except KeyboardInterrupt:
            print("interrupted: the table has what was done until then", file=sys.stderr)
            os.killpg(ran.pid, signal.SIGTERM)
    crates, checks = watch.spent()
    used = resource.getrusage(resource.RUSAGE_CHILDREN)
    print("\n".join(table(crates, used.ru_utime + used.ru_stime, time.monotonic() - began)), flush=True)
    if arguments.edits:
        print("\n".join(dearest(checks, arguments.edits)), flush=True)
    return ran.returncode


if __name__ == "__main__":
    sys.exit(main())
