#!/usr/bin/env python3
"""Says in plain words what is wrong with a script: its fault, or in a play the events that are refused.

    ./explain play|threads [FILE]

Without FILE, or where it is `-`, the script is read from the standard input. Of a faulty script the first fault is
told as the program tells it, with the line as it stands, a mark under what is wrong, the reason, and the line as it
would be right where that is plain. Bytes that can't be printed are shown as \\t, \\r or \\x and two digits. Of a play
without a fault each refused event is listed, with its number, its line and what the refusal means there. A call that
its actor's kind always answers by a fault, as one of a method that the kind hasn't, is no fault of the script, and is
noted.

Nothing is built or run: the fault and the refusals are those of the second reading of the rules
(tools/reading_of_rules.py), and tools/explained.py compares them with the program's.
Statuses: 0 where nothing is wrong, events are refused, or calls are noted; 1 for a script fault; 2 for wrong words, and for a file
that can't be read; 4 where writing failed.
"""
import dataclasses
import sys

import explain_lines
import explain_notes
import explain_refusals
import program
import reading_of_rules as reading
from explain_lines import Finding, Line, finding_in, righted
from explain_refusals import counted

UNSENT = "But no call is ever sent, so this looks like a script for threads: ./run threads"
USAGE = "usage: ./explain play|threads [FILE]    (without FILE, or where it is `-`, the standard input)\n"
MAX_SHOWN = 100  # of a line this many bytes are shown
MAX_BEFORE = 60  # and of them so many before a mark
MAX_QUOTED = 60
SHOWN_AS = {ord("\t"): "\\t", ord("\r"): "\\r"}


# Lines, as they are shown.


def shown(byte):
    return chr(byte) if 0x20 <= byte <= 0x7E else SHOWN_AS.get(byte, f"\\x{byte:02x}")


def marked(line, begin, end):
    """A line as it stands, or the part of it that is marked, and the mark under it."""
    first = max(0, begin - MAX_BEFORE) if len(line) > MAX_SHOWN else 0
    last = min(len(line), first + MAX_SHOWN)
    head, tail = ".. " if first else "", " .." if last < len(line) else ""
    columns = [shown(byte) for byte in line[first:last]]
    before = len(head) + len("".join(columns[: begin - first])) + max(0, begin - last)
    width = max(1, len("".join(columns[begin - first : end - first])))
    yield "  " + head + "".join(columns) + tail
    yield "  " + " " * before + "^" + "~" * (width - 1)


def quoted(line):
    text = "".join(map(shown, line))
    return text if len(text) <= MAX_QUOTED else text[:MAX_QUOTED] + " .."


# The faults.


def found_at(line, place, why, right=None):
    """A finding at one word of a line."""
    begin = sum(len(word) + 1 for word in line.split(b" ")[:place])
    return Finding(begin, begin + len(line.split(b" ")[place]), why, right)


def of_bad_line(lines, number, mode, data):
    line = Line(lines[number - 1].decode("latin-1"), mode, data)
    return dataclasses.replace(finding_in(line), better=righted(line))


def of_late_actor(lines, number, mode, data):
    others = ((at, line) for at, line in enumerate(lines, 1) if line and not line.startswith((b"#", b"actor ")))
    first, event = next(others)
    why = f"all actor lines stand before the first other line, which is line {first}: {quoted(event)}"
    return found_at(lines[number - 1], 0, f"{why}. Move this one above it")


def of_twice_actor(lines, number, mode, data):
    line = lines[number - 1]
    actor = line.split(b" ")[1]
    first, earlier = next((at, each) for at, each in enumerate(lines, 1) if each.startswith(b"actor %s " % actor))
    why = f"line {first} is of {actor.decode()} already: {quoted(earlier)}. An actor has one line, which names all its callers"
    return found_at(line, 1, why)


def of_twice_caller(lines, number, mode, data):
    line = lines[number - 1]
    words = line.decode().split(" ")
    second = next(place for place, word in enumerate(words) if word in words[3:place])
    right = " ".join([*words[:3], *dict.fromkeys(words[3:])])
    return found_at(line, second, f"{words[second]} stands twice in this line, and once is enough", right)


def of_bad_plan(lines, number, mode, data):
    refusal = explain_refusals.refusal_of_step(reading.read_script(data, reading.THREAD_FORMS), number)
    why = f"this step would be refused ({refusal.name}), so nothing is run: {refusal.why}"
    return found_at(lines[number - 1], refusal.word, why)


OF_FAULTS = {
    "BadLine": of_bad_line,
    "LateActor": of_late_actor,
    "TwiceActor": of_twice_actor,
    "TwiceCaller": of_twice_caller,
    "BadPlan": of_bad_plan,
}


@dataclasses.dataclass
class Told:
    """What is told of a script, line by line; and of a faulty one its fault, and what is wrong with the line."""

    lines: list
    fault: reading.ScriptFault = None
    finding: Finding = None
    notes: list = dataclasses.field(default_factory=list)

    def text(self):
        return "".join(f"{line}\n" for line in self.lines)

    def status(self):
        return 1 if self.fault else 0


def told_fault(fault, mode, data):
    if fault.name == "TooLong":
        why = f"the script has more than {reading.LONGEST_SCRIPT} bytes, the most, so none of its lines was read"
        return Told([f"line {fault.line}: {fault.name}", why], fault)
    lines = data.split(b"\n")
    finding = OF_FAULTS[fault.name](lines, fault.line, mode, data)
    right = [f"Right would be: {finding.better}"] if finding.better else []
    line = marked(lines[fault.line - 1], finding.begin, finding.end)
    return Told([f"line {fault.line}: {fault.name}", *line, finding.why, *right], fault, finding)


# Scripts without a fault.


def looks_like_threads(script):
    """Whether calls are submitted and none is ever sent, as in scripts for threads."""
    verbs = {verb for verb, _ in script.events}
    return "submit" in verbs and verbs <= set(reading.COMMON_FORMS)


def told_play(script, lines):
    """The refused events of a play, or that there is none, and notes."""
    count = counted(len(script.events), "event")
    refused = list(explain_refusals.refusals(script))
    hint = f". {UNSENT}" if looks_like_threads(script) else ""
    notes = list(explain_notes.notes(script, {each.place for each in refused}))
    if not refused:
        told = [f"no fault, and of {count} none is refused{hint}" if script.events else "no fault, and no event"]
    else:
        told = [f"no fault; of {count} {len(refused)} {'is' if len(refused) == 1 else 'are'} refused{hint or ':'}"]
    for each in refused:
        told.append(f"event {each.place}, line {each.line}: {quoted(lines[each.line - 1])}")
        told.append(f"  refused {each.name}: {each.why}")
    return Told([*told, *told_notes(notes, lines)], notes=notes)


def told_plans(script, lines, world):
    notes = list(explain_notes.notes(script))
    told = f"no fault: {counted(len(world.callers), 'caller')}, and no step of a plan would be refused"
    return Told([told, *told_notes(notes, lines)], notes=notes)


def told_notes(notes, lines):
    return explain_notes.told(notes, lambda line: quoted(lines[line - 1]))


def explained(mode, data):
    """What is to be told of a script."""
    lines = data.split(b"\n")
    try:
        if mode == "play":
            return told_play(reading.read_script(data), lines)
        world = reading.read_plans(data)
        return told_plans(reading.read_script(data, reading.THREAD_FORMS), lines, world)
    except reading.ScriptFault as fault:
        return told_fault(fault, mode, data)


# The command.


def main():
    words = sys.argv[1:]
    if program.asks_for_help(words):
        program.write_out(__doc__)
        return 0
    is_silent = len(words) == 1 and sys.stdin is not None and sys.stdin.isatty()
    if len(words) not in (1, 2) or words[0] not in explain_lines.FORMS or is_silent:
        program.note(USAGE)
        return program.WRONG_WORDS
    told = explained(words[0], program.script_in(words[1] if len(words) == 2 else "-"))
    program.write_out(told.text())
    return told.status()


if __name__ == "__main__":
    program.ended("explain", main)
