#!/usr/bin/env python3
"""Compares what ./explain tells with the proved program, and holds it to a table of mistakes.

    tools/explained.py [--seed N] [--count N] [--program PATH] [--checker PATH]

The fault that ./explain tells of a script, and the refused events of a play, must be the program's: on the scripts of
tools/fuzz.py and tools/threads.py, random, damaged, nearly right and cut, and on all worked ones, each in both modes.
Where ./explain tells how a line would be right, the program must find no such fault at that line any more. MISTAKES,
UNREAD, REFUSALS and NOTES say what a user may get wrong, where the mark must stand, and which words must be there. Where
a call is noted as one that is always answered by a fault, the program's report must answer it so.
How often a reason tells what is due there and no more is printed; of a mistake in the table none may. What is told of a
history must begin with the line that the program of ./check tells; and each mistake of damaged histories has a mark.
"""
import argparse
import collections
import concurrent.futures
import pathlib
import random
import re
import subprocess
import tempfile
from dataclasses import dataclass

import blamed
import explain
import explain_histories
import explain_refusals
import fuzz
import program
import reading_of_rules as reading
import run
import threads
from program import TOP

RUNS = {"play": fuzz.run, "threads": threads.run}
AT_ONCE = 4
MAX_SHOWN = 5
DAMAGED_HISTORIES = 400

# The table of mistakes.

ROLE = b"actor a1 counter c1\n"
TABLE = b"actor a1 table c1\n"
BOTH = b"actor a1 counter c1 c2\n"
TWO = b"actor a1 counter c1\nactor a2 list c2\n"


@dataclass(frozen=True)
class Mistake:
    """A script, and what its explanation must tell."""

    mode: str
    script: bytes
    fault: str
    column: int  # of the line as it is shown, from 1
    words: list
    right: str = None


def bad_line(head, line, column, words, right=None, mode="play"):
    """A line that has none of the forms, behind good ones."""
    return Mistake(mode, head + line, f"line {head.count(10) + 1}: BadLine", column, words, right)


def bad_step(steps, column, words, head=ROLE):
    """A plan whose last line is a bad step."""
    script = head + steps
    return Mistake("threads", script, f"line {script.count(10) + 1}: BadPlan", column, words)


MISTAKES = {
    "a line end of two bytes": bad_line(ROLE, b"submit c1 a1 get\r\nsend c1 0\r\n", 17, ["two bytes", "CR LF", "2 lines", "tr -d"], "submit c1 a1 get"),
    "line ends of one CR": bad_line(b"", ROLE[:-1] + b"\rsubmit c1 a1 get\r", 20, ["CR", "no line end", "LF is", "tr"]),
    "a tab": bad_line(ROLE, b"submit c1 a1\tget", 13, ["tab", "one space"], "submit c1 a1 get"),
    "a tab in a comment": bad_line(ROLE, b"#\tadds", 2, ["tab", "comment"], "# adds"),
    "two spaces": bad_line(ROLE, b"submit c1  a1 get", 10, ["2 spaces", "one is right"], "submit c1 a1 get"),
    "a space at the end": bad_line(ROLE, b"submit c1 a1 get ", 17, ["a space", "behind the last word"], "submit c1 a1 get"),
    "a space at the beginning": bad_line(ROLE, b"  submit c1 a1 get", 1, ["begins with its first word"], "submit c1 a1 get"),
    "a line of spaces": bad_line(ROLE, b"   \nsubmit c1 a1 get", 1, ["spaces alone", "no empty line"]),
    "a comment that is moved in": bad_line(ROLE, b"  # adds", 1, ["comment", "first byte"], "# adds"),
    "a letter with an accent": bad_line(TABLE, 'submit c1 a1 get "café"'.encode(), 22, ["U+00E9", "ACUTE", "plain ASCII"], 'submit c1 a1 get "cafe"'),
    "quotes of a word processor": bad_line(TABLE, "submit c1 a1 get “k”".encode(), 18, ["U+201C", "QUOTATION MARK"], 'submit c1 a1 get "k"'),
    "a space that doesn't break": bad_line(ROLE, "submit c1\u00a0a1 get".encode(), 10, ["U+00A0", "NO-BREAK SPACE"], "submit c1 a1 get"),
    "a byte that is no character": bad_line(ROLE, b"# caf\xe9", 6, ["byte 0xe9", "0x20 to 0x7E"], "# caf"),
    "a zero byte": bad_line(ROLE, b"submit c1 a1 get\0", 17, ["zero byte", "0x20 to 0x7E"], "submit c1 a1 get"),
    "a mark of byte order": bad_line(b"", b"\xef\xbb\xbf" + ROLE, 1, ["mark of byte order", "UTF-8", "BOM"], "actor a1 counter c1"),
    "two bytes for each letter": bad_line(b"", ROLE.decode().encode("utf-16"), 1, ["UTF-16", "plain text"]),
    "an unknown first word": bad_line(ROLE, b"sumbit c1 a1 get", 1, ["'sumbit'", "nearest", "'submit'"], "submit c1 a1 get"),
    "an unknown kind": bad_line(b"", b"actor a1 conter c1", 10, ["'conter'", "no kind", "'counter'", "account"], "actor a1 counter c1"),
    "an unknown method": bad_line(ROLE, b"submit c1 a1 ad 5", 14, ["'ad'", "no method", "'add'", "a1 is a counter", "terminate"], "submit c1 a1 add 5"),
    "a method of no kind": bad_line(ROLE, b"submit c1 a1 multiply 5", 14, ["'multiply' is no method", "add, get"]),
    "a capital letter": bad_line(ROLE, b"Submit c1 a1 get", 1, ["capital letters", "'submit'"], "submit c1 a1 get"),
    "a zero before a number": bad_line(ROLE, b"submit c1 a1 add 05", 18, ["no zero before its first digit"], "submit c1 a1 add 5"),
    "a plus": bad_line(ROLE, b"submit c1 a1 add +5", 18, ["no plus"], "submit c1 a1 add 5"),
    "a minus before zero": bad_line(ROLE, b"submit c1 a1 add -0", 18, ["0 has no minus"], "submit c1 a1 add 0"),
    "a number above all": bad_line(ROLE, b"submit c1 a1 add 9223372036854775808", 18, ["above 9223372036854775807", "largest"]),
    "a number below all": bad_line(ROLE, b"submit c1 a1 add -9223372036854775809", 18, ["below -9223372036854775808", "least"]),
    "a place above all": bad_line(ROLE, b"deliver 4294967296", 9, ["above 4294967295", "place in the mail"]),
    "a number that isn't whole": bad_line(ROLE, b"submit c1 a1 add 1.5", 18, ["whole", "1.5"]),
    "a number with commas": bad_line(ROLE, b"submit c1 a1 add 1,000", 18, ["digits alone"], "submit c1 a1 add 1000"),
    "a number of another base": bad_line(ROLE, b"submit c1 a1 add 0x10", 18, ["decimal"], "submit c1 a1 add 16"),
    "a text without quotes": bad_line(TABLE, b"submit c1 a1 put k 5", 18, ["text", "between two quotes"], 'submit c1 a1 put "k" 5'),
    "a text with one quote": bad_line(TABLE, b'submit c1 a1 put "k 5', 18, ["quote behind the text", "missing"], 'submit c1 a1 put "k" 5'),
    "a text in other quotes": bad_line(TABLE, b"submit c1 a1 put 'k' 5", 18, ['between two "', "not between two '"], 'submit c1 a1 put "k" 5'),
    "a text too long": bad_line(TABLE, b'submit c1 a1 get "%s"' % (b"x" * 65), 18, ["65 bytes", "64 is the most"]),
    "a text with a space": bad_line(TABLE, b'submit c1 a1 put "my key" 5', 18, ["no space in it"], 'submit c1 a1 put "my_key" 5'),
    "a text of no bytes": bad_line(TABLE, b'submit c1 a1 get ""', 18, ["1 to 64 bytes", "none"]),
    "a limit of zero": bad_line(b"", b"actor a1 counter max 0 c1", 22, ["1 or more", "leave 'max' and the limit out"]),
    "a limit above all": bad_line(b"", b"actor a1 counter max 65537 c1", 22, ["above 65536", "1 to 65536"]),
    "a limit behind the callers": bad_line(b"", b"actor a1 counter c1 max 2", 21, ["limit stands behind the kind"], "actor a1 counter max 2 c1"),
    "a limit by another word": bad_line(b"", b"actor a1 counter c1 limit 0", 21, ["'max LIMIT'", "1 to 65536", "actor ACTOR KIND max LIMIT CALLER .."]),
    "a limit as Ray names it": bad_line(b"", b"actor a1 counter c1 max_pending_calls=2", 21, ["'max LIMIT'"], "actor a1 counter max 2 c1"),
    "a limit with a sign": bad_line(b"", b"actor a1 counter max=2 c1", 18, ["'max LIMIT'"], "actor a1 counter max 2 c1"),
    "a limit in three words": bad_line(b"", b"actor a1 counter c1 limit = 2", 21, ["'max LIMIT'"], "actor a1 counter max 2 c1"),
    "a second limit": bad_line(b"", b"actor a1 counter max 2 c1 limit 3", 27, ["one limit"]),
    "no limit behind max": bad_line(b"", b"actor a1 counter max c1", 22, ["'c1' stands where a limit (1 to 65536) is due"]),
    "a caller above all": bad_line(ROLE, b"submit c17 a1 get", 8, ["'c17' is no caller", "c1 to c16"]),
    "an actor above all": bad_line(ROLE, b"submit c1 a9 get", 11, ["'a9' is no actor", "a1 to a8"]),
    "a caller with a zero": bad_line(ROLE, b"submit c01 a1 get", 8, ["no zero", "'c01'"], "submit c1 a1 get"),
    "a caller by its number": bad_line(ROLE, b"submit 1 a1 get", 8, ["letter c", "before the number"], "submit c1 a1 get"),
    "commas between words": bad_line(b"", b"actor a1 counter c1, c2", 18, ["divided by a space alone"], "actor a1 counter c1 c2"),
    "caller and actor in the other order": bad_line(ROLE, b"run c1 a1", 5, ["'c1' and 'a1'", "wrong order", "run ACTOR CALLER"], "run a1 c1"),
    "a comment behind a line": bad_line(ROLE, b"submit c1 a1 get # how much", 18, ["comment", "a line of its own"], "submit c1 a1 get"),
    "a comment with other signs": bad_line(ROLE, b"// how much", 1, ["comment begins with #"], "# how much"),
    "a line of threads in play": bad_line(ROLE, b"await c1 0", 1, ["'await'", "this is a script for threads: ./run threads"]),
    "a line of play in threads": bad_line(ROLE, b"send c1 0", 1, ["'send'", "this is a script for play: ./run play"], mode="threads"),
    "lines of both modes": bad_line(ROLE, b"await c1 0\nsend c1 0", 1, ["'await' is a line of scripts for threads", "'send' is a line of play"]),
    "a missing argument": bad_line(ROLE, b"send c1", 9, ["ends where the number of a future", "send CALLER NUMBER"]),
    "a missing method": bad_line(ROLE, b"submit c1 a1", 14, ["ends where a method is due", "add, get", "submit CALLER ACTOR METHOD ARG .."]),
    "a role of no caller": bad_line(b"", b"actor a1 counter", 18, ["one caller or more", "actor ACTOR KIND CALLER .."]),
    "a word too many": bad_line(ROLE, b"take a1 a1", 9, ["'a1' is a word too many", "take ACTOR"], "take a1"),
    "a future with its caller": bad_line(ROLE, b"submit c1 a1 add c1.0", 18, ["written as @"], "submit c1 a1 add @0"),
    "a future of another caller": bad_line(ROLE, b"submit c1 a1 add @c2.0", 18, ["submitting caller alone", "c1 submits"]),
    "a future where its number stands": bad_line(ROLE, b"send c1 @0", 9, ["number alone"], "send c1 0"),
    "a reply by its future": bad_line(ROLE, b"collect c1.0", 9, ["place in the replies", "number alone"]),
    "a line of a report": bad_line(ROLE, b"0: future c1.0", 1, ["begins a line of a report"]),
    "a line of a summary": bad_line(ROLE, b"c1.0 a1 = 5", 1, ["begins a line of a report", "history, for ./check"]),
    "a line too long": bad_line(ROLE, b"#" + b"x" * 512, 64, ["513 bytes", "512 is the most", "comment"]),
    "a script too long": Mistake("play", b"\n" * (reading.LONGEST_SCRIPT + 1), "line 0: TooLong", None, ["1048576 bytes", "the most"]),
    "a role behind an event": Mistake("play", ROLE + b"\nsubmit c1 a1 get\nactor a2 list c1", "line 4: LateActor", 1, ["line 3", "submit c1 a1 get", "above it"]),
    "a second role of an actor": Mistake("play", TWO + b"actor a1 list c1", "line 3: TwiceActor", 7, ["line 1", "actor a1 counter c1", "all its callers"]),
    "a caller twice in a role": Mistake("threads", b"actor a1 list c2 c1 c2", "line 1: TwiceCaller", 21, ["c2 stands twice"], "actor a1 list c2 c1"),
    "a step of a caller without a role": bad_step(b"submit c1 a1 get\nsubmit c2 a1 get", 8, ["NoCaller", "no actor line names c2", "c1"]),
    "a step to an actor without a role": bad_step(b"submit c1 a2 get", 11, ["NoActor", "no actor line is of a2", "a1"]),
    "a step to an actor of others": bad_step(b"submit c1 a2 len", 11, ["NoActor", "a2 doesn't name c1", "c2"], TWO),
    "a step behind the last release": bad_step(b"release c1 a1\n\nkill c1 a1", 9, ["NoHandle", "line 2 released the last one"]),
    "a step of five arguments": bad_step(b"submit c1 a1 add 1 2 3 4 5", 26, ["TooManyArgs", "5 arguments", "4 is the most"]),
    "a step with its own future": bad_step(b"submit c1 a1 get\nsubmit c1 a1 add 1 @1", 20, ["BadFuture", "@1 means c1.1", "c1.1 would be this call itself", "one call so far, c1.0"]),
    "a step with another caller's future": bad_step(b"submit c1 a1 get\nsubmit c2 a1 add @0", 18, ["@0 means c2.0", "and not c1.0.", "c2 has submitted no call"], BOTH),
    "a step with a later future": bad_step(b"submit c1 a1 add @7", 18, ["BadFuture", "none of c1's calls", "no call so far"]),
    "an await of no call": bad_step(b"submit c1 a1 get\nawait c1 1", 10, ["NoFuture", "no future c1.1", "one call so far, c1.0"]),
    "a copy above all": bad_step(b"copy c1 a1\n" * 65_534 + b"copy c1 a1", 1, ["TooManyCopies", "65535 copies", "the most"]),
}  # fmt: skip

# Histories that can't be read: the program's first line, and what stands below it.

FRONT = ROLE + b"actor a2 list c1 c2\n"
CALLED = FRONT + b"submit c1 a1 add 5\n"
ANSWERED = CALLED + b"c1.0 a1 = 5\n"
ENDED = ANSWERED + b"a1 live counter 5\n"
RELEASED = CALLED + b"await c1 0\nrelease c1 a1\nsubmit c1 a1 get\nc1.0 a1 = 5\nc1.1 a1 = 5\na1 live counter 5\n\
a1.0 c1.0 add 5\na1.1 c1.1 get\na2 live list\n"
ORDER = b"history order\nactor a1 c1\n"
ORDERED = ORDER + b"call c1 a1 add\n"


@dataclass(frozen=True)
class Unread:
    """A history, and what is told of it."""

    history: bytes
    line: int
    name: str
    column: int
    words: list
    right: str = None


def last_line(head, line, name, column, words, right=None):
    """A history whose last line can't be read."""
    return Unread(head + line, head.count(10) + 1, name, column, words, right)


UNREAD = {
    "a method of no kind in a step": last_line(FRONT, b"submit c1 a1 ad 5", "BadLine", 14, ["'ad' is no method", "'add'"], "submit c1 a1 add 5"),
    "a play": last_line(CALLED, b"send c1 0", "BadLine", 1, ["'send'", "script for play"]),
    "a caller twice in a role of a history": last_line(b"", b"actor a1 list c1 c1", "TwiceCaller", 18, ["c1 stands twice"], "actor a1 list c1"),
    "an await of no call in a history": last_line(CALLED, b"await c1 1", "BadPlan", 10, ["no call c1.1 yet", "one call"]),
    "a step of a caller without a role in a history": last_line(FRONT, b"submit c3 a1 get", "NoRole", 8, ["no actor line names c3", "c1 c2"]),
    "a step of a history that every play refuses": Unread(RELEASED, 6, "BadPlan", 11, ["NoHandle", "c1", "a1"]),
    "an answer that is none": last_line(CALLED, b"c1.0 a1 = five", "BadLine", 11, ["'five'", "an answer", "text between two quotes"]),
    "an answer without its actor": last_line(CALLED, b"c1.0 = 5", "BadLine", 6, ["'='", "an actor (a1 to a8)", "c1.0 a1 = ANSWER"]),
    "an answer that is left out": last_line(CALLED, b"c1.0 a1 =", "BadLine", 11, ["ends where an answer"]),
    "an end of no stage": last_line(ANSWERED, b"a1 alive", "BadLine", 4, ["'live', 'retired' or 'dead'"]),
    "an end without its state": last_line(ANSWERED, b"a1 live", "BadLine", 9, ["the actor's kind", "'?'"]),
    "a state that is none": last_line(ANSWERED, b"a1 live counter five", "BadLine", 17, ["'five'", "value of the state"]),
    "a death with more": last_line(ANSWERED, b"a1 dead counter 5", "BadLine", 9, ["word too many"], "a1 dead"),
    "a run of no call": last_line(ENDED, b"a1.0 add 5", "BadLine", 6, ["a call (as c1.0)", "a1.0 c1.0 METHOD VALUE .."]),
    "a line end of two bytes in a history": last_line(CALLED, b"c1.0 a1 = 5\r", "BadLine", 12, ["CR"], "c1.0 a1 = 5"),
    "a step below the answers": last_line(ANSWERED, b"submit c1 a1 get", "BadLine", 1, ["above", "line 4: c1.0 a1 = 5", "Move"]),
    "an event below the answers": last_line(ANSWERED, b"deliver 0", "BadLine", 1, ["event of a play", "steps of a script for threads"]),
    "an outcome": last_line(ANSWERED, b"0: future c1.0", "BadLine", 1, ["event of a play", "no events"]),
    "a word that begins no line": last_line(ANSWERED, b"alive a1", "BadLine", 1, ["'alive' begins no line", "a1.0 c1.0 METHOD"]),
    "an answer of a caller without a role": last_line(FRONT, b"c3.0 a1 = 5", "NoRole", 1, ["no actor line names c3", "c1 c2"]),
    "an end of an actor without a role": last_line(ANSWERED, b"a3 dead", "NoRole", 1, ["no actor line is of a3", "a1 a2"]),
    "an answer out of order": last_line(CALLED, b"c1.1 a1 = 5", "OutOfOrder", 1, ["c1.0 is due here"]),
    "an answer of an earlier caller": last_line(FRONT + b"c2.0 a2 = 1\n", b"c1.0 a1 = 5", "OutOfOrder", 1, ["rising numbers", "line 3: c2.0 a2 = 1"]),
    "an answer below an end": last_line(FRONT + b"a1 dead\n", b"c1.0 a1 = 5", "OutOfOrder", 1, ["belongs above", "line 3: a1 dead"]),
    "an end of an earlier actor": last_line(FRONT + b"a2 dead\n", b"a1 dead", "OutOfOrder", 1, ["rising numbers", "line 3: a2 dead"]),
    "a run out of order": last_line(ENDED, b"a1.1 c1.0 add 5", "OutOfOrder", 1, ["a1.0 is due here"]),
    "a run of another actor": last_line(ENDED, b"a2.0 c1.0 add 5", "OutOfOrder", 1, ["right below", "a2"]),
    "an answer of another actor": last_line(CALLED, b"c1.0 a2 = 5", "OtherActor", 6, ["c1.0 went to a1", "line 3: submit c1 a1 add 5"]),
    "an end of another kind": last_line(ANSWERED, b"a1 live list", "OtherKind", 9, ["the kind counter", "line 1: actor a1 counter c1"]),
    "an answer of no call": last_line(ANSWERED, b"c1.1 a1 = 5", "NotSubmitted", 1, ["'submit c1'", "one call, c1.0"]),
    "a script without a report": Unread(CALLED, 3, "NoFuture", 1, ["c1.0", "nothing tells what was left", "./run threads"]),
    "a call without an answer": Unread(CALLED + b"submit c1 a1 get\nc1.0 a1 = 5\n", 4, "NoFuture", 1, ["c1.1", "'c1.1 a1 ?'"]),
    "an actor without an end": Unread(ENDED + b"a1.0 c1.0 add 5\n", 0, "NoEnd", None, ["a2 ended", "a1 dead"]),
    "a history too long": Unread(b"\n" * (reading.LONGEST_SCRIPT + 1), 0, "TooLong", None, ["1048576 bytes", "order alone"]),
    "a kind in a history by order": last_line(b"history order\n", b"actor a1 counter c1", "BadLine", 10, ["'counter'", "a caller (as c1)"]),
    "a role by order without callers": last_line(b"history order\n", b"actor a1", "NoCaller", 10, ["one caller or more"]),
    "a value in a history by order": last_line(ORDER, b"call c1 a1 push 5", "BadLine", 17, ["'5'", "(as @0)"]),
    "a step in a history by order": last_line(ORDER, b"submit c1 a1 push", "BadLine", 1, ["'submit' begins no line", "call c1 a1 METHOD"]),
    "an outcome that is none": last_line(ORDERED, b"c1.0 done", "BadLine", 6, ["'answered', 'failed', 'died' or 'open'"]),
    "a call without an outcome": Unread(ORDERED + b"a1 live\n", 3, "NoOutcome", 1, ["c1.0", "'c1.0 open'"]),
    "a call below an outcome": last_line(ORDERED + b"c1.0 open\n", b"call c1 a1", "OutOfOrder", 1, ["belongs above", "line 4: c1.0 open"]),
    "an outcome of no call": last_line(ORDERED + b"c1.0 open\n", b"c1.1 open", "NotSubmitted", 1, ["'call c1'", "one call"]),
    "a call to an actor without a role": last_line(ORDER, b"call c1 a2 add", "NoRole", 9, ["no actor line is of a2", "a1"]),
    "an actor without an end by order": Unread(ORDER, 0, "NoEnd", None, ["a1 ended"]),
}  # fmt: skip

# Plays whose last event is refused, and words of the sentence that tells what that means there.

CALL = ROLE + b"submit c1 a1 add 5\n"
SENT = CALL + b"send c1 0\n"
ARRIVED = SENT + b"deliver 0\n"
KILLED = SENT + b"kill c1 a1\ntake a1\n"
REFUSALS = {
    "a caller that no role names": (CALL + b"submit c2 a1 get", "NoCaller", ["no actor line names c2", "c1"]),
    "no role at all": (b"run a1 c1", "NoCaller", ["no actor line names c1", "none"]),
    "an actor that no role has": (CALL + b"take a2", "NoActor", ["no actor line is of a2", "a1"]),
    "an actor of other callers": (TWO + b"run a2 c1", "NoActor", ["a2 doesn't name c1", "c2"]),
    "a handle that is released": (ROLE + b"release c1 a1\n#\ncopy c1 a1", "NoHandle", ["line 2 released"]),
    "five arguments": (ROLE + b"submit c1 a1 get 1 2 3 4 5", "TooManyArgs", ["5 arguments", "4 is the most"]),
    "a future that isn't yet": (ROLE + b"submit c1 a1 add @0", "BadFuture", ["this call itself", "no call so far"]),
    "a future of another caller's": (BOTH + b"submit c1 a1 get\nsubmit c2 a1 add @0", "BadFuture", ["@0 means c2.0", "and not c1.0.", "c2 has submitted no call"]),
    "a limit that is reached": (b"actor a1 counter max 1 c1\n" + CALL[len(ROLE) :] + b"submit c1 a1 get", "PendingLimit", ["at most one call", "c1.0", "collect"]),
    "copies above all": (ROLE + b"copy c1 a1\n" * 65_534 + b"copy c1 a1", "TooManyCopies", ["65535 copies"]),
    "a call that isn't yet": (CALL + b"send c1 1", "NoFuture", ["no future c1.1", "one call so far, c1.0"]),
    "an argument without an answer": (CALL + b"submit c1 a1 add @0\nsend c1 1", "NotReady", ["@0 of c1.1", "reply to c1.0"]),
    "a call that a death answered": (KILLED + b"tell a1 c1\ncollect 0\nsubmit c1 a1 get\nsend c1 1", "Answered", ["c1.1 was never sent", "death of a1"]),
    "a letter that isn't there": (SENT + b"deliver 1", "NoMail", ["no letter 1", "one letter so far, at place 0"]),
    "a letter to a dead actor": (KILLED + b"deliver 0", "ActorEnded", ["letter 0 is to a1", "dead since line 5"]),
    "a run of a dead actor": (KILLED + b"run a1 c1", "ActorEnded", ["a1 is dead since line 5"]),
    "a kill of a retired actor": (ROLE + b"release c1 a1\ndeliver 0\nretire a1\ntake a1", "ActorEnded", ["a1 is retired since line 4"]),
    "a notice that isn't there": (ARRIVED + b"collect 0", "NoReply", ["no notice 0", "no notice so far"]),
    "a kill that nobody asked": (ROLE + b"take a1", "NoKill", ["no caller has asked"]),
    "a death of a live actor": (ROLE + b"tell a1 c1", "NotDead", ["a1 is live", "only a dead actor"]),
    "an end with a handle held": (ROLE + b"retire a1", "NotDrained", ["c1 still holds 1 copy", "release c1 a1"]),
    "an end before the note": (ROLE + b"release c1 a1\nretire a1", "NotDrained", ["letter 0", "hasn't arrived"]),
    "an end before all calls ran": (ARRIVED + b"release c1 a1\ndeliver 1\nretire a1", "NotDrained", ["one call of c1", "none ran"]),
}

# Scripts without a fault whose last call its actor's kind always answers by a fault, and words of the note.

ACCOUNT = b"actor a1 account c1\n"
NOTES = {
    "a method that a counter hasn't": ("play", ROLE + b"submit c1 a1 deposit 5", "NoMethod", ["a1 is a counter", "no method deposit", "add, get"]),
    "the same in threads": ("threads", ROLE + b"submit c1 a1 deposit 5", "NoMethod", ["a1 is a counter", "no method deposit"]),
    "the same with a future": ("threads", ROLE + b"submit c1 a1 get\nsubmit c1 a1 put @0", "NoMethod", ["or by Dependency"]),
    "an argument too few": ("play", ROLE + b"submit c1 a1 add", "BadArgs", ["add takes one argument, and not 0"]),
    "an argument too many": ("play", ACCOUNT + b"submit c1 a1 balance 1", "BadArgs", ["an account", "takes no argument, and not 1"]),
    "an argument of another sort": ("play", TABLE + b"submit c1 a1 get 5", "BadArgs", ["takes a text there, and 5 is none"]),
    "a deposit of nothing": ("play", ACCOUNT + b"submit c1 a1 deposit 0", "BadAmount", ["an amount is 1 or more"]),
    "a place below 0": ("threads", b"actor a1 list c1\nsubmit c1 a1 at -1", "NoItem", ["places count from 0"]),
    "a terminate with an argument": ("threads", ROLE + b"submit c1 a1 terminate 5", "BadArgs", ["terminate takes no argument"]),
}  # fmt: skip
NOT_NOTED = {
    "a good call": ("play", CALL),
    "a future that may fit": ("threads", ROLE + b"submit c1 a1 get\nsubmit c1 a1 add @0"),
    "a call that is refused": ("play", ROLE + b"submit c1 a2 deposit 5"),
}


def column_of(lines):
    """Where the mark stands under the line that is shown, from 1."""
    return lines[2].index("^") - 1 if lines[2:] and re.fullmatch(" +\\^~*", lines[2]) else None


def wrong_of(mistake):
    """What is wrong with the explanation of a mistake, if anything is."""
    told = explain.explained(mistake.mode, mistake.script)
    lines, text = told.lines, told.text()
    if (lines[0], told.status()) != (mistake.fault, 1):
        yield f"'{mistake.fault}' is due"
    if column_of(lines) != mistake.column:
        yield f"the mark is due in column {mistake.column}, and stands in {column_of(lines)}"
    if mistake.right != next((line.partition(": ")[2] for line in lines if line.startswith("Right would be: ")), None):
        yield f"right would be {mistake.right}"
    yield from (f"'{word}' is missing" for word in mistake.words if word not in text)
    if told.finding and told.finding.is_general:
        yield "the reason tells what is due, and no more"


def wrong_of_refusal(script, name, words):
    """What is wrong with the last two lines that tell the refusals of a play."""
    told = explain.explained("play", script)
    event, sentence = ["", *told.lines][-2:]
    line = script.count(10) + 1
    if told.status() or not re.fullmatch(f"event [0-9]+, line {line}: {script.decode().splitlines()[-1]}", event):
        yield f"the event of line {line} is due, with status 0"
    if not sentence.startswith(f"  refused {name}: "):
        yield f"'refused {name}' is due"
    yield from (f"'{word}' is missing" for word in words if word not in sentence)


def wrong_of_unread(unread):
    """What is wrong with what is told of a history that can't be read."""
    first = f"line {unread.line}: {unread.name}"
    lines = explain_histories.told(unread.history, first)
    if lines[0] != first or column_of(lines) != unread.column:
        yield f"the mark is due in column {unread.column}, and stands in {column_of(lines)}"
    if unread.right != next((line.partition(": ")[2] for line in lines if line.startswith("Right would be: ")), None):
        yield f"right would be {unread.right}"
    yield from (f"'{word}' is missing" for word in unread.words if word not in "\n".join(lines[1:]))


def wrong_of_note(mode, script, fault, words):
    """What is wrong with the note of a script's last call."""
    told = explain.explained(mode, script)
    head, sentence = ["", *told.lines][-2:]
    if told.status() or head != f"note, line {script.count(10) + 1}: {script.decode().splitlines()[-1]}":
        yield f"a note is due, and told is {told.lines}"
    if f"answered by {fault}" not in sentence:
        yield f"'{fault}' is missing"
    yield from (f"'{word}' is missing" for word in words if word not in sentence)


def damaged_histories(count):
    """Histories that are damaged at one place, by name."""
    whole = {path.name: path.read_bytes() for path in sorted(threads.EXAMPLES.glob("*.history"))}
    for place in range(count):
        chance = random.Random(f"history {place}")
        name = chance.choice([*whole])
        lines = whole[name].split(b"\n")
        at, other = chance.randrange(len(lines)), chance.choice(lines)
        words = lines[at].split(b" ")
        words[chance.randrange(len(words))] = chance.choice([*other.split(b" "), *(word.encode() for word in ODD_WORDS)])
        lines[at] = chance.choice([b" ".join(words), other])
        yield f"{name}, damaged by {place}", b"\n".join(lines)


def unexplained(history):
    """Why a history that can't be read isn't explained, if it isn't; none where nothing is known of its mistakes."""
    cut = re.search(rb"^[ac][0-9]", history, re.M)
    front, rest = (history[: cut.start()], history[cut.start() :]) if cut else (history, b"")
    try:
        mistakes = blamed.Mistakes(front, rest.decode("latin-1").removesuffix("\n").split("\n") if rest else []).found()
    except reading.ScriptFault as fault:
        mistakes = {(fault.line, fault.name)}
    for line, name in mistakes:
        told = explain_histories.told(history, f"line {line}: {name}")
        if len(told) < (3 if line else 2) or line and column_of(told) is None:
            return f"line {line}: {name} isn't explained: {told}"
    return None


def by_table():
    """Each check of the tables: what is wrong, if anything is, and its name."""
    for name, mistake in MISTAKES.items():
        yield f"the explanation of {name}", [*wrong_of(mistake)]
    for name, (script, refusal, words) in REFUSALS.items():
        yield f"the refusal of {name}", [*wrong_of_refusal(script, refusal, words)]
    for name, unread in UNREAD.items():
        yield f"the history with {name}", [*wrong_of_unread(unread)]
    for name, note in NOTES.items():
        yield f"the note of {name}", [*wrong_of_note(*note)]
    for name, (mode, script) in NOT_NOTED.items():
        yield f"no note of {name}", ["a note"] if explain.explained(mode, script).notes else []
    alike = explain.explained("play", ROLE + b"submit c1 a1 pop\n" * 3).lines
    yield "a note of three calls", [] if len(alike) == 3 and alike[1] == "note, line 2, and 2 like it: submit c1 a1 pop" else alike
    for name, history in damaged_histories(DAMAGED_HISTORIES):
        yield name, [*filter(None, [unexplained(history)])]
    missing = set(explain_refusals.SENTENCES) - {refusal for _, refusal, _ in REFUSALS.values()}
    yield "the table of refusals", [f"{refusal} is missing" for refusal in sorted(missing)]


# Scripts of words that stand anywhere, most of them wrong.

ODD_WORDS = [*reading.PLAY_FORMS, "await", *reading.KINDS, "add", "get", "put", "inc", "max", "max=2", "c1", "c2", "c17", "c01", "C1", "c", "caller1"]
ODD_WORDS += ["a1", "a2", "a9", "a1.add", "c1.0", "@c1.0", "@0", "@", "@-1", "c1,c2", "c1-c3", "c1,", "0", "5", "05", "+5", "-0", "-1", "1.5", "0x1"]
ODD_WORDS += ["1_000", "1e3", "9" * 30, '"k"', '"k', 'k"', "'k'", "'k", '""', '"', "“k”", '"%s"' % ("x" * 65), "x" * 70, "é", "unit", "Unit", "true", "()", "(5)"]
ODD_WORDS += ["add(5)", "[", "#", "#x", "//", ";", "--", "0:", "=", "", "\t", "\r", "\0", "\ufeff", "\u00a0"]


def odd_script(seed, place):
    """A script of up to two roles and a few lines of odd words."""
    chance = random.Random(f"odd {seed}.{place}")
    lines = ["actor a1 counter c1", "actor a2 table max 1 c1 c2"][: chance.randint(0, 2)]
    lines += [" ".join(chance.choices(ODD_WORDS, k=chance.randint(1, 7))) for _ in range(chance.randint(1, 2))]
    return "\n".join(lines).encode(*chance.choice([["utf-8"], ["latin-1", "replace"]]))


def odd_scripts(seed, count):
    return {f"odd words {place} of seed {seed}": odd_script(seed, place) for place in range(count)}


# The comparison with the program.


def numbered_events(script):
    """The numbers of the lines that are events, of a script without a fault."""
    lines = enumerate(script.split(b"\n"), 1)
    return [number for number, line in lines if line and not line.startswith((b"#", b"actor "))]


def refused_by_program(script, report):
    """Event, line and name of each refusal in a report."""
    lines = numbered_events(script)
    told = re.findall(rb"^([0-9]+): refused (\w+)$", report, re.M)
    return [(int(event), lines[int(event)], name.decode()) for event, name in told]


def refused_by_explain(text):
    told = re.findall("^event ([0-9]+), line ([0-9]+): .*\n  refused ([A-Za-z]+): .", text, re.M)
    return [(int(event), int(line), name) for event, line, name in told]


def difference(mode, script, got, told):
    """What differs between the program and the explanation, or nothing."""
    report, status = got
    if status not in (0, 1):
        return f"the program ends with {status}"
    fault = report.decode().rstrip("\n") if status == 1 else None
    if fault != (told.lines[0] if told.fault else None):
        return f"the program finds {fault}, and ./explain {told.lines[0]}"
    if mode == "play" and not fault and refused_by_program(script, report) != refused_by_explain(told.text()):
        return f"the program refuses {refused_by_program(script, report)}, and ./explain {refused_by_explain(told.text())}"
    return None if fault else wrongly_noted(mode, script, report.decode(), told)


def submissions(mode, script, report):
    """Of each call of a script without a fault: its line, whether it takes a future, and what the report answers."""
    lines = script.decode("ascii").split("\n")
    answers = dict(re.findall(r"^(c[0-9]+[.][0-9]+) a[0-9]+ = (.+)$", report, re.M))
    outcomes = re.findall("^[0-9]+: (.+)$", report, re.M) if mode == "play" else None
    counts = collections.Counter()
    for place, number in enumerate(numbered_events(script)):
        verb, caller, *words = lines[number - 1].split(" ")
        if verb == "submit" and not (outcomes and outcomes[place].startswith("refused ")):
            answer = answers.get(f"{caller}.{counts[caller]}")
            yield number, any(word.startswith("@") for word in words), answer
            counts[caller] += 1


def wrongly_noted(mode, script, report, told):
    """The call that is answered otherwise than its note says, or by such a fault without a note, if there is one."""
    noted = {note.line: note.fault for note in told.notes}
    for line, takes_a_future, answer in submissions(mode, script, report):
        fault = (answer or "?").partition("(")[0]
        if line in noted and fault not in (noted[line], "Dependency", "ActorDied", "?"):
            return f"the call of line {line} is answered by {answer}, and its note says {noted[line]}"
        if line not in noted and (fault == "NoMethod" or fault == "BadArgs" and not takes_a_future):
            return f"the call of line {line} is answered by {answer}, and has no note"
    return None


def with_line_righted(script, told):
    """The script with the faulty line as ./explain tells that it would be right."""
    lines = script.split(b"\n")
    lines[told.fault.line - 1] = told.finding.better.encode()
    return b"\n".join(lines)


def scripts_of(seed, count):
    """All scripts, by name."""
    scripts = {f"script {place} of seed {seed}": fuzz.random_script(seed, place) for place in range(count)}
    whole = fuzz.CUT.read_bytes()
    scripts |= {f"{fuzz.CUT.name} cut after {length} bytes": whole[:length] for length in range(len(whole) + 1)}
    scripts |= dict(fuzz.near_misses())
    scripts |= {f"for threads, {name}": script for name, script in (threads.random_scripts(seed, count // 3) | threads.worked_scripts()).items()}
    scripts |= {f"worked play {path.stem}": path.read_bytes() for path in sorted(fuzz.ROWS.glob("*.actors"))}
    scripts |= {f"example {path.stem}": path.read_bytes() for path in sorted(threads.EXAMPLES.glob("*.actors"))}
    scripts |= {f"the mistake {name}": mistake.script for name, mistake in MISTAKES.items()}
    scripts |= {f"the note {name}": script for name, (_, script, *_) in NOTES.items()}
    return scripts | {f"the refusal {name}": script for name, (script, *_) in REFUSALS.items()}


def show(name, mode, script, why):
    with tempfile.NamedTemporaryFile(prefix="explained-", suffix=".actors", delete=False) as kept:
        kept.write(script)
    print(f"{name}, {mode}: {why:.600}; the script is {kept.name}")


class Comparison:
    """Runs the program on scripts, in both modes, and counts what is right and what differs."""

    def __init__(self, path, scripts):
        self.path = path
        self.scripts = scripts
        self.passed = self.failed = 0
        self.faults = collections.Counter()
        self.refusals = collections.Counter()
        self.general = self.notes = 0

    def judge(self, name, mode, script, why):
        if why is None:
            self.passed += 1
            return
        self.failed += 1
        if self.failed <= MAX_SHOWN:
            show(name, mode, script, why)

    def count(self, told):
        """Notes what a script came to."""
        self.faults.update([told.fault.name] if told.fault else [])
        self.general += told.finding is not None and told.finding.is_general
        self.refusals.update(name for *_, name in refused_by_explain(told.text()))
        self.notes += len(told.notes)

    def compare(self):
        for mode in RUNS:
            self.compare_mode(mode)
        return self

    def runs(self, mode, scripts):
        with concurrent.futures.ThreadPoolExecutor(max_workers=AT_ONCE) as pool:
            yield from pool.map(lambda script: RUNS[mode](self.path, script), scripts)

    def compare_mode(self, mode):
        """The scripts as one mode reads them."""
        righted = {}
        for (name, script), got in zip(self.scripts.items(), self.runs(mode, self.scripts.values())):
            told = explain.explained(mode, script)
            self.judge(name, mode, script, difference(mode, script, got, told))
            self.count(told)
            if told.finding and told.finding.better:
                righted[name] = with_line_righted(script, told), told.lines[0]
        self.compare_righted(mode, righted)

    def compare_righted(self, mode, righted):
        """The program mustn't tell the same fault of the line that was changed as ./explain told."""
        for (name, (script, fault)), (report, _) in zip(righted.items(), self.runs(mode, [script for script, _ in righted.values()])):
            why = f"still {fault}" if report.decode().rstrip("\n") == fault else None
            self.judge(f"{name}, righted", mode, script, why)

    def too_seldom(self):
        """The faults and refusals that no script came to."""
        missing = [name for name in [*explain.OF_FAULTS, "TooLong"] if not self.faults[name]]
        missing += [] if self.notes else ["a note"]
        return missing + [name for name in explain_refusals.SENTENCES if not self.refusals[name]]

    def share(self):
        """How often a reason tells what is due, and nothing of what stands there."""
        lines = self.faults["BadLine"]
        return f"{self.general} of {lines} bad lines are told by what is due there alone ({self.general / max(1, lines):.1%})"


# The command line.


def run_command(words, script=b"", folder=TOP, output=subprocess.PIPE):
    """Status, output and lines on standard error of ./explain."""
    done = subprocess.run([TOP / "explain", *words], input=script, stdout=output, stderr=subprocess.PIPE, cwd=folder, timeout=60)
    return done.returncode, (done.stdout or b"").decode(), done.stderr.decode()


def by_command():
    """Each check of the command, as those of the tables."""
    usage = (2, "", explain.USAGE)
    faulty = ROLE + b"take a9"
    told = explain.explained("play", faulty).text()
    for words in [], ["played"], ["play", "a", "b"], ["--play"], ["threads", "-", "-"]:
        yield f"the words {words}", run_command(words) == usage
    for words in ["play"], ["play", "-"]:
        yield f"standard input as {words}", run_command(words, faulty) == (1, told, "")
    yield "a path of another folder", run_command(["play", "one_call.actors"], folder=TOP / "examples")[::2] == (0, "")
    status, text, _ = run_command(["play"], ROLE + b"submit c1 a1 deposit 5")
    yield "a note", status == 0 and "\nnote, line 2: submit c1 a1 deposit 5\n" in text
    yield "a script for threads", run_command(["threads", TOP / "examples/bank.actors"])[::2] == (0, "")
    yield "a folder", run_command(["play", "."]) == (2, "", "explain: can't read .: Is a directory\n")
    yield "no file", run_command(["play", "none"]) == (2, "", "explain: can't read none: No such file or directory\n")
    with open("/dev/full", "wb") as full:
        yield "a full output", run_command(["play"], faulty, output=full)[::2] == (4, "explain: write failed: No space left on device\n")
    yield "what ./run tells of a faulty script", run.explanation(faulty, "play") == told
    yield "--help", run_command(["--help"]) == (0, explain.__doc__, "")


def by_checker(path):
    """Whether the program tells of each history in the table what the table says."""
    checks = [path, *program.CHECKS.words]
    orders = [program.kept_alone("explained", program.ORDERS)]
    for name, unread in UNREAD.items():
        command = orders if unread.history.startswith(program.BY_ORDER) else checks
        done = subprocess.run(command, input=unread.history, stdout=subprocess.PIPE, timeout=60)
        begin = f"line {unread.line}: {unread.name}".encode()
        is_told = done.returncode == 1 and re.match(rb"%s\b" % begin, done.stdout)
        yield f"./check of {name}", [] if is_told else [f"{begin} is due, and {done.stdout} told"]


def chosen_options():
    options = argparse.ArgumentParser(description=__doc__.splitlines()[0])
    options.add_argument("--seed", type=int, default=1)
    options.add_argument("--count", type=int, default=600, help="how many random scripts of events; of threads a third")
    options.add_argument("--program", type=pathlib.Path, help="run this one, and not the one that ./run takes")
    options.add_argument("--checker", type=pathlib.Path, help="the same of the one that ./check takes")
    return options.parse_args()


def main():
    chosen = chosen_options()
    path = program.program_of("explained", chosen.program)
    checker = program.program_of("explained", chosen.checker, program.CHECKS)
    checks = [*by_table(), *by_checker(checker), *((f"./explain with {name}", [] if is_well else ["told otherwise"]) for name, is_well in by_command())]
    wrong = {name: why for name, why in checks if why}
    print("".join(f"{name}: {'; '.join(why)}\n" for name, why in wrong.items()), end="")
    damaged = Comparison(path, scripts_of(chosen.seed, chosen.count)).compare()
    odd = Comparison(path, odd_scripts(chosen.seed, chosen.count)).compare()
    seldom = damaged.too_seldom()
    print("".join(f"no script came to {name}\n" for name in seldom), end="")
    print(f"explained: of the damaged scripts {damaged.share()}, of those of odd words {odd.share()}")
    passed = damaged.passed + odd.passed + len(checks) - len(wrong)
    failed = damaged.failed + odd.failed + len(wrong) + len(seldom)
    print(f"explained: {passed} passed, {failed} failed")
    return 1 if failed else 0


if __name__ == "__main__":
    program.ended("explained", main)
