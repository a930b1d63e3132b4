#!/usr/bin/env python3
"""Compares the proved program with a second reading of the rules, on random scripts.

    tools/fuzz.py [--seed N] [--count N] [--program PATH]

A seed gives the same scripts each time. Without `--seed` there are two: one that stays, and one that changes
with the commit and is printed. Two scripts in three are valid and go where something can happen, the
others are damaged; one in seven is long, so that numbers have two digits and states many parts. Beside them stand
scripts that fill what has room for so many and no more, scripts with one word nearly right, a worked script cut after
each of its bytes, and all worked scripts, whose reports the reading itself must give. Fails also where
the scripts of the first seed came too seldom to what they should try.
"""
import argparse
import collections
import concurrent.futures
import functools
import pathlib
import random
import re
import subprocess
import sys
import tempfile

import reading_of_rules as reading
import seeds
from program import TOP, program_of

ROWS = TOP / "crates/ray_actors/rows"
CUT = ROWS / "one_packet_for_good.actors"

MAX_SHOWN = 5

EDGE_INTS = [0, 1, -1, 2**63 - 1, 2**63 - 2, -(2**63), -(2**63) + 1]
EDGE_NUMBERS = [0, 1, 2, 65_535, 65_536, 2**31, 2**32 - 1]
KEYS = ['"k"', '"x"', '"y"', '"""', '"a"b"', '"%s"' % ("~" * 64), '"!"', '"@0"', '"unit"']
# Words that nearly spell what stands at a place, or do so at an edge, by the first byte of the word there.
NEARLY = {
    "c": ["c0", "c17", "c01", "c16", "c1", "c99", "C1", "c", "c160"],
    "a": ["a0", "a9", "a8", "a10", "a01", "A1", "a", "a1 "],
    '"': ['"', '""', '"x', 'x"', '"%s"' % ("x" * 64), '"%s"' % ("x" * 65), '"""', '"a"b"', '"\x7f"', '"x y"', "'x'"],
    "@": ["@", "@00", "@01", "@-1", "@+1", "@4294967295", "@4294967296", "@@0", "@c1.0", "@ 0"],
    "0": ["05", "00", "-0", "+1", "-", "1.0", "0x1", "1_0", "4294967295", "4294967296", "-1", "-01", "0", "65536", "65537"],
    "9": ["9223372036854775807", "9223372036854775808", "-9223372036854775808", "-9223372036854775809", "unit", "Unit", "9" * 400],
    "m": ["Max", "ma", "maxx", "min", "max=", "c2"],
    "w": ["await", "terminate", "terminat", "unit", "counters", "Get", "ge", "list", "#", "actor", "take"],
}
COMMENT_BYTES = "\0\x08\t\r\x1f ~\x7f\x80\xff#"
FOREIGN = ["await c1 0", "submit c1 a1 Terminate", "actor a1 counter", "actor", "run", "retire a1 ", " take a1", "take a1 a2"]
GOOD_LIMITS = [1, 1, 1, 2, 2, 3, 65_535, 65_536]
BAD_LIMITS = ["0", "65537", "01", "-1", "+1", "4294967296", "9" * 400, "", "unit", "@1", '"1"', "1 1", "1 max 1"]
ODD_BYTES = b" \n\t\r\0\x1f\x7e\x7f\x80\xff#\"@-+.019ac"

# Each event: how often it is tried, and what follows its word: a caller, an actor or a number.
EVENTS = {
    "submit": (24, "ca"), "send": (22, "cn"), "deliver": (22, "n"), "run": (22, "ac"), "collect": (16, "n"), "copy": (2, "ca"),
    "release": (2, "ca"), "kill": (3, "ca"), "take": (6, "a"), "tell": (12, "ac"), "retire": (3, "a"),
}  # fmt: skip


class Author:
    """Writes a valid script, with the reading's world beside it to see what can happen next. A long one has few callers
    and actors, and lets states grow."""

    is_long = False

    def __init__(self, chance):
        self.chance = chance
        self.lines = []
        self.limits = chance.choice([0, 0, 0.5, 1])
        self.is_long = chance.random() < 1 / 7
        sizes = [1, 1, 2] if self.is_long else [1, 1, 2, 2, 3, 5]
        self.pool = chance.sample(range(1, 17), chance.choice(sizes))
        actors = chance.sample(range(1, 9), chance.choice(sizes))
        self.world = reading.World([self.role(actor) for actor in actors])
        self.pairs = [(caller, actor) for caller, named in self.world.callers.items() for actor in named.copies]
        self.collected = set()
        self.eager = chance.choice([0, 0.2, 0.5, 0.8])
        self.futures = chance.choice([0, 0.1, 0.4])
        self.ends = chance.choice([0, 0.03, 0.1])
        if self.is_long:
            self.eager, self.futures, self.ends = 0.95, 0.2, 0

    def role(self, actor):
        kind = self.chance.choice(sorted(reading.KINDS))
        callers = self.chance.sample(self.pool, self.chance.randint(1, len(self.pool)))
        limit = self.chance.choice(GOOD_LIMITS) if self.chance.random() < self.limits else None
        told = [] if limit is None else ["max", str(limit)]
        self.lines.append(" ".join(["actor", f"a{actor}", kind, *told, *(f"c{caller}" for caller in callers)]))
        return actor, kind, limit, callers

    def write(self, line):
        self.lines.append(line)
        return self.world.after(*reading.read_words(line.split(" ")))

    # What can happen next.

    def is_new(self, letter):
        """It would arrive, and hasn't yet."""
        actor = self.world.actors[letter.actor]
        if actor.stage != "live":
            return False
        if isinstance(letter, reading.Note):
            return letter.caller not in actor.notes
        return (letter.caller, letter.number) not in actor.arrived

    def urgency(self, call):
        """How much there is in sending this call: most where it can go, a little where it was never sent."""
        calls = self.world.callers[call.caller].calls
        waits = any(isinstance(each, reading.Future) and calls[each.number].kept is None for each in call.arguments)
        return 0 if call.sent else 1 if waits or call.kept is not None else 4

    def standing(self, stage):
        return [(caller, actor) for caller, actor in self.pairs if self.world.actors[actor].stage == stage]

    def prospects(self):
        """For each event what may follow its word, so that it does something."""
        world = self.world
        held = [(caller, actor) for caller, actor in self.pairs if world.callers[caller].copies[actor]]
        live = {name: actor for name, actor in world.actors.items() if actor.stage == "live"}
        calls = [call for caller in world.callers.values() for call in caller.calls]
        return {
            "submit": held,
            "copy": held,
            "release": held,
            "kill": held,
            "send": [(call.caller, call.future) for call in calls for _ in range(self.urgency(call))],
            "deliver": [(place,) for place, letter in enumerate(world.mail) if self.is_new(letter)],
            "run": [(actor, caller) for caller, actor in self.standing("live") if live[actor].next_call(caller)],
            "collect": [(place,) for place in range(len(world.notices)) if place not in self.collected],
            "take": [(name,) for name, actor in live.items() if actor.kill_asked],
            "tell": [(actor, caller) for caller, actor in self.standing("dead")],
            "retire": [(name,) for name, actor in live.items() if actor.is_drained()],
        }

    def astray(self, form):
        """Anything that may follow: what is there, or what isn't."""
        most = len(self.world.mail) + 2
        choices = {
            "c": [*self.pool, *self.pool, self.chance.randint(1, 16)],
            "a": [*self.world.actors, *self.world.actors, self.chance.randint(1, 8)],
            "n": [self.chance.randrange(most), self.chance.randrange(most), self.chance.choice(EDGE_NUMBERS)],
        }
        return [self.chance.choice(choices[each]) for each in form]

    # The events.

    def number(self):
        """Mostly a small one, so that balances and places meet their edges."""
        small = [self.chance.randint(-1, 3), self.chance.randint(1, 3), self.chance.randint(-9, 99)]
        return self.chance.choice([*small, self.chance.choice(EDGE_INTS)])

    def future(self, calls):
        """A future of these calls, and rather one that has an answer or even a fault."""
        answered = [call for call in calls if call.kept is not None]
        failed = [call for call in answered if isinstance(call.kept, reading.Fault)]
        some = [answered or calls, failed or calls] if self.is_long else [calls, answered or calls, failed or calls, failed or calls]
        return self.chance.choice(self.chance.choice(some)).future

    def argument(self, form, calls):
        """An argument of that form; at times a future, or one of another form."""
        if calls and self.chance.random() < self.futures:
            return f"@{self.future(calls)}"
        draw = self.chance.random()
        if draw < 0.02:
            return f"@{self.chance.choice([len(calls), len(calls) + 1, 2**32 - 1])}"
        if draw < 0.09:
            return self.chance.choice(["unit", "unit", '"t"', "1"])
        if form == "k" or form == "v" and draw < 0.5:
            return self.chance.choice(KEYS[:2] if self.chance.random() < 0.7 and not self.is_long else KEYS)
        return str(self.number())

    def end(self, caller, actor):
        """A call that ends the actor; or doesn't, since it has an argument."""
        calls = self.world.callers[caller].calls if caller in self.world.callers else []
        arguments = [self.argument("n", calls) for _ in range(self.chance.choice([0, 0, 0, 1, 2]))]
        return self.write(" ".join(["submit", f"c{caller}", f"a{actor}", reading.END, *arguments]))

    def submit(self, caller, actor):
        if self.chance.random() < self.ends:
            return self.end(caller, actor)
        methods = self.world.actors[actor].kind.methods if actor in self.world.actors else {}
        known = methods and self.chance.random() < 0.93
        growing = [each for each in ("add", "put", "deposit", "push") if each in methods]
        method = self.chance.choice(sorted(methods) + (8 if self.is_long else 2) * growing if known else sorted(reading.METHODS))
        forms = methods[method][0] if method in methods else "n"
        if self.chance.random() < 0.08:
            forms += "nkvnkvnkv"[: self.chance.choice([1, 1, 1, 2, 3, 4, 9])]
        elif self.chance.random() < 0.03:
            forms = forms[1:]
        calls = self.world.callers[caller].calls if caller in self.world.callers else []
        arguments = [self.argument(form, calls) for form in forms]
        return self.write(" ".join(["submit", f"c{caller}", f"a{actor}", method, *arguments]))

    def through(self):
        """A call from its submission to its kept answer, as far as it comes."""
        held = [(caller, actor) for caller, actor in self.standing("live") if self.world.callers[caller].copies[actor]]
        if not held:
            return
        caller, actor = self.chance.choice(held)
        if self.submit(caller, actor).startswith("future"):
            future = len(self.world.callers[caller].calls) - 1
            if self.write(f"send c{caller} {future}").startswith("mail"):
                self.write(f"deliver {len(self.world.mail) - 1}")
                if self.write(f"run a{actor} c{caller}").startswith("place") and (self.is_long or self.chance.random() < 0.8):
                    self.write(f"collect {len(self.world.notices) - 1}")

    def event(self, weights):
        prospects = self.prospects()
        sorts = [sort for sort in EVENTS if prospects[sort] or self.chance.random() < 0.1]
        sort = self.chance.choices(sorts, [weights[sort] for sort in sorts])[0] if sorts else "submit"
        form = EVENTS[sort][1]
        good = prospects[sort] and self.chance.random() < 0.9
        values = self.chance.choice(prospects[sort]) if good else self.astray(form)
        if sort == "submit":
            return self.submit(*values)
        if sort == "collect":
            self.collected.add(*values)
        words = [str(value) if each == "n" else f"{each}{value}" for each, value in zip(form, values)]
        return self.write(" ".join([sort, *words]))

    def events(self, count):
        """Up to that many lines; each script likes some sorts of events more than others."""
        weights = {sort: weight * self.chance.choice([0.3, 1, 1, 3]) for sort, (weight, _) in EVENTS.items()}
        if self.is_long:
            weights |= dict.fromkeys(["release", "kill", "take"], 0.05)
        while len(self.lines) < count:
            self.event(weights)
            if self.chance.random() < self.eager:
                self.through()
            if self.chance.random() < 0.02:
                self.lines.append(self.chance.choice(["", "#", "# a remark", "#" + "x" * 511]))

    def closing(self):
        """Releases all, brings all, runs what it can, and lets actors retire."""
        for caller, actor in self.pairs:
            for _ in range(self.world.callers[caller].copies[actor]):
                self.write(f"release c{caller} a{actor}")
        for caller, future in sorted(set(self.prospects()["send"])):
            self.write(f"send c{caller} {future}")
        for (place,) in self.prospects()["deliver"]:
            self.write(f"deliver {place}")
        while self.prospects()["run"]:
            self.write("run a%d c%d" % self.prospects()["run"][0])
        for actor in self.world.actors:
            self.write(f"retire a{actor}")

    def script(self):
        self.events(self.chance.randint(150, 400) if self.is_long else self.chance.randint(0, 70))
        if self.chance.random() < 0.15:
            self.closing()
        return "\n".join(self.lines) + ("" if self.chance.random() < 0.1 else "\n")


# Damage. Each takes lines and gives lines, but the last two, which take and give bytes.


def changed_words(change):
    """Damage to the words of one line."""

    def damage(chance, lines):
        place = chance.randrange(len(lines))
        words = lines[place].split(" ")
        change(chance, words)
        return lines[:place] + [" ".join(words)] + lines[place + 1 :]

    return damage


def swap_words(chance, words):
    one, other = chance.randrange(len(words)), chance.randrange(len(words))
    words[one], words[other] = words[other], words[one]


def drop_word(chance, words):
    words.pop(chance.randrange(len(words)))


def sorts_of(word, place):
    """The lists of nearly right words for this one, at its place in the line."""
    first = word[:1]
    if first.isdigit() or first == "-":
        return ["0", "9"]
    if word == "max":
        return ["m"]
    of_its_own = first in NEARLY and (first in '"@' or word[1:].isdigit())
    return [first] if place and of_its_own else ["w"]


def near_word(chance, words):
    place = chance.randrange(len(words))
    words[place] = chance.choice(NEARLY[chance.choice(sorts_of(words[place], place))])


def double_word(chance, words):
    words.append(words[chance.randrange(len(words))])


def add_space(chance, words):
    words.insert(chance.choice([0, len(words), chance.randint(0, len(words))]), "")


def pad(chance, words):
    """Makes the line as long as a line may be, or one byte longer, with words that any call may have."""
    length = chance.choice([512, 513])
    words[:] = [LONG_CALL[:length] if chance.random() < 0.5 else ("#" + "x" * 600)[:length]]


def callers_of_role(words):
    """Where the callers begin in the words of a role."""
    return 5 if words[3:4] == ["max"] else 3


def double_caller(chance, lines):
    """A caller twice in the first role."""
    words = lines[0].split(" ")
    begin = callers_of_role(words)
    words.insert(chance.randint(begin, len(words)) if len(words) > begin else 0, words[-1])
    return [" ".join(words), *lines[1:]]


def bad_limit(chance, lines):
    """A limit that is none, or one at a place that has none, in one of the roles."""
    place = chance.choice([place for place, line in enumerate(lines) if line.startswith("actor ")] or [0])
    words = lines[place].split(" ")
    begin = callers_of_role(words)
    limits = [["max", chance.choice(BAD_LIMITS)], ["max", chance.choice(BAD_LIMITS)], ["max"], [str(chance.choice(GOOD_LIMITS))]]
    if chance.random() < 0.8:
        words = words[:3] + chance.choice(limits) + words[begin:]
    else:
        words = words[:3] + words[begin:] + ["max", "1"]
    return lines[:place] + [" ".join(words)] + lines[place + 1 :]


def double_line(chance, lines):
    line = chance.choice(lines)
    at = chance.randint(0, len(lines))
    return lines[:at] + [line] + lines[at:]


def swap_lines(chance, lines):
    lines = list(lines)
    one, other = chance.randrange(len(lines)), chance.randrange(len(lines))
    lines[one], lines[other] = lines[other], lines[one]
    return lines


def another_role(chance, lines):
    """A role late, or beside the others: often of an actor that has one, with callers that may stand twice."""
    role = lines[0].split(" ")[:2] if chance.random() < 0.6 else ["actor", f"a{chance.randint(1, 8)}"]
    callers = [f"c{chance.randint(1, 16)}" for _ in range(chance.choice([1, 2, 6]))]
    limit = chance.choice([[], [], ["max", str(chance.choice(GOOD_LIMITS))]])
    line = " ".join([*role, chance.choice(sorted(reading.KINDS)), *limit, *callers, *callers[: chance.randint(0, 1)]])
    at = chance.choice([1, chance.randint(0, len(lines))])
    return lines[:at] + [line] + lines[at:]


def odd_comment(chance, lines):
    at = chance.randint(0, len(lines))
    return lines[:at] + [f"# {chance.choice(COMMENT_BYTES)}"] + lines[at:]


def odd_end(chance, lines):
    """A line that ends with a byte too many."""
    at = chance.randrange(len(lines))
    return lines[:at] + [lines[at] + chance.choice(COMMENT_BYTES)] + lines[at + 1 :]


def foreign_line(chance, lines):
    line = chance.choice(FOREIGN)
    at = chance.randint(0, len(lines))
    return lines[:at] + [line] + lines[at:]


def change_byte(chance, data):
    at = chance.randrange(len(data))
    byte = chance.choice(ODD_BYTES) if chance.random() < 0.7 else chance.randrange(256)
    return data[:at] + bytes([byte]) + data[at + chance.randint(0, 1) :]


def cut(chance, data):
    return data[: chance.randrange(len(data))]


TO_WORDS = [swap_words, drop_word, near_word, near_word, near_word, near_word, double_word, add_space, pad]
DAMAGE_TO_LINES = [changed_words(change) for change in TO_WORDS]
DAMAGE_TO_LINES += [double_caller, bad_limit, odd_comment, odd_end, double_line, swap_lines, another_role, another_role, foreign_line]
DAMAGE_TO_BYTES = [change_byte, change_byte, cut]


def damaged(chance, text):
    lines = text.split("\n")
    for _ in range(chance.choice([0, 1, 1, 1, 2])):
        lines = chance.choice(DAMAGE_TO_LINES)(chance, lines)
    data = "\n".join(lines).encode("latin-1")
    if data and chance.random() < 0.3:
        data = chance.choice(DAMAGE_TO_BYTES)(chance, data)
    return data


def random_script(seed, place):
    chance = random.Random(f"{seed}.{place}")
    text = Author(chance).script()
    return damaged(chance, text) if chance.random() < 1 / 3 else text.encode()


def random_scripts(seed, count):
    """So many scripts of a seed, by name."""
    return {f"script {place} of seed {seed}": random_script(seed, place) for place in range(count)}


EVERY_FORM = """actor a1 counter c1
actor a2 table c1 c2
actor a3 list max 1 c1 c2
submit c1 a1 add 5
submit c1 a2 put "k" @0
submit c1 a3 len
submit c1 a3 len
submit c1 a1 terminate
copy c1 a1
release c1 a1
send c1 0
deliver 0
run a1 c1
collect 0
kill c1 a1
take a1
tell a1 c1
retire a2"""


LONG_CALL = "submit c1 a1 push" + " 1" * 300


def near_misses():
    """The script above with each word in turn left out, doubled or nearly right; and with an odd last line."""
    lines = EVERY_FORM.split("\n")
    for at, line in enumerate(lines):
        words = line.split(" ")
        for place, word in enumerate(words):
            near = [[each] for sort in sorts_of(word, place) for each in NEARLY[sort]]
            for instead in [*near, [], [word, word], ["", word], [word, ""]]:
                changed = " ".join(words[:place] + instead + words[place + 1 :])
                script = "\n".join(lines[:at] + [changed] + lines[at + 1 :])
                yield f"line {at + 1} as {changed!r}", script.encode("latin-1")
    for byte in COMMENT_BYTES:
        for line in f"# {byte}", f"take a1{byte}", byte:
            yield f"a last line {line!r}", f"{EVERY_FORM}\n{line}".encode("latin-1")
    for line in "#" + "x" * 511, "#" + "x" * 512, LONG_CALL[:512], LONG_CALL[:513]:
        yield f"a last line of {len(line)} bytes, {line[:6]}", f"{EVERY_FORM}\n{line}\n".encode()


# Scripts that fill what has room for so many and no more, and go on.


def called(number, line):
    """A call from its submission to its kept answer, the only caller's call of this number."""
    return [line, f"send c1 {number}", f"deliver {number}", f"run a1 c1", f"collect {number}"]


def filled(chance, kind, fill, more):
    """A kind that is filled by so many calls, and further calls, some of them where it is full."""
    calls = [*fill, *(chance.choice(more) for _ in range(40)), more[0]]
    lines = [line for number, call in enumerate(calls) for line in called(number, f"submit c1 a1 {call}")]
    return "\n".join([f"actor a1 {kind} c1", *lines, ""]).encode()


def full_table(chance):
    keys = [f'"{place}"' for place in chance.sample(range(10_000), reading.MAX_KEYS + 3)]
    known = chance.choice(keys[: reading.MAX_KEYS])
    more = [f"put {key} {chance.randint(0, 9)}" for key in [keys[-1], keys[-2], keys[-3], known]]
    fill = [f"put {key} {chance.randint(0, 9)}" for key in keys[: reading.MAX_KEYS]]
    return filled(chance, "table", fill, [*more, f"del {known}", f"get {known}", "size"])


def full_list(chance):
    fill = [f"push {chance.randint(0, 9)}" for _ in range(reading.MAX_ITEMS)]
    return filled(chance, "list", fill, ["push 1", "push 2", "pop", "len", f"at {reading.MAX_ITEMS - 1}"])


def all_copies(chance):
    """All copies that a caller can hold, and a few steps more."""
    more = [chance.choice(["copy c1 a1", "release c1 a1"]) for _ in range(20)]
    return "\n".join(["actor a1 counter c1", *["copy c1 a1"] * reading.MAX_COPIES, *more, "copy c1 a1", ""]).encode()


def full_scripts(seed):
    for make in full_table, full_list, all_copies:
        yield f"{make.__name__} of seed {seed}", make(random.Random(f"{make.__name__} {seed}"))


FULL = {"answer KindFull": 2, "refused TooManyCopies": 1}  # how many of these three come to it


# What the scripts come to: of a thousand random ones, at least so many must tell each of these. About half of what they do.
FLOORS = {
    "future": 400, "copies": 100, "mail": 400, "new": 350, "repeat": 30, "place": 300, "gap": 150, "reply": 60, "kept": 250,
    "late": 100, "died": 40, "asked": 150, "dead": 80, "retired": 60,
    "BadLine": 90, "LateActor": 3, "TwiceActor": 2, "TwiceCaller": 6,
    "refused NoCaller": 120, "refused NoActor": 100, "refused NoHandle": 25, "refused TooManyArgs": 50, "refused BadFuture": 35,
    "refused NoFuture": 60, "refused NotReady": 60, "refused Answered": 15, "refused NoMail": 80, "refused ActorEnded": 40,
    "refused NoReply": 80, "refused NoKill": 20, "refused NotDead": 40, "refused NotDrained": 30, "refused PendingLimit": 80,
    "answer NoMethod": 20, "answer BadArgs": 50, "answer Overflow": 3, "answer NoKey": 20, "answer BadAmount": 15,
    "answer Insufficient": 8, "answer NoItems": 10, "answer NoItem": 12, "answer Dependency": 10, "answer ActorDied": 30, "answer unit": 30,
    "an end": 30, "an end with an argument": 15, "BadLine of a limit": 8,
    "a place from 20 on": 10, "a future from 10 on": 80, "a letter from 20 on": 30, "a reply from 20 on": 15,
    "Dependency from 10 on": 5, "a list of 7 items": 3, "a table of 4 pairs": 2,
}  # fmt: skip


@functools.cache
def played(script):
    return reading.play(script)


MANY = [("place", 20, "a place"), ("future", 10, "a future"), ("mail", 20, "a letter"), ("reply", 20, "a reply")]
SIZES = {"list": (7, 1, "items"), "table": (4, 2, "pairs")}


def reached(script, report):
    """The sorts of lines in a report; and whether its fault is that of a line with a limit."""
    fault = re.fullmatch(rb"line ([0-9]+): BadLine\n", report)
    if fault and b" max" in script.split(b"\n")[int(fault[1]) - 1]:
        yield "BadLine of a limit"
    for line in report.decode().splitlines():
        head, _, rest = line.partition(": ")
        if rest:
            words = rest.split(" ")
            yield rest if words[0] == "refused" else words[0]
            yield from large_numbers(words)
        else:
            yield from reached_in_summary(line)


def large_numbers(words):
    """Which numbers of an outcome have two digits, or are from 20 on: of a future `c1.10` the 10."""
    numbers = dict(zip(words[::2], words[1::2]))
    for word, least, name in MANY:
        if word in numbers and int(numbers[word].rpartition(".")[2]) >= least:
            yield f"{name} from {least} on"


def reached_in_summary(line):
    """What a line of a summary comes to."""
    words = line.split(" ")
    if words[2:3] == ["="]:
        yield "answer " + words[3].partition("(")[0]
        if re.fullmatch(r"Dependency\([0-9]{2,}\)", words[3]):
            yield "Dependency from 10 on"
    elif words[2:3] == [reading.END]:
        yield "an end" if len(words) == 3 else "an end with an argument"
    elif words[2:3] and words[2] in SIZES:
        least, width, name = SIZES[words[2]]
        if len(words[3:]) >= least * width:
            yield f"a {words[2]} of {least} {name}"


def tally(scripts):
    """How many of the scripts come to each sort."""
    return collections.Counter(sort for script in scripts for sort in set(reached(script, played(script)[0])))


def too_seldom(scripts, full):
    """What fewer of the scripts come to than should, and what no script comes to that fills something."""
    tallies, of_full = tally(scripts), tally(full)
    for sort, floor in FLOORS.items():
        if tallies[sort] < floor * len(scripts) // 1000:
            yield f"only {tallies[sort]} of {len(scripts)} scripts came to '{sort}'"
    for sort, count in FULL.items():
        if of_full[sort] != count:
            yield f"{of_full[sort]} of the scripts that fill something came to '{sort}', and not {count}"


# The comparison.


def worked_rows():
    """Where the reading itself goes wrong on a worked script, and how many there are."""
    rows = sorted(ROWS.glob("*.actors"))
    wrong = []
    for path in rows:
        status = path.with_suffix(".status")
        wanted = path.with_suffix(".report").read_bytes(), int(status.read_text()) if status.exists() else 0
        got = reading.play(path.read_bytes())
        if got != wanted:
            wrong.append(f"the reading goes wrong on {path.name}: got {got!r:.600}, wanted {wanted!r:.600}")
    return len(rows), wrong


def run(program, script):
    """Report and status of one run of the program; with what stood on standard error, where there was any."""
    try:
        done = subprocess.run([program, "play"], input=script, capture_output=True, timeout=60)
    except subprocess.TimeoutExpired:
        return b"", "no end within 60 seconds"
    return done.stdout, done.returncode if not done.stderr else (done.returncode, done.stderr)


def show(name, script, got, wanted):
    """Keeps a script on which the two differ, and prints what each makes of it."""
    with tempfile.NamedTemporaryFile(prefix="fuzz-", suffix=".actors", delete=False) as kept:
        kept.write(script)
    print(f"{name} differs; the script is {kept.name}")
    for who, (report, status) in ("the program", got), ("the reading", wanted):
        print(f"  {who}, status {status}:")
        print("".join(f"    {line!r}\n" for line in report.split(b"\n")), end="")


def differences(program, scripts):
    """How many scripts the program and the reading differ on; the first few are shown."""
    differing = 0
    with concurrent.futures.ThreadPoolExecutor(max_workers=4) as pool:
        gots = pool.map(lambda script: run(program, script), scripts.values())
        for (name, script), got in zip(scripts.items(), gots):
            wanted = played(script)
            if got != wanted:
                differing += 1
                if differing <= MAX_SHOWN:
                    show(name, script, got, wanted)
    return differing


def chosen_options():
    options = argparse.ArgumentParser(description=__doc__.splitlines()[0])
    options.add_argument("--seed", type=int, help="this seed alone")
    options.add_argument("--count", type=int, default=600, help="how many random scripts of each seed")
    options.add_argument("--program", type=pathlib.Path, help="run this one, and not the one that ./run takes")
    chosen = options.parse_args()
    if chosen.count < 100:
        options.error("fewer than 100 scripts don't come to all that they should try")
    chosen.program = program_of("fuzz", chosen.program)
    return chosen


def main():
    chosen = chosen_options()
    rows, failures = worked_rows()
    taken = seeds.chosen(chosen.seed, "fuzz")
    first, *further = [random_scripts(seed, chosen.count) for seed in taken]
    full = dict(full_scripts(taken[-1]))
    whole = CUT.read_bytes()
    cuts = {f"{CUT.name} cut after {length} bytes": whole[:length] for length in range(len(whole) + 1)}
    scripts = {name: script for part in (first, *further, full, dict(near_misses()), cuts) for name, script in part.items()}
    failures += too_seldom(first.values(), full.values())
    print("".join(f"{failure}\n" for failure in failures), end="")
    failed = len(failures) + differences(chosen.program, scripts)
    passed = rows + len(FLOORS) + len(FULL) + len(scripts) - failed
    print(f"fuzz: {passed} passed, {failed} failed")
    sys.exit(1 if failed else 0)


if __name__ == "__main__":
    main()
