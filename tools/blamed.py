"""Judges what `ray_commands check` tells of a history that has no play: a mistake with status 1, or reasons with status 5.

A module of tools/check_histories.py. Mistakes are found here once more, as docs/rules.md tells them. A reason must show at
the line of which it speaks. And where the history is the report of a run that was damaged, a reason must name what was
damaged: where that is mended, the fault is gone or another one is told.
"""
import difflib
import re

import reading_of_rules as reading

PLAY, MISTAKE, REFUSED = 0, 1, 5
NAME = re.compile(r"\b(?:[ac][1-9][0-9]?[.][0-9]+|a[1-9])\b")
NUMBER = "(0|[1-9][0-9]*)"
CALL, PLACE = f"c([1-9][0-9]?)[.]{NUMBER}", f"a([1-8])[.]{NUMBER}"


# The forms of the lines that tell what was left.


def read_settled(word):
    return reading.read_number(word[1:]) if word.startswith("!") else reading.read_value(word)


def read_told(line):
    """A line of a history: a future, an end or an item, with what it tells; raises BadWord."""
    words = line.split(" ")
    future, item = re.fullmatch(CALL, words[0]), re.fullmatch(PLACE, words[0])
    if future and (words[2:] == ["?"] or words[2:3] == ["="] and len(words) == 4):
        for word in words[3:]:
            word == "*" or reading.read_answer(word)
        return "future", reading.read_caller(f"c{future[1]}"), reading.read_number(future[2]), reading.read_actor(words[1])
    if item and len(words) > 2 and (call := re.fullmatch(CALL, words[1])):
        reading.read_method(words[2])
        for word in words[3:]:
            read_settled(word)
        return "item", int(item[1]), reading.read_number(item[2]), reading.read_caller(f"c{call[1]}"), reading.read_number(call[2])
    if len(words) > 1 and re.fullmatch("a[1-8]", words[0]):
        if words[1:] in (["dead"], ["live", "?"], ["retired", "?"]):
            return "end", int(words[0][1:]), None
        if words[1] in ("live", "retired") and words[2:3] and words[2] in reading.KINDS:
            for word in words[3:]:
                reading.read_value(word)  # whether the kind has such a state is told as a reason
            return "end", int(words[0][1:]), words[2]
    raise reading.BadWord


# Mistakes.


class Mistakes:
    """The mistakes of a history, each as its line and its name: of the first line that has some all of them; else of
    the first call, by rising numbers, whose future isn't told; else of an actor whose end isn't."""

    def __init__(self, front, lines):
        self.script = reading.read_script(front, reading.THREAD_FORMS)
        self.kinds = {actor: kind for actor, kind, *_ in self.script.roles}
        self.callers = {caller for *_, callers in self.script.roles for caller in callers}
        self.submits = {}  # of each caller the line and the actor of each call that a step submits
        for number, (verb, spelt) in zip(self.script.lines, self.script.events):
            if verb == "submit":
                self.submits.setdefault(spelt[0], []).append((number, spelt[1]))
        self.first = front.count(b"\n") + 1
        self.lines = lines
        self.before = None  # what the line before told
        self.futures, self.ends = set(), set()

    def found(self):
        for number, line in enumerate(self.lines, self.first):
            if line and not line.startswith("#"):
                names = set(self.of_line(line))
                if names:
                    return {(number, name) for name in names}
        calls = [(line, c, k) for c, calls in sorted(self.submits.items()) for k, (line, _) in enumerate(calls)]
        missing = [(line, "NoFuture") for line, c, k in calls if (c, k) not in self.futures]
        return set(missing[:1]) or {(0, "NoEnd") for actor in self.kinds if actor not in self.ends}

    def of_line(self, line):
        try:
            told = read_told(line)
        except reading.BadWord:
            yield "BadLine"
            return
        if not self.follows(told):
            yield "OutOfOrder"
        yield from getattr(self, f"of_{told[0]}")(*told[1:])
        self.before = told

    def follows(self, told):
        """Whether a line may come after the one before."""
        sort, before = told[0], self.before or ("none",)
        if sort == "future":
            last = before[1:3] if before[0] == "future" else (0, 0)
            return before[0] in ("none", "future") and (told[1:3] == (last[0], last[1] + 1) or told[1] > last[0] and told[2] == 0)
        if sort == "end":
            return before[0] in ("none", "future") or told[1] > before[1]
        return before[:2] == ("end", told[1]) and told[2] == 0 or before[:3] == ("item", told[1], told[2] - 1)

    def of_future(self, caller, future, actor):
        self.futures.add((caller, future))
        if caller not in self.callers or actor not in self.kinds:
            yield "NoRole"
        calls = self.submits.get(caller, [])
        if calls and future >= len(calls):
            yield "NotSubmitted"
        elif calls and calls[future][1] != actor:
            yield "OtherActor"

    def of_end(self, actor, kind):
        self.ends.add(actor)
        if actor not in self.kinds:
            yield "NoRole"
        elif kind not in (None, self.kinds[actor]):
            yield "OtherKind"

    def of_item(self, actor, place, caller, future):
        """That no role names the caller is told as a reason: such a call has no line."""
        if actor not in self.kinds:
            yield "NoRole"


def misread(front, lines, status, told):
    """What is wrong with a verdict where the history has mistakes, or is said to have one."""
    mistakes = Mistakes(front, lines).found()
    if not mistakes:
        return f"status 1, and no line is a mistake: {told}" if status == MISTAKE else None
    if status != MISTAKE:
        return f"status {status}, where a mistake is due: {sorted(mistakes)}"
    found = re.match(r"line ([0-9]+): (\w+)", told)
    if not found or (int(found[1]), found[2]) not in mistakes:
        return f"{told!r} is told, and the mistake is one of {sorted(mistakes)}"
    return None


# Reasons.

# What is said, and of which line: one that begins with that name, or a future or an item of that call.
BEGINS = [
    "(a[1-8])[.][0-9]+ is a terminate, so its actor is dead$", f"a[1-8] retired, and didn't run ({CALL})$", f"({PLACE}) is ",
    f"({PLACE}) skips ", f"({PLACE}) runs ", f"({PLACE}) isn't ", f"the (?:arguments|answer) at ({PLACE}) (?:are|is) ",
    f"({CALL}) has an answer, and ", f"({CALL}) has ActorDied, and ", f"({CALL}) has no answer$",
    "(a[1-8]) is dead, and its callers ",
]  # fmt: skip
HAS = [f"({CALL}) takes the answer of ", f"({CALL}) waits for "]
# What is said of a step, and the step.
OF_STEPS = [
    (re.compile(rf"c[0-9]+(?:[.][0-9]+)? waits for the answer of {CALL}, by this await"), r"await c\1 \2"),
    (re.compile(r"(a[1-8]) is dead, and waits for this kill of (c[1-9][0-9]?)"), r"kill \2 \1"),
]


def names_of(line):
    """The names of a line: a future, a place with its call, or an actor."""
    words = line.split(" ")
    return set(NAME.findall(words[0])) | set(NAME.findall(" ".join(words[1:2])) if words[0].startswith("a") else [])


def first_of(patterns, reason):
    """The name of which a reason speaks, if it is one of these."""
    found = next(filter(None, (re.match(pattern, reason) for pattern in patterns)), None)
    return next(each for each in found.groups() if each and NAME.fullmatch(each)) if found else None


def shows(line, reason):
    """Whether a reason shows at this line."""
    if ", and by the rules: " in reason:
        return reason.startswith(f"{line}, and by the rules: ")
    both = re.match(f"{CALL} has no answer, and the death that answered {CALL} answers both$", reason)
    if both:  # it shows at the second of the two lines
        return both[1] == both[3] and line.startswith(f"c{both[1]}.{max(int(both[2]), int(both[4]))} ")
    begins, has = first_of(BEGINS, reason), first_of(HAS, reason)
    return line.startswith(f"{begins} ") if begins else has in names_of(line)


# What is told of another line: a place, the line that submits a call, and the one that tells the answer at a place.
OTHER_PLACE = re.compile(rf"(?:, which runs at|again, after) ({PLACE}) [(]line ([0-9]+)[)]$")
SUBMITTED = re.compile(rf"isn't {CALL} as it was submitted [(]line ([0-9]+)[)]$")
OTHER_ANSWER = re.compile(rf"the answer at ({PLACE}) is .* by the rules, and the history tells (.*) [(]line ([0-9]+)[)]$")


def shows_beside(reason, line, whole):
    """Whether the other line that a reason tells of, if it does, is the right one of the whole history."""
    if found := OTHER_PLACE.search(reason):
        return whole[int(found[4]) - 1].startswith(f"{found[1]} ")
    if found := SUBMITTED.search(reason):
        steps = [number for number, each in enumerate(whole, 1) if each.startswith(f"submit c{found[1]} ")]
        return steps[int(found[2]) :][:1] == [int(found[3])]
    if found := OTHER_ANSWER.fullmatch(reason):
        told = whole[int(found[5]) - 1].split(" ")
        return told[0] == line.split(" ")[1] and told[2:] == ["=", found[4]]
    return True


def reasons_of(text):
    """The lines that are told, each as a number and what is said of that line."""
    found = [re.fullmatch(r"line ([0-9]+): (.*)", line) for line in text.splitlines()]
    return [(int(each[1]), each[2]) for each in found] if all(found) else []


def step_of(reason):
    """The step of which a reason speaks, if it speaks of one."""
    found = ((pattern.fullmatch(reason), step) for pattern, step in OF_STEPS)
    return next((match.expand(step) for match, step in found if match), None)


def misplaced(front, lines, text):
    """What is wrong with reasons, by the lines that they name."""
    reasons, first = reasons_of(text), front.count(b"\n") + 1
    if not reasons:
        return f"no reason is told: {text!r:.300}"
    steps = front.decode("latin-1").split("\n")
    for number, reason in reasons:
        step = step_of(reason)
        if step:
            if not 0 < number < first or steps[number - 1] != step:
                return f"line {number} isn't '{step}', and told of it is: {reason}"
            continue
        if not first <= number < first + len(lines):
            return f"line {number} tells nothing of what was left: {reason}"
        if not shows(lines[number - first], reason):
            return f"line {number} is {lines[number - first]!r}, and told of it is: {reason}"
        if not shows_beside(reason, lines[number - first], steps[:-1] + lines):
            return f"another line than this one is told: {reason}"
    return None


def mended(front, lines, right, text):
    """The lines with that mended which the reasons name: where they differ from the right ones, such differences are
    taken back. Nothing, where the reasons name none."""
    reasons, first = reasons_of(text), front.count(b"\n") + 1
    named = {name for _, reason in reasons for name in NAME.findall(reason)}
    named |= {name for number, _ in reasons if number >= first for name in names_of(lines[number - first])}
    made, is_mended = [], False
    for tag, begin, end, right_begin, right_end in difflib.SequenceMatcher(None, lines, right, autojunk=False).get_opcodes():
        old, new = lines[begin:end], right[right_begin:right_end]
        takes = tag != "equal" and any(names_of(line) & named for line in old + new)
        is_mended |= takes
        made += new if takes else old
    return made if is_mended else None
