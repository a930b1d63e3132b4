#!/usr/bin/env python3
"""Checks what `ray_commands check` says of histories beside the second reading of the rules.

- Random plans are run in threads. What each run left has a play, with the script's submit lines or without them.
- The same reports are damaged, at one place each. A play is found only where the second reading knows of one, and no
  play only where it knows of none.
- Of both kinds of reports some answers and states are left open: the same of them.
- Small histories with run lists in any order, which may lead into a circle: the same of them. Others have run lists in
  which calls stand twice, elsewhere or not at all.
- Of each of these `check-all` tells every fault that tools/faults_told.py finds, letter by letter; and what `check` tells
  where it finds none.
- What must be told of a few histories, to the letter: circles, a call skipped, an answer that is another.

Wherever a play is found, the second reading plays it: no event is refused, it has the roles and the submit lines of the
history, and ends in its lines. Where none is, tools/blamed.py judges what is told: a mistake and its line are found once
more, and a reason shows at the line of which it speaks; of a damaged report it names what was damaged: with that as it
was in the run, the fault is gone or another one is told. That judge is tried itself: what was told with another line or
another status, and a reason that blames another call, must be wrong.
"""
import argparse
import collections
import concurrent.futures
import itertools
import pathlib
import random
import re
import subprocess
import sys

import blamed
import faults_told
import reading_of_rules as reading
import seeds
import threads
from blamed import MISTAKE, PLAY, REFUSED
from program import CHECKS, CHECKS_ALL, TOP, proved, program_of

AT_ONCE = 4
MAX_SECONDS = 60
MAX_SHOWN = 5
DAMAGES = 6  # of each report
TRIED = 60  # so many refusals of each seed are told otherwise


# Histories and plays.


def roles_of(script):
    return [line for line in script.split(b"\n") if line.startswith(b"actor ")]


def submits_of(script):
    """The submit lines of each caller, in order."""
    found = collections.defaultdict(list)
    for line in script.split(b"\n"):
        if line.startswith(b"submit "):
            found[line.split(b" ")[1]].append(line)
    return found


def lines_told(report):
    """The lines that a history tells of what was left: empty ones and comments are skipped."""
    return [line for line in report.split(b"\n") if line and not line.startswith(b"#")]


def with_end(script):
    return script if script.endswith(b"\n") or not script else script + b"\n"


def without_plans(script):
    return b"".join(line + b"\n" for line in roles_of(script))


def wrong_play(front, report, play):
    """What is wrong with a play that was found, if anything is."""
    if roles_of(play) != roles_of(front):
        return "the play has other roles"
    told = submits_of(front)
    if any(lines != submits_of(play)[caller] for caller, lines in told.items()):
        return "the play submits other calls"
    got, status = reading.play(play)
    if status:
        return f"the play is none: {got!r}"
    outcomes = [line for line in got.split(b"\n") if line[:1].isdigit()]
    if any(b": refused " in line or line.endswith(b": gap") for line in outcomes):
        return "an event of the play is refused"
    if not ends_as(got.split(b"\n")[len(outcomes) : -1], lines_told(report)):
        return "the play ends otherwise"
    return None


# What a line of a history may end with, to leave an answer or a state open.
MARKS = b" = *", b" live ?", b" retired ?"


def ends_as(shown, told):
    """Whether the lines are those that are told, but for what these leave open."""
    pairs = list(zip(shown, told))
    return len(shown) == len(told) and all(
        line == other or other.endswith(MARKS) and line.startswith(other[:-1]) for line, other in pairs
    )


# Runs of the program.


def check(program, history, words=CHECKS.words):
    """What the program says of a history, and its status."""
    done = subprocess.run([program, *words], input=history, capture_output=True, timeout=MAX_SECONDS)
    return done.stdout, done.returncode if not done.stderr else (done.returncode, done.stderr)


def checks(program, histories, words=CHECKS.words):
    with concurrent.futures.ThreadPoolExecutor(max_workers=AT_ONCE) as pool:
        yield from pool.map(lambda history: check(program, history, words), histories)


def unplayed(front, report, got):
    """Why what was said of a history that has a play is wrong."""
    text, status = got
    return wrong_play(front, report, text) if status == PLAY else f"no play was found, with status {status}: {text!r:.300}"


def lines_in(report):
    return report.decode("latin-1").removesuffix("\n").split("\n") if report else []


def misjudged(script, report, got):
    """Why what was said of a history is wrong that may have a play or not."""
    text, status = got
    why = blamed.misread(script, lines_in(report), status, text.decode("latin-1"))
    if why or status == MISTAKE:
        return why
    whole = lines_of(line.decode("latin-1") for line in lines_told(report)) if report else report
    reading_says = reading.judge(script, whole, 0, of_plans=reading.OF_AWAITS)
    if status == PLAY:
        if reading_says and b"\nsubmit " in script and not OPEN.search(whole):
            return f"a play is found, and the second reading knows of none: {reading_says}"
        return wrong_play(script, report, text)
    if status != REFUSED:
        return f"status {status}, and {text!r:.300}"
    if reading_says is None:
        return f"the second reading knows of a play, and none was found: {text!r:.300}"
    return blamed.misplaced(script, lines_in(report), text.decode("latin-1"))


# A call without an answer, of which the second reading of a report knows nothing. Nor does it of calls that no line
# submits.
OPEN = re.compile(rb"^c\S+ \S+ [?]$", re.M)


def misjudged_all(script, report, got, got_all):
    """Why what `check-all` says of a history is wrong, beside what `check` does."""
    if got[1] == MISTAKE:
        return None if got_all == got else f"check-all tells another mistake: {got_all!r:.300}"
    faults = faults_told.faults_text(script, lines_in(report)).encode()
    due = (faults, REFUSED) if faults else got
    if got_all != due:
        return f"check-all tells {got_all!r:.600}, and due is {due!r:.600}"
    is_of_faults = b" by the rules, and the history tells " in got[0] or got[0].count(b"\n") == 1
    if faults and got[1] == PLAY:
        return f"a play is found, and there are faults: {faults!r:.300}"
    if faults and is_of_faults and got[0] not in faults:
        return f"check tells {got[0]!r:.300}, and this isn't among all faults: {faults!r:.300}"
    return None


def unmended(program, script, report, right, got):
    """Why the reasons that are told of a damaged report don't name what was damaged."""
    lines = blamed.mended(script, lines_in(report), lines_in(right), got[0].decode("latin-1"))
    if lines is None:
        return f"the reasons name nothing that was damaged: {got[0]!r:.300}"
    text, status = check(program, script + lines_of(lines))
    if status != PLAY and text.split(b"\n")[0] == got[0].split(b"\n")[0]:
        return f"the same is told once what the reasons name is mended: {text!r:.300}"
    return None


# Small histories, of lists and pushes. An answer is a length, so the run lists alone tell all answers.


class Lists:
    def __init__(self, chance):
        self.chance = chance
        self.callers = range(1, chance.randint(2, 3) + 1)
        self.actors = range(1, chance.randint(2, 3) + 1)
        self.limits = {actor: chance.choice(["", "", "", " max 1", " max 2"]) for actor in self.actors}
        self.calls = {caller: [self.call(place) for place in range(chance.randint(2, 4))] for caller in self.callers}
        self.runs = {actor: self.run_list(actor) for actor in self.actors}
        places = ((item, place) for items in self.runs.values() for place, item in enumerate(items))
        self.answers = {item: place + 1 for item, place in places}

    def call(self, place):
        """The actor of a call, and the future that is its argument, or none."""
        is_plain = place == 0 or self.chance.random() < 0.4
        return self.chance.choice(self.actors), None if is_plain else self.chance.randrange(place)

    def run_list(self, actor):
        """The calls to an actor, those of each caller in order."""
        left = [[(caller, k) for k, call in enumerate(calls) if call[0] == actor] for caller, calls in self.calls.items()]
        items = []
        while left := [calls for calls in left if calls]:
            items.append(self.chance.choice(left).pop(0))
        return items

    def value(self, item):
        caller, k = item
        argument = self.calls[caller][k][1]
        return 5 if argument is None else self.answers[caller, argument]

    def script(self):
        names = "".join(f" c{caller}" for caller in self.callers)
        yield from (f"actor a{actor} list{limit}{names}" for actor, limit in self.limits.items())
        for caller, calls in self.calls.items():
            for actor, argument in calls:
                yield f"submit c{caller} a{actor} push {5 if argument is None else f'@{argument}'}"

    def report(self):
        for caller, calls in self.calls.items():
            yield from (f"c{caller}.{k} a{call[0]} = {self.answers[caller, k]}" for k, call in enumerate(calls))
        for actor, items in self.runs.items():
            yield f"a{actor} retired list" + "".join(f" {self.value(item)}" for item in items)
            yield from (f"a{actor}.{place} c{c}.{k} push {self.value((c, k))}" for place, (c, k) in enumerate(items))


def lines_of(lines):
    return "".join(f"{line}\n" for line in lines).encode()


def small_histories(seed, count):
    for place in range(count):
        lists = Lists(random.Random(f"lists {seed}.{place}"))
        yield lines_of(lists.script()), lines_of(lists.report())


# The same with run lists in which calls stand twice, elsewhere, or not at all, or ran otherwise.


def jumbled(chance, report):
    """The report of a small history with some changes in its run lists."""
    lines = report.decode().splitlines()
    futures, ends, runs = [], {}, {}
    for line in lines:
        actor = line.partition(" ")[0].partition(".")[0]
        if line.startswith("c"):
            futures.append(line)
        elif "." in line.partition(" ")[0]:
            runs[actor].append(line.partition(" ")[2])
        else:
            ends[actor], runs[actor] = line, []
    for _ in range(chance.randint(1, 4)):
        chance.choice(JUMBLES)(chance, runs)
    for actor, end in ends.items():
        ends[actor] = chance.choice([end, end, end.replace("retired", "live"), f"{actor} dead", f"{actor} retired ?"])
    futures = [told_otherwise(chance, line) for line in futures]
    told = ((ends[actor], *(f"{actor}.{place} {run}" for place, run in enumerate(items))) for actor, items in runs.items())
    return lines_of([*futures, *itertools.chain.from_iterable(told)])


def told_otherwise(chance, line):
    head, mark, _ = line.rpartition(" = ")
    others = [f"{head} = {chance.choice(['*', 'ActorDied', 'NoKey', '7'])}", f"{head} ?"]
    return line if not mark or chance.random() < 0.8 else chance.choice(others)


def some_list(chance, runs):
    return chance.choice([items for items in runs.values() if items] or [[]])


def swap_two(chance, runs):
    items = some_list(chance, runs)
    if len(items) > 1:
        place = chance.randrange(len(items) - 1)
        items[place], items[place + 1] = items[place + 1], items[place]


def drop_one(chance, runs):
    items = some_list(chance, runs)
    if items:
        del items[chance.randrange(len(items))]


def repeat_one(chance, runs):
    items = some_list(chance, runs)
    if items:
        chance.choice([*runs.values(), items]).append(chance.choice(items))


def run_otherwise(chance, runs):
    items = some_list(chance, runs)
    if items:
        place = chance.randrange(len(items))
        call, words = items[place].split(" ")[0], items[place].split(" ")[1:]
        others = [f"{call} terminate", f"{call} push !0", f"{call} push 9", f"c1.9 {' '.join(words)}", f"{call} len"]
        items[place] = chance.choice(others)


JUMBLES = swap_two, drop_one, repeat_one, run_otherwise


def jumbled_histories(seed, count):
    for place, (script, report) in enumerate(small_histories(f"jumbled {seed}", count)):
        chance = random.Random(f"jumbled {seed}.{place}")
        yield chance.choice([script, without_plans(script)]), jumbled(chance, report), None


# Worked histories, and what must be told of them.

LISTS = "actor a1 list c1 c2\nactor a2 list c1 c2\n"
CROSSED = LISTS + "submit c1 a1 push 5\nsubmit c1 a2 push @0\nsubmit c2 a2 push 5\nsubmit c2 a1 push @0\n"
CYCLIC = """c1.0 a1 = 2
c1.1 a2 = 1
c2.0 a2 = 2
c2.1 a1 = 1
a1 retired list 2 5
a1.0 c2.1 push 2
a1.1 c1.0 push 5
a2 retired list 2 5
a2.0 c1.1 push 2
a2.1 c2.0 push 5
"""
CIRCLE = """line 12: c2.1 waits for the answer of c2.0
line 9: c2.0 waits for c1.1 at a2, which ran before it
line 15: c1.1 waits for the answer of c1.0
line 7: c1.0 waits for c2.1 at a1, which ran before it
"""
AWAITED = (TOP / "examples" / "await_circle.history").read_text()
AWAITED_CIRCLE = """line 4: c1.1 waits for the answer of c1.0, by this await
line 9: c1.0 waits for c2.1 at a2, which ran before it
line 7: c2.1 waits for the answer of c2.0, by this await
line 11: c2.0 waits for c1.1 at a1, which ran before it
"""
ONE = "actor a1 counter c1\n"
TWO_CALLS = "c1.0 a1 = 1\nc1.1 a1 = 3\na1 live counter 3\n"
# A call took the failure of another one, of which the answer is left open, and whose reply is a value.
TOOK = ONE + "actor a2 counter c1\nc1.0 a1 = *\nc1.1 a2 = *\n{}\na1.0 c1.0 add 5\na2 live counter 0\na2.0 c1.1 add !0\n"
# Such a failure, taken by a call that the same actor ran before its death. The first answer is left open, or is told.
TAKEN = "actor a1 list c1\nc1.0 a1 = {}\nc1.1 a1 = Dependency(0)\na1 dead\na1.0 c1.0 push 5\na1.1 c1.1 push !0\n"
TAKEN_CIRCLE = """line 6: c1.1 waits for the answer of c1.0
line 2: c1.0 waits for the death of a1, which ran c1.1 before
"""
# The same of a call that is told behind the end of its actor.
ENDED = "actor a1 list c1\nc1.0 a1 = unit\nc1.1 a1 = *\nc1.2 a1 = *\na1 dead\na1.0 c1.0 terminate\na1.1 c1.1 push 5\na1.2 c1.2 push !1\n"
WORKED = {
    "a circle": (CROSSED + CYCLIC, CIRCLE, REFUSED),
    "a circle by awaits": (AWAITED, AWAITED_CIRCLE, REFUSED),
    "a circle that no submit line makes": (LISTS + CYCLIC, None, PLAY),
    "a call skipped": (ONE + TWO_CALLS + "a1.0 c1.1 add 2\na1.1 c1.0 add 1\n", "line 5: a1.0 skips c1.0, which runs at a1.1 (line 6)\n", REFUSED),
    "another answer": (
        ONE + TWO_CALLS.replace("= 3", "= 4") + "a1.0 c1.0 add 1\na1.1 c1.1 add 2\n",
        "line 6: the answer at a1.1 is 3 by the rules, and the history tells 4 (line 3)\n",
        REFUSED,
    ),
    "another state": (
        ONE + TWO_CALLS.replace("counter 3", "counter 4") + "a1.0 c1.0 add 1\na1.1 c1.1 add 2\n",
        "line 4: a1 live counter 4, and by the rules: a1 live counter 3\n",
        REFUSED,
    ),
    "another argument": (
        ONE + "submit c1 a1 add 1\nsubmit c1 a1 add @0\n" + TWO_CALLS + "a1.0 c1.0 add 1\na1.1 c1.1 add 2\n",
        "line 8: the arguments at a1.1 are 1 by the rules, and the history tells 2\n",
        REFUSED,
    ),
    "a limit": (
        ONE.replace("c1", "max 1 c1") + "c1.0 a1 ?\nc1.1 a1 = 3\na1 live counter 3\na1.0 c1.0 add 1\na1.1 c1.1 add 2\n",
        "line 3: c1.1 waits for the answer of c1.0, by the limit of a1\nline 2: c1.0 has no answer\n",
        REFUSED,
    ),
    "a failure that is a death": (TOOK.format("a1 dead"), None, PLAY),
    "a failure that is none": (
        TOOK.format("a1 live counter 5"),
        "line 8: the arguments at a2.0 are 5 by the rules, and the history tells !0\n",
        REFUSED,
    ),
    "a failure before the death": (TAKEN.format("*"), TAKEN_CIRCLE, REFUSED),
    "a failure behind the end": (ENDED, "line 7: a1.1 runs after a terminate\n", REFUSED),
    "a told death before itself": (TAKEN.format("ActorDied"), TAKEN_CIRCLE, REFUSED),
    "a step that every play refuses": (
        ONE + "submit c1 a1 get\nawait c1 0\nrelease c1 a1\nkill c1 a1\nc1.0 a1 = 0\na1 live counter 0\na1.0 c1.0 get\n",
        "line 5: BadPlan\n",
        MISTAKE,
    ),
    "a word that is none": (ONE + "c1.0 a1 = 05\n", "line 2: BadLine: no line of a history has this form\n", MISTAKE),
    "a line of events": (ONE + "send c1 0\n", "line 2: BadLine\n", MISTAKE),
    "an actor without a line": (ONE, "line 0: NoEnd: an actor has a role, and no line tells its end\n", MISTAKE),
}


# A history with many faults, and all that must be told of it.
MANY = """actor a1 counter c1 c2
actor a2 counter c1
actor a3 list c2
submit c1 a1 add 1
submit c1 a2 add @0
submit c1 a1 add 3
submit c1 a1 add 4
c1.0 a1 = 7
c1.1 a2 ?
c1.2 a1 = 8
c1.3 a1 = 3
c2.0 a1 = ActorDied
c2.1 a3 ?
c2.2 a3 = ActorDied
c2.3 a3 = 1
a1 live counter 7
a1.0 c1.2 add 3
a1.1 c1.0 add 1
a1.2 c1.0 add 1
a1.3 c1.3 add 5
a1.4 c2.1 push 1
a1.5 c2.7 get
a2 retired ?
a2.0 c2.3 get
a2.1 c1.0 add 1
a3 dead
a3.0 c2.3 terminate
a3.1 c2.1 push 1
"""
MANY_TOLD = """line 9: a2 retired, and didn't run c1.1
line 12: c2.0 has ActorDied, and a1 isn't dead
line 14: c2.1 has no answer, and the death that answered c2.2 answers both
line 17: a1.0 skips c1.0, which runs at a1.1 (line 18)
line 17: the answer at a1.0 is 3 by the rules, and the history tells 8 (line 10)
line 18: the answer at a1.1 is 4 by the rules, and the history tells 7 (line 8)
line 19: a1.2 runs c1.0 again, after a1.1 (line 18)
line 20: a1.3 isn't c1.3 as it was submitted (line 7)
line 20: the answer at a1.3 is 10 by the rules, and the history tells 3 (line 11)
line 21: a1.4 is c2.1, which goes to a3
line 22: a1.5 is c2.7, which has no line
line 24: a2.0 is a call of c2, which has no handle
line 25: a2.1 is c1.0, which goes to a1
line 27: a3.0 skips c2.1, which runs at a3.1 (line 28)
line 27: a3.0 skips c2.2, which didn't run
line 27: the answer at a3.0 is unit by the rules, and the history tells 1 (line 15)
line 28: a3.1 runs after a terminate
"""
WORKED_ALL = {"many faults": (MANY, MANY_TOLD)}


def parts_of(history):
    """The roles and steps of a history, and the lines below them."""
    lines = history.splitlines()
    first = next(place for place, line in enumerate(lines) if re.match(r"[ac]\d", line))
    return "".join(f"{line}\n" for line in lines[:first]).encode(), lines[first:]


# All checks.


def reports_of(runs, scripts):
    """The reports of the scripts that ran, each with its script."""
    got = zip(scripts, threads.runs(runs, scripts))
    return [(script, report) for script, (report, status) in got if status == 0]


def tell(name, history, why):
    print(f"{name}: {why}; the history is {history.decode(errors='replace')!r:.2000}")


class Tally:
    def __init__(self):
        self.passed, self.failed = 0, 0

    def add(self, name, history, why):
        self.passed, self.failed = self.passed + (why is None), self.failed + (why is not None)
        if why is not None and self.failed <= MAX_SHOWN:
            tell(name, history, why)


def left_open(chance, report):
    """The report with some answers and states that aren't told, and with some actors live that retired."""
    return b"".join(line_left_open(chance, line) + b"\n" for line in report.split(b"\n")[:-1])


def line_left_open(chance, line):
    if chance.random() < 0.5:
        return line
    words = line.split(b" ")
    if words[0].startswith(b"c") and words[2:3] == [b"="]:
        return b" ".join([*words[:3], b"*"])
    if words[1:2] == [b"retired"]:
        return b" ".join([words[0], chance.choice([b"live", b"retired"]), chance.choice([b"?", b" ".join(words[2:])])])
    return line


def some_left_open(seed, triples):
    """The same of histories that may be damaged. None of them has the right report."""
    for place, (script, report, _) in enumerate(triples):
        yield script, left_open(random.Random(f"open {seed}.{place}"), report), None


def try_runs(tally, program, reports):
    fronts = [(front, report) for script, report in reports for front in (with_end(script), without_plans(script))]
    for (front, report), got in zip(fronts, checks(program, [front + report for front, report in fronts])):
        tally.add("a run in threads", front + report, unplayed(front, report, got))


def damaged_reports(seed, reports):
    """Each with its script, and as it was before."""
    for place, (script, report) in enumerate(reports):
        chance = random.Random(f"damaged {seed}.{place}")
        told = [got for _, (got, status) in threads.tampered_run(chance, script, report) if status == 0]
        yield from ((with_end(script), got, report) for got in chance.sample(told, min(DAMAGES, len(told))) if got != report)


def try_either(tally, program, name, triples):
    """Histories that may have a play or not, some with the right report. How many have one."""
    found, told = 0, []
    gots = checks(program, [script + report for script, report, _ in triples])
    alls = checks(program, [script + report for script, report, _ in triples], CHECKS_ALL.words)
    for (script, report, right), got, got_all in zip(triples, gots, alls):
        why = misjudged(script, report, got) or misjudged_all(script, report, got, got_all)
        if why is None and right is not None and got[1] == REFUSED:
            why = unmended(program, script, report, right, got)
        tally.add(name, script + report, why)
        found += got[1] == PLAY
        told += [(script, report, got)] if why is None and got[1] != PLAY else []
    print(f"check_histories: {found} of {len(triples)} have a play: {name}")
    try_wrongly_told(tally, name, told)
    return found


# The judge of what is told on trial.


def wrongly_told(script, report, got):
    """The same with other lines, another status, or another call that is blamed."""
    text, status = got
    told, lines = int(text[5 : text.index(b":")]), dict(enumerate((script + report).split(b"\n"), 1))
    # (a line of the same words beside it is as right)
    for number in (it for it in (told + 1, told - 1) if lines.get(it) != lines.get(told)):
        yield f"line {number}", (b"line %d%s" % (number, text[text.index(b":") :]), status)
    yield "another status", (text, MISTAKE if status == REFUSED else REFUSED)
    if status == REFUSED:
        yield "a mistake in the place of a reason", (b"line 1: BadLine: no line of a history has this form\n", MISTAKE)
        yield "no reason", (b"no play\n", REFUSED)


def try_wrongly_told(tally, name, told):
    """What was rightly told is wrong where it is told with another line or another status."""
    ways = collections.Counter()
    for script, report, got in told[:TRIED]:
        for way, other in wrongly_told(script, report, got):
            why = None if misjudged(script, report, other) else f"{way}: this would be right: {other!r:.300}"
            tally.add(name, script + report, why)
            ways[way.partition(" ")[0]] += 1
    if told and not all(ways[way] for way in ("line", "another")):
        tally.add(name, b"", f"what was told was changed in too few ways: {dict(ways)}")


def try_worked(tally, program):
    for name, (history, told, status) in WORKED.items():
        text, got = check(program, history.encode())
        is_well = got == status and (told is None or text.decode() == told)
        tally.add(name, history.encode(), None if is_well else f"status {got}, and {text!r}")
    for name, (history, told) in WORKED_ALL.items():
        text, got = check(program, history.encode(), CHECKS_ALL.words)
        is_well = got == REFUSED and text.decode() == told == faults_told.faults_text(*parts_of(history))
        tally.add(name, history.encode(), None if is_well else f"all faults, status {got}, and {text!r}")


def chosen_options():
    options = argparse.ArgumentParser(description=__doc__.splitlines()[0])
    options.add_argument("--seed", type=int, help="this seed alone")
    options.add_argument("--count", type=int, default=60, help="how many random scripts of each seed")
    options.add_argument("--lists", type=int, default=150, help="how many small histories of each seed")
    options.add_argument("--program", type=pathlib.Path, default=CHECKS.proved, help="check by this one")
    options.add_argument("--runs", type=pathlib.Path, help="run scripts by this one, and not by the one that ./run takes")
    return options.parse_args()


def main():
    chosen = chosen_options()
    program, runs = proved("check_histories", chosen.program), program_of("check_histories", chosen.runs)
    tally = Tally()
    try_worked(tally, program)
    for seed in seeds.chosen(chosen.seed, "check_histories"):
        scripts = [*threads.random_scripts(seed, chosen.count).values(), *threads.worked_scripts().values()]
        reports = reports_of(runs, scripts)
        try_runs(tally, program, reports)
        damaged = list(damaged_reports(seed, reports))
        try_either(tally, program, "reports that were damaged", damaged)
        right = [(with_end(script), report, None) for script, report in reports]
        try_either(tally, program, "reports that leave something open", list(some_left_open(seed, right + damaged)))
        try_either(tally, program, "small histories that are jumbled", list(jumbled_histories(seed, chosen.lists)))
        small = [(*history, None) for history in small_histories(seed, chosen.lists)]
        if not 0 < try_either(tally, program, "small histories", small) < len(small):
            tally.add("small histories", b"", "all of them have a play, or none has")
    print(f"check_histories: {tally.passed} passed, {tally.failed} failed")
    sys.exit(1 if tally.failed else 0)


if __name__ == "__main__":
    main()
