#!/usr/bin/env python3
"""Runs random plans in threads by the proved program, and judges each report by a second reading of the rules.

    tools/threads.py [--seed N] [--count N] [--kills N] [--ends N] [--limits N] [--program PATH]

A seed gives the same scripts each time. Without `--seed` there are two: one that stays, and one that changes with the
commit and is printed. Most scripts are plans of up to 16 callers and 8 actors, without a bad step; some have one, or a
fault of the script, and a few fill what has room for so many. The judge (tools/reading_of_rules.py) says whether the
rules allow the report: whether a play of the plans ends so. It is tried itself. It must allow the worked reports, refuse
every report that was tampered with, and refuse others for one rule each, without which it allows them. Of small plans
it must allow just what their plays leave, all of which are tried.

A run of more than 60 seconds is a failure. So is an actor of which a kill was asked and that retired, which the judge
leaves open where the kill was asked after its last run. Fails also where the scripts of the first seed came too seldom
to what they should try. The worked script of a kill is run many times, and the shares of its outcomes are printed. So
are those of an end that waits its turn and of a limit on pending calls: but for one, where a kill waits at the limit,
they must always leave the same.
"""
import argparse
import collections
import concurrent.futures
import pathlib
import random
import re
import subprocess
import sys
import tempfile
import unittest.mock

import fuzz
import reading_of_rules as reading
import seeds
import small_plans
from program import TOP, program_of

ROWS = TOP / "crates/ray_actors/thread_rows"
EXAMPLES = TOP / "examples"
KILL = ROWS / "kill.actors"
END = ROWS / "terminate_waits_its_turn.actors"
LIMITS = [ROWS / f"limit_{name}.actors" for name in ["of_one", "and_a_chain_over_two_actors", "before_a_kill"]]

AT_ONCE = 4
MAX_SECONDS = 60
MAX_SHOWN = 5
SMALL_PLANS, MAX_STATES = 60, 2500  # so many small plans of each seed; those with more states are passed over

# Each step: how often it is tried, and what follows its word: a caller, an actor or a number.
STEPS = {"submit": (60, "ca"), "await": (8, "cn"), "copy": (3, "ca"), "release": (2, "ca"), "kill": (1, "ca")}
LINES_OF_PLAY = ["send c1 0", "deliver 0", "run a1 c1", "collect 0", "take a1", "tell a1 c1", "retire a1"]


class Author(fuzz.Author):
    """Writes plans, with the reading's world beside it, which takes the steps that aren't refused."""

    def __init__(self, chance):
        self.chance = chance
        self.lines = []
        self.limits = chance.choice([0, 0, 0.5, 1])
        self.pool = chance.sample(range(1, 17), chance.choice([1, 2, 2, 3, 5, 8, 16, 16]))
        actors = chance.sample(range(1, 9), chance.choice([1, 1, 2, 2, 3, 5, 8]))
        self.world = reading.Planned([self.role(actor) for actor in actors])
        self.pairs = [(caller, actor) for caller, named in self.world.callers.items() for actor in named.copies]
        self.futures = chance.choice([0, 0.1, 0.4, 0.7])
        self.ends = chance.choice([0, 0, 0, 0.01, 0.05])
        self.kills = chance.choice([0, 0, 1, 3])
        self.slips = chance.choice([0, 0, 0, 0, 1])  # so many refused steps are written too

    def write(self, line):
        """Adds a step; a refused one only where there is to be a bad one."""
        try:
            self.world.step(*reading.read_words(line.split(" "), reading.THREAD_FORMS))
        except reading.Refused:
            if not self.slips or self.chance.random() < 0.8:
                return
            self.slips -= 1
        self.lines.append(line)

    def step(self):
        weights = [weight * (self.kills if sort == "kill" else 1) for sort, (weight, _) in STEPS.items()]
        sort = self.chance.choices(list(STEPS), weights)[0]
        caller, actor = self.chance.choice(self.pairs) if self.chance.random() < 0.97 else self.astray("ca")
        if sort == "submit":
            self.submit(caller, actor)
        elif sort == "await":
            calls = len(self.world.callers[caller].calls) if caller in self.world.callers else 0
            self.write(f"await c{caller} {self.chance.randrange(calls + 1)}")
        else:
            self.write(f"{sort} c{caller} a{actor}")

    def script(self):
        for _ in range(self.chance.choice([0, 2, 5, 10, 20, 40, 80, 150, 300])):
            self.step()
            if self.chance.random() < 0.02:
                self.lines.append(self.chance.choice(["", "#", "# a remark", "#" + "x" * 511]))
        return self.lines


# Damage to a script. Each takes lines and gives lines.


def stranger(chance, lines):
    """A line of a caller, often one that no role names."""
    line = f"{chance.choice(['copy', 'release', 'kill'])} c{chance.randint(1, 16)} a1"
    return inserted(lines, chance.randint(0, len(lines)), line)


def line_of_play(chance, lines):
    return inserted(lines, chance.randint(0, len(lines)), chance.choice(LINES_OF_PLAY))


DAMAGE = [stranger, stranger, line_of_play, fuzz.double_caller, fuzz.another_role, fuzz.another_role, fuzz.swap_lines]


def random_script(seed, place):
    chance = random.Random(f"threads {seed}.{place}")
    lines = Author(chance).script()
    if chance.random() < 0.1:
        lines = chance.choice(DAMAGE)(chance, lines)
    text = "\n".join(lines) + ("" if chance.random() < 0.1 else "\n")
    return fuzz.damaged(chance, text) if chance.random() < 0.05 else text.encode()


# What the scripts come to: of a thousand, at least so many must have or tell each of these. Half of what they do, or less.
FLOORS = {
    "submit": 400, "await": 250, "copy": 200, "release": 200, "kill": 90, "a future as an argument": 200,
    "no step": 40, "100 steps": 80, "16 callers": 10, "8 actors": 50, "retired": 350, "dead": 60,
    "a step that may wait": 90, "a wait for a call with a future": 50, "a wait and a kill": 20, "a wait for an end": 20,
    "retired after a call": 300, "dead after a call": 10,
    "BadLine": 15, "LateActor": 5, "TwiceActor": 5, "TwiceCaller": 5, "BadPlan": 50, "refused a stranger": 5,
    "refused NoActor": 5, "refused NoHandle": 5, "refused TooManyArgs": 5, "refused BadFuture": 5, "refused NoFuture": 10,
    "answer NoMethod": 150, "answer BadArgs": 200, "answer Overflow": 50, "answer NoKey": 80, "answer BadAmount": 80,
    "answer Insufficient": 50, "answer NoItems": 40, "answer NoItem": 60, "answer Dependency": 100, "answer ActorDied": 50,
    "answer unit": 80, "an end": 30, "an end with an argument": 30,
    "a place from 20 on": 60, "a future from 10 on": 120, "Dependency from 10 on": 30, "a list of 7 items": 20,
    "a table of 4 pairs": 5,
}  # fmt: skip


TWO_DIGITS = {"a[0-9]+[.]([2-9][0-9]|[0-9]{3})": "a place from 20 on", "c[0-9]+[.][0-9]{2}": "a future from 10 on"}


def sorts_of_script(script):
    """What a script tries."""
    lines = [line.split(" ") for line in script.decode("latin-1").split("\n")]
    steps = [words for words in lines if words[0] in STEPS]
    yield from (words[0] for words in steps)
    if any(word.startswith("@") for words in steps for word in words):
        yield "a future as an argument"
    if len({words[1] for words in steps if len(words) > 1}) == 16:
        yield "16 callers"
    if sum(words[0] == "actor" for words in lines) == 8:
        yield "8 actors"
    if not steps or len(steps) >= 100:
        yield "100 steps" if steps else "no step"


def sorts_of_fault(script):
    """The fault, and of a bad plan what is wrong with its step."""
    try:
        reading.read_plans(script)
    except reading.ScriptFault as fault:
        name = str(fault).split(": ")[1].strip()
        yield name
        if name == "BadPlan":
            yield f"refused {fault.__cause__ or 'a stranger'}"


def waits(world):
    """Each call that a limit may hold back, after the call to the same actor that must have an answer then: the actor
    answers a caller's calls in order."""
    for caller in world.callers.values():
        for name in caller.copies:
            calls = caller.calls_to(name)
            limit = world.actors[name].limit
            yield from zip(calls, calls[limit:]) if limit else []


def sorts_of_wait(script):
    """Where a limit may hold back a step of good plans, and what may come in between."""
    try:
        world = reading.read_plans(script)
    except reading.ScriptFault:
        return
    for before, call in waits(world):
        yield "a step that may wait"
        if any(isinstance(each, reading.Future) for each in before.arguments):
            yield "a wait for a call with a future"
        if call.actor in world.to_be_killed:
            yield "a wait and a kill"
        if before.method == reading.END:
            yield "a wait for an end"


def sorts_of_report(report):
    """The ends and the answers in a report."""
    lines = report.decode("latin-1").split("\n")
    for line, after in zip(lines, lines[1:]):
        words = line.split(" ")
        yield from fuzz.reached_in_summary(line)
        yield from (sort for begins, sort in TWO_DIGITS.items() if re.match(begins, line))
        if words[1:2] in (["dead"], ["retired"]):
            yield words[1]
            if after.startswith(f"{words[0]}."):
                yield f"{words[1]} after a call"


def too_seldom(gots):
    """What fewer of the scripts came to than should."""
    tallies = collections.Counter()
    for script, (report, _) in gots.items():
        tallies.update({*sorts_of_script(script), *sorts_of_fault(script), *sorts_of_wait(script), *sorts_of_report(report)})
    for sort, floor in FLOORS.items():
        if tallies[sort] < floor * len(gots) // 1000:
            yield f"only {tallies[sort]} of {len(gots)} scripts came to '{sort}'"


# Plans that fill what has room for so many and no more, and go on.


def full_scripts():
    pushes, puts = ["push 5"] * (reading.MAX_ITEMS + 1), [f'put "{key}" 5' for key in range(reading.MAX_KEYS + 1)]
    for kind, calls in ("list", [*pushes, "pop", "push 6"]), ("table", [*puts, 'put "7" 6', 'del "7"', 'put "x" 7']):
        lines = [f"actor a1 {kind} c1", *(f"submit c1 a1 {call}" for call in calls), ""]
        yield f"a full {kind}", "\n".join(lines).encode()
    copies = ["copy c1 a1"] * (reading.MAX_COPIES - 1)  # beside the one that the caller begins with
    yield "a copy too many", "\n".join(["actor a1 list c1", *copies, "copy c1 a1", "copy c1 a1", ""]).encode()


FULL = {"answer KindFull": 2, "refused TooManyCopies": 1}  # how many of these three come to it


def not_full(gots):
    """What not so many of the scripts that fill something came to as should."""
    came = [{*sorts_of_fault(script), *sorts_of_report(report)} for script, (report, _) in gots.items()]
    for sort, count in FULL.items():
        if sum(sort in sorts for sorts in came) != count:
            yield f"the scripts that fill something didn't come {count} times to '{sort}'"


# The runs.


def run(program, script):
    """Report and status of one run of the program; with what stood on standard error, where there was any."""
    try:
        done = subprocess.run([program, "threads"], input=script, capture_output=True, timeout=MAX_SECONDS)
    except subprocess.TimeoutExpired:
        return b"", f"no end within {MAX_SECONDS} seconds"
    return done.stdout, done.returncode if not done.stderr else (done.returncode, done.stderr)


def runs(program, scripts):
    """Report and status of each script, several at once."""
    with concurrent.futures.ThreadPoolExecutor(max_workers=AT_ONCE) as pool:
        yield from pool.map(lambda script: run(program, script), scripts)


def survivors(world):
    """An actor of which a kill was asked retires only where it looks for none at its end: its callers' notes come after
    their kills."""
    for name in sorted(world.to_be_killed):
        if world.actors[name].stage != "dead":
            yield f"a{name} retired, and a kill of it was asked"


def complaint(script, report, status):
    """What is wrong with a run, if anything is: by the rules, or in what they leave open and the program doesn't."""
    try:
        world = reading.judged(script, report, status)
    except reading.NotAllowed as why:
        return str(why)
    return next(survivors(world), None) if world else None


def show(name, script, report, status, why):
    """Keeps a script on which the program goes wrong, and prints what it told."""
    with tempfile.NamedTemporaryFile(prefix="threads-", suffix=".actors", delete=False) as kept:
        kept.write(script)
    print(f"{name}: {why}; the script is {kept.name}, and its report, with status {status}:")
    print("".join(f"    {line!r}\n" for line in report.split(b"\n")), end="")


# Tampering. Each takes a random source, the lines of a report and the world that they tell, and gives other lines, which
# no schedule leaves; or nothing, where it can't be done.

FUTURES = "c[0-9]+[.]"
ENDS = "a[0-9]+ "
ITEMS = "a[0-9]+[.]"


def places(lines, begins):
    return [place for place, line in enumerate(lines) if re.match(begins, line)]


def changed(lines, place, line):
    return lines[:place] + [line] + lines[place + 1 :]


def dropped(lines, place):
    return lines[:place] + lines[place + 1 :]


def inserted(lines, place, line):
    return lines[:place] + [line] + lines[place:]


def swapped(lines, one, other):
    return changed(changed(lines, one, lines[other]), other, lines[one])


def ended(world):
    """The actors that a call ended."""
    return [name for name, actor in world.actors.items() if any(item.ends_actor() for item in actor.ran)]


def retired(world):
    return [name for name, actor in world.actors.items() if actor.stage == "retired"]


def neighbours(lines):
    """Pairs of items that stand beside each other in a run list."""
    items = places(lines, ITEMS)
    return [(one, other) for one, other in zip(items, items[1:]) if lines[one][:3] == lines[other][:3]]


def caller_of(item):
    return item.split(" ")[1].partition(".")[0]


def calls_swapped(chance, lines, world):
    """Two calls of one caller against the order of their submission, each item with its own place."""
    one, other = chance.choice([pair for pair in neighbours(lines) if len({caller_of(lines[each]) for each in pair}) == 1])
    (place, _, call), (other_place, _, other_call) = lines[one].partition(" "), lines[other].partition(" ")
    return changed(changed(lines, one, f"{place} {other_call}"), other, f"{other_place} {call}")


def items_swapped(chance, lines, world):
    return swapped(lines, *chance.choice(neighbours(lines)))


def futures_swapped(chance, lines, world):
    return swapped(lines, *chance.sample(places(lines, FUTURES), 2))


def answer_told_as(text):
    """A future whose line ends otherwise."""

    def tamper(chance, lines, world):
        place = chance.choice(places(lines, FUTURES))
        return changed(lines, place, lines[place].partition(" = ")[0] + text)

    return tamper


def another_number(chance, lines, world):
    """A number is told as the one beside it."""
    place = chance.choice(places(lines, "c[0-9]+[.][0-9]+ a[0-9]+ = -?[0-9]+$"))
    words = lines[place].split(" ")
    number = int(words[3])
    return changed(lines, place, " ".join([*words[:3], str(number - 1 if number > 0 else number + 1)]))


def death_of_a_retired_actor(chance, lines, world):
    """A call to an actor that retired is answered by a death."""
    place = chance.choice([place for name in retired(world) for place in places(lines, f"{FUTURES}[0-9]+ a{name} ")])
    return changed(lines, place, lines[place].partition(" = ")[0] + " = ActorDied")


def answer_without_a_run(chance, lines, world):
    """A call that never ran has an answer."""
    ran = [id(item.call) for actor in world.actors.values() for item in actor.ran]
    call = chance.choice([call for caller in world.callers.values() for call in caller.calls if id(call) not in ran])
    (place,) = places(lines, f"c{call.caller}[.]{call.future} ")
    return changed(lines, place, lines[place].partition(" = ")[0] + " = unit")


def last_item_dropped(chance, lines, world):
    """The last call that an actor ran before it retired is left out."""
    place = chance.choice([items[-1] for name in retired(world) if (items := places(lines, f"a{name}[.]"))])
    return dropped(lines, place)


def item_doubled(chance, lines, world):
    """A call stands twice in a run list, the second time at its end."""
    items = chance.choice([items for name in world.actors if (items := places(lines, f"a{name}[.]"))])
    actor, call = lines[items[0]].partition(".")[0], lines[chance.choice(items)].partition(" ")[2]
    return inserted(lines, items[-1] + 1, f"{actor}.{len(items)} {call}")


def item_of_another_caller(chance, lines, world):
    """A call of an actor that retired is told as another caller's."""
    place = chance.choice([place for name in retired(world) for place in places(lines, f"a{name}[.]")])
    words = lines[place].split(" ")
    caller, _, future = words[1].partition(".")
    others = [f"c{number}" for number in range(1, 17) if f"c{number}" != caller]
    return changed(lines, place, " ".join([words[0], f"{chance.choice(others)}.{future}", *words[2:]]))


def item_of_another_actor(chance, lines, world):
    """A call stands at the end of another actor's run list, too."""
    place = chance.choice(places(lines, ITEMS))
    name = chance.choice([name for name in world.actors if not lines[place].startswith(f"a{name}.")])
    end = places(lines, f"a{name}[ .]")[-1]
    return inserted(lines, end + 1, f"a{name}.{len(world.actors[name].ran)} {lines[place].partition(' ')[2]}")


def another_method(chance, lines, world):
    place = chance.choice(places(lines, ITEMS))
    words = lines[place].split(" ")
    words[2] = chance.choice(sorted(reading.METHODS - {words[2]}))
    return changed(lines, place, " ".join(words))


def another_argument(chance, lines, world):
    """The last argument of an item is another, or one is added."""
    place = chance.choice(places(lines, ITEMS))
    words = lines[place].split(" ")
    words[max(3, len(words) - chance.randint(0, 1)) :] = ['"tampered"']
    return changed(lines, place, " ".join(words))


def dead_without_a_kill(chance, lines, world):
    name = chance.choice([name for name in retired(world) if name not in world.to_be_killed])
    (place,) = places(lines, f"a{name} ")
    return changed(lines, place, f"a{name} dead")


def retired_too_early(chance, lines, world):
    """A dead actor is told as retired, though a call to it didn't run."""
    due = {name: sum(len(caller.calls_to(name)) for caller in world.callers.values()) for name in world.actors}
    dead = [name for name, actor in world.actors.items() if actor.stage == "dead" and len(actor.ran) < due[name]]
    name = chance.choice(dead)
    (place,) = places(lines, f"a{name} ")
    return changed(lines, place, f"a{name} retired {world.actors[name].kind.text()}")


def call_after_a_terminate(chance, lines, world):
    """One of the calls that were still to run when their actor ended stands after its end."""
    name = chance.choice(ended(world))
    actor = world.actors[name]
    left = [call for caller in world.callers.values() for call in caller.calls_to(name) if call.number == actor.ran_of(call.caller)]
    call = chance.choice([call for call in left if not call.arguments])
    end = places(lines, f"a{name}[ .]")[-1]
    return inserted(lines, end + 1, f"a{name}.{len(actor.ran)} {call.spelled_future()} {call.method}")


def retired_after_a_terminate(chance, lines, world):
    name = chance.choice(ended(world))
    (place,) = places(lines, f"a{name} ")
    return changed(lines, place, f"a{name} retired {world.actors[name].kind.text()}")


def another_state(chance, lines, world):
    """The line of an actor that retired ends with more."""
    place = chance.choice([place for name in retired(world) for place in places(lines, f"a{name} ")])
    return changed(lines, place, lines[place] + chance.choice([" 1", "0", " "]))


def line_dropped(chance, lines, world):
    """The line of a future or of an actor's end is left out."""
    return dropped(lines, chance.choice(places(lines, f"{FUTURES}|{ENDS}")))


def line_doubled(chance, lines, world):
    place = chance.randrange(len(lines))
    return inserted(lines, place, lines[place])


def empty_line(chance, lines, world):
    return inserted(lines, chance.randint(0, len(lines)), "")


def space_at_an_end(chance, lines, world):
    place = chance.randrange(len(lines))
    return changed(lines, place, lines[place] + " ")


def fault_of_good_plans(chance, lines, world):
    return ["line 2: BadPlan"]


TOLD_AS = [" ?", ' = "tampered"', " = NoFault", " =", " = 05", " = Dependency(4294967296)"]
TAMPERS = {f"an answer told as '{text}'": answer_told_as(text) for text in TOLD_AS}
TAMPERS |= {
    tamper.__name__.replace("_", " "): tamper
    for tamper in [
        calls_swapped, items_swapped, futures_swapped, another_number, death_of_a_retired_actor, answer_without_a_run,
        last_item_dropped, item_doubled, item_of_another_caller, item_of_another_actor, another_method, another_argument,
        dead_without_a_kill, retired_too_early, call_after_a_terminate, retired_after_a_terminate, another_state, line_dropped, line_doubled, empty_line, space_at_an_end,
        fault_of_good_plans,
    ]
}  # fmt: skip


def tampered_run(chance, script, report):
    """Ways to tamper with a run's report, each with what comes of it: a report and a status."""
    world = reading.judged(script, report, 0)
    lines = report.decode().splitlines()
    for name, tamper in TAMPERS.items():
        try:
            yield name, ("".join(f"{line}\n" for line in tamper(chance, lines, world)).encode(), 0)
        except (IndexError, ValueError):
            pass  # there is no such line to tamper with
    yield "status 1 of good plans", (report, 1)
    for more in b"a", b"\0", b"\xff\n":
        yield f"{more!r} at the end", (report + more, 0)
    if report:
        yield "the last line end left out", (report[:-1], 0)
        yield "nothing told", (b"", 0)


def tampered_fault(report):
    """The same of the line of a fault."""
    line, _, name = report.decode().partition(": ")
    yield "another line", (f"line {int(line[5:]) + 1}: {name}".encode(), 1)
    yield "another fault", (f"{line}: {'BadLine' if 'BadPlan' in name else 'BadPlan'}\n".encode(), 1)
    yield "status 0 of a fault", (report, 0)
    yield "no fault told", (b"", 1)


# The judge on trial.

DIED = "c1.0 a1 = ActorDied\nc1.1 a1 = ActorDied\n"
FIRST = "c1.0 a1 = 1\nc1.1 a1 = ActorDied\n"
SECOND = "c1.0 a1 = ActorDied\nc1.1 a1 = 3\n"
BOTH = "c1.0 a1 = 1\nc1.1 a1 = 3\n"
RAN_NONE = "a1 dead\n"
RAN_ONE = RAN_NONE + "a1.0 c1.0 add 1\n"
RAN_TWO = RAN_ONE + "a1.1 c1.1 add 2\n"
RAN_OTHER = RAN_NONE + "a1.0 c1.1 add 2\n"
RETIRED = RAN_TWO.replace("dead", "retired counter 3")
# What the worked kill leaves. The rules allow one thing more: an actor that retires, where the kill came after its last
# look for one.
KILLED = {
    "neither answered, none ran": DIED + RAN_NONE,
    "the first answered, one ran": FIRST + RAN_ONE,
    "both answered, both ran": BOTH + RAN_TWO,
}
NOT_ALLOWED = [FIRST + RAN_NONE, SECOND + RAN_NONE, BOTH + RAN_NONE, SECOND + RAN_ONE, BOTH + RAN_ONE, DIED + RAN_OTHER]
NOT_ALLOWED += [DIED + RETIRED, FIRST + RETIRED, SECOND + RETIRED, RAN_NONE, DIED, DIED + RAN_NONE + RAN_NONE]

RAN_AND_DIED = [DIED + RAN_ONE, DIED + RAN_TWO, FIRST + RAN_TWO, SECOND + RAN_TWO]

# Two callers, each of which adds the answer of the one counter to the other; and runs of it, of one with an await in
# the place of the argument, and of one with a limit, in which each answer is needed before it is there.
CROSSED = "actor a1 counter c1 c2\nactor a2 counter c1 c2\nsubmit c1 a2 get\n{}submit c2 a1 get\n{}"
WITH_ARGUMENTS = CROSSED.format("submit c1 a1 add @0\n", "submit c2 a2 add @0\n")
WITH_AWAITS = CROSSED.format("await c1 0\nsubmit c1 a1 add 0\n", "await c2 0\nsubmit c2 a2 add 0\n")
WITH_LIMITS = CROSSED.format("submit c1 a2 get\nsubmit c1 a1 add 0\n", "submit c2 a1 get\nsubmit c2 a2 add 0\n")
WITH_LIMITS = WITH_LIMITS.replace("counter", "counter max 1")
ANSWERS_CROSSED = "c1.0 a2 = 0\nc1.1 a1 = 0\nc2.0 a1 = 0\nc2.1 a2 = 0\n"
IN_ORDER = "a1 retired counter 0\na1.0 c2.0 get\na1.1 c1.1 add 0\na2 retired counter 0\na2.0 c1.0 get\na2.1 c2.1 add 0\n"
HALF_ORDER = "a1 retired counter 0\na1.0 c1.1 add 0\na1.1 c2.0 get\na2 retired counter 0\na2.0 c1.0 get\na2.1 c2.1 add 0\n"
NO_ORDER = "a1 retired counter 0\na1.0 c1.1 add 0\na1.1 c2.0 get\na2 retired counter 0\na2.0 c2.1 add 0\na2.1 c1.0 get\n"
LIMITED_ANSWERS = "c1.0 a2 = 0\nc1.1 a2 = 0\nc1.2 a1 = 0\nc2.0 a1 = 0\nc2.1 a1 = 0\nc2.2 a2 = 0\n"
LIMITED = LIMITED_ANSWERS + "a1 retired counter 0\n{}a2 retired counter 0\n{}"
LATE_AT_A1 = "a1.0 c2.0 get\na1.1 c2.1 get\na1.2 c1.2 add 0\n"
EARLY_AT_A1 = "a1.0 c1.2 add 0\na1.1 c2.0 get\na1.2 c2.1 get\n"
LATE_AT_A2 = "a2.0 c1.0 get\na2.1 c1.1 get\na2.2 c2.2 add 0\n"
EARLY_AT_A2 = "a2.0 c2.2 add 0\na2.1 c1.0 get\na2.2 c1.1 get\n"

# Each is killed by the one caller that waits for its first answer, so that no death is that answer.
KILL_AFTER = "actor a1 counter{} c1\nsubmit c1 a1 add 1\n{}kill c1 a1\n"
AFTER_AN_AWAIT = KILL_AFTER.format("", "submit c1 a1 add 2\nawait c1 0\n")
AFTER_A_LIMIT = KILL_AFTER.format(" max 1", "submit c1 a1 add 2\n")
AFTER_NOTHING = KILL_AFTER.format(" max 2", "submit c1 a1 add 2\n")

# Each of two callers asks a kill once its own call is answered; so one of the two calls ran.
TWO_KILLS = "actor a1 counter c1 c2\n" + "".join(f"submit c{n} a1 add {n}\nawait c{n} 0\nkill c{n} a1\n" for n in (1, 2))
ONE_KILLED = "c1.0 a1 = ActorDied\nc2.0 a1 = 2\na1 dead\na1.0 c2.0 add 2\n"
BOTH_KILLED = "c1.0 a1 = ActorDied\nc2.0 a1 = ActorDied\na1 dead\n"

# A kill is asked before the one call that could run after it, or after that.
KILL_BEFORE = "actor a1 counter c1\nactor a2 counter c1 c2\nkill c1 a1\nsubmit c1 a1 add 1\n"
KILL_BEHIND = "actor a1 counter c1\nactor a2 counter c1 c2\nsubmit c1 a1 add 1\nkill c1 a1\n"
RETIRED_AT_ONE = "c1.0 a1 = 1\na1 retired counter 1\na1.0 c1.0 add 1\na2 retired counter 0\n"
# The same over another caller: its call to a1 waits for an answer that comes of a call behind the kill.
KILL_TOLD = "actor a1 counter c1 c2\nactor a2 list c1 c2\nkill c1 a1\nsubmit c1 a2 push 5\nsubmit c2 a2 pop\nsubmit c2 a1 add @0\n"
TOLD = "c1.0 a2 = 1\nc2.0 a2 = {}\nc2.1 a1 = {}\na1 retired counter {}\na1.0 c2.1 add {}\na2 retired list{}\n{}"
TOLD_AFTER = TOLD.format("5", "5", "5", "5", "", "a2.0 c1.0 push 5\na2.1 c2.0 pop\n")
TOLD_BEFORE = TOLD.format("NoItems", "Dependency(0)", "0", "!0", " 5", "a2.0 c2.0 pop\na2.1 c1.0 push 5\n")

# A call runs once a caller was told something by another one, which had been told the actor's death before.
DEATH_TOLD = "actor a1 counter c1 c2\nactor a2 list c1 c2\nsubmit c1 a2 pop\nsubmit c1 a1 add @0\n"
DEATH_TOLD += "kill c2 a1\nsubmit c2 a1 get\nawait c2 0\nsubmit c2 a2 push 5\n"
RAN_DEAD = "c1.0 a2 = 5\nc1.1 a1 = 5\nc2.0 a1 = ActorDied\nc2.1 a2 = 1\na1 dead\na1.0 c1.1 add 5\n"
RAN_DEAD += "a2 retired list\na2.0 c2.1 push 5\na2.1 c1.0 pop\n"

# What each rule alone keeps from being a play of the plans: without it the report is allowed.
BY_ONE_RULE = {
    "a call is sent once its arguments have answers": ("arguments_of", WITH_ARGUMENTS, ANSWERS_CROSSED + NO_ORDER),
    "a step behind an await comes after the answer": ("awaited", WITH_AWAITS, ANSWERS_CROSSED + NO_ORDER),
    "a limit holds a call back": ("room_for", WITH_LIMITS, LIMITED.format(EARLY_AT_A1, EARLY_AT_A2)),
    "a kill is asked in its turn, behind an await": ("asked", AFTER_AN_AWAIT, DIED + RAN_NONE),
    "a kill is asked in its turn, behind a call held back": ("asked", AFTER_A_LIMIT, DIED + RAN_NONE),
    "one of several kills comes first": ("asked", TWO_KILLS, BOTH_KILLED),
    "nothing runs at a dead actor": ("last_run", DEATH_TOLD, RAN_DEAD),
    "a kill that was asked before the last run is found": ("looked_for", KILL_BEFORE, RETIRED_AT_ONE),
    "the same of another caller's run": ("looked_for", KILL_TOLD, TOLD_AFTER),
}
ALLOWED = [
    (WITH_ARGUMENTS, ANSWERS_CROSSED + IN_ORDER), (WITH_ARGUMENTS, ANSWERS_CROSSED + HALF_ORDER),
    (WITH_AWAITS, ANSWERS_CROSSED + IN_ORDER), (WITH_AWAITS, ANSWERS_CROSSED + HALF_ORDER),
    (WITH_LIMITS, LIMITED.format(LATE_AT_A1, LATE_AT_A2)), (WITH_LIMITS, LIMITED.format(EARLY_AT_A1, LATE_AT_A2)),
    *((script, report) for script in (AFTER_AN_AWAIT, AFTER_A_LIMIT, AFTER_NOTHING) for report in (FIRST + RAN_ONE, BOTH + RAN_TWO)),
    (AFTER_NOTHING, DIED + RAN_NONE), (TWO_KILLS, ONE_KILLED), (KILL_BEHIND, RETIRED_AT_ONE), (KILL_TOLD, TOLD_BEFORE),
]  # fmt: skip


def trial_by_plants():
    """Whether the judge allows what a play of the plans leaves, and refuses for one rule what it allows without that."""
    for script, report in ALLOWED:
        yield f"{report!r} is allowed of {script!r}", reading.judge(script.encode(), report.encode(), 0) is None
    for name, (rule, *told) in BY_ONE_RULE.items():
        script, report = (text.encode() for text in told)
        yield f"{name}: {report!r} is refused of {script!r}", reading.judge(script, report, 0) is not None
        with unittest.mock.patch.object(reading.Ways, rule, lambda self, of: []):
            yield f"{name}: nothing else is wrong with {report!r} of {script!r}", reading.judge(script, report, 0) is None


def trial_by_plays(seed):
    """Whether the judge allows of small plans what their plays leave, and nothing else."""
    tallies = collections.Counter()
    for place in range(SMALL_PLANS):
        plans = small_plans.Plans(random.Random(f"small plans {seed}.{place}"))
        left = small_plans.Plays(plans).reports(MAX_STATES)
        reports = set() if left is None else {*left, *small_plans.all_reports(plans)}
        for report in sorted(reports):
            why = reading.judge(plans.script(), report, 0)
            tallies.update(["allowed"] if why is None else ["refused", "in a circle"] if "circle" in why else ["refused"])
            how = "left" if report in left else "not left"
            yield f"{report!r} is {how} by the plays of {plans.script()!r}, and not {why!r}", (why is None) == (report in left)
    for sort, floor in {"allowed": 150, "refused": 500, "in a circle": 10}.items():
        yield f"of reports of small plans {floor} are {sort}, and not {tallies[sort]}", tallies[sort] >= floor


def trial_by_rows():
    """Whether the judge allows the worked reports, and refuses others of the worked kill."""
    for path in sorted(ROWS.glob("*.report")):
        status = path.with_suffix(".status")
        told = path.read_bytes(), int(status.read_text()) if status.exists() else 0
        yield f"the report of {path.stem} is allowed", reading.judge(path.with_suffix(".actors").read_bytes(), *told) is None
    script = KILL.read_bytes()
    for report in [*KILLED.values(), BOTH + RETIRED]:
        yield f"{report!r} is allowed of a kill", reading.judge(script, report.encode(), 0) is None
    yield "the program leaves no actor alive of which a kill was asked", complaint(script, (BOTH + RETIRED).encode(), 0) is not None
    for report in NOT_ALLOWED + RAN_AND_DIED:
        yield f"{report!r} is refused of a kill", reading.judge(script, report.encode(), 0) is not None
    for report in RAN_AND_DIED:
        yield f"{report!r} is allowed of some play", reading.judge(script, report.encode(), 0, of_plans=False) is None


def trial_by_tampering(seed, gots):
    """Whether the judge refuses each report that was tampered with, and each way to tamper was taken."""
    missing = set(TAMPERS)
    for place, (script, (report, status)) in enumerate(gots.items()):
        chance = random.Random(f"tampering {seed}.{place}")
        for name, told in tampered_fault(report) if status else tampered_run(chance, script, report):
            missing.discard(name)
            if told != (report, status):
                yield f"refused, {name}: {told[0]!r:.600} of {script!r:.600}", reading.judge(script, *told) is not None
    for name in sorted(missing):
        yield f"some report can be tampered with: {name}", False


# All checks.


def random_scripts(seed, count):
    """So many scripts of a seed, by name."""
    return {f"script {place} of seed {seed}": random_script(seed, place) for place in range(count)}


def worked_scripts():
    """The worked scripts, and the examples for threads, by name."""
    scripts = {}
    for path in [*sorted(ROWS.glob("*.actors")), *sorted(EXAMPLES.glob("*.actors"))]:
        script = path.read_bytes()
        if path.parent == ROWS or is_for_threads(script):
            scripts[path.name] = script
    return scripts


def is_for_threads(script):
    try:
        reading.read_plans(script)
    except reading.ScriptFault:
        return False
    return True


def judge_scripts(program, scripts):
    """Report and status of each script that the program is right on, and how many there are that it isn't; the first
    few are shown."""
    right, wrong = {}, 0
    for (name, script), got in zip(scripts.items(), runs(program, scripts.values())):
        why = complaint(script, *got)
        if why is None:
            right[script] = got
            continue
        wrong += 1
        if wrong <= MAX_SHOWN:
            show(name, script, *got, why)
    return right, wrong


def judge_kills(program, count):
    """How many runs of the worked kill leave something else than they may. Prints the shares of what they leave."""
    script = KILL.read_bytes()
    outcomes = {(report.encode(), 0): name for name, report in KILLED.items()}
    tallies = collections.Counter(runs(program, [script] * count))
    for outcome, name in outcomes.items():
        print(f"threads: {tallies[outcome] / max(count, 1):6.1%} of {count} kills: {name}")
    wrong = {got: number for got, number in tallies.items() if got not in outcomes}
    for got, number in wrong.items():
        print(f"{number} of {count} kills left {got!r:.600}")
    return sum(wrong.values())


def judge_often(program, path, count):
    """How many runs of a worked script go wrong: they leave another report than it has, or one of no schedule."""
    script, report = path.read_bytes(), path.with_suffix(".report")
    wanted = (report.read_bytes(), 0) if report.exists() else None
    tallies = collections.Counter(runs(program, [script] * count))
    wrong = {got: number for got, number in tallies.items() if (got != wanted if wanted else complaint(script, *got))}
    for got, number in wrong.items():
        print(f"{number} of {count} runs of {path.name} left {got!r:.600}")
    return sum(wrong.values())


def tell_trial(checks):
    """How many checks of the judge passed, and how many failed; the first few are shown."""
    passed = failed = 0
    for name, is_well in checks:
        passed, failed = passed + is_well, failed + (not is_well)
        if not is_well and failed <= MAX_SHOWN:
            print(f"the judge goes wrong: it should hold that {name}")
    return passed, failed


def chosen_options():
    options = argparse.ArgumentParser(description=__doc__.splitlines()[0])
    options.add_argument("--seed", type=int, help="this seed alone")
    options.add_argument("--count", type=int, default=200, help="how many random scripts of each seed")
    options.add_argument("--kills", type=int, default=50, help="how many runs of the worked kill")
    options.add_argument("--ends", type=int, default=200, help="how many runs of the worked end that waits its turn")
    options.add_argument("--limits", type=int, default=200, help="how many runs of each worked limit")
    options.add_argument("--program", type=pathlib.Path, help="run this one, and not the one that ./run takes")
    chosen = options.parse_args()
    if chosen.count < 100:
        options.error("fewer than 100 scripts don't come to all that they should try")
    chosen.program = program_of("threads", chosen.program)
    return chosen


def main():
    chosen = chosen_options()
    program = chosen.program
    first, *further = seeds.chosen(chosen.seed, "threads")
    scripts = random_scripts(first, chosen.count) | worked_scripts()
    more = {name: script for seed in further for name, script in random_scripts(seed, chosen.count).items()}
    right, wrong = judge_scripts(program, scripts)
    full = dict(full_scripts())
    full_right, full_wrong = judge_scripts(program, full)
    seldom = [*too_seldom(right), *not_full(full_right)]
    print("".join(f"{failure}\n" for failure in seldom), end="")
    more_right, more_wrong = judge_scripts(program, more)
    small = [check for seed in (first, *further) for check in trial_by_plays(seed)]
    passed, failed = tell_trial([*trial_by_rows(), *trial_by_plants(), *small, *trial_by_tampering(first, right | more_right)])
    wrong_kills = judge_kills(program, chosen.kills)
    often = {END: chosen.ends} | {path: chosen.limits for path in LIMITS}
    wrong_often = sum(judge_often(program, path, count) for path, count in often.items())
    passed += len(scripts) + len(full) + len(more) + len(FLOORS) + len(FULL) + chosen.kills + sum(often.values())
    wrong += full_wrong + more_wrong + len(seldom) + wrong_kills + wrong_often
    print(f"threads: {passed - wrong} passed, {failed + wrong} failed")
    sys.exit(1 if failed + wrong else 0)


if __name__ == "__main__":
    main()
