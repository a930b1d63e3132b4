#!/usr/bin/env python3
"""Runs callers by code of their own in threads, and judges each run by a second reading of the rules.

    tools/code_runs.py [--seed N] [--runs N] [--program PATH]

The program is crates/random_callers: the code of each of its callers draws its steps by a seed, and decides by what
it is told. Some callers have plans in the place of code. It prints what each caller asked for and was told, and what
all left, and ends with a status of its own where `judge` finds the history of the run not in order. Without `--seed` there are two, each with half of the runs: one that stays, and one that changes with the
commit.

What was asked for and not refused is a script for threads, so tools/threads.py judges what all left. Judged here is
what the code was told: each future, each refusal, each number of copies and of open calls, and each answer, which has
to be the one that is kept in the end. So is whether the code did what it had decided by an answer, and that a
run ends without a report only where a code gave up. Fails also where the runs of the first seed came too seldom to
what they should try. The judge is tried itself: it must refuse every run that was tampered with.
"""
import argparse
import collections
import itertools
import pathlib
import random
import re
import subprocess
import sys
from concurrent.futures import ThreadPoolExecutor
from dataclasses import dataclass, field

import reading_of_rules as reading
import seeds
import threads
from program import CRATES, proved

PROGRAM = CRATES / "random_callers/out/random_callers"
RUNS = 1_000  # of all seeds
TAMPERED = 60  # so many runs are tampered with, in each way
AT_ONCE = 4
MAX_SECONDS = 60
MAX_SHOWN = 5
NO_MEMORY = "no memory"
ENDS = ("end", "give_up")
READINGS = {"counter": "get", "table": "size", "account": "balance", "list": "len"}


class Wrong(Exception):
    """The rules don't allow what a caller was told, and this is why."""


# What a run printed.


@dataclass
class Step:
    """What a caller asked for, as its words, and what it was told."""

    words: list
    told: list = field(default_factory=list)


@dataclass
class Run:
    """The casts, the steps of each caller, whose steps are a plan, and the report, or none."""

    roles: list = field(default_factory=list)
    planned: set = field(default_factory=set)
    steps: dict = field(default_factory=dict)
    report: str = None


def read_trace(lines):
    """The casts and the callers' steps. The lines of several callers stand in between one another."""
    run = Run()
    for line in lines:
        verb, *words = line.split(" ")
        if verb == "actor":
            run.roles.append(line)
        elif verb == "plan":
            run.planned.add(words[0])
            run.steps[words[0]] = []
        elif verb == "told" and run.steps.get(words[0]):
            run.steps[words[0]][-1].told.append(words[1:])
        elif verb != "told" and words:
            run.steps.setdefault(words[0], []).append(Step([verb, *words]))
        else:
            raise Wrong(f"'{line}' is no line of a trace")
    return run


def read_run(output):
    """What a run printed: up to the word `joined` what happened, and then what all left."""
    if output.endswith(f"\n{NO_MEMORY}\n"):
        return read_trace(output.splitlines()[:-1])
    trace, found, report = output.partition("\njoined\n")
    if not found:
        raise Wrong("neither a report nor the want of memory is told")
    run = read_trace(trace.split("\n"))
    run.report = report
    return run


# What a caller is told, beside a world that does what it asked for.


class Listener:
    """A caller by code: what it must be told, and what it has to do next."""

    def __init__(self, name, world, kinds):
        self.name, self.number, self.world, self.kinds = name, int(name[1:]), world, kinds
        self.caller = world.callers[self.number]
        self.heard = {}  # of each future the answer that it was told
        self.answered = collections.Counter()  # of each actor at least so many calls that have an answer
        self.due = None  # the step that it decided on
        self.purse = None  # the number that its next call must have, if it has one
        self.lines = []  # what it did, as lines of a script
        self.sorts = set()  # what it came to

    def take(self, step):
        verb, _, *rest = step.words
        if self.due and verb not in ENDS and " ".join(step.words) != self.due:
            raise Wrong(f"'{' '.join(step.words)}', where the last answer has '{self.due}' come next")
        self.due = None
        getattr(self, f"take_{verb}")(rest, step.told)

    def refuse_or(self, told, verb, rest):
        """What a step of a script gives, or None where it is refused, as must be told."""
        line = " ".join([verb, self.name, *rest])
        try:
            gave = self.world.step(*reading.read_words(line.split(" "), reading.THREAD_FORMS))
        except reading.Refused as refused:
            self.sorts.add(f"refused {refused}")
            self.must(told, [f"refused {refused}"])
            return None
        self.lines.append(line)
        return gave or ""

    def must(self, told, wanted):
        if [" ".join(words) for words in told] != wanted:
            raise Wrong(f"{self.name} is told {told}, and {wanted} is due")

    # Calls.

    def take_submit(self, rest, told):
        self.called(rest, told, waits=False)

    def take_ask(self, rest, told):
        self.called(rest, told, waits=True)

    def called(self, rest, told, waits):
        self.spend(rest[2:])
        gave = self.refuse_or(told[:1], "submit", rest)
        if gave is None:
            self.must(told[1:], [])
            return
        call = self.caller.calls[-1]
        self.must(told[:1], [f"future {call.future}"])
        limit = self.world.actors[call.actor].limit
        if limit is not None:
            self.at_least(call.actor, len(self.caller.calls_to(call.actor)) - limit)
        if waits:
            self.lines.append(f"await {self.name} {call.future}")
            self.hear(call.future, told[1:])
        else:
            self.must(told[1:], [])

    def spend(self, arguments):
        """The last number that it was told is the first number of its next call that has one."""
        numbers = [word for word in arguments if re.fullmatch("-?[0-9]+", word)]
        if numbers and self.purse is not None:
            if numbers[0] != self.purse:
                raise Wrong(f"{self.name} spends {numbers[0]}, and was told {self.purse}")
            self.sorts.add("a number spent")
            self.purse = None

    # Answers.

    def take_await(self, rest, told):
        if self.refuse_or(told, "await", rest) is not None:
            self.hear(int(rest[0]), told)

    def take_look(self, rest, told):
        future = int(rest[0])
        if told == [["open", rest[0]]]:
            if future in self.heard:
                raise Wrong(f"{self.name} is told that its future {future} is open, and was told its answer before")
            self.sorts.add("an open future")
            return
        if future >= len(self.caller.calls):
            raise Wrong(f"{self.name} is told the answer of its future {future}, which it hasn't")
        self.lines.append(f"await {self.name} {future}")
        self.hear(future, told)

    def hear(self, future, told):
        """The answer of a future is told, and decides."""
        if len(told) != 1 or told[0][:2] != ["answer", str(future)] or len(told[0]) != 3:
            raise Wrong(f"{self.name} is told {told}, and the answer of {future} is due")
        answer = told[0][2]
        if self.heard.setdefault(future, answer) != answer:
            raise Wrong(f"{self.name} is told two answers of its future {future}")
        actor = self.caller.calls[future].actor
        known = [each for each in self.heard if self.caller.calls[each].actor == actor]
        self.at_least(actor, len(known))
        self.decide(actor, reading.read_answer(answer), answer)

    def decide(self, actor, answer, word):
        if not isinstance(answer, reading.Fault):
            self.purse = word if isinstance(answer, int) else self.purse
        elif word == "ActorDied":
            self.sorts.add("a death that decides")
            self.due = f"release {self.name} a{actor}"
        else:
            self.sorts.add("a fault that decides")
            self.due = f"ask {self.name} a{actor} {READINGS[self.kinds[actor]]}"

    # Handles, and what it can count.

    def take_copy(self, rest, told):
        gave = self.refuse_or(told, "copy", rest)
        if gave is not None:
            self.must(told, [gave])

    def take_release(self, rest, told):
        if self.refuse_or(told, "release", rest) is not None:
            copies = self.caller.copies[int(rest[0][1:])]
            self.sorts.add("a last release" if not copies else "a release")
            self.must(told, [f"copies {copies}"])

    def take_kill(self, rest, told):
        if self.refuse_or(told, "kill", rest) is not None:
            self.sorts.add("a kill")
            self.must(told, ["asked"])

    def take_count(self, rest, told):
        """How many calls are open is up to the schedule, between none and what was not told as answered."""
        actor = int(rest[0][1:])
        limit = self.world.actors[actor].limit if actor in self.caller.copies else None
        found = re.fullmatch(r"pending (\d+)", " ".join(told[0][:2]))
        self.must([told[0][2:], *told[1:]], ["" if limit is None else f"of {limit}"])
        calls = len(self.caller.calls_to(actor))
        if not found or int(found[1]) > calls - self.answered[actor]:
            raise Wrong(f"{self.name} is told {told}, and at least {self.answered[actor]} of its {calls} calls have answers")
        self.sorts.add("open calls counted" if int(found[1]) else "no open calls")
        self.at_least(actor, calls - int(found[1]))

    def at_least(self, actor, answered):
        self.answered[actor] = max(self.answered[actor], answered)

    # Its end.

    def take_end(self, rest, told):
        self.must(told, [])

    def take_give_up(self, rest, told):
        self.sorts.add("a code that gave up")
        self.must(told, [])


def listen(name, steps, world, kinds):
    """The listener of a code, after all its steps."""
    listener = Listener(name, world, kinds)
    for step in steps:
        listener.take(step)
    if not steps or steps[-1].words[0] not in ENDS or any(step.words[0] in ENDS for step in steps[:-1]):
        raise Wrong(f"the code of {name} has no end, or goes on after it")
    return listener


@dataclass
class Judged:
    """What a run came to."""

    sorts: set
    script: str
    world: object


def left_by(script, report):
    """The world that a report tells, judged as a report of plans is."""
    world = reading.judged(script, report, 0)
    for why in threads.survivors(world):
        raise Wrong(why)
    return world


def judged(output, status):
    """Judges a run by all that it printed; raises Wrong."""
    if status != 0:
        raise Wrong(f"status {status}")
    run = read_run(output)
    world = reading.Planned(reading.read_script("\n".join(run.roles).encode(), reading.THREAD_FORMS).roles)
    kinds = {int(words[1][1:]): words[2] for words in map(str.split, run.roles)}
    codes = [(name, steps) for name, steps in run.steps.items() if name not in run.planned]
    if {int(name[1:]) for name in run.steps} != set(world.callers):
        raise Wrong("a caller has neither code nor plan, or is no caller of the casts")
    listeners = [listen(name, steps, world, kinds) for name, steps in codes]
    lines = [" ".join(step.words) for name in run.planned for step in run.steps[name]]
    script = "\n".join([*run.roles, *lines, *(line for each in listeners for line in each.lines)]) + "\n"
    sorts = set().union(*(each.sorts for each in listeners), ["a plan beside code"] if run.planned else [])
    if (run.report is None) != ("a code that gave up" in sorts):
        raise Wrong("there must be a report, unless a code gave up")
    if run.report is None:
        return Judged(sorts, script, None)
    left = left_by(script.encode(), run.report.encode())
    for each, (future, answer) in ((each, heard) for each in listeners for heard in each.heard.items()):
        if reading.spelled(left.callers[each.number].calls[future].kept) != answer:
            raise Wrong(f"{each.name}.{future} is kept as another answer than it was told")
    return Judged(sorts | set(threads.sorts_of_report(run.report.encode())), script, left)


def complaint(output, status):
    """What is wrong with a run, or None."""
    try:
        judged(output, status)
    except (Wrong, reading.ScriptFault, reading.NotAllowed, reading.BadWord) as why:
        return str(why) or type(why).__name__
    return None


# Tampering. Each takes a random source and the lines of a run, and gives other lines, which no run prints; or nothing,
# where it can't be done.


def one_of(chance, lines, begins):
    """A line that begins so, by its place."""
    return chance.choice(threads.places(lines, begins))


def next_of(lines, place, begins):
    """The next line of the caller of this one, which must begin so."""
    caller = lines[place].split(" ")[1]
    after = next(each for each in range(place + 1, len(lines)) if lines[each].split(" ")[1:2] == [caller])
    if not lines[after].startswith(begins):
        raise ValueError(f"'{lines[after]}' begins otherwise")
    return after


def another_future(chance, lines):
    place = one_of(chance, lines, r"told c\d+ future")
    words = lines[place].split(" ")
    return threads.changed(lines, place, " ".join([*words[:3], str(int(words[3]) + 1)]))


def another_answer_told(chance, lines):
    place = one_of(chance, lines, r"told c\d+ answer \d+ -?\d+$")
    words = lines[place].split(" ")
    return threads.changed(lines, place, " ".join([*words[:4], str(int(words[4]) + 1)]))


def another_answer_kept(chance, lines):
    """The answer of a future that was told is another one in the report."""
    told = lines[one_of(chance, lines, r"told c\d+ answer \d+ -?\d+$")].split(" ")
    place = one_of(chance, lines, rf"{told[1]}\.{told[3]} ")
    return threads.changed(lines, place, lines[place] + "0")


def another_refusal(chance, lines):
    place = one_of(chance, lines, r"told c\d+ refused NoHandle")
    return threads.changed(lines, place, lines[place].replace("NoHandle", "NoActor"))


def a_refusal_as_done(chance, lines):
    place = one_of(chance, lines, r"told c\d+ refused")
    words = lines[place].split(" ")
    return threads.changed(lines, place, f"told {words[1]} future 0")


def a_wait_that_ends_too_early(chance, lines):
    place = one_of(chance, lines, r"await c\d+ \d+$")
    _, name, future = lines[place].split(" ")
    return threads.changed(lines, next_of(lines, place, f"told {name} answer"), f"told {name} open {future}")


def another_number_of_copies(chance, lines):
    place = one_of(chance, lines, r"told c\d+ copies")
    return threads.changed(lines, place, lines[place] + "1")


def too_many_open_calls(chance, lines):
    place = one_of(chance, lines, r"told c\d+ pending")
    words = lines[place].split(" ")
    return threads.changed(lines, place, " ".join([*words[:3], str(int(words[3]) + 99), *words[4:]]))


def another_limit(chance, lines):
    place = one_of(chance, lines, r"told c\d+ pending \d+ of")
    return threads.changed(lines, place, lines[place] + "1")


def a_submission_forgotten(chance, lines):
    """A call that was told its future isn't in the trace."""
    place = one_of(chance, lines, r"submit c\d+ a\d+")
    after = next_of(lines, place, f"told {lines[place].split(' ')[1]} future")
    return threads.dropped(threads.dropped(lines, after), place)


def a_decision_against_the_answer(chance, lines):
    """The step after an answer that decides is another one."""
    after = next_of(lines, one_of(chance, lines, r"told c\d+ answer \d+ [A-Z]"), ("ask", "release"))
    return threads.changed(lines, after, re.sub(r"a\d+", "a8", lines[after]))


def a_report_left_out(chance, lines):
    return [*lines[: lines.index("joined")], NO_MEMORY]


def a_code_that_gave_up_told_as_joined(chance, lines):
    place = one_of(chance, lines, "end c")
    lines.index("joined")
    return threads.changed(lines, place, lines[place].replace("end", "give_up"))


def a_code_without_an_end(chance, lines):
    return threads.dropped(lines, one_of(chance, lines, "end c"))


OWN_TAMPERS = {
    tamper.__name__.replace("_", " "): tamper
    for tamper in [
        another_future, another_answer_told, another_answer_kept, another_refusal, a_refusal_as_done,
        a_wait_that_ends_too_early, another_number_of_copies, too_many_open_calls, another_limit, a_submission_forgotten,
        a_decision_against_the_answer, a_report_left_out, a_code_that_gave_up_told_as_joined, a_code_without_an_end,
    ]
}  # fmt: skip


def tampered_trace(chance, output):
    """Ways to tamper with what a run printed that has a report: without one, less is known of it."""
    for name, tamper in OWN_TAMPERS.items():
        try:
            yield name, "".join(f"{line}\n" for line in tamper(chance, output.splitlines()))
        except (IndexError, ValueError, StopIteration):
            pass  # there is no such line to tamper with


def tampered_report(chance, output, script):
    """The same ways in which threads.py tampers with a report, each with the trace before it."""
    trace, _, report = output.partition("\njoined\n")
    for name, (told, status) in threads.tampered_run(chance, script.encode(), report.encode()):
        if status == 0:
            yield name, f"{trace}\njoined\n{told.decode('latin-1')}"


def trial(seed, rights):
    """Whether the judge refuses each run that was tampered with, and each way to tamper was taken."""
    missing = set(OWN_TAMPERS)
    for place, (output, found) in enumerate(rights[:TAMPERED]):
        chance = random.Random(f"tampering with code {seed}.{place}")
        if not found.world:
            yield "refused, a run of a code that gave up, with a report", complaint(output.replace(NO_MEMORY, "joined"), 0) is not None
            continue
        for name, told in itertools.chain(tampered_trace(chance, output), tampered_report(chance, output, found.script)):
            missing.discard(name)
            if told != output:
                yield f"refused, {name}: {told!r:.600}", complaint(told, 0) is not None
    yield from ((f"some run can be tampered with: {name}", False) for name in sorted(missing))


# What the runs come to: of a thousand, at least so many must have or tell each of these. Half of what they do, or less.
FLOORS = {
    "a number spent": 350, "a fault that decides": 320, "a death that decides": 70, "a plan beside code": 90,
    "an open future": 320, "open calls counted": 200, "no open calls": 310, "a release": 120, "a last release": 270,
    "a kill": 45, "a code that gave up": 50, "refused NoActor": 270, "refused NoHandle": 250, "refused TooManyArgs": 120,
    "refused BadFuture": 260, "refused NoFuture": 310, "retired": 380, "dead": 45, "an end": 15, "answer NoMethod": 50,
    "answer BadArgs": 180, "answer NoKey": 150, "answer BadAmount": 140, "answer Insufficient": 90, "answer NoItems": 90,
    "answer NoItem": 130, "answer Dependency": 150, "answer ActorDied": 45, "answer unit": 160,
}  # fmt: skip


def too_seldom(rights):
    tallies = collections.Counter(sort for _, found in rights for sort in found.sorts)
    for sort, floor in FLOORS.items():
        if tallies[sort] < floor * len(rights) // 1000:
            yield f"only {tallies[sort]} of {len(rights)} runs came to '{sort}'"


# The runs.


def words_of(seed, place):
    """The words of a run: its seed, callers, actors and steps."""
    chance = random.Random(f"codes {seed}.{place}")
    sizes = chance.choice([1, 2, 2, 3, 4, 8, 16]), chance.choice([1, 1, 2, 3, 8]), chance.choice([0, 5, 10, 20, 20, 40, 80])
    return [str(each) for each in (chance.randrange(2**63), *sizes)]


def run(program, words):
    """What a run printed, and its status."""
    try:
        done = subprocess.run([program, *words], stdin=subprocess.DEVNULL, capture_output=True, text=True, timeout=MAX_SECONDS)
    except subprocess.TimeoutExpired:
        return "", f"no end within {MAX_SECONDS} seconds"
    return done.stdout, (done.returncode, done.stderr) if done.stderr else done.returncode


def judge_runs(program, seed, count):
    """Runs and judges so many: the right ones with what they came to, and how many are wrong."""
    orders = [words_of(seed, place) for place in range(count)]
    rights, wrong = [], 0
    with ThreadPoolExecutor(max_workers=AT_ONCE) as pool:
        for words, (output, status) in zip(orders, pool.map(lambda words: run(program, words), orders)):
            try:
                rights.append((output, judged(output, status)))
            except (Wrong, reading.ScriptFault, reading.NotAllowed, reading.BadWord) as why:
                wrong += 1
                if wrong <= MAX_SHOWN:
                    print(f"random_callers {' '.join(words)}: {why!r}, where it printed:")
                    print("".join(f"    {line}\n" for line in output.splitlines()), end="")
    return rights, wrong


def tell_trial(trials):
    """How many trials passed and failed; the failed ones are printed."""
    results = collections.Counter()
    for name, is_well in trials:
        results[is_well] += 1
        if not is_well and results[False] <= MAX_SHOWN:
            print(f"the judge is wrong, where this should be: {name}")
    return results[True], results[False]


def chosen_options():
    options = argparse.ArgumentParser(description=__doc__.splitlines()[0])
    options.add_argument("--seed", type=int, help="the seed of the runs")
    options.add_argument("--runs", type=int, default=RUNS, help="how many runs, of all seeds")
    options.add_argument("--program", type=pathlib.Path, default=PROGRAM)
    chosen = options.parse_args()
    if chosen.runs < 200:
        options.error("fewer than 200 runs don't come to all that they should try")
    chosen.program = proved("code_runs", chosen.program)
    return chosen


def main():
    chosen = chosen_options()
    first, *further = taken = seeds.chosen(chosen.seed, "code_runs")
    count = chosen.runs // len(taken)
    rights, wrong = judge_runs(chosen.program, first, count)
    seldom = list(too_seldom(rights))
    print("".join(f"{each}\n" for each in seldom), end="")
    wrong += sum(judge_runs(chosen.program, seed, count)[1] for seed in further)
    passed, failed = tell_trial(trial(first, rights))
    passed += count * len(taken) + len(FLOORS)
    wrong += len(seldom)
    print(f"code_runs: {passed - wrong} passed, {failed + wrong} failed")
    sys.exit(1 if failed + wrong else 0)


if __name__ == "__main__":
    main()
