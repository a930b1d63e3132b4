"""Finds every fault that `ray_commands check-all` tells of a history, once more, as docs/rules.md has them.

A module of tools/check_histories.py: what is found here must be what the program tells, letter by letter.
"""
import dataclasses
import re

import reading_of_rules as reading

RAN = re.compile(r"a([1-8])[.]([0-9]+) c([0-9]+)[.]([0-9]+) ")
FUTURE = re.compile(r"c([0-9]+)[.]([0-9]+) a([1-8]) (?:\?|= (.*))")
END = re.compile(r"a([1-8]) (live|dead|retired)")
DIED, UNJUDGED = "ActorDied", "*"


@dataclasses.dataclass
class Call:
    caller: int
    future: int
    actor: int
    line: int  # that of its future
    kept: str  # the word of its answer, or none
    method: str = None
    arguments: list = None  # as they were submitted, or none where only its run tells them
    submitted: int = 0  # the line that submits it
    first: object = None  # its first run at its actor
    by_run: object = None  # what its actor answers there
    by_kind: object = None  # the same, and behind the actor's end what its kind would
    is_failed: bool = False  # whether a call that ran took its failure

    def name(self):
        return f"c{self.caller}.{self.future}"


@dataclasses.dataclass
class Run:
    actor: int
    place: int
    line: int
    caller: int
    future: int
    method: str
    arguments: list  # a Future stands for one that failed
    answer: object = None

    def name(self):
        return f"a{self.actor}.{self.place}"

    def told(self):
        return f"{self.name()} (line {self.line})"


def read_settled(word):
    return reading.Future(int(word[1:])) if word.startswith("!") else reading.read_value(word)


def words_of(arguments):
    """Settled arguments as they are told."""
    return " ".join(f"!{each.number}" if isinstance(each, reading.Future) else reading.spelled(each) for each in arguments) or "none"


class History:
    """What the lines of a history tell, in which there is no mistake."""

    def __init__(self, front, lines):
        self.script = reading.read_script(front, reading.THREAD_FORMS)
        self.kinds = {actor: kind for actor, kind, *_ in self.script.roles}
        self.callers = {actor: callers for actor, *_, callers in self.script.roles}
        self.calls, self.runs, self.ends = {}, {actor: [] for actor in self.kinds}, {}
        for number, line in enumerate(lines, front.count(b"\n") + 1):
            if line and not line.startswith("#"):
                self.read(number, line)
        self.add_submitted()
        self.add_runs()
        for actor, kind in self.kinds.items():
            self.replay(self.runs[actor], reading.KINDS[kind]())

    def read(self, number, line):
        if found := RAN.match(line):
            actor, place, caller, future = map(int, found.groups())
            method, *words = line[found.end() :].split(" ")
            run = Run(actor, place, number, caller, future, method, [read_settled(word) for word in words])
            self.runs[actor].append(run)
        elif found := FUTURE.fullmatch(line):
            caller, future, actor = map(int, found.groups()[:3])
            self.calls[caller, future] = Call(caller, future, actor, number, found[4])
        else:
            found = END.match(line)
            self.ends[int(found[1])] = number, found[2]

    def add_submitted(self):
        counts = {}
        for number, (verb, spelt) in zip(self.script.lines, self.script.events):
            if verb == "submit":
                caller, _, method, arguments = spelt
                call = self.calls[caller, counts.setdefault(caller, 0)]
                call.method, call.arguments, call.submitted = method, arguments, number
                counts[caller] += 1

    def add_runs(self):
        """The first run of each call at its actor, which tells what it was where no line submits it; and of which calls
        a failure was taken."""
        for run in (run for runs in self.runs.values() for run in runs):
            call = self.calls.get((run.caller, run.future))
            for argument in run.arguments:
                if isinstance(argument, reading.Future) and (run.caller, argument.number) in self.calls:
                    self.calls[run.caller, argument.number].is_failed = True
            if call and call.actor == run.actor and call.first is None:
                call.first = run
                if not call.submitted:
                    call.method, call.arguments = run.method, run.arguments

    def replay(self, runs, kind):
        """What an actor answers, asked one call after another with the arguments as they ran: up to its end, and what its
        kind would behind it."""
        has_ended = False
        for run in runs:
            answer = reading.answer_of(kind, run.method, run.arguments)
            run.answer = None if has_ended else answer
            call = self.calls.get((run.caller, run.future))
            if call and call.first is run:
                call.by_run, call.by_kind = run.answer, answer
            has_ended = has_ended or is_end(run)

    def has_died(self, call):
        return call.kept == DIED or call.kept == UNJUDGED and (call.first is None or self.is_lost(call))

    def is_lost(self, call):
        """Whether a failure of the call was taken at whose place a dead actor's kind answers a value: so that was no reply."""
        has_value = call.by_kind is not None and not isinstance(call.by_kind, reading.Fault)
        return self.ends[call.actor][1] == "dead" and call.is_failed and has_value

    # The faults, each as its line and what is said.

    def faults(self):
        futures = [fault for _, call in sorted(self.calls.items()) for fault in self.of_future(call)]
        pairs = [(later.line, text) for later, text in self.half_dead()]
        actors = [fault for actor in sorted(self.kinds) for fault in self.of_actor(actor)]
        return sorted(futures + pairs, key=lambda fault: fault[0]) + actors

    def of_future(self, call):
        futures = [each.number for each in call.arguments or [] if isinstance(each, reading.Future)]
        later = [number for number in futures if number >= call.future]
        _, stage = self.ends[call.actor]
        if later:
            yield call.line, f"{call.name()} takes the answer of @{later[0]}, a later call"
        elif call.kept == DIED:
            if stage != "dead":
                yield call.line, f"{call.name()} has ActorDied, and a{call.actor} isn't dead"
        elif call.first is None and call.kept and not (call.kept == UNJUDGED and stage == "dead"):
            yield call.line, f"{call.name()} has an answer, and a{call.actor} didn't run it"
        elif call.first is None and stage == "retired":
            yield call.line, f"a{call.actor} retired, and didn't run {call.name()}"

    def half_dead(self):
        """Of each caller and actor the first call without an answer, where a death answered another one: at the line at
        which both are known."""
        for caller, actor in sorted({(call.caller, call.actor) for call in self.calls.values()}):
            pair = {}
            for _, call in sorted(self.calls.items()):
                if (call.caller, call.actor) == (caller, actor):
                    sort = "open" if call.kept is None else "dead" if self.has_died(call) else None
                    pair |= {sort: call} if sort else {}
                    if len(pair) == 2:
                        both = pair["open"].name(), pair["dead"].name()
                        yield call, "{} has no answer, and the death that answered {} answers both".format(*both)
                        break

    def of_actor(self, actor):
        line, stage = self.ends[actor]
        runs = self.runs[actor]
        if runs and is_end(runs[-1]) and stage != "dead":
            yield line, f"{runs[-1].name()} is a terminate, so its actor is dead"
        passed = {}  # of each caller the last of its calls that ran here
        for place, run in enumerate(runs):
            if any(is_end(earlier) for earlier in runs[:place]):
                yield run.line, f"{run.name()} runs after a terminate"
                continue
            strange = self.strange(run)
            yield from ((run.line, text) for text in ([strange] if strange else self.of_order(run, passed)))
            yield from ((run.line, text) for text in self.of_values(run))

    def strange(self, run):
        call = self.calls.get((run.caller, run.future))
        if run.caller not in self.callers[run.actor]:
            return f"{run.name()} is a call of c{run.caller}, which has no handle"
        if call is None:
            return f"{run.name()} is c{run.caller}.{run.future}, which has no line"
        if call.actor != run.actor:
            return f"{run.name()} is {call.name()}, which goes to a{call.actor}"
        if call.first is not run:
            return f"{run.name()} runs {call.name()} again, after {call.first.told()}"
        return None

    def of_order(self, run, passed):
        call = self.calls[run.caller, run.future]
        for future in range(passed.get(run.caller, -1) + 1, run.future):
            skipped = self.calls[run.caller, future]
            if skipped.actor == run.actor:
                how = f"which runs at {skipped.first.told()}" if skipped.first else "which didn't run"
                yield f"{run.name()} skips {skipped.name()}, {how}"
        passed[run.caller] = max(passed.get(run.caller, -1), run.future)
        if not self.may_run_as(call, run):
            yield f"{run.name()} isn't {call.name()} as it was submitted (line {call.submitted})"

    def may_run_as(self, call, run):
        if call.submitted == 0:
            return True
        pairs = zip(call.arguments, run.arguments)
        is_same = call.method == run.method and len(call.arguments) == len(run.arguments)
        return is_same and all(may_settle(argument, settled) for argument, settled in pairs)

    def of_values(self, run):
        """The arguments and the answer of a call at its first place."""
        call = self.calls.get((run.caller, run.future))
        if call is None or call.first is not run:
            return
        if self.may_run_as(call, run):
            due = words_of(self.settled(call, argument, ran) for argument, ran in zip(call.arguments, run.arguments))
            if due != words_of(run.arguments):
                told = words_of(run.arguments)
                yield f"the arguments at {run.name()} are {due} by the rules, and the history tells {told}"
        right = reading.spelled(run.answer)
        if call.kept not in (None, UNJUDGED, DIED, right):
            yield f"the answer at {run.name()} is {right} by the rules, and the history tells {call.kept} (line {call.line})"

    def settled(self, call, argument, ran):
        """An argument as it is settled by the answer that is told, or where that is left open by the one of its run."""
        if not isinstance(argument, reading.Future):
            return argument
        given = self.calls.get((call.caller, argument.number))
        if given is None or given.kept is None:
            return ran
        if self.has_died(given):
            return argument
        answer = given.by_run if given.kept == UNJUDGED else reading.read_answer(given.kept)
        if answer is None:
            return ran
        return argument if isinstance(answer, reading.Fault) else answer


def is_end(run):
    return run.method == reading.END and not run.arguments


def may_settle(argument, settled):
    """Whether an argument that was submitted can have been settled so."""
    if isinstance(argument, reading.Future):
        return not isinstance(settled, reading.Future) or settled == argument
    return not isinstance(settled, reading.Future) and reading.spelled(settled) == reading.spelled(argument)


def faults_text(front, lines):
    """All that is told, or nothing where no line shows a fault."""
    return "".join(f"line {line}: {text}\n" for line, text in History(front, lines).faults())
