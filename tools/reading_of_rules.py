#!/usr/bin/env python3
"""A second reading of docs/rules.md: from the bytes of a script to the bytes of its report, and the status.

It was written from the rules and not from the program, and shares no code with it; tools/fuzz.py
compares the two. Alone it plays a script:  python3 tools/reading_of_rules.py < examples/one_call.actors

A script for threads has no single report. Of it this reading gives the fault, and judges a report: whether the
rules allow it, which is so where a play of the script's plans ends as it tells. tools/threads.py judges the program
so. Alone it judges one report:  python3 tools/reading_of_rules.py SCRIPT < REPORT
"""
import collections
import re
import sys
from dataclasses import dataclass, field

LONGEST_SCRIPT = 1_048_576
LONGEST_LINE = 512
MAX_ARGUMENTS = 4
MAX_CALLS = 65_536
MAX_COPIES = 65_535
LARGEST_LIMIT = 65_536
MAX_KEYS = 1_024
MAX_ITEMS = 4_096
LEAST_INT, LARGEST_INT = -(2**63), 2**63 - 1
LARGEST_NUMBER = 2**32 - 1


# Values and answers. An `Int` is a Python int, a `Text` a str, and `Unit` the one value below.


class Unit:
    def __repr__(self):
        return "unit"


UNIT = Unit()


class Fault(Exception):
    """What a call answers where it has no value."""


@dataclass(frozen=True)
class Future:
    """A future of the submitting caller, where an argument stands."""

    number: int


def is_good_text(value):
    return isinstance(value, str) and 1 <= len(value) <= 64 and all("\x21" <= byte <= "\x7e" for byte in value)


def is_int(value):
    return isinstance(value, int)


def spelled(answer):
    return f'"{answer}"' if isinstance(answer, str) else str(answer)


# The kinds. Each lists its methods with the form of their arguments: n an Int, k a good text, v either.

FORM_OF_ARGUMENT = {"n": is_int, "k": is_good_text, "v": lambda value: is_int(value) or is_good_text(value)}


def in_range(number):
    if not LEAST_INT <= number <= LARGEST_INT:
        raise Fault("Overflow")
    return number


class Counter:
    def __init__(self):
        self.number = 0

    def add(self, more):
        self.number = in_range(self.number + more)
        return self.number

    def get(self):
        return self.number

    def text(self):
        return f"counter {self.number}"

    methods = {"add": ("n", add), "get": ("", get)}


class Table:
    def __init__(self):
        self.pairs = {}  # a dict keeps the order in which its keys came

    def put(self, key, value):
        if key not in self.pairs and len(self.pairs) == MAX_KEYS:
            raise Fault("KindFull")
        self.pairs[key] = value
        return UNIT

    def get(self, key):
        if key not in self.pairs:
            raise Fault("NoKey")
        return self.pairs[key]

    def delete(self, key):
        if key not in self.pairs:
            raise Fault("NoKey")
        return self.pairs.pop(key)

    def size(self):
        return len(self.pairs)

    def text(self):
        return "table" + "".join(f" {spelled(key)} {spelled(value)}" for key, value in self.pairs.items())

    methods = {"put": ("kv", put), "get": ("k", get), "del": ("k", delete), "size": ("", size)}


class Account:
    def __init__(self):
        self.amount = 0

    def deposit(self, more):
        if more <= 0:
            raise Fault("BadAmount")
        self.amount = in_range(self.amount + more)
        return self.amount

    def withdraw(self, less):
        if less <= 0:
            raise Fault("BadAmount")
        if less > self.amount:
            raise Fault("Insufficient")
        self.amount -= less
        return self.amount

    def balance(self):
        return self.amount

    def text(self):
        return f"account {self.amount}"

    methods = {"deposit": ("n", deposit), "withdraw": ("n", withdraw), "balance": ("", balance)}


class ItemList:
    def __init__(self):
        self.items = []

    def push(self, item):
        if len(self.items) == MAX_ITEMS:
            raise Fault("KindFull")
        self.items.append(item)
        return len(self.items)

    def pop(self):
        if not self.items:
            raise Fault("NoItems")
        return self.items.pop()

    def at(self, place):
        if not 0 <= place < len(self.items):
            raise Fault("NoItem")
        return self.items[place]

    def length(self):
        return len(self.items)

    def text(self):
        return "list" + "".join(f" {spelled(item)}" for item in self.items)

    methods = {"push": ("v", push), "pop": ("", pop), "at": ("n", at), "len": ("", length)}


KINDS = {"counter": Counter, "table": Table, "account": Account, "list": ItemList}
END = "terminate"  # no kind has it: the actor itself answers
METHODS = {method for kind in KINDS.values() for method in kind.methods} | {END}


def ask(kind, method, values):
    """What the kind answers; a fault leaves its state, since each method faults before it changes it."""
    try:
        if method not in kind.methods:
            raise Fault("NoMethod")
        forms, body = kind.methods[method]
        if len(values) != len(forms) or not all(FORM_OF_ARGUMENT[form](value) for form, value in zip(forms, values)):
            raise Fault("BadArgs")
        return body(kind, *values)
    except Fault as fault:
        return fault


def answer_of(kind, method, arguments):
    """What a call answers; one with a failed argument isn't asked, and names the first one's future."""
    failed = [each.number for each in arguments if isinstance(each, Future)]
    if failed:
        return Fault(f"Dependency({failed[0]})")
    if method == END:
        return Fault("BadArgs") if arguments else UNIT
    return ask(kind, method, arguments)


# The words of a script.


class BadWord(Exception):
    """The word doesn't spell what stands at its place, or a word is missing or too much."""


def read_id(letter, most):
    def read(word):
        if not re.fullmatch(letter + "[1-9][0-9]?", word) or int(word[1:]) > most:
            raise BadWord
        return int(word[1:])

    return read


def read_name(names):
    def read(word):
        if word not in names:
            raise BadWord
        return word

    return read


def read_number(word):
    if not re.fullmatch("0|[1-9][0-9]*", word) or int(word) > LARGEST_NUMBER:
        raise BadWord
    return int(word)


def read_value(word):
    if word == "unit":
        return UNIT
    if len(word) >= 2 and word[0] == word[-1] == '"' and is_good_text(word[1:-1]):
        return word[1:-1]
    if re.fullmatch("0|-?[1-9][0-9]*", word) and LEAST_INT <= int(word) <= LARGEST_INT:
        return int(word)
    raise BadWord


def read_limit(word):
    limit = read_number(word)
    if not 1 <= limit <= LARGEST_LIMIT:
        raise BadWord
    return limit


def read_argument(word):
    return Future(read_number(word[1:])) if word.startswith("@") else read_value(word)


read_caller = read_id("c", 16)
read_actor = read_id("a", 8)
read_kind = read_name(KINDS)
read_method = read_name(METHODS)


def read_callers(words):
    if not words:
        raise BadWord
    return [read_caller(word) for word in words]


def read_naming(words):
    """A limit, or none, and the callers."""
    if words[:1] != ["max"]:
        return [None, read_callers(words)]
    if len(words) < 2:
        raise BadWord
    return [read_limit(words[1]), read_callers(words[2:])]


def read_arguments(words):
    return [[read_argument(word) for word in words]]


# Each form of line: its first word, the words after it, and for two of them how what may follow is read.
COMMON_FORMS = {
    "actor": [read_actor, read_kind],
    "submit": [read_caller, read_actor, read_method],
    "copy": [read_caller, read_actor],
    "release": [read_caller, read_actor],
    "kill": [read_caller, read_actor],
}
PLAY_FORMS = COMMON_FORMS | {
    "send": [read_caller, read_number],
    "deliver": [read_number],
    "run": [read_actor, read_caller],
    "collect": [read_number],
    "take": [read_actor],
    "tell": [read_actor, read_caller],
    "retire": [read_actor],
}
THREAD_FORMS = COMMON_FORMS | {"await": [read_caller, read_number]}
FOLLOWED = {"actor": read_naming, "submit": read_arguments}


def read_words(words, forms=PLAY_FORMS):
    """The first word of a line, and what its other words spell."""
    verb, *rest = words
    if verb not in forms:
        raise BadWord
    readers = forms[verb]
    fixed, more = rest[: len(readers)], rest[len(readers) :]
    if len(fixed) < len(readers):
        raise BadWord
    spelt = [read(word) for read, word in zip(readers, fixed)]
    if verb in FOLLOWED:
        spelt += FOLLOWED[verb](more)
    elif more:
        raise BadWord
    return verb, spelt


# A script: its roles, and its events, or in threads its steps.


class ScriptFault(Exception):
    def __init__(self, line, name):
        super().__init__(f"line {line}: {name}\n")
        self.line = line
        self.name = name


@dataclass
class Script:
    roles: list = field(default_factory=list)  # actor, kind, limit or None, callers
    events: list = field(default_factory=list)  # first word of the line, and what its other words spell
    lines: list = field(default_factory=list)  # for each event the number of its line

    def enter(self, number, verb, spelt):
        """Takes a line of good form, or names what else is wrong with it."""
        if verb != "actor":
            self.events.append((verb, spelt))
            self.lines.append(number)
            return None
        actor, _, _, callers = spelt
        if self.events:
            return "LateActor"
        if any(actor == earlier for earlier, *_ in self.roles):
            return "TwiceActor"
        if len(set(callers)) < len(callers):
            return "TwiceCaller"
        self.roles.append(spelt)
        return None


def words_of(line):
    """The words of a line; none where it is skipped."""
    if len(line) > LONGEST_LINE or any(not 0x20 <= byte <= 0x7E for byte in line):
        raise BadWord
    if not line or line.startswith(b"#"):
        return []
    return line.decode("ascii").split(" ")  # an empty word, from a space too many, spells nothing


def read_script(data, forms=PLAY_FORMS):
    if len(data) > LONGEST_SCRIPT:
        raise ScriptFault(0, "TooLong")
    script = Script()
    for number, line in enumerate(data.split(b"\n"), 1):
        try:
            words = words_of(line)
            wrong = script.enter(number, *read_words(words, forms)) if words else None
        except BadWord:
            wrong = "BadLine"
        if wrong:
            raise ScriptFault(number, wrong)
    return script


# The world.


class Refused(Exception):
    """The event adds nothing, and this is told."""


@dataclass
class Call:
    caller: int
    future: int
    actor: int
    number: int  # its place among the caller's calls to that actor
    method: str
    arguments: list
    sent: bool = False
    kept: object = None  # a value or a fault, once it is kept

    def spelled_future(self):
        return f"c{self.caller}.{self.future}"


@dataclass
class Caller:
    copies: dict = field(default_factory=dict)  # of each actor whose cast names the caller
    calls: list = field(default_factory=list)
    by_actor: dict = field(default_factory=dict)  # the same calls, of each actor those to it
    answered: dict = field(default_factory=dict)  # of each actor how many of these have an answer
    known_dead: set = field(default_factory=set)

    def add(self, call):
        self.calls.append(call)
        self.by_actor.setdefault(call.actor, []).append(call)

    def keep(self, call, answer):
        call.kept = answer
        self.answered[call.actor] = self.answered.get(call.actor, 0) + 1

    def calls_to(self, actor):
        return self.by_actor.get(actor, [])

    def pending(self, actor):
        """How many of the calls to that actor have no answer, whether they ran or not."""
        return len(self.calls_to(actor)) - self.answered.get(actor, 0)

    def settled(self, call):
        """Each argument as its value, or as its future where that is kept as a fault."""
        for argument in call.arguments:
            kept = self.calls[argument.number].kept if isinstance(argument, Future) else argument
            yield argument if isinstance(kept, Fault) else kept


@dataclass
class Item:
    """A call that ran."""

    call: Call
    arguments: list
    answer: object

    def spelled(self):
        words = [self.call.spelled_future(), self.call.method]
        words += [f"!{each.number}" if isinstance(each, Future) else spelled(each) for each in self.arguments]
        return " ".join(words)

    def ends_actor(self):
        return self.call.method == END and not self.arguments


@dataclass
class Actor:
    kind: object
    callers: list
    limit: int = None  # how many calls of each caller may be pending
    stage: str = "live"
    kill_asked: bool = False
    arrived: dict = field(default_factory=dict)  # by caller and number: that call
    notes: dict = field(default_factory=dict)  # by caller: the number of its calls
    ran: list = field(default_factory=list)
    counts: dict = field(default_factory=collections.Counter)  # of each caller how many of these are its calls

    def add(self, item):
        self.ran.append(item)
        self.counts[item.call.caller] += 1

    def ran_of(self, caller):
        return self.counts[caller]

    def next_call(self, caller):
        """The call that runs next, or none where it hasn't arrived."""
        return self.arrived.get((caller, self.ran_of(caller)))

    def is_drained(self):
        return all(caller in self.notes and self.ran_of(caller) == self.notes[caller] for caller in self.callers)

    def must_live(self):
        if self.stage != "live":
            raise Refused("ActorEnded")


@dataclass
class Note:
    """The note of a last release."""

    caller: int
    actor: int
    calls: int


@dataclass
class Death:
    caller: int
    actor: int


class World:
    def __init__(self, roles):
        self.actors = {}
        self.callers = {}
        self.mail = []  # calls and notes
        self.notices = []  # items that ran, and deaths
        for name, kind, limit, callers in roles:
            self.actors[name] = Actor(KINDS[kind](), callers, limit)
            for caller in callers:
                self.callers.setdefault(caller, Caller()).copies[name] = 1

    def after(self, verb, spelt):
        """Does one event and gives its outcome."""
        try:
            return getattr(self, verb)(*spelt)
        except Refused as refused:
            return f"refused {refused}"

    # What an event needs to be there, in the order of the checks.

    def a_caller(self, caller):
        if caller not in self.callers:
            raise Refused("NoCaller")
        return self.callers[caller]

    def an_actor(self, actor):
        if actor not in self.actors:
            raise Refused("NoActor")
        return self.actors[actor]

    def both(self, caller, actor):
        named = self.a_caller(caller)
        if actor not in named.copies:
            raise Refused("NoActor")
        return named, self.actors[actor]

    def with_handle(self, caller, actor):
        both = self.both(caller, actor)
        if both[0].copies[actor] == 0:
            raise Refused("NoHandle")
        return both

    # A caller's events.

    def submit(self, caller, actor, method, arguments):
        submitter, called = self.with_handle(caller, actor)
        future = len(submitter.calls)
        if len(arguments) > MAX_ARGUMENTS:
            raise Refused("TooManyArgs")
        if any(isinstance(each, Future) and each.number >= future for each in arguments):
            raise Refused("BadFuture")
        if future == MAX_CALLS:
            raise Refused("TooManyCalls")
        if called.limit is not None and submitter.pending(actor) >= called.limit:
            self.meet_limit()
        call = Call(caller, future, actor, len(submitter.calls_to(actor)), method, arguments)
        submitter.add(call)
        if actor in submitter.known_dead:
            submitter.keep(call, Fault("ActorDied"))
        return f"future {call.spelled_future()}"

    def meet_limit(self):
        """What becomes of a submission that only a limit refuses."""
        raise Refused("PendingLimit")

    def copy(self, caller, actor):
        holder, _ = self.with_handle(caller, actor)
        if holder.copies[actor] == MAX_COPIES:
            raise Refused("TooManyCopies")
        holder.copies[actor] += 1
        return f"copies {holder.copies[actor]}"

    def release(self, caller, actor):
        holder, _ = self.with_handle(caller, actor)
        holder.copies[actor] -= 1
        if holder.copies[actor]:
            return f"copies {holder.copies[actor]}"
        return self.post(Note(caller, actor, len(holder.calls_to(actor))))

    def kill(self, caller, actor):
        _, victim = self.with_handle(caller, actor)
        victim.kill_asked = True
        return "asked"

    def send(self, caller, future):
        sender = self.a_caller(caller)
        if future >= len(sender.calls):
            raise Refused("NoFuture")
        call = sender.calls[future]
        if any(isinstance(each, Future) and sender.calls[each.number].kept is None for each in call.arguments):
            raise Refused("NotReady")
        if call.kept is not None and not call.sent:
            raise Refused("Answered")
        call.sent = True
        return self.post(call)

    def post(self, letter):
        self.mail.append(letter)
        return f"mail {len(self.mail) - 1}"

    # An actor's events.

    def deliver(self, place):
        if place >= len(self.mail):
            raise Refused("NoMail")
        letter = self.mail[place]
        actor = self.actors[letter.actor]
        actor.must_live()
        if isinstance(letter, Note):
            there, key, content = actor.notes, letter.caller, letter.calls
        else:
            there, key, content = actor.arrived, (letter.caller, letter.number), letter
        if key in there:
            return "repeat"
        there[key] = content
        return "new"

    def run(self, name, caller):
        submitter, actor = self.both(caller, name)
        actor.must_live()
        call = actor.next_call(caller)
        if call is None:
            return "gap"
        arguments = list(submitter.settled(call))
        item = Item(call, arguments, answer_of(actor.kind, call.method, arguments))
        actor.add(item)
        if item.ends_actor():
            actor.stage = "dead"
        return f"place {len(actor.ran) - 1} {self.notify(item)}"

    def notify(self, notice):
        self.notices.append(notice)
        return f"reply {len(self.notices) - 1}"

    def take(self, name):
        actor = self.an_actor(name)
        actor.must_live()
        if not actor.kill_asked:
            raise Refused("NoKill")
        actor.stage = "dead"
        return "dead"

    def tell(self, name, caller):
        _, actor = self.both(caller, name)
        if actor.stage != "dead":
            raise Refused("NotDead")
        return self.notify(Death(caller, name))

    def retire(self, name):
        actor = self.an_actor(name)
        actor.must_live()
        if not actor.is_drained():
            raise Refused("NotDrained")
        actor.stage = "retired"
        return "retired"

    # What reaches a caller.

    def collect(self, place):
        if place >= len(self.notices):
            raise Refused("NoReply")
        notice = self.notices[place]
        if isinstance(notice, Death):
            return self.collect_death(self.callers[notice.caller], notice.actor)
        call = notice.call
        if call.kept is not None:
            return f"late {call.spelled_future()}"
        self.callers[call.caller].keep(call, notice.answer)
        return f"kept {call.spelled_future()}"

    def collect_death(self, caller, actor):
        caller.known_dead.add(actor)
        still_open = [call for call in caller.calls_to(actor) if call.kept is None]
        for call in still_open:
            caller.keep(call, Fault("ActorDied"))
        return f"died {len(still_open)}"

    # The summary.

    def summary(self):
        for _, caller in sorted(self.callers.items()):
            for call in caller.calls:
                answer = "?" if call.kept is None else f"= {spelled(call.kept)}"
                yield f"{call.spelled_future()} a{call.actor} {answer}"
        for name, actor in sorted(self.actors.items()):
            state = "" if actor.stage == "dead" else " " + actor.kind.text()
            yield f"a{name} {actor.stage}{state}"
            for place, item in enumerate(actor.ran):
                yield f"a{name}.{place} {item.spelled()}"


def play(data):
    """The report of a script's bytes, or its first fault; and the status."""
    try:
        script = read_script(data)
    except ScriptFault as fault:
        return str(fault).encode(), 1
    world = World(script.roles)
    lines = [f"{place}: {world.after(*event)}" for place, event in enumerate(script.events)]
    lines += world.summary()
    return "".join(line + "\n" for line in lines).encode(), 0


# Scripts for threads. What a plan submits depends on no schedule and on no limit, so a world without letters tells it.


class Planned(World):
    """A world that does nothing but the steps of plans."""

    def __init__(self, roles):
        super().__init__(roles)
        self.to_be_killed = set()
        self.steps = {caller: [] for caller in self.callers}  # those done: the word, and its call, or its actor

    def step(self, verb, spelt):
        """Does a step, or raises Refused."""
        gave = self.await_answer(*spelt) if verb == "await" else getattr(self, verb)(*spelt)
        caller, other = spelt[:2]
        calls = {"submit": -1, "await": other}
        self.steps[caller].append((verb, self.callers[caller].calls[calls[verb]] if verb in calls else other))
        return gave

    def meet_limit(self):
        """The step waits until the limit lets it through, so it's never refused for that."""

    def kill(self, caller, actor):
        super().kill(caller, actor)
        self.to_be_killed.add(actor)

    def await_answer(self, caller, future):
        if future >= len(self.a_caller(caller).calls):
            raise Refused("NoFuture")


def do_plans(script, world):
    """Does all plans, callers by rising number, or raises the fault of the first step that is refused."""
    for line, (verb, spelt) in sorted(zip(script.lines, script.events), key=lambda step: step[1][1][0]):
        try:
            world.step(verb, spelt)
        except Refused as refused:
            raise ScriptFault(line, "BadPlan") from refused


def read_plans(data):
    """The world after all plans of a script for threads, with no call sent; or raises its fault."""
    script = read_script(data, THREAD_FORMS)
    world = Planned(script.roles)
    for line, (_, spelt) in zip(script.lines, script.events):
        if spelt[0] not in world.callers:
            raise ScriptFault(line, "BadPlan")
    do_plans(script, world)
    return world


# The judge of a report of threads. It takes from the report what a schedule may choose, which is the kept answers, the
# ends and the run lists, and holds each line of it against the plans and the rules. Then it asks whether a play of the
# plans ends so.


class NotAllowed(Exception):
    """The rules don't allow the report, and this is why."""


FAULTS = "NoMethod BadArgs Overflow KindFull NoKey BadAmount Insufficient NoItems NoItem ActorDied".split()


def read_answer(word):
    """A value or a fault, in its one spelling."""
    dependency = re.fullmatch(r"Dependency\((0|[1-9][0-9]*)\)", word)
    if word in FAULTS or dependency and int(dependency[1]) <= LARGEST_NUMBER:
        return Fault(word)
    return read_value(word)


def lines_of_report(report):
    """The lines of a report, each of which ends with a line end, and has nothing but plain bytes and spaces."""
    if report and not report.endswith(b"\n"):
        raise NotAllowed("the last line has no end")
    if any(not 0x20 <= byte <= 0x7E and byte != 0x0A for byte in report):
        raise NotAllowed("a byte that no line has")
    return report.decode("ascii").split("\n")[:-1]


def fault_of(call):
    """The name of the fault that is kept for the call, or nothing."""
    return str(call.kept) if isinstance(call.kept, Fault) else None


def submission(call):
    return f"{call.spelled_future()} is submitted"


def run_of(call):
    return f"{call.spelled_future()} runs"


def death_of(name):
    return f"a{name} dies"


def giver_of(call):
    """What gave a call its answer: its run, or its actor's death."""
    return death_of(call.actor) if fault_of(call) == "ActorDied" else run_of(call)


# Whose steps a play does in their order: those of the callers with an `await`, as in a history that is told. It may
# leave open which answer a call has, that of its run or where it didn't run of its actor's death, and the state of an
# actor; and an actor may be live.
OF_AWAITS = "awaits"


class Unjudged:
    """What is kept of a call whose answer isn't told."""


UNJUDGED = Unjudged()


class Ways:
    """What callers and actors have to do so that all ends as a report tells, and what holds each of it back.

    The report has the calls that ran, in order, and by each answer what gave it. So what must come before an event is
    known, but for one thing: of several who asked a kill, whose was taken. And no event, once it is done, holds another
    one back. So each is done as soon as it can be; where some can't be done that way, no play ends so. A call is sent
    and delivered just before it runs, and what answers it is collected at once: those are no events here.
    """

    def __init__(self, world, of_plans):
        self.world = world
        self.of_threads = of_plans is True
        is_bound = {True: bool, OF_AWAITS: lambda steps: any(verb == "await" for verb, _ in steps)}.get(of_plans, lambda _: False)
        self.bound = {caller for caller, steps in world.steps.items() if is_bound(steps)}  # those that do their steps
        self.befores = {}  # of each event those that hold it back,
        self.needed = {}  # and how many of these must be done before it
        self.kills = collections.defaultdict(list)  # of each actor the steps that ask its kill
        self.answered = collections.defaultdict(list)  # of a caller and an actor the calls that a run answered
        for call in (call for caller in world.callers.values() for call in caller.calls if giver_of(call) == run_of(call)):
            self.answered[call.caller, call.actor].append(call)
        for caller, steps in world.steps.items():
            self.add_steps(caller, steps)
        for name, actor in world.actors.items():
            self.add_runs(actor)
            if actor.stage == "dead":
                self.add_death(name, actor)

    def add(self, event, befores):
        """An event that comes after all of these."""
        self.befores[event], self.needed[event] = befores, len(befores)

    def after_one(self, event, befores):
        """The same of one that comes after any of these."""
        self.befores[event], self.needed[event] = befores, 1
        return [event]

    def add_steps(self, caller, steps):
        """A caller does its steps in order. In a play that needs to be no play of plans its calls alone are told."""
        before = []
        for place, (verb, other) in enumerate(steps):
            if verb != "submit" and caller not in self.bound:
                continue
            event = submission(other) if verb == "submit" else f"c{caller} does its step {place}, {verb}"
            holds = {"submit": self.room_for, "await": self.awaited, "kill": self.looked_for}.get(verb)
            self.add(event, before + (holds(other) if holds else []))
            before = [event]
            if verb == "kill":
                self.kills[other].append(event)

    def room_for(self, call):
        """A limit holds a call back until enough of the caller's calls to the actor have an answer. They are answered in
        order, but by the actor's death all at once."""
        actor = self.world.actors[call.actor]
        if actor.limit is None or call.number < actor.limit:
            return []
        answered, last = self.answered[call.caller, call.actor], call.number - actor.limit
        befores = [run_of(answered[last])] if last < len(answered) and answered[last].number < call.number else []
        befores += [death_of(call.actor)] if actor.stage == "dead" else []
        return self.after_one(f"the limit of a{call.actor} lets {call.spelled_future()} through", befores)

    def awaited(self, call):
        """A step `await` is done when the call has its answer."""
        return [giver_of(call)]

    def looked_for(self, name):
        """An actor that retired found no kill after its last run."""
        actor = self.world.actors[name]
        return [run_of(item.call) for item in actor.ran[-1:]] if self.of_threads and actor.stage == "retired" else []

    def add_runs(self, actor):
        """An actor runs its calls in order, each after it was submitted."""
        before = []
        for item in actor.ran:
            self.add(run_of(item.call), [submission(item.call), *before, *self.arguments_of(item.call)])
            before = [run_of(item.call)]

    def arguments_of(self, call):
        """A call isn't sent before its arguments have answers."""
        calls = self.world.callers[call.caller].calls
        return [giver_of(calls[each.number]) for each in call.arguments if isinstance(each, Future)]

    def add_death(self, name, actor):
        """An actor dies after its last run: by that, or by a kill that was asked."""
        by_itself = any(item.ends_actor() for item in actor.ran[-1:])
        asked = [] if by_itself or self.may_be_killed(actor) else self.asked(name)
        self.add(death_of(name), self.last_run(actor) + asked)

    def may_be_killed(self, actor):
        """Whether somebody may ask its kill at any time: in a play of no plan, whoever isn't bound to its steps."""
        return not self.of_threads and not {*actor.callers} <= self.bound

    def last_run(self, actor):
        """Once an actor is dead nothing runs."""
        return [run_of(item.call) for item in actor.ran[-1:]]

    def asked(self, name):
        """One asked kill is enough."""
        return self.after_one(f"a kill of a{name} is asked", self.kills[name])

    # Whether all can be done.

    def undone(self):
        """The events that are never done."""
        after = collections.defaultdict(list)
        for event, befores in self.befores.items():
            for before in befores:
                after[before].append(event)
        left = dict(self.needed)
        ready = [event for event, count in left.items() if count == 0]
        while ready:
            for event in after[ready.pop()]:
                left[event] -= 1
                if left[event] == 0:
                    ready.append(event)
        return {event for event, count in left.items() if count > 0}

    def circle(self):
        """Events each of which waits for the next one, and the last for the first; none where all can be done."""
        undone = self.undone()
        event, path = min(undone, default=None), {}
        while event is not None and event not in path:
            path[event] = len(path)
            event = next((before for before in self.befores[event] if before in undone), None)
        return list(path)[path.get(event, 0) :]


class Judge:
    """Holds the report of a run in threads against the world of its plans, line by line."""

    def __init__(self, world, report, of_plans):
        self.world = world
        self.of_plans = of_plans
        self.lines = lines_of_report(report)
        self.place = 0
        self.ran = set()  # the calls that stand in a run list, by caller and future
        self.failed = set()  # the calls of which the answer isn't judged, and a run took the failure
        self.ends = {}  # of each actor the text of its end
        self.is_history = of_plans == OF_AWAITS

    def next_line(self, begins):
        """What follows on the next line, which must begin so."""
        if self.place == len(self.lines):
            raise NotAllowed(f"the report ends where '{begins}' is due")
        line = self.lines[self.place]
        if not line.startswith(begins):
            raise NotAllowed(f"'{line}' where '{begins}' is due")
        self.place += 1
        return line[len(begins) :]

    def judge(self):
        for _, caller in sorted(self.world.callers.items()):
            for call in caller.calls:
                self.read_future(call)
        for name, actor in sorted(self.world.actors.items()):
            self.read_actor(name, actor)
        if self.place < len(self.lines):
            raise NotAllowed(f"'{self.lines[self.place]}' after the end")
        for name, actor in sorted(self.world.actors.items()):
            self.replay(name, actor)
        self.judge_unjudged()
        for caller in self.world.callers.values():
            for call in caller.calls:
                self.judge_call(call)
        circle = Ways(self.world, self.of_plans).circle()
        if circle:
            raise NotAllowed(f"no play ends so, since each of these waits for the next, in a circle: {'; '.join(circle)}")

    # What a schedule may choose, as the report tells it.

    def read_future(self, call):
        """The line of a future, which must have an answer."""
        word = self.next_line(f"{call.spelled_future()} a{call.actor} = ")
        if word == "*" and self.is_history:
            call.kept = UNJUDGED
            return
        try:
            call.kept = read_answer(word)
        except BadWord:
            raise NotAllowed(f"{call.spelled_future()} has the answer '{word}', which is none") from None

    def read_actor(self, name, actor):
        """The lines of an actor: how it ended, and its run list."""
        self.ends[name] = self.next_line(f"a{name} ")
        actor.stage = self.ends[name].partition(" ")[0]
        while self.place < len(self.lines) and self.lines[self.place].startswith(f"a{name}."):
            words = self.next_line(f"a{name}.{len(actor.ran)} ")
            actor.add(self.read_item(name, actor, words))

    def read_item(self, name, actor, words):
        """The call of a line of a run list: the next one of its caller to this actor, as it was submitted."""
        found = re.match(r"c([1-9][0-9]?)\.", words)
        caller = self.world.callers.get(int(found[1])) if found else None
        if caller is None:
            raise NotAllowed(f"a{name} ran '{words}', of no caller")
        calls, before = caller.calls_to(name), actor.ran_of(int(found[1]))
        if before == len(calls):
            raise NotAllowed(f"a{name} ran '{words}', and c{found[1]} has no further call to it")
        item = Item(calls[before], list(self.settled(caller, calls[before], words)), None)
        if item.spelled() != words:
            raise NotAllowed(f"a{name} ran '{words}' where '{item.spelled()}' is the next call of c{found[1]}")
        self.ran.add((item.call.caller, item.call.future))
        return item

    def settled(self, caller, call, words):
        """The arguments of a call that ran. What one is that has an answer which isn't judged, the line tells."""
        told = words.split(" ")[2:]
        for place, kept in enumerate(caller.settled(call)):
            if kept is UNJUDGED and place < len(told):
                is_future = told[place] == f"!{call.arguments[place].number}"
                kept = call.arguments[place] if is_future else self.value_of(told[place])
                self.failed |= {(call.caller, kept.number)} if is_future else set()
            yield kept

    def value_of(self, word):
        try:
            return read_value(word)
        except BadWord:
            raise NotAllowed(f"the argument '{word}' is none") from None

    # Whether all that is as the rules say.

    def judge_unjudged(self):
        """Answers that aren't judged are those of runs or are lost, once these are replayed, and else deaths; and each
        call ran with the arguments that they settle."""
        for caller in self.world.callers.values():
            for call in caller.calls:
                if call.kept is UNJUDGED:
                    call.kept = Fault("ActorDied")
        for actor in self.world.actors.values():
            for item in actor.ran:
                due = Item(item.call, list(self.world.callers[item.call.caller].settled(item.call)), None)
                if item.spelled() != due.spelled():
                    raise NotAllowed(f"'{item.spelled()}' ran where '{due.spelled()}' is due")

    def replay(self, name, actor):
        """Each item is answered as it stands in the run list; then the end must be right."""
        if any(item.ends_actor() for item in actor.ran[:-1]):
            raise NotAllowed(f"a{name} ran a call after a terminate")
        for item in actor.ran:
            item.answer = answer_of(actor.kind, item.call.method, item.arguments)
            if item.call.kept is UNJUDGED:
                item.call.kept = Fault("ActorDied") if self.is_lost(actor, item) else item.answer
            if fault_of(item.call) != "ActorDied" and spelled(item.call.kept) != spelled(item.answer):
                told = f"{item.call.spelled_future()} = {spelled(item.call.kept)}"
                raise NotAllowed(f"{told}, but at its place a{name} answers {spelled(item.answer)}")
        if actor.stage == "dead":
            self.judge_dead(name, actor)
        elif self.ends[name] not in self.ends_of(actor.kind.text()):
            raise NotAllowed(f"'a{name} {self.ends[name]}' after a run list that leaves '{actor.kind.text()}'")
        elif actor.stage == "live":
            if any(item.ends_actor() for item in actor.ran):
                raise NotAllowed(f"a{name} is live after a terminate")
        elif len(actor.ran) != sum(len(caller.calls_to(name)) for caller in self.world.callers.values()):
            raise NotAllowed(f"a{name} retired before it ran all calls")
        elif any(item.ends_actor() for item in actor.ran):
            raise NotAllowed(f"a{name} retired after a terminate")

    def is_lost(self, actor, item):
        """Whether the failure of a call was taken that a dead actor answered with a value: so its death was kept."""
        is_failed = (item.call.caller, item.call.future) in self.failed
        return actor.stage == "dead" and is_failed and not isinstance(item.answer, Fault)

    def ends_of(self, state):
        """How the end of an actor may be told that isn't dead: in threads it retired, with its state."""
        return [f"{stage} {told}" for stage in ("live", "retired") for told in (state, "?")] if self.is_history else [f"retired {state}"]

    def judge_dead(self, name, actor):
        if self.ends[name] != "dead":
            raise NotAllowed(f"'a{name} {self.ends[name]}' says more than a death")
        is_killed = name in self.world.to_be_killed or self.of_plans is not True
        if not is_killed and not any(item.ends_actor() for item in actor.ran):
            raise NotAllowed(f"a{name} is dead, no plan has a kill of it, and it ran no terminate")

    def judge_call(self, call):
        """An answer comes of a run, and a death of a dead actor: in threads only where the call didn't run, since the
        answer of one that did is collected before the death."""
        has_run = (call.caller, call.future) in self.ran
        if fault_of(call) != "ActorDied":
            if not has_run:
                raise NotAllowed(f"{call.spelled_future()} = {spelled(call.kept)}, and it never ran")
        elif self.world.actors[call.actor].stage != "dead":
            raise NotAllowed(f"{call.spelled_future()} = ActorDied, and a{call.actor} is not dead")
        elif has_run and self.of_plans is True:
            raise NotAllowed(f"{call.spelled_future()} = ActorDied, and it ran")


def judged(data, report, status, of_plans=True):
    """The world that the report of a script for threads tells, or none of a script with a fault; raises NotAllowed. A
    play of the plans must end so; or, not `of_plans`, any play in which callers submit what the plans do. With OF_AWAITS
    each caller that awaits an answer does its steps in that play, too."""
    try:
        world = read_plans(data)
    except ScriptFault as fault:
        if (report, status) == (str(fault).encode(), 1):
            return None
        raise NotAllowed(f"'{str(fault)[:-1]}' and status 1 are due") from None
    if status != 0:
        raise NotAllowed(f"the plans are good, and the status is {status}")
    Judge(world, report, of_plans).judge()
    return world


def judge(data, report, status, of_plans=True):
    """Why the rules don't allow the report of a script for threads with this status; nothing where they do."""
    try:
        judged(data, report, status, of_plans)
    except NotAllowed as why:
        return str(why)
    return None


def judge_alone(path):
    """Judges the report on the standard input, which must be a whole one."""
    with open(path, "rb") as script:
        data = script.read()
    report = sys.stdin.buffer.read()
    why = judge(data, report, 1 if report.startswith(b"line ") else 0)
    print(f"not allowed: {why}" if why else "allowed")
    return 1 if why else 0


def main():
    if len(sys.argv) > 1:
        sys.exit(judge_alone(sys.argv[1]))
    report, status = play(sys.stdin.buffer.read())
    sys.stdout.buffer.write(report)
    sys.exit(status)


if __name__ == "__main__":
    main()
