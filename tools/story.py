"""What happened in a run of play, told from its script and its report alone; tools/draw.py draws it.

A `Story` has a mark for each event that happened at a lane, which is a caller or an actor, and a passage
for each letter, reply, death and kill that went from a lane to another.
"""
import re
from dataclasses import dataclass, field

from program import Stop

# What stands in the script and in the report.


@dataclass
class Event:
    place: int
    words: list
    outcome: str

    def is_refused(self):
        return self.outcome.startswith("refused ")


@dataclass
class Run:
    """A script and its report."""

    roles: list = field(default_factory=list)  # the words of each line of a role
    events: list = field(default_factory=list)
    answers: dict = field(default_factory=dict)  # of each future its answer, or `?`
    ends: dict = field(default_factory=dict)  # of each actor how it stands at the end
    items: dict = field(default_factory=dict)  # of each actor the calls that it ran


def lines_of(data):
    return data.decode("ascii", "replace").split("\n")


def read_script(data):
    """The roles and the events of a script, as words. Whether they are good the report says."""
    lines = [line.split(" ") for line in lines_of(data) if line and not line.startswith("#")]
    return [words for words in lines if words[0] == "actor"], [words for words in lines if words[0] != "actor"]


def has_limit(role):
    """Whether the words of a role have a limit behind the kind."""
    return role[3:4] == ["max"]


def callers_of(role):
    return role[5:] if has_limit(role) else role[3:]


def read_summary(run, line):
    """Takes a line of the report that isn't an outcome: of a future, of an item of a run list, or of an actor."""
    future = re.fullmatch(r"(c\d+\.\d+) a\d+ (?:= )?(.+)", line)
    item = re.fullmatch(r"(a\d+)\.(\d+) (.+)", line)
    end = re.fullmatch(r"(a\d+) (.+)", line)
    if future:
        run.answers[future[1]] = future[2]
    elif item and int(item[2]) == len(run.items.get(item[1], [])):
        run.items.setdefault(item[1], []).append(item[3])
    elif end:
        run.ends[end[1]] = end[2]
    else:
        raise Stop(f"the report has the line '{line:.60}', which no report has there")


def read_run(script, report):
    """The run that script and report tell of."""
    roles, events = read_script(script)
    lines = lines_of(report)
    if lines[-1]:
        raise Stop("the report's last line has no end")
    if re.fullmatch(r"line \d+: \w+", lines[0]):
        raise Stop(f"nothing to draw, the script has a fault: {lines[0]}", 1)
    run = Run(roles)
    for place, (words, line) in enumerate(zip(events, lines)):
        head, _, outcome = line.partition(": ")
        if head != str(place) or not outcome:
            raise Stop(f"the report isn't of this script: '{line:.60}' where the outcome of event {place} is due")
        run.events.append(Event(place, words, outcome))
    if len(run.events) < len(events):
        raise Stop("the report isn't of this script: it has too few outcomes")
    for line in lines[len(events) : -1]:
        read_summary(run, line)
    return run


# What happened. A lane is named by its caller or its actor.


@dataclass(eq=False)
class Passage:
    """What goes from a lane to another: a letter, a reply, a death or a kill."""

    sort: str
    name: str
    begin: int  # the place of an event, as are those below
    source: str
    target: str
    number: int  # its place among those of its sort
    arrivals: list = field(default_factory=list)  # of each its place, and what it came to


@dataclass
class Mark:
    """A word on a lane."""

    place: int
    lane: str
    sort: str
    text: str


class Mismatch(Stop):
    def __init__(self, event):
        super().__init__(f"the report isn't of this script: '{event.outcome:.60}' for '{' '.join(event.words):.60}'")


def by_number(names):
    return sorted(names, key=lambda name: int(name[1:]))


class Story:
    """Goes through the events, and notes the marks on the lanes and what passes between them."""

    def __init__(self, run):
        self.run = run
        self.marks = {}  # by their places: of an event at most one
        self.mail = []
        self.notices = []
        self.kills = []
        self.ended = {}  # of each actor where it ended
        self.known_dead = set()
        self.calls = {}  # of each future its actor
        self.kinds = {words[1]: words[2] for words in run.roles}
        self.limits = {words[1]: words[4] for words in run.roles if has_limit(words)}
        self.callers = by_number({word for words in run.roles for word in callers_of(words)})
        self.actors = by_number(self.kinds)
        for event in run.events:
            self.tell(event)

    def tell(self, event):
        try:
            if event.is_refused():
                self.tell_refused(event, *event.words)
            else:
                getattr(self, "tell_" + event.words[0])(event, *event.words[1:])
        except (AttributeError, IndexError, KeyError, TypeError, ValueError):
            raise Mismatch(event) from None

    def mark(self, event, lane, sort, text):
        if lane not in self.callers and lane not in self.actors:
            raise KeyError(lane)
        self.marks[event.place] = Mark(event.place, lane, sort, text)

    def tell_refused(self, event, verb, first, *_):
        """A mark on the lane that it was for, where there is one; a letter to an actor that has ended is turned away."""
        if verb == "deliver" and event.outcome == "refused ActorEnded":
            letter = self.mail[int(first)]
            letter.arrivals.append((event.place, "turned away"))
            self.mark(event, letter.target, "turned_away", event.outcome)
        elif first in self.callers or first in self.actors:
            self.mark(event, first, "refused", event.outcome)

    # A caller's events.

    def tell_submit(self, event, caller, actor, *_):
        future = event.outcome.removeprefix("future ")
        self.calls[future] = actor
        at_once = " = ActorDied" if (caller, actor) in self.known_dead else ""
        self.mark(event, caller, "submit", future + at_once)

    def tell_copy(self, event, caller, actor):
        self.mark(event, caller, "handle", f"{actor}: {event.outcome}")

    def tell_release(self, event, caller, actor):
        if event.outcome.startswith("copies "):
            self.mark(event, caller, "handle", f"{actor}: {event.outcome}")
        else:
            self.post(event, caller, actor, "note")

    def tell_send(self, event, caller, number):
        future = f"{caller}.{number}"
        self.post(event, caller, self.calls[future], future)

    def post(self, event, caller, actor, content):
        if event.outcome != f"mail {len(self.mail)}":
            raise ValueError(event.outcome)
        name = f"{event.outcome}: {content}"
        self.mail.append(Passage("letter", name, event.place, caller, actor, len(self.mail)))
        self.mark(event, caller, "send", name)

    def tell_kill(self, event, caller, actor):
        self.kills.append(Passage("kill", f"kill {actor}", event.place, caller, actor, len(self.kills)))
        self.mark(event, caller, "kill", f"kill {actor}")

    # An actor's events.

    def tell_deliver(self, event, number):
        letter = self.mail[int(number)]
        letter.arrivals.append((event.place, event.outcome))
        self.mark(event, letter.target, "deliver", letter.name + (" repeat" if event.outcome == "repeat" else ""))

    def tell_run(self, event, actor, caller):
        if event.outcome == "gap":
            self.mark(event, actor, "gap", f"gap: {caller}")
            return
        _, place, _, notice = event.outcome.split(" ")
        item = self.run.items[actor][int(place)]
        self.mark(event, actor, "run", f"{place}: {item}")
        self.notify(event, notice, "reply", actor, caller, item.split(" ")[0])
        if item.split(" ")[1:] == ["terminate"]:
            self.ended[actor] = event.place

    def notify(self, event, notice, sort, actor, caller, content):
        if int(notice) != len(self.notices):
            raise ValueError(notice)
        name = f"reply {notice}: {content}"
        self.notices.append(Passage(sort, name, event.place, actor, caller, len(self.notices)))

    def tell_take(self, event, actor):
        self.ended[actor] = event.place
        self.mark(event, actor, "dead", "dead")
        for kill in self.kills:
            if kill.target == actor:
                kill.arrivals.append((event.place, "dead"))

    def tell_tell(self, event, actor, caller):
        self.mark(event, actor, "tell", f"tells {caller}")
        self.notify(event, event.outcome.removeprefix("reply "), "death", actor, caller, f"{actor} died")

    def tell_retire(self, event, actor):
        self.ended[actor] = event.place
        self.mark(event, actor, "retired", "retired")

    # What reaches a caller.

    def tell_collect(self, event, number):
        notice = self.notices[int(number)]
        came_to, content = event.outcome.split(" ")
        notice.arrivals.append((event.place, came_to))
        if came_to == "died":
            self.known_dead.add((notice.target, notice.source))
            self.mark(event, notice.target, "death", f"{notice.source} died: {content}")
        elif came_to == "kept":
            self.mark(event, notice.target, "kept", f"{content} = {self.run.answers[content]}")
        else:
            self.mark(event, notice.target, "late", f"{content} late")

    # What is said of a whole lane.

    def is_caller(self, lane):
        return lane not in self.kinds

    def heading_of(self, lane):
        if self.is_caller(lane):
            return lane
        limit = f" max {self.limits[lane]}" if lane in self.limits else ""
        return f"{lane} {self.kinds[lane]}{limit}"

    def end_of(self, lane):
        """How a lane stands after the last event."""
        if not self.is_caller(lane):
            return self.run.ends[lane]
        answers = [answer for future, answer in self.run.answers.items() if future.startswith(lane + ".")]
        calls = "1 call" if len(answers) == 1 else f"{len(answers)} calls"
        return f"{calls}, {answers.count('?')} open" if "?" in answers else calls

    def passages(self):
        return [*self.mail, *self.notices, *self.kills]
