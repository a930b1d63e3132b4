"""What a refusal means where it stands, in a plain sentence; tools/explain.py tells it.

The second reading of the rules (tools/reading_of_rules.py) does the events and says which are refused. A refused one
changes nothing, so the world after it still shows why.
"""
from dataclasses import dataclass, field

import reading_of_rules as reading

MAX_NAMED = 4
CALLER, ACTOR, NUMBER = reading.read_caller, reading.read_actor, reading.read_number
FORMS = reading.PLAY_FORMS | reading.THREAD_FORMS


@dataclass
class Past:
    """A world, and the lines at which something ended in it."""

    world: reading.World
    ended: dict = field(default_factory=dict)  # of each actor the line of its end
    released: dict = field(default_factory=dict)  # of each caller and actor the line of the last release
    refused: dict = field(default_factory=dict)  # of each caller how many submissions were refused
    submitted: dict = field(default_factory=dict)  # of each caller how many were done

    def note(self, event, line):
        """Takes an event that was done."""
        self.note_submitted(event)
        if event.verb == "release":
            self.released[event.caller, event.actor] = line
        if event.verb in ("run", "take", "retire") and self.world.actors[event.actor].stage != "live":
            self.ended[event.actor] = line

    def note_submitted(self, event):
        if event.verb == "submit":
            self.submitted[event.caller] = self.submitted.get(event.caller, 0) + 1

    def others_with(self, future, caller):
        """The other callers that have a call of this number."""
        return [other for other in sorted(self.submitted) if other != caller and self.submitted[other] > future]

    def note_refused(self, event):
        if event.verb == "submit":
            self.refused[event.caller] = self.refused.get(event.caller, 0) + 1


class Event:
    """An event or a step, with its words by what they name."""

    def __init__(self, verb, spelt):
        self.verb = verb
        self.spelt = spelt
        self.places = {read: place for place, read in enumerate(FORMS[verb], 1)}

    def named(self, read):
        return self.spelt[self.places[read] - 1] if read in self.places else None

    @property
    def caller(self):
        return self.named(CALLER)

    @property
    def actor(self):
        return self.named(ACTOR)

    @property
    def number(self):
        return self.named(NUMBER)


# How things are counted in words.


def counted(count, noun):
    return {0: f"no {noun}", 1: f"one {noun}"}.get(count, f"{count} {noun}s")


def listed(letter, numbers):
    return " ".join(f"{letter}{number}" for number in sorted(numbers))


def there_are(what, count):
    """How many notices or letters there are, whose places count from 0."""
    if count == 0:
        return f"there is no {what} so far"
    if count == 1:
        return f"there is one {what} so far, at place 0"
    return f"there are {count} {what}s so far, at the places 0 to {count - 1}"


def calls_of(past, caller):
    """How many calls the caller has, whose numbers count from 0."""
    count, refused = len(past.world.callers[caller].calls), past.refused.get(caller, 0)
    shown = "" if count == 0 else f", c{caller}.0" if count == 1 else f", c{caller}.0 to c{caller}.{count - 1}"
    more = f" (a refused submission has no number, and it had {refused})" if refused else ""
    return f"c{caller} has submitted {counted(count, 'call')} so far{shown}{more}"


def since(past, actor):
    """How and at which line an actor ended."""
    how = "dead" if past.world.actors[actor].stage == "dead" else "retired"
    return f"a{actor} is {how} since line {past.ended[actor]}"


# The sentences: each gives also the word of the line that it is about, by its place.


def no_caller(past, event):
    known = listed("c", past.world.callers)
    named = f"they name {known}" if known else "the script has none"
    return event.places[CALLER], f"no actor line names c{event.caller}; {named}"


def no_actor(past, event):
    actor, actors = event.actor, past.world.actors
    if actor not in actors:
        known = listed("a", actors)
        why = f"no actor line is of a{actor}; {'the script has ' + known if known else 'the script has none'}"
    else:
        why = f"the actor line of a{actor} doesn't name c{event.caller}; it names {listed('c', actors[actor].callers)}"
    return event.places[ACTOR], why


def no_handle(past, event):
    line = past.released[event.caller, event.actor]
    why = f"c{event.caller} holds no copy of the handle of a{event.actor} any more: line {line} released the last one"
    return event.places[ACTOR], why


def too_many_args(past, event):
    count = len(event.spelt[3])
    return 4 + reading.MAX_ARGUMENTS, f"the call has {count} arguments, and {reading.MAX_ARGUMENTS} is the most"


def bad_future(past, event):
    calls = len(past.world.callers[event.caller].calls)
    futures = [(place, each.number) for place, each in enumerate(event.spelt[3], 4) if isinstance(each, reading.Future)]
    place, future = next(each for each in futures if each[1] >= calls)
    own = f"@{future} means c{event.caller}.{future}, the future of a call of c{event.caller}, which submits here"
    others = past.others_with(future, event.caller)
    told = f", and not {' or '.join(f'c{other}.{future}' for other in others[:MAX_NAMED])}" if others else ""
    is_own = "would be this call itself" if future == calls else f"is none of c{event.caller}'s calls so far"
    why = f"{own}{told}. c{event.caller}.{future} {is_own}, and an argument is the future of an earlier call"
    return place, f"{why}; {calls_of(past, event.caller)}"


def too_many_copies(past, event):
    why = f"c{event.caller} holds {reading.MAX_COPIES} copies of the handle of a{event.actor}, and that is the most"
    return 0, why


def pending_limit(past, event):
    calls = past.world.callers[event.caller].calls_to(event.actor)
    pending = [call.spelled_future() for call in calls if call.kept is None]
    shown = " ".join(pending[:MAX_NAMED]) + (" .." if len(pending) > MAX_NAMED else "")
    most = counted(past.world.actors[event.actor].limit, "call")
    have = "has" if len(pending) == 1 else "have"
    why = f"a{event.actor} takes at most {most} of a caller without an answer, and {shown} {have} none"
    return event.places[ACTOR], f"{why}: collect a reply first"


def no_future(past, event):
    return event.places[NUMBER], f"there is no future c{event.caller}.{event.number}: {calls_of(past, event.caller)}"


def not_ready(past, event):
    calls, name = past.world.callers[event.caller].calls, f"c{event.caller}"
    futures = [each.number for each in calls[event.number].arguments if isinstance(each, reading.Future)]
    waits = next(future for future in futures if calls[future].kept is None)
    why = f"the argument @{waits} of {name}.{event.number} has no answer yet: collect the reply to {name}.{waits} first"
    return event.places[NUMBER], why


def answered(past, event):
    actor = past.world.callers[event.caller].calls[event.number].actor
    why = f"c{event.caller}.{event.number} was never sent, and the death of a{actor} has answered it"
    return event.places[NUMBER], why


def no_mail(past, event):
    return event.places[NUMBER], f"there is no letter {event.number}: {there_are('letter', len(past.world.mail))}"


def no_reply(past, event):
    return event.places[NUMBER], f"there is no notice {event.number}: {there_are('notice', len(past.world.notices))}"


def actor_ended(past, event):
    if event.verb == "deliver":
        actor = past.world.mail[event.number].actor
        why = f"letter {event.number} is to a{actor}, and {since(past, actor)}: nothing arrives there any more"
        return event.places[NUMBER], why
    return event.places[ACTOR], f"{since(past, event.actor)}, and does nothing any more"


def no_kill(past, event):
    return event.places[ACTOR], f"no caller has asked for a kill of a{event.actor}, as by 'kill CALLER a{event.actor}'"


def not_dead(past, event):
    stage = past.world.actors[event.actor].stage
    stands = f"a{event.actor} is live" if stage == "live" else since(past, event.actor)
    return event.places[ACTOR], f"{stands}, and only a dead actor tells its death"


def not_drained(past, event):
    actor = past.world.actors[event.actor]
    why = next(filter(None, (what_is_due(past, event.actor, caller) for caller in actor.callers)))
    return event.places[ACTOR], f"a{event.actor} isn't done with all its callers: {why}"


def what_is_due(past, name, caller):
    """What an actor still waits for of a caller before it may retire; nothing where it has all."""
    actor = past.world.actors[name]
    copies, ran = past.world.callers[caller].copies[name], actor.ran_of(caller)
    if copies:
        noun = "copy" if copies == 1 else "copies"
        return f"c{caller} still holds {copies} {noun} of its handle ('release c{caller} a{name}')"
    if caller not in actor.notes:
        notes = [(place, letter) for place, letter in enumerate(past.world.mail) if isinstance(letter, reading.Note)]
        place = next(place for place, note in notes if (note.caller, note.actor) == (caller, name))
        return f"the note of c{caller}'s last release, letter {place}, hasn't arrived ('deliver {place}')"
    if ran == actor.notes[caller]:
        return None
    return f"of {counted(actor.notes[caller], 'call')} of c{caller} to it {ran or 'none'} ran"


# `TooManyCalls` is not here: no script is long enough for so many submissions.
SENTENCES = {
    "NoCaller": no_caller, "NoActor": no_actor, "NoHandle": no_handle, "TooManyArgs": too_many_args, "BadFuture": bad_future,
    "TooManyCopies": too_many_copies, "PendingLimit": pending_limit, "NoFuture": no_future,
    "NotReady": not_ready, "Answered": answered, "NoMail": no_mail, "NoReply": no_reply, "ActorEnded": actor_ended,
    "NoKill": no_kill, "NotDead": not_dead, "NotDrained": not_drained,
}  # fmt: skip


@dataclass
class Refusal:
    place: int  # of the event
    line: int
    name: str
    word: int  # the place of the word that the sentence is about
    why: str


def refusals(script):
    """The refused events of a play, in order."""
    past = Past(reading.World(script.roles))
    for place, (line, (verb, spelt)) in enumerate(zip(script.lines, script.events)):
        outcome, event = past.world.after(verb, spelt), Event(verb, spelt)
        refused, _, name = outcome.partition(" ")
        if refused == "refused":
            yield Refusal(place, line, name, *SENTENCES[name](past, event))
            past.note_refused(event)
        else:
            past.note(event, line)


def refusal_of_step(script, bad_line):
    """The refusal that the step of that line meets: what its caller's steps before it leave is all that counts."""
    past = Past(reading.Planned(script.roles))
    events = {line: Event(verb, spelt) for line, (verb, spelt) in zip(script.lines, script.events)}
    bad = events[bad_line]
    if bad.caller not in past.world.callers:
        return Refusal(None, bad_line, "NoCaller", *no_caller(past, bad))
    for event in events.values():
        if event.caller != bad.caller:
            past.note_submitted(event)
    for line, event in events.items():
        if event.caller != bad.caller:
            continue
        try:
            past.world.step(event.verb, event.spelt)
        except reading.Refused as refused:
            return Refusal(None, line, str(refused), *SENTENCES[str(refused)](past, event))
        past.note(event, line)
    raise ValueError(f"the step of line {bad_line} isn't refused")
