"""Why a history isn't one, in plain words; ./check tells it.

Which line is at fault, and its mistake, the program says. Here that line is looked through for a reason. Roles and
steps of a history with values are lines of a script for threads, and explain.py tells their faults.
"""
import itertools
import re

import explain
import explain_lines
import explain_refusals
import program
import reading_of_rules as reading
from explain_lines import Finding, Line, finding_in, named
from explain_refusals import counted, listed

TELLS_WHAT_WAS_LEFT = re.compile("[ac][0-9]")
HOW = "A history is a script for threads and, below it, what a run of it left, as ./run threads prints that"


# The words of lines that tell what was left, and of histories by order alone. Each is read, or raises BadWord.


def read_like(pattern):
    """Reads words of this form."""

    def read(word):
        if not re.fullmatch(pattern, word):
            raise reading.BadWord

    return read


def read_settled(word):
    return reading.read_number(word[1:]) if word.startswith("!") else reading.read_value(word)


def read_told_answer(word):
    return word == "*" or reading.read_answer(word)


NUMBER, LARGE = "(0|[1-9][0-9]*)", "[1-9][0-9]{0,4}"
FUTURE = read_like(f"c([1-9]|1[0-6])[.]{NUMBER}"), "a call (as c1.0)"
ACTOR = reading.read_actor, "an actor (a1 to a8)"
SIGN = read_like("[=?]"), "'=' with an answer or '?' without one"
ANSWER = read_told_answer, "an answer (a number, a text between two quotes, unit, a fault, or *)"
PLACE = read_like(f"a[1-8][.]{NUMBER}"), "a place in a run list (as a1.0)"
METHOD = reading.read_method, "a method"
SETTLED = read_settled, "an argument with which the call ran (a value, or ! and the number of a failed future)"
STAGE = read_like("live|retired|dead"), "'live', 'retired' or 'dead'"
KIND = read_like("[?]|" + "|".join(reading.KINDS)), "the actor's kind (or '?' for a state that isn't known)"
VALUE = reading.read_value, "a value of the state"
SOME_CALLER, SOME_ACTOR = (read_like(f"c{LARGE}"), "a caller (as c1)"), (read_like(f"a{LARGE}"), "an actor (as a1)")
SOME_CALL, SOME_PLACE = (read_like(f"c{LARGE}[.]{NUMBER}"), FUTURE[1]), (read_like(f"a{LARGE}[.]{NUMBER}"), PLACE[1])
SOME_NUMBER = read_like(NUMBER), "the number of a call"
TAKEN = read_like(f"@{NUMBER}"), "an earlier call of the caller (as @0)"
NAME = read_like(r"\w{1,18}"), "a method (1 to 18 letters, digits or _)"
NAME_OR_TAKEN = read_like(rf"\w{{1,18}}|@{NUMBER}"), f"{NAME[1]} or {TAKEN[1]}"
OUTCOME = read_like("answered|failed|died|open"), "'answered', 'failed', 'died' or 'open'"
VERB = read_like(r"\w+"), "a word"


def no_more():
    return []


def then(*words):
    """These words, each once, and the last one again and again."""
    return lambda: itertools.chain(words, itertools.repeat(words[-1]))


# Of each sort of line: its form, the words that it must have, and those that may follow.
SORTS = {
    "future": ("c1.0 a1 = ANSWER, or c1.0 a1 ?", [FUTURE, ACTOR, SIGN], no_more),
    "item": ("a1.0 c1.0 METHOD VALUE ..", [PLACE, FUTURE, METHOD], then(SETTLED)),
    "end": ("a1 live KIND STATE .., or a1 retired KIND STATE .., or a1 dead", [ACTOR, STAGE], no_more),
}
SORTS_BY_ORDER = {
    "actor": ("actor a1 c1 c2 ..", [VERB, SOME_ACTOR, SOME_CALLER], then(SOME_CALLER)),
    "call": ("call c1 a1 METHOD @0 ..", [VERB, SOME_CALLER, SOME_ACTOR], then(NAME_OR_TAKEN, TAKEN)),
    "await": ("await c1 0", [VERB, SOME_CALLER, SOME_NUMBER], no_more),
    "future": ("c1.0 answered", [SOME_CALL, OUTCOME], no_more),
    "item": ("a1.0 c1.0 METHOD, or a1.0 c1.0", [SOME_PLACE, SOME_CALL], lambda: [NAME]),
    "end": ("a1 live, or a1 retired, or a1 dead", [SOME_ACTOR, STAGE], no_more),
}
RANKS = {"actor": 0, "call": 1, "await": 1, "future": 2, "end": 3, "item": 3}


def sort_of(words):
    """The sort of a line, by its first word, or none."""
    if words[0] in SORTS_BY_ORDER:
        return words[0]
    found = re.match(r"c[0-9]|a[0-9]+[.]|a[0-9]", words[0])
    return None if not found else "future" if found[0][0] == "c" else "item" if "." in found[0] else "end"


class History:
    """The lines of a history, and which of them tells what was left."""

    def __init__(self, data):
        self.is_by_order = data.startswith(program.BY_ORDER)
        self.lines = data.decode("latin-1").split("\n")
        tells = (number for number, line in enumerate(self.lines, 1) if TELLS_WHAT_WAS_LEFT.match(line))
        self.first_told = next(tells, None)
        front = self.lines if self.first_told is None else self.lines[: self.first_told - 1]
        self.front = "\n".join(front).encode("latin-1")
        self.sorts = SORTS_BY_ORDER if self.is_by_order else SORTS

    def line(self, number):
        return Line(self.lines[number - 1], "threads", self.front)

    def quoted(self, number):
        return f"line {number}: {explain.quoted(self.lines[number - 1].encode('latin-1'))}"

    def words_before(self, number):
        """The number and the words of each line before that isn't skipped."""
        for at, line in enumerate(self.lines[: number - 1], 1):
            if line and not line.startswith("#"):
                yield at, line.split(" ")

    def told_before(self, number, sort=None):
        """The same of those that tell what was left, of this sort."""
        told = ((at, words) for at, words in self.words_before(number) if self.is_told(at))
        return [(at, words) for at, words in told if sort in (None, sort_of(words))]

    def is_told(self, number):
        return self.first_told is not None and number >= self.first_told

    def roles(self):
        """Of each actor the line and the words of its role."""
        front = self.words_before(self.first_told or len(self.lines) + 1)
        words = ((at, words) for at, words in front if words[0] == "actor")
        return {words[1]: (at, words) for at, words in words if len(words) > 1}

    def callers(self):
        return {word for _, words in self.roles().values() for word in words[2:] if re.fullmatch("c[0-9]+", word)}

    def calls_of(self, caller):
        """The lines of the caller's calls, and their words."""
        verb = "call" if self.is_by_order else "submit"
        return [(at, words) for at, words in self.words_before(len(self.lines) + 1) if words[:2] == [verb, caller]]


# Lines that have none of the forms.


def of_bad_line(history, number):
    line = history.line(number)
    for look in explain_lines.odd_byte, explain_lines.odd_space:
        finding = look(line)
        if finding:
            return finding
    sort = sort_of(line.words)
    return odd_word(line, *history.sorts[sort]) if sort in history.sorts else odd_sort(history, line)


def odd_sort(history, line):
    """A line that tells nothing of what was left, by its first word."""
    word = line.words[0]
    if history.is_by_order:
        return line.at(0, f"{named(word)} begins no line of a history by order: {forms_of(history)}")
    if word in reading.THREAD_FORMS:
        first = history.quoted(history.first_told)
        return line.at(0, f"roles and steps stand above the first line of what was left, {first}. Move this one there")
    if word in reading.PLAY_FORMS:
        return line.at(0, f"'{word}' is an event of a play, and a history has the steps of a script for threads")
    if re.fullmatch("[0-9]+:", word):
        return line.at(0, "this line tells what an event of a play came to, and a history has no events")
    return line.at(0, f"{named(word)} begins no line of what was left: {forms_of(history)}")


def forms_of(history):
    return "; ".join(f"'{form}'" for form, *_ in history.sorts.values())


def odd_word(line, form, must, may):
    """The first word of a line that doesn't spell what is due, or is missing or too much."""
    for place, (read, due, is_needed) in enumerate(due_in(line, must, may)):
        if place == len(line.words):
            end, why = len(line.text) + 1, f"the line ends where {due} is due. The form is: {form}"
            return Finding(end, end + 1, why) if is_needed else None
        try:
            read(line.words[place])
        except reading.BadWord:
            return line.at(place, f"{named(line.words[place])} stands where {due} is due. The form is: {form}")
    count = len(line.words) - place - 1
    return line.at(place + 1, f"{named(line.words[place + 1])} is a word too many. The form is: {form}", [], count)


def due_in(line, must, may):
    """How each word is read, what is due there, and whether it may not be missing."""
    yield from ((*each, True) for each in must)
    if must[-1] is SIGN and line.words[2:3] == ["="]:
        yield (*ANSWER, True)
    if must[0] is ACTOR and line.words[1:2] != ["dead"]:
        yield (*KIND, True)
        yield from ((*VALUE, False) for _ in itertools.count() if line.words[2:3] != ["?"])
    yield from ((*each, False) for each in may())


# Good lines that don't go with the others.


def of_no_role(history, number):
    """The first actor or caller of a line that no role has."""
    line, roles, callers = history.line(number), history.roles(), history.callers()
    for place, word in enumerate(line.words):
        name = word.partition(".")[0]
        if re.fullmatch("c[0-9]+", name) and name not in callers and not history.is_by_order:
            return line.at(place, f"no actor line names {name}; they name {ids('c', callers)}")
        if re.fullmatch("a[0-9]+", name) and name not in roles:
            return line.at(place, f"no actor line is of {name}; the history has {ids('a', roles)}")
    return None


def ids(letter, names):
    return listed(letter, {int(name[1:]) for name in names}) or "none"


def of_out_of_order(history, number):
    line = history.line(number)
    sort = sort_of(line.words)
    later = [(at, words) for at, words in history.words_before(number) if RANKS.get(sort_of(words), 0) > RANKS[sort]]
    if later:
        return line.at(0, f"this line belongs above {history.quoted(later[0][0])}")
    return line.at(0, {"future": future_due, "end": end_due, "item": item_due}[sort](history, number, line.words[0]))


def future_due(history, number, word):
    caller, _ = word.split(".")
    told = history.told_before(number, "future")
    same = [words for _, words in told if words[0].startswith(f"{caller}.")]
    if told and not same and int(told[-1][1][0][1:].partition(".")[0]) > int(caller[1:]):
        return f"callers come by rising numbers, and above stands {history.quoted(told[-1][0])}"
    return f"{caller}.{len(same)} is due here: each call of {caller} has one line, from {caller}.0 on"


def end_due(history, number, word):
    told = history.told_before(number, "end")
    order = "in the order of their roles" if history.is_by_order else "by rising numbers"
    above = f", and above stands {history.quoted(told[-1][0])}" if told else ""
    return f"actors come {order}, each once{above}"


def item_due(history, number, word):
    actor, _ = word.split(".")
    told = history.told_before(number, "end")
    if not told or told[-1][1][0] != actor:
        return f"the run list of {actor} stands right below the line that tells how {actor} ended"
    count = sum(words[0].startswith(f"{actor}.") for _, words in history.told_before(number, "item"))
    return f"{actor}.{count} is due here: a run list counts its calls from {actor}.0 on, each with a line"


def of_other_actor(history, number):
    line = history.line(number)
    caller, future = line.words[0].split(".")
    at, words = history.calls_of(caller)[int(future)]
    return line.at(1, f"{line.words[0]} went to {words[2]}: {history.quoted(at)}")


def of_other_kind(history, number):
    line = history.line(number)
    at, words = history.roles()[line.words[0]]
    return line.at(2, f"the role of {words[1]} has the kind {words[2]}: {history.quoted(at)}")


def of_not_submitted(history, number):
    line = history.line(number)
    place, word = next((at, word) for at, word in enumerate(line.words) if re.match("c[0-9]", word))
    caller = word.partition(".")[0]
    count = len([at for at, _ in history.calls_of(caller) if at < number])
    verb = "call" if history.is_by_order else "submit"
    shown = "" if not count else f", {caller}.0" if count == 1 else f", {caller}.0 to {caller}.{count - 1}"
    return line.at(place, f"the lines above that begin with '{verb} {caller}' are {counted(count, 'call')}{shown}")


def of_no_future(history, number):
    line = history.line(number)
    caller, actor = line.words[1:3]
    call = f"{caller}.{[at for at, _ in history.calls_of(caller)].index(number)}"
    if history.is_by_order:
        forms = f"'{call} answered' or '{call} open'"
        return line.at(0, f"this call is {call}, and no line says what became of it, as {forms}")
    if history.first_told is None:
        return line.at(0, f"this call is {call}, and below the steps nothing tells what was left. {HOW}")
    forms = f"'{call} {actor} = 5', or '{call} {actor} ?' where it has none"
    return line.at(0, f"this call is {call}, and no line tells its answer, as {forms}")


def of_no_caller(history, number):
    end = len(history.line(number).text) + 1
    return Finding(end, end + 1, f"a role names one caller or more. The form is: {SORTS_BY_ORDER['actor'][0]}")


def of_bad_await(history, number):
    """A step that awaits no call of its caller's."""
    line = history.line(number)
    caller, future = line.words[1:3]
    count = len([at for at, _ in history.calls_of(caller) if at < number])
    calls = f"{caller} has submitted {counted(count, 'call')} above this line"
    return line.at(2, f"there is no call {caller}.{future} yet: {calls}")


def of_bad_step(history, number):
    """A step of a caller that awaits an answer, which every play refuses."""
    line = history.line(number)
    if line.words[0] == "await":
        return of_bad_await(history, number)
    refusal = explain_refusals.refusal_of_step(reading.read_script(history.front, reading.THREAD_FORMS), number)
    return line.at(refusal.word, f"every play refuses this step ({refusal.name}): {refusal.why}")


OF_MISTAKES = {
    "BadLine": of_bad_line, "NoRole": of_no_role, "OutOfOrder": of_out_of_order, "OtherActor": of_other_actor,
    "OtherKind": of_other_kind, "NotSubmitted": of_not_submitted, "NoFuture": of_no_future, "NoOutcome": of_no_future,
    "NoCaller": of_no_caller, "BadPlan": of_bad_step,
}  # fmt: skip


# What no line has.


def why_no_end(history):
    ended = {words[0] for _, words in history.told_before(len(history.lines) + 1, "end")}
    missing = [actor for actor in history.roles() if actor not in ended]
    if not missing:
        return "no actor has a role"
    ends = SORTS_BY_ORDER["end"][0] if history.is_by_order else SORTS["end"][0]
    more = f". {HOW}" if history.first_told is None and not history.is_by_order else ""
    return f"no line tells how {ids('a', missing)} ended, as '{ends}'{more}"


def why_of_none(history, name):
    """The reason of a mistake that no line has."""
    if name == "NoEnd":
        return why_no_end(history)
    if name == "TooLong" and not history.is_by_order:
        most = reading.LONGEST_SCRIPT
        return f"the history has more than {most} bytes, the most. One by order alone may be longer (docs/histories.md)"
    return None


def is_of_script(history, number, name):
    """Whether it is the fault of a line of the script for threads with which a history with values begins."""
    is_front = not history.is_by_order and not history.is_told(number)
    return is_front and name in explain.OF_FAULTS and name != "BadPlan"


def told(data, first):
    """What is told of a history of which the program says this first: that line, the line at fault, and a reason."""
    history, found = History(data), re.match(r"line ([0-9]+): (\w+)", first)
    if not found:
        return [first]
    number, name = int(found[1]), found[2]
    if number == 0:
        return [*filter(None, [first, why_of_none(history, name)])]
    if is_of_script(history, number, name):
        fault = explain.told_fault(reading.ScriptFault(number, name), "threads", history.front)
        return [first, *fault.lines[1:]]
    finding = OF_MISTAKES[name](history, number) if name in OF_MISTAKES else None
    if finding is None:
        return [first, history.quoted(number)]
    right = [f"Right would be: {finding.better}"] if finding.better else []
    line = history.lines[number - 1].encode("latin-1")
    return [first, *explain.marked(line, finding.begin, finding.end), finding.why, *right]


def explanation(data, first):
    """The same as text. Where the reason can't be given, it is the program's line alone."""
    return "".join(f"{line}\n" for line in told(data, first))
