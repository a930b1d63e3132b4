"""Tells of what kind a refusal is, by what the prover says.

A wrong body is worth something only if it is refused for what it does. So two kinds are told apart:

*by a goal*: a clause, a premise, an invariant or a fact of a loop doesn't follow of this body. The prover looked for
a proof and found none, or a written answer proves it of another value than the one that stands there now;

*by its shape*: what is written of the proof no longer fits the code. It names a goal or a step that is gone, or proves
something else altogether. A correct body of that shape would be refused, too. Where one answer doesn't fit, another
that differs counts only if both types speak of the same steps.

Values are compared as they are written. So a correct body of the same steps that writes the same value in other words,
as `1 + n` for `n + 1`, is told as refused by a goal, too: an answer speaks of the one, and no search ties it to the
other. An edit's value has to be another one for some input, which nobody but its writer sees to.

A goal whose name is new may be one whose answer is lost. So where an answer of the function has lost its goal, another
goal of the same clause counts only where the prover has values at which it is false.
"""
import itertools
import re
from pathlib import Path

UNPROVED = re.compile(r"note: (?:\./)?(src/\S+?):(\d+):\d+: (.*)")
ERROR = re.compile(r"(?:\./)?(\S+?):(\d+):\d+: error: (.*)")
# What an answer says where an edit took away a name of which it speaks.
NAMES = re.compile(r"has no field|is not in scope|has no `|was not admitted")
LOST_GOAL = re.compile(r"error: `[^`]*`: `goal\.([^`]*)`: module `[^`]*` has no `")
# The goal of a message, or one of several.
GOAL = re.compile(r"\(`([^`]+)`")
NOT_PROVED, FALSE = "it is not proved that", "allow values at which this goal is false"
# A tactic that an answer calls, which found no proof. Where `grind` stops at its own limit, the goal may hold.
SEARCHED = re.compile(r"`(omega|search|grind)`: ")
# Where two types differ, as an answer's message shows them: what is expected there, and what the answer has.
DIFFER = re.compile(r"the two types (?:(?:first )?differ (?:only )?where one has|are) `")
# What is expected where nothing is.
NOTHING = re.compile(r"`Unit \{0\}` \(expected\)")
EXPECTED = re.compile(r"`([^`]*)` \(expected\)|expected type `([^`]*)`")
FOUND = re.compile(r"`([^`]*)` \(found\)|this has type `([^`]*)`")
# A step of the function, as what is written of its proof names it, and those that each function has.
STEP = re.compile(r"\b[cl]\.([A-Za-z_][\w-]*)")
ALWAYS = {"args", "before", "lifetimes", "requires", "self", "well_formed"}
WRITTEN = ("Answers.antt", "Invariants.antt")


def is_in(line, symbol, place):
    """Whether this message tells of an error in that function, or in what is written of its proof."""
    note, error = UNPROVED.match(line), ERROR.match(line)
    if note:
        return note[1] == place.file and place.first <= int(note[2]) <= place.last
    proofs = "/".join(["proofs", *symbol.split("::")[1:], ""])
    return bool(error) and error[1].startswith(proofs)


def own_messages(said, symbol, place):
    """The messages of errors in that function, each with the lines that go on with it."""
    for row, line in enumerate(said):
        if is_in(line, symbol, place):
            more = itertools.takewhile(lambda it: it.startswith("  "), said[row + 1 :])
            yield [line, *more]


def of_a_goal(messages, written):
    """The first line of a message that tells of a goal, where this is written of the proof; or None."""
    lost = {clause_of(name) for message in messages for name in LOST_GOAL.findall(joined(message))}
    fits = not any(tells_of_the_shape(message) for message in messages)
    return next((message[0] for message in messages if tells_of_a_goal(message, written, lost, fits)), None)


def clause_of(goal):
    """The clause of a goal, by the goal's name, or its kind where it is of none."""
    return goal.rpartition("-clause-")[2] if "-clause-" in goal else goal.partition("-")[0]


def tells_of_the_shape(message):
    """Whether an answer speaks of what is gone, or proves something else altogether."""
    is_by_value = SEARCHED.search(message[0]) or DIFFER.search(joined(message))
    return not UNPROVED.match(message[0]) and bool(NAMES.search(message[0]) or not is_by_value)


def tells_of_a_goal(message, written, lost, fits):
    """Whether the message tells of a goal. Where one of these clauses lost its answer, another that isn't found may be
    the same. Where some answer doesn't fit, others may differ for that, and not in a value."""
    if UNPROVED.match(message[0]):
        is_of_lost = bool({*map(clause_of, GOAL.findall(message[0]))} & lost)
        return NOT_PROVED in message[0] and (FALSE in message[0] or not is_of_lost)
    if tells_of_the_shape(message) or NOTHING.search(joined(message)):
        return False
    return bool(SEARCHED.search(message[0])) or fits or differs_in_a_value(joined(message), written)


def differs_in_a_value(text, written):
    """Whether the steps of which only one of these two types speaks are such of which the written proof does."""
    expected, found = ({*STEP.findall(str(form.findall(text)))} for form in (EXPECTED, FOUND))
    return expected ^ found <= {*STEP.findall(written), *ALWAYS}


def joined(message):
    """A message in one line."""
    return " ".join(line.strip() for line in message)


def written_of(folder, texts, symbol):
    """What is written of a function's proof, in these texts or else in the crate's folder."""
    found = []
    for file in ("/".join(["proofs", *symbol.split("::")[1:], part]) for part in WRITTEN):
        path = Path(folder, file)
        found.append(texts.get(file) or (path.read_text() if path.is_file() else ""))
    return "\n".join(found)


def plain(line):
    """A message without the marks before it."""
    return re.sub(r"^(note: )?(\./)?", "", line)
