"""Which calls of a script are no fault of it, and are still always answered by one; tools/explain.py tells it.

A kind that hasn't the method of a call, or doesn't take its arguments, says so where the call runs. That is seen in the
script already, but for arguments that are futures.
"""
from dataclasses import dataclass

import reading_of_rules as reading
from explain_refusals import counted

TAKES = {"n": "a number", "k": "a text", "v": "a number or a text"}
# Of a method of a kind: the least number that it takes, the fault of one below it, and what the number is.
LEAST = {
    ("account", "deposit"): (1, "BadAmount", "an amount is 1 or more"),
    ("account", "withdraw"): (1, "BadAmount", "an amount is 1 or more"),
    ("list", "at"): (0, "NoItem", "places count from 0"),
}


@dataclass(frozen=True)
class Note:
    """A call that is always answered by a fault, where it runs."""

    line: int
    actor: str
    method: str
    fault: str
    why: str
    may_depend: bool  # some argument is a future, and may have failed


def a(noun):
    return f"an {noun}" if noun[0] in "aeiou" else f"a {noun}"


def is_taken(form, argument):
    return isinstance(argument, reading.Future) or reading.FORM_OF_ARGUMENT[form](argument)


def shown(argument):
    return f"@{argument.number}" if isinstance(argument, reading.Future) else reading.spelled(argument)


def always_answered(kind, method, arguments):
    """The fault by which a kind answers each such call, and why; or nothing."""
    own = reading.KINDS[kind].methods
    if method != reading.END and method not in own:
        return "NoMethod", f"which has no method {method} (it has {', '.join(own)})"
    forms = "" if method == reading.END else own[method][0]
    if len(arguments) != len(forms):
        return "BadArgs", f"whose {method} takes {counted(len(forms), 'argument')}, and not {len(arguments)}"
    for form, argument in zip(forms, arguments):
        if not is_taken(form, argument):
            return "BadArgs", f"whose {method} takes {TAKES[form]} there, and {shown(argument)} is none"
    least, fault, why = LEAST.get((kind, method), (None, None, None))
    if least is not None and not isinstance(arguments[0], reading.Future) and arguments[0] < least:
        return fault, f"and {why}"
    return None


def notes(script, refused=()):
    """The notes of the calls that a script submits, but of those whose submission is refused, by their places."""
    kinds = {actor: kind for actor, kind, *_ in script.roles}
    for place, (line, (verb, spelt)) in enumerate(zip(script.lines, script.events)):
        if verb != "submit" or place in refused:
            continue
        _, actor, method, arguments = spelt
        found = always_answered(kinds[actor], method, arguments)
        if found:
            fault, why = found
            may_depend = any(isinstance(each, reading.Future) for each in arguments)
            yield Note(line, f"a{actor}", method, fault, f"a{actor} is {a(kinds[actor])}, {why}", may_depend)


def told(found, quoted):
    """The lines that tell notes: of those that are alike one, with the line of the first. `quoted` shows a line."""
    alike = {}
    for note in found:
        alike.setdefault((note.actor, note.method, note.fault, note.why), []).append(note)
    for same in alike.values():
        note, more = same[0], f", and {len(same) - 1} like it" if same[1:] else ""
        failed = ", or by Dependency where an argument failed" if any(each.may_depend for each in same) else ""
        yield f"note, line {note.line}{more}: {quoted(note.line)}"
        yield f"  {note.why}: where the call runs, it is answered by {note.fault}{failed}"
