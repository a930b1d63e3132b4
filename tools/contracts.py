"""What pages tell in tables of contracts, and how the sources have it: a module of tools/claims.py.

A table of contracts has the columns of COLUMNS, and stands below a heading that names its crates in backticks. A row
tells one thing that a contract says:

  - Call: a function of these crates, or several with the same clauses, as `World::play`; or a type or an `impl`, of
    which a clause is an invariant or what it gives for a trait. An empty cell stands for the call above.
  - Clause: the label of a clause, or of several; empty for a clause without a label. Behind `premise` stand those of
    premises. A row with neither a call nor a clause goes on with the clause above.
  - Definition: the names of definitions and their file, which begins with its crate where that isn't a crate of the
    heading. Where the file is left out, it is the one of that name above, or else the last one above. The clause speaks
    of each of these, or a definition that a row of this call has named, or one of its file behind that. `Record.field`
    is a field of such a record.

A table whose last column is `Crate` tells which crates have the calls of its rows, and a clause behind a call in
brackets is one of that call's.
"""
import re
from dataclasses import dataclass, field

from named import code_of, lines_of_page

COLUMNS = ["Call", "Clause", "Definition", "What it says"]
PATH = re.compile(r"((?:\w+/)?specs/\w+\.antt)\b")


@dataclass
class Call:
    """A call of a row: its clauses and premises, by label, and the words of what was named of it so far."""

    name: str
    clauses: dict
    premises: dict
    reached: set = field(default_factory=set)


def cells_of(line):
    return [cell.strip() for cell in line.strip().strip("|").split("|")]


def tables_of(text):
    """The tables of a page: the heading above, the cells of its head, and its rows, each with its line."""
    heading, rows = "", []
    for number, line in [*lines_of_page(text), (0, "")]:
        if line.startswith("|"):
            rows.append((number, cells_of(line)))
            continue
        if rows:
            yield heading, rows[0][1], rows[2:]
        heading, rows = line if line.startswith("#") else heading, []


def calls_named(name, crates, sources):
    """The functions and types of these crates that a name means: `World::play`, `play`, or `World`."""
    owner, _, last = name.rpartition("::")
    for crate in crates:
        for each, called, clauses, premises in sources.contracts.get(crate, []):
            if called == last and owner in ("", each):
                yield Call(name, clauses, premises)


def faults_of_tables(text, sources, crates):
    """What tables of contracts, and tables that name a crate in each row, say that isn't so."""
    for heading, head, rows in tables_of(text):
        if head == COLUMNS:
            yield from faults_of_contracts(rows, [name for name in code_of(heading) if name in crates], sources)
        elif head[-1] == "Crate":
            for number, cells in rows:
                yield from ((number, fault) for fault in faults_of_promise(cells, sources))


def faults_of_promise(cells, sources):
    """The calls of a row that its crate doesn't have, and their clauses in brackets."""
    homes, told = code_of(cells[-1]), cells[-2]
    for names, behind in re.findall(r"((?:`[^`]+`(?:, )?)+)(?: \(((?:`\w+`(?:, )?)+)\))?", told):
        for name in code_of(names):
            calls = [*calls_named(name, homes, sources)]
            if not calls:
                yield f"{' and '.join(homes)} has no call {name}"
            for label in code_of(behind) if calls else ():
                if not any(label in call.clauses for call in calls):
                    yield f"{name} has no clause {label}"


def faults_of_contracts(rows, homes, sources):
    """What is wrong in a table of contracts of these crates."""
    if not homes:
        yield rows[0][0], "no heading names the crate of this table"
        return
    calls, files = [], {}
    for number, cells in rows:
        if len(cells) != len(COLUMNS):
            yield number, f"a row of {len(cells)} cells, and not of {len(COLUMNS)}"
            continue
        if cells[0]:
            named = {name: [*calls_named(name, homes, sources)] for name in code_of(cells[0])}
            yield from ((number, f"{' and '.join(homes)} has no call {name}") for name in named if not named[name])
            calls = [call for found in named.values() for call in found]
        for call in calls:
            yield from ((number, fault) for fault in faults_of_clause(call, cells))
        yield from ((number, fault) for fault in faults_of_definitions(cells[2], calls, files, homes, sources))


def faults_of_clause(call, cells):
    """The labels of a row that the call doesn't have; what the others say is reached from then on."""
    is_premise = cells[1].startswith("premise")
    said = call.premises if is_premise else call.clauses
    labels = code_of(cells[1]) or ([""] if cells[0] or is_premise else [])
    for label in labels:
        if label in said:
            call.reached |= said[label]
        else:
            sort = "premise" if is_premise else "clause"
            yield f"{call.name} has no {sort} {label or 'without a label'}"


def faults_of_definitions(cell, calls, files, homes, sources):
    """The definitions of a row that its file doesn't have, or that no clause of its calls speaks of."""
    path = PATH.search(cell)
    for code in code_of(cell):
        name, _, part = code.partition(".")
        files[name] = path[1] if path else files.get(name, files.get("", ""))
        files[""] = files[name]
        words = words_reached(name, files[name], homes, sources)
        if not words:
            yield f"{files[name] or 'no file'} has no definition {name}"
            continue
        for call in calls:
            if name not in call.reached:
                yield f"no clause of {call.name} that is named speaks of {name}"
            call.reached |= words
        if part and part not in sources.members.get(name, ()):
            yield f"{name} has no field {part}"


def words_reached(name, path, homes, sources):
    """The words of a definition in this file, and of those of the file of which it speaks."""
    places = [f"crates/{crate}/{path}" for crate in homes] if path.startswith("specs/") else [f"crates/{path}"]
    reached = set()
    for definitions in filter(None, map(sources.definitions, places)):
        names, done = {name} & set(definitions), set()
        while names:
            done |= names
            words = set().union(*(definitions[each] for each in names))
            reached |= words
            names = (words & set(definitions)) - done
    return reached
