"""The must-fail edits of the crates: what each of them changes, and in which functions.

An edit has a line `file: PATH`, and then pairs of lines `old: TEXT` and `new: TEXT`. The old text stands
once in that file, as the pairs before it left it.

After a pair there may be a line `same: TEXT`, which `rt` doesn't read. With these texts in place of the new ones the
edit makes an equivalent body of the same shape, or an equivalent definition, which has to be accepted.
"""
import re
from pathlib import Path
from typing import NamedTuple, Optional

TOP = Path(__file__).resolve().parent.parent
# What the gate tries, and what is tried by tools/more_edits.py.
GATE = "must-fail"
MORE = "more-must-fail"

PARTS = ("src/", "specs/", "proofs/")
FUNCTION = re.compile(r"( *)(?:pub(?:\([a-z]+\))? )?(?:unsafe )?fn (\w+)")
CLAUSE = re.compile(r" *(?:ghost|requires|ensures)\b")
BLOCK = re.compile(r"(?:pub )?(?:impl|trait)\b(.*)\{")
# The first line of a definition in specs/, or of a further part of one.
DEFINITION = re.compile(r"(?!use |open |end$|--|\s)(?:(?:pub|abbrev|record|data) )*([A-Za-z_][\w'-]*)|end$")
WORD = re.compile(r"[A-Za-z_][\w'-]*")
IMPORT, PATH = re.compile(r"^ghost use ([^;]*);", re.M), re.compile(r"\b(\w+)\.(\w+)")


class BadEdit(Exception):
    """Why an edit can't be applied."""


class Pair(NamedTuple):
    file: str
    old: Optional[str]
    new: str
    same: Optional[str] = None


class Place(NamedTuple):
    """A function, and the lines of its file on which it stands, from 1 on."""

    file: str
    owner: tuple
    name: str
    first: int
    last: int

    def module(self):
        """The words of its module's path."""
        words = Path(self.file).with_suffix("").parts[1:]
        return [] if words in (("lib",), ("main",)) else [*words]

    def proofs(self):
        """The folder of what is written of its proof."""
        return "/".join(["proofs", *self.module(), *filter(None, ["".join(self.owner)]), self.name])


class Edit:
    """One file of edits, in a folder of its crate."""

    def __init__(self, path):
        self.path = Path(path)
        self.folder = self.path.parent.parent
        self.crate = self.folder.name
        self.name = f"{self.crate}/{self.path.name}"
        # Read at once: where the gate tries it, its folder is elsewhere by then.
        self.content = self.path.read_bytes()

    def pairs(self):
        file, old, found = "", None, []
        for line in self.content.decode().split("\n"):
            word, _, text = line.partition(": ")
            if word == "file":
                file = text.strip()
            elif word == "old":
                old = text
            elif word == "new" or line == "new:":
                found.append(Pair(file, old, text))
                old = None
            elif word == "same" and found:
                found[-1] = found[-1]._replace(same=text)
        return found

    def has_same(self):
        """Whether it has an equivalent body, or an equivalent definition."""
        return any(pair.same is not None for pair in self.pairs())

    def same(self, texts):
        """These texts with what is equivalent, and not with the edit."""
        pairs = [pair if pair.same is None else pair._replace(new=pair.same) for pair in self.pairs()]
        return self.applied(texts, pairs)

    def applied(self, texts, pairs=None):
        """These texts, by file, after the edit. Those that it doesn't find among them are the crate's own."""
        texts, pairs = dict(texts), self.pairs() if pairs is None else pairs
        for pair in pairs:
            texts[pair.file] = self._replaced(pair, texts)
        if not pairs:
            raise BadEdit("it changes nothing")
        return texts

    def _replaced(self, pair, texts):
        path = self.folder / pair.file
        if not pair.file.startswith(PARTS) or ".." in pair.file or not path.is_file():
            raise BadEdit(f"there is no file {pair.file!r} of src, specs or proofs")
        if not pair.old:
            raise BadEdit("a new text has no old one")
        text = texts.get(pair.file) or path.read_text()
        if text.count(pair.old) != 1:
            raise BadEdit(f"{pair.old!r} stands in {pair.file} {text.count(pair.old)} times, and not once")
        return text.replace(pair.old, pair.new)

    def _steps(self):
        """Each pair, with the text that it finds and where in it."""
        texts = {}
        for pair in self.pairs():
            text = texts.get(pair.file) or (self.folder / pair.file).read_text()
            yield pair, text, text.index(pair.old)
            texts[pair.file] = text.replace(pair.old, pair.new)

    def places(self):
        """The functions that it changes, or None where it changes more than functions and their proofs."""
        found, others = set(), set()
        for pair, text, at in self._steps():
            if not pair.file.startswith("src/"):
                others.add(str(Path(pair.file).parent))
            elif not pair.old.startswith("use "):
                found.add(place_at(pair.file, text, at))
        if None in found:
            return None
        lacking = others - {place.proofs() for place in found}
        found |= {place for place in self._functions() if place.proofs() in lacking} if lacking else set()
        return None if others - {place.proofs() for place in found} else found

    def _functions(self):
        """The functions of the crate that have a body of lines."""
        for path in sorted(self.folder.glob("src/**/*.rt")):
            yield from functions_in(str(path.relative_to(self.folder)), path.read_text())

    def is_within(self, place):
        """Whether all that it changes stands in this function."""
        steps = [(pair.file, text.count("\n", 0, at) + 1) for pair, text, at in self._steps()]
        return all(file == place.file and place.first <= row <= place.last for file, row in steps)

    def is_for_a_copy(self, places):
        """Whether it changes one function alone, and so that it can be made in a copy of it: no method of a trait, and
        not a program's first function."""
        if len(places) != 1:
            return False
        place, = places
        is_plain = place.name != "main" and len(place.owner) < 2 and self.is_within(place)
        return is_plain and not is_of_trait((self.folder / place.file).read_text(), place)

    def is_of_definitions(self):
        """Whether it changes what stands in specs/."""
        return any(pair.file.startswith("specs/") for pair in self.pairs())

    def definitions(self):
        """The names of the definitions that it changes, and of all of the crate's that speak of these."""
        files = sorted(self.folder.glob("specs/**/*.antt"))
        speaking = {}
        for name, text in (found for path in files for found in definitions_in(path.read_text())):
            speaking[name] = speaking.get(name, set()) | {*WORD.findall(text)}
        found = {name for pair, text, at in self._steps() if pair.file.startswith("specs/")
                 for name in [definition_at(text, at)] if name}
        while True:
            more = {name for name, words in speaking.items() if words & found} - found
            if not more:
                return found
            found |= more

    def speaking(self):
        """The functions of its crate whose clauses speak of the definitions that it changes."""
        names = self.definitions()
        for path in sorted(self.folder.glob("src/**/*.rt")):
            text = path.read_text()
            imported = {*WORD.findall(" ".join(IMPORT.findall(text)))}
            for place, head in heads_in(str(path.relative_to(self.folder)), text):
                of_modules = {name for module, name in PATH.findall(head) if module in imported}
                if ({*WORD.findall(head)} & imported | of_modules) & names:
                    yield place

    def is_of_bodies(self):
        """Whether it changes bodies of functions and their proofs, and not what a function takes, asks or promises."""
        for pair, text, at in self._steps():
            place = place_at(pair.file, text, at) if pair.file.startswith("src/") else None
            is_of_body = place and text.count("\n", 0, at) >= body_of(text.split("\n"), place)
            if pair.file.startswith("src/") and not is_of_body:
                return False
        return True


def definitions_in(text):
    """The definitions of a file of specs, each as its name and its lines; one may have several parts."""
    name, block = "", []
    for line in [*text.split("\n"), "end"]:
        started = DEFINITION.match(line)
        if started:
            if name:
                yield name, "\n".join(block)
            name, block = started[1], []
        block.append(line)


def definition_at(text, at):
    """The name of the definition that stands around this place of a file of specs, or nothing."""
    above = text[:at].split("\n")[:-1] + [text[text.rfind("\n", 0, at) + 1 :].partition("\n")[0]]
    started = [DEFINITION.match(line) for line in above]
    return next((it[1] for it in reversed(started) if it), "")


def place_at(file, text, at):
    """The function that stands around this place of a file, or None."""
    lines, row = text.split("\n"), text.count("\n", 0, at)
    for first in range(row, -1, -1):
        if FUNCTION.match(lines[first]):
            place = place_of(file, lines, first)
            return place if row < place.last else None
    return None


def place_of(file, lines, start):
    """The function that starts on this row of a file."""
    name, last = FUNCTION.match(lines[start])[2], rows_of(lines, start)[1]
    return Place(file, owner_of(lines, start), name, attributes_from(lines, start) + 1, last + 1)


def rows_of(lines, start):
    """The rows on which the body of a function begins and ends, which starts on that row. Where it has no body, or an
    empty one, that begins after its end."""
    indent, has_clauses, depth = FUNCTION.match(lines[start])[1], False, 0
    for begin, line in enumerate(lines[start:], start):
        has_clauses |= bool(CLAUSE.match(line))
        if line == f"{indent}{{" or not has_clauses and line.endswith("{"):
            ends = (row for row in range(begin, len(lines)) if lines[row] == f"{indent}}}")
            return begin, next(ends, begin)
        depth += line.count("{") - line.count("}")
        is_empty = line == f"{indent}{{}}" or not has_clauses and line.endswith("{}")
        if depth == 0 and (is_empty or line.endswith(";")):
            return begin + 1, begin
    return start + 1, start


def head_of(lines, place):
    """The row of a function's name."""
    return next(row for row in range(place.first - 1, place.last) if FUNCTION.match(lines[row]))


def body_of(lines, place):
    """The row on which the body of a function begins, or that after its end where it has none."""
    return rows_of(lines, head_of(lines, place))[0]


def functions_in(file, text):
    """The functions of a file of src whose body has lines, each as its place."""
    lines = text.split("\n")
    for row, line in enumerate(lines):
        if FUNCTION.match(line):
            begin, end = rows_of(lines, row)
            if begin + 1 < end:
                yield place_of(file, lines, row)


def heads_in(file, text):
    """All functions of a file of src, each as its place, with what it takes, asks and promises."""
    lines = text.split("\n")
    for row, line in enumerate(lines):
        if FUNCTION.match(line):
            yield place_of(file, lines, row), "\n".join(lines[row : max(rows_of(lines, row)[0], row + 1)])


def without_bodies(text, places):
    """The text, in which each of these functions has a loop without end for its body, on as many lines."""
    lines = text.split("\n")
    for place in places:
        begin, end = body_of(lines, place), place.last - 1
        lines[begin + 1 : end] = ["loop {}", *[""] * (end - begin - 2)]
    return "\n".join(lines)


def with_copy(text, edited, place, name):
    """The text, and below it a function of another text of its file, under that name, with the place of this copy."""
    lines = edited.split("\n")
    head = head_of(lines, place)
    lines[head] = lines[head].replace(f"fn {place.name}", f"fn {name}", 1)
    block = block_of(lines, head)
    above = [*text.rstrip("\n").split("\n"), *filter(None, [block])]
    copy = lines[place.first - 1 : place.last]
    placed = place._replace(name=name, first=len(above) + 1, last=len(above) + len(copy))
    return "\n".join([*above, *copy, *["}"] * bool(block), ""]), placed


def is_of_trait(text, place):
    """Whether the function stands in a trait."""
    lines = text.split("\n")
    return block_of(lines, head_of(lines, place)).removeprefix("pub ").startswith("trait")


def attributes_from(lines, row):
    """The first line of the attributes above this one, or this one."""
    while row and lines[row - 1].lstrip().startswith("#["):
        row -= 1
    return row


def block_of(lines, row):
    """The first line of the block of methods around this row, or nothing where there is none."""
    above = reversed(lines[:row]) if lines[row].startswith(" ") else ()
    return next(filter(BLOCK.match, above), "")


def owner_of(lines, row):
    """The type whose method stands on this line, and its trait, as far as there are any."""
    block = BLOCK.match(block_of(lines, row))
    if not block:
        return ()
    names = re.sub(r"<(?:[^<>]|<(?:[^<>]|<[^<>]*>)*>)*>", " ", block[1]).partition(" where")[0].split(" for ")
    return tuple(name.partition(": ")[0].split("::")[-1].strip() for name in reversed(names))


def edits_in(kind, crates=()):
    """The edits of that folder of these crates, or of all."""
    found = [Edit(path) for path in sorted(TOP.glob(f"crates/*/{kind}/*.edit"))]
    return [edit for edit in found if not crates or edit.crate in crates]


def fault_of(edit):
    """Why the edit can't be tried, or None."""
    if edit.path.parent.name == MORE and (edit.folder / GATE / edit.path.name).exists():
        return f"the gate has an edit of this name in {GATE}/"
    try:
        changed = edit.applied({})
    except (BadEdit, UnicodeDecodeError) as fault:
        return str(fault)
    if is_as_before(edit, changed):
        return "it leaves each file as it was"
    return fault_of_same(edit, changed) if edit.has_same() else None


def is_as_before(edit, texts):
    """Whether these texts are those of the edit's crate."""
    return all(text == (edit.folder / file).read_text() for file, text in texts.items())


def fault_of_same(edit, changed):
    """Why what it has as equivalent can't be tried, or None."""
    same = edit.same({})
    if same == changed or is_as_before(edit, same):
        return "what it has as equivalent is the wrong one, or that which stands there"
    if not edit.is_of_definitions() and not edit.is_for_a_copy([*(edit.places() or ())]):
        return "its equivalent body has no place: it has to change one function alone, which can be copied"
    return None


def strangers():
    """What lies in a folder of edits and is none."""
    found = [path for kind in (GATE, MORE) for path in TOP.glob(f"crates/*/{kind}/*")]
    return sorted(path for path in found if path.suffix not in (".edit", ".md"))
