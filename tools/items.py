"""What the door `actors` passes on, as the sources have it: a module of tools/reference.py.

An item is a function, a law, a trait, a type, an error, a constant, or a method of a trait or a type. It comes with its
doc comment, its declaration or its head, and the texts whose words a reader may look up.
"""
import re
import textwrap
from dataclasses import dataclass, field
from functools import cached_property
from itertools import takewhile

import audit
import door

ATTRIBUTE_OR_DOC = re.compile(r"\s*(///|#\[)")
METHOD = re.compile(r"    pub (?:const )?fn (\w+)")
IMPL = re.compile(r"impl(?:<.*?>)? (?P<trait>[\w:]+(?:<.*>)?) for (?P<kind>.+?) \{\}?$")
CALLS = ("function", "law", "method")
PRIVATE = "    // private fields"
METHODS_BELOW = "    // The methods stand below."


@dataclass
class Item:
    """A public name: where it is declared, what is said of it, and how it reads."""

    name: str
    sort: str
    file: audit.RustFile
    number: int
    code: list
    texts: list = field(default_factory=list)  # each text that has words of specs, with its scope
    members: list = field(default_factory=list)
    block: str = ""  # of a method the head of the `impl` around it
    has_body: bool = False  # of a method of a trait
    definition: audit.Definition = None
    sees: str = ""  # of a type what clauses see in its place
    impls: list = field(default_factory=list)  # of a type the traits of its `impl`s, each with its lines and its file
    meanings: list = field(default_factory=list)  # of a type what it is as a trait: the trait, its word, and the text

    @cached_property
    def doc(self):
        """The paragraphs of its doc comment."""
        return paragraphs(doc_above(self.file.lines, self.number))

    @property
    def is_call(self):
        return self.sort in CALLS

    @cached_property
    def bound(self):
        """The names that its clauses bind: its parameters."""
        parameters = audit.function_at(self.file.lines, self.number).parameters if self.is_call else ()
        return {*parameters, "self", "result"}

    def places(self):
        """The item and its members."""
        return [self, *self.members]


# Lines of a source.


def first_above(lines, number):
    """The first line of the doc comment and the attributes above a line."""
    while ATTRIBUTE_OR_DOC.match(lines[number - 2]):
        number -= 1
    return number


def doc_above(lines, number):
    """The lines of the doc comment above a line, without their slashes."""
    above = [line.strip() for line in lines[first_above(lines, number) - 1 : number - 1]]
    return [line.removeprefix("///").strip() for line in above if line.startswith("///")]


def paragraphs(lines):
    """Lines as paragraphs: an empty line ends one."""
    return [" ".join(part.split("\n")) for part in "\n".join(lines).split("\n\n") if part.strip()]


def head_at(lines, number):
    """The head of a function as it stands, without its body, and the number of its last line."""
    last = audit.function_at(lines, number).last
    head = textwrap.dedent("\n".join(lines[number - 1 : last])).split("\n")
    return [*head[:-1], re.sub(r" \{\}?$", "", head[-1])], last


def clauses_at(file, number):
    """The clauses of a function, each with its scope."""
    return [(text, file) for text, _ in audit.function_at(file.lines, number).clauses]


def impls_in(file):
    """Each `impl` of a file: its head, and the numbers of its first and its last line."""
    for number, line in enumerate(file.lines, 1):
        if line.startswith("impl"):
            yield line, number, number if line.endswith("}") else file.lines.index("}", number) + 1


def bare(lines):
    """Lines without empty ones at both ends, and with one at most between two others."""
    return re.sub(r"\n{3,}", "\n\n", "\n".join(lines)).strip("\n").split("\n")


# Items.


class Door:
    """All that the door passes on, by the subjects of its src/lib.rt."""

    def __init__(self):
        self.sources = audit.Sources()
        self.names = {name for _, _, name in passed_by_subject()}
        self.impls = {}  # of each crate its `impl`s
        self.subjects = {}
        for title, crate, name in passed_by_subject():
            self.subjects.setdefault(title, []).append(self.item(crate, name))
        self.items = [item for items in self.subjects.values() for item in items]
        self.declared = {item.definition for item in self.items if item.definition}

    def item(self, crate, name):
        """The item of a name that the door takes from this crate."""
        _, file = door.home_of(self.sources, crate, name)
        if name in file.declared:
            return self.declared_item(file.named(name)[0])
        numbers = [number for number, line in enumerate(file.lines, 1) if re.match(rf"pub fn {name}\b", line)]
        if len(numbers) != 1:
            raise audit.Unread(f"{file.path}: '{name}' is declared {len(numbers)} times")
        head, _ = head_at(file.lines, numbers[0])
        item = Item(name, "function", file, numbers[0], head, clauses_at(file, numbers[0]))
        if re.match(rf"pub fn {name}(?:<.*>)?\(\)$", head[0]):
            item.sort = "law"
        return item

    def declared_item(self, definition):
        """The item of a type, a trait or a constant."""
        file, name = definition.scope, definition.name
        number = definition.first + next(at for at, line in enumerate(definition.lines) if line.startswith("pub "))
        item = Item(name, "type", file, number, [], definition=definition)
        if definition.sort == "trait":
            item.sort = "trait"
            self.read_trait(item)
        elif definition.sort == "const":
            item.sort, item.code = "constant", definition.lines[number - definition.first :]
        else:
            item.code = declaration(definition)
            self.read_type(item)
        return item

    def read_trait(self, item):
        """The declaration of a trait without its methods, and these."""
        lines, last = item.file.lines, item.definition.first + len(item.definition.lines) - 1
        kept, number = [], item.number + 1
        while number < last:
            if not re.match(r"    fn ", lines[number - 1]):
                kept.append(lines[number - 1])
                number += 1
                continue
            while kept and ATTRIBUTE_OR_DOC.match(kept[-1]):
                kept.pop()
            method, number = method_of_trait(item, number)
            item.members.append(method)
        below = ["", METHODS_BELOW] if item.members else []
        item.code = [lines[item.number - 1], *bare([*kept, *below]), "}"]
        item.texts = [(text, item.file) for text in re.findall(r"ghost \w+: \{ (.*?) \}", "\n".join(kept), re.S)]

    def read_type(self, item):
        """The methods of a type, and what clauses see in its place."""
        name = item.name
        for file, head, first, last in self.impls_of_crate(item.definition.crate):
            found = re.match(rf"(impl(?:<.*?>)? {name}(?:<.*>)?) \{{$", head)
            if found and file.type_named(name) == [item.definition]:
                item.members += methods_in(item, file, found[1], first, last)
        item.impls = list(self.impls_for(item))
        if view := item.file.views.get(name):
            item.sees = re.search(r"ghost Value = \{ (.*?) \};", "\n".join(view.lines), re.S)[1]
            item.texts = [(item.sees, view.scope)]
        for trait, lines, file in item.impls:
            for word, text in re.findall(r"^    ghost (\w+) = \{ (.*?) \};$", "\n".join(lines), re.M):
                if trait in self.names or trait == "Display":
                    item.meanings.append((trait, word, text))
                    item.texts.append((text, file))
        item.members.sort(key=lambda method: bool(re.search(r"\bself\b", signature(method))))
        if "Error" in [*derived(item), *(trait for trait, _, _ in item.impls)]:
            item.sort = "error"

    def impls_of_crate(self, crate):
        """Each `impl` of a crate: its file, its head, and the numbers of its first and its last line."""
        if crate not in self.impls:
            paths = sorted((audit.CRATES / crate / "src").glob("*.rt"))
            files = [self.sources.file(crate, "src", [path.stem]) for path in paths]
            self.impls[crate] = [(file, *each) for file in files for each in impls_in(file)]
        return self.impls[crate]

    def impls_for(self, item):
        """Each trait that a type has an `impl` of, with the lines of that and its file."""
        is_alias = item.definition.sort == "type"
        kind = re.search(r"= (.*);$", item.definition.lines[-1])[1] if is_alias else item.name
        for file, head, first, last in self.impls_of_crate(item.definition.crate):
            found = IMPL.match(head)
            named = found and (found["kind"] if is_alias else re.match(r"\w*", found["kind"])[0])
            if named == kind and (is_alias or file.type_named(named) == [item.definition]):
                yield re.sub(r"^(fmt|hash)::", "", found["trait"]), file.lines[first - 1 : last], file


def passed_by_subject():
    """What the door passes on: the subject, the crate, and the name."""
    title = None
    for line in door.lines_of("src"):
        if found := re.match(r"// (.*)\.$", line):
            title = found[1]
        elif found := re.match(r"pub use (\w+)::(.*);$", line):
            if title is None:
                raise audit.Unread(f"{door.DOOR}: no comment says of what {found[2]} is")
            yield from ((title, found[1], name) for name in re.findall(r"\w+", found[2]))


def declaration(definition):
    """A type as it stands, without its doc comment and its private fields."""
    lines = [line for line in definition.lines if not re.match(r"///|#\[", line)]
    if definition.sort != "struct" or len(lines) == 1:
        return lines
    kept, above, hides = [], [], False
    for line in lines[1:-1]:
        above.append(line)
        if ATTRIBUTE_OR_DOC.match(line):
            continue
        if line.startswith("    pub "):
            kept += above
        else:
            hides = True
        above = []
    return [lines[0], *kept, *([PRIVATE] if hides else []), lines[-1]]


def method_of_trait(trait, number):
    """A method of a trait, and the line after it."""
    lines = trait.file.lines
    head, last = head_at(lines, number)
    has_body = not head[-1].endswith(";")
    if has_body and lines[last].strip() != "{}":
        last = lines.index("    }", last - 1) + 1
    elif has_body:
        last += 1
    name = re.match(r"    fn (\w+)", lines[number - 1])[1]
    texts = clauses_at(trait.file, number)
    method = Item(f"{trait.name}::{name}", "method", trait.file, number, head, texts, has_body=has_body)
    return method, last + 1


def methods_in(owner, file, block, first, last):
    """The public methods of an `impl`."""
    for number in range(first + 1, last):
        if found := METHOD.match(file.lines[number - 1]):
            head, _ = head_at(file.lines, number)
            texts = clauses_at(file, number)
            yield Item(f"{owner.name}::{found[1]}", "method", file, number, head, texts, block=block)


def derived(item):
    """The traits that a type derives."""
    found = re.findall(r"#\[derive\((.*?)\)\]", "\n".join(item.definition.lines))
    return [name.strip() for text in found for name in text.split(",")]


def signature(item):
    """The code of an item without its clauses."""
    return re.split(r"\n *(?:requires|ensures)\b", "\n".join(item.code))[0].rstrip(";")


def premises(item):
    """The texts of a function's premises."""
    code = "\n".join(item.code) if item.is_call else ""
    for found in re.finditer(r"^ *requires\b[^{]*\{", code, re.M):
        yield code[found.end() : audit.closing(code, found.end() - 1)]


# Words.


def modules_of_words():
    """The modules of the door's specs, each with its lines: its types first, and then as it lists the others."""
    folder = audit.CRATES / door.DOOR / "specs"
    types = (folder / "Lib.antt").read_text()
    yield "Types of the code", ["", *types.split("\n")]
    for module in re.findall(r"^pub mod (\w+)$", types, re.M):
        yield module, (folder / f"{module}.antt").read_text().split("\n")


def home_of(head, scope):
    """The scope that takes in a word, or the outermost."""
    while scope.around and head not in {**scope.targets, **scope.aliases}:
        scope = scope.around
    return scope


def words_of_std(text, scope):
    """The words of a text that std or a crate of the kit defines."""
    for token in audit.tokens_of(text.split("\n")):
        head = token.text.split(".")[0]
        path, name = home_of(head, scope).targets.get(head, ("", ""))
        if path and path.split(".")[1] == "std":
            yield name


def named_in(sources, text, scope, bound=()):
    """The words of a text that a crate of this library defines: as they are written, their module, and their name.

    Those that are bound are none.
    """
    for token in audit.tokens_of(text.split("\n")):
        head, *rest = token.text.split(".")
        if head in bound:
            continue
        within = home_of(head, scope)
        path, name = within.targets.get(head, ("", ""))
        if head in within.aliases and rest:
            path, name = within.aliases[head][0], rest[0]
        if path and sources.is_own(path.split(".")[1]):
            yield token.text if head in within.aliases else head, path, name


# Lemmas.


def lemmas():
    """The lemmas that the door passes on: what is said of each, its file, and its name."""
    said = ""
    for line in (audit.CRATES / door.DOOR / "proofs/Lemmas.antt").read_text().split("\n"):
        if line.startswith("-- "):
            said = line.removeprefix("-- ")
        elif found := re.match(r"pub use Rattle\.(\w+)\.proofs\.([\w.]+)\.\{(.*)\}$", line):
            path = (audit.CRATES / found[1] / "proofs").joinpath(*found[2].split(".")).with_suffix(".antt")
            yield from ((said, path, name) for name in found[3].split(", "))


def indent_of(line):
    return len(line) - len(line.lstrip())


def on_one_line(found):
    return re.sub(r"\n +", " ", found[0])


def statement_of(path, name):
    """A lemma with the parameters of the modules around it and its type, and the words of these that it names."""
    # A module's parameters may go on over several lines.
    text = re.sub(r"^ *module _ [^\n]*(?:\n +[({][^\n]*)* where$", on_one_line, path.read_text(), flags=re.M)
    lines, around = text.split("\n"), []
    for number, line in enumerate(lines):
        around = [each for each in around if indent_of(each) < indent_of(line) or not line.strip()]
        if re.match(r" *module _ .* where$", line):
            around.append(line)
        if not re.match(rf" *pub {re.escape(name)} : ", line):
            continue
        more = takewhile(lambda each, line=line: indent_of(each) > indent_of(line), lines[number + 1 :])
        kind = " ".join([line.partition(" : ")[2], *map(str.strip, more)])
        parameters = " ".join(re.sub(r"^ *module _| where$", "", each).strip() for each in around)
        words = re.findall(r"^( +)abbrev (?:pub )?(\w+) :.*\n\1(\2 .*= .*)$", text, re.M)
        named = [body for _, word, body in words if re.search(rf"(?<![\w.]){word}(?![\w.])", kind)]
        return f"{name} : {parameters}{' → ' if parameters else ''}{kind}", named
    raise audit.Unread(f"{path}: there is no lemma '{name}'")
