#!/usr/bin/env python3
"""Writes docs/audit.md: what somebody has to read who trusts the checker and nobody else.

    tools/audit.py [--check | --text | ROOT]

The page begins with the headline, `Consistent` of act_rules, with each definition that it reaches, quoted. Below stand
the roots: the public functions whose clauses are promises, each with its clauses and with the number of definitions
that these reach by their words. `--check` writes nothing, and fails where the page isn't that of the sources. Given a
root, as `run_plans`, the tool prints all that stands behind that one, in reading order, and none that doesn't; `--text`
prints it for all roots together.

How a word is followed:

  - A word of a clause or of a definition is one that is bound there (a parameter, a pattern, a `λ`, a
    `let`, a field), or one of the language, or one that its file defines or takes in by `use`. Where it is
    none of these, or its file takes it in twice, or the file that it names defines it not exactly once,
    the tool fails.
  - A type that is declared in Rust stands for its declaration. Where it has an `impl Model`, contracts see
    what the view of that gives, and so the view's words are followed; else its fields are. The type of a
    field is followed only where some listed text names a field of that name, since nobody asks for the others.
  - Of a function the clauses are read, and the types of the parameters that they name.
  - `K.state` is a word of the trait that bounds K; the trait stands for its declaration, clauses included.
  - Words of std and of the kit's crates are listed by name, and not followed. Those of the headline stand in a table.
  - The headline takes `reply_of` and `KindState` by name, and `World::consistent` takes `IsReachedBy` so. The page
    says why.

Before the page is written, or compared, each list is checked: what a definition needs stands before it. So is the
headline: its parts have all that it reaches.
"""
import collections
import pathlib
import re
import signal
import sys
import textwrap
from dataclasses import dataclass, field

TOP = pathlib.Path(__file__).resolve().parent.parent
CRATES = TOP / "crates"
PAGE = TOP / "docs/audit.md"

# How wide a line of the page may be.
MAX_COLUMNS = 120

WORDS_OF_THE_LANGUAGE = set("record data where let in do λ → × : = ← . ; , ( ) { } ⟦ ⟧ Type Unit tt ⊥ _".split())
TYPES_OF_RUST = set("Vec Option Result String Box Self Drop Send Sync Copy Clone".split())
SPEC_SORTS = {"abbrev", "unfoldable", "record", "data"}
LOWER_CONSTRUCTORS = {"true", "false", "pos", "negsuc", "zero", "suc"}


class Unread(Exception):
    """A word that can't be followed, or that is defined not exactly once."""


@dataclass(eq=False)
class Definition:
    """Something to read: where it stands, and what its words are."""

    name: str
    sort: str
    crate: str
    path: pathlib.Path
    first: int  # the number of its first line, its comment included
    lines: list
    scope: object  # what its words are looked up in
    within: list = field(default_factory=list)  # the header of the module around it

    def place(self):
        return f"{self.path.relative_to(TOP)}:{self.first}"


@dataclass(frozen=True)
class KitWord:
    """A word of std or of a crate of the kit."""

    module: str
    name: str


# Words.

TOKEN = re.compile(
    r"""\s*(?:(?P<comment>--.*|//.*)|(?P<text>"(?:\\.|[^"\\])*")|(?P<projection>(?<=[)}⟧\]])\.\w+(?:\.\w+)*)
    |(?P<word>[^\W\dℕℤλ]\w*(?:-box|\?)?(?:\.\w+)*)|(?P<number>\d[\d_]*)|(?P<mark>[λ(){};,.⟦⟧ℕℤ]|[^\s\w(){};,.λ⟦⟧"]+[ℤ]?))""",
    re.VERBOSE,
)


@dataclass(frozen=True)
class Token:
    sort: str
    text: str
    line: int


def tokens_of(lines, first=0):
    """The words and marks of lines, without comments, texts and numbers."""
    found = []
    for number, line in enumerate(lines, first):
        for match in TOKEN.finditer(line):
            if match.lastgroup in ("projection", "word", "mark"):
                found.append(Token(match.lastgroup, match[match.lastgroup], number))
    return found


def parts_of(operator):
    """The words of a name with holes: `if◌then◌else◌` has three."""
    return [part for part in operator.split("◌") if part]


# Where words are looked up.


def taken_in(line):
    """What a line `use` takes in: the path, and its names with what they are called here, or what the path is called."""
    found = re.match(r"\s*(?:ghost |pub )?use ([\w.]+?)(?:\.\{(.*)\}| as (\w+));?$", line)
    if not found:
        raise Unread(f"can't read '{line.strip()}'")
    path, names, called = found.groups()
    if called:
        return path, None, called
    pairs = [re.split(r" as ", name.strip()) for name in names.split(", ") if name.strip()]
    return path, [(pair[0], pair[-1]) for pair in pairs], None


class Scope:
    """The words that a file takes in by `use`, with those of the scope around it."""

    def __init__(self, sources, crate, path, around=None):
        self.sources, self.crate, self.path, self.around = sources, crate, path, around
        self.targets = {}  # of each word the path and the name
        self.aliases = {}

    def take_in(self, line):
        path, names, called = taken_in(line)
        if called:
            self.put(self.aliases, called, (path, None))
            return
        for name, here in names:
            for part in parts_of(here):
                self.put(self.targets, part, (path, name))

    def put(self, words, word, target):
        if words.get(word, target) != target:
            raise Unread(f"{self.path}: '{word}' is taken in twice")
        words[word] = target

    def own(self, word):
        return []

    def find(self, word):
        """What the word means here: definitions, a kit's word, or nothing where it isn't known."""
        head, *rest = word.split(".")
        if head in self.aliases and rest:
            return self.sources.follow(*self.aliases[head], rest[0])
        own = self.own(head)
        if own:
            return own
        if head in self.targets:
            return self.sources.follow(*self.targets[head])
        return self.around.find(word) if self.around else None


class SpecFile(Scope):
    """A file of definitions."""

    def __init__(self, sources, crate, path):
        super().__init__(sources, crate, path)
        self.definitions = collections.defaultdict(list)
        self.parts = {}
        self.passed_on = {}
        self.read(path.read_text().split("\n"))

    def read(self, lines):
        within, begin, current = [], None, None
        for number, line in enumerate(lines, 1):
            indent = "  " if within and line.startswith("  ") else ""
            bare = line[len(indent) :]
            head = re.match(r"(?:abbrev pub|unfoldable pub|pub (?:record|data)) (\S+)", bare)
            if re.match(r"(pub )?use ", line):
                self.take_in(line)
                self.pass_on(line)
            elif line.startswith("module "):
                within, current = [line], None
            elif not bare.strip():
                begin = current = None
            elif head:
                sort = re.match(r"(?:pub )?(\w+)", bare)[1]
                before = lines[(begin or number) - 1 : number - 1]
                around = within if indent else []
                current = Definition(head[1], sort, self.crate, self.path, begin or number, [*before, line], self, around)
                self.define(current)
                begin = None
            elif current and (bare.startswith((" ", "}")) or self.is_equation_of(current, bare)):
                current.lines.append(line)
                self.define_constructor(current, bare)
            elif bare.startswith("--") or bare.startswith("infix"):
                begin = begin or number
            elif not bare.startswith("pub mod "):
                raise Unread(f"{self.path}:{number}: can't read '{line}'")
            if line and not indent and not line.startswith(("module ", "--", " ")):
                within = []

    def is_equation_of(self, current, line):
        return parts_of(current.name)[0] in re.split(r"[\s(){}]+", line.partition(" = ")[0])

    def pass_on(self, line):
        path, names, _ = taken_in(line)
        for name, _ in names or []:
            if line.startswith("pub "):
                self.passed_on[name] = path

    def define(self, definition):
        self.definitions[definition.name].append(definition)
        for part in parts_of(definition.name):
            self.parts[part] = definition.name

    def define_constructor(self, current, line):
        found = re.match(r"  +(\w+) :", line) if current.sort == "data" else None
        if found:
            self.definitions[found[1]].append(current)
            self.parts[found[1]] = found[1]

    def own(self, word):
        return self.named(self.parts[word]) if word in self.parts else []

    def named(self, name):
        """The definition of this name, which must be there once."""
        if name not in self.definitions and name in self.passed_on:
            return self.sources.follow(self.passed_on[name], name)
        found = self.definitions.get(name, [])
        if len(found) != 1:
            raise Unread(f"{self.path}: '{name}' is defined {len(found)} times")
        return found


# Rust.

DECLARATION = re.compile(r"(?:pub(?:\(\w+\))? )?(struct|enum|trait|type|const) (\w+)")


class RustFile(Scope):
    """A file of Rust: its declarations, and how contracts see their values."""

    def __init__(self, sources, crate, path):
        super().__init__(sources, crate, path)
        self.lines = path.read_text().split("\n")
        self.declared = collections.defaultdict(list)
        self.views = {}  # of each type with an `impl Model` how its values are seen
        self.states = {}  # of each type and trait the meaning that an `impl` gives to the trait's word
        for line in self.lines:
            if line.startswith("ghost use "):
                self.take_in(line)
        self.uses = dict(self.names_used("\n".join(self.lines)))
        for number, line in enumerate(self.lines, 1):
            self.read(number, line)

    def names_used(self, text):
        """Each name that the file uses of elsewhere, with its path."""
        for path in re.findall(r"^(?:pub )?use ([^;]+);", text, re.MULTILINE):
            stem, _, names = re.sub(r"\s+", " ", path).partition("{")
            for name in (names.rstrip("} ").split(",") if names else [stem.rpartition("::")[2]]):
                original, _, here = name.strip().partition(" as ")
                if original:
                    used = (stem if names else stem.rpartition("::")[0] + "::").strip() + original
                    is_below = (CRATES / self.crate / "src" / (used.split("::")[0] + ".rt")).exists()
                    yield here or original, f"crate::{used}" if is_below else used

    def read(self, number, line):
        found = DECLARATION.match(line)
        if found:
            definition = Definition(found[2], found[1], self.crate, self.path, *self.span(number), self)
            self.declared[found[2]].append(definition)
        seen = re.match(r"impl(?:<.*?>)? Model for (\w+)", line)
        if seen:
            self.views[seen[1]] = self.inner(f"view of {seen[1]}", "view", number)
        given = re.match(r"impl(?:<.*?>)? (\w+) for (.+) \{$", line)
        if given and any("ghost state" in each for each in self.span(number)[1]):
            self.states[given[2], given[1]] = self.inner(f"state of {given[2]}", "view", number)

    def span(self, number):
        """The first line of a declaration, with its comment, and its lines."""
        first, last = number, number
        while re.match(r"///|#\[", self.lines[first - 2]):
            first -= 1
        line = self.lines[number - 1]
        if not line.endswith(";") and not line.endswith("}"):
            while self.lines[last - 1] not in ("}", "};", ");"):
                last += 1
        return first, self.lines[first - 1 : last]

    def inner(self, name, sort, number):
        """How an `impl` says that a value is seen: its lines but the invariant and the code."""
        _, lines = self.span(number)
        scope = Scope(self.sources, self.crate, self.path, self)
        kept, keeps = [], False
        for line in lines[1:-1]:
            if line.strip().startswith("ghost use "):
                scope.take_in(line)
            elif re.match(r"    \S", line):
                if not line.startswith("    }"):
                    keeps = bool(re.match(r"    ghost (Value|view|state) =", line))
            if keeps and line.strip():
                kept.append(line)
        return Definition(name, sort, self.crate, self.path, number, [lines[0], *kept, lines[-1]], scope)

    def named(self, name):
        found = self.declared.get(name, [])
        if len(found) != 1:
            raise Unread(f"{self.path}: '{name}' is declared {len(found)} times")
        return found

    def type_named(self, name):
        """What a name of Rust means here."""
        if name in self.declared:
            return self.named(name)
        if name in self.uses:
            return self.sources.of_rust(self.crate, self.path, self.uses[name])
        if name in TYPES_OF_RUST:
            return []
        raise Unread(f"{self.path}: nothing tells what the type '{name}' is")


class Sources:
    """All files of all crates, by crate and module."""

    def __init__(self):
        self.files = {}
        self.reaches = {}  # of each definition but types what it names
        self.crates = sorted(path.name for path in CRATES.iterdir() if (path / "src").is_dir())

    def is_own(self, crate):
        return crate in self.crates

    def file(self, crate, part, module):
        """The file of a module: a list of names below `specs` or `src`."""
        suffix = ".antt" if part == "specs" else ".rt"
        path = (CRATES / crate / part).joinpath(*module).with_suffix(suffix)
        if path not in self.files:
            if not path.exists():
                raise Unread(f"there is no file {path.relative_to(TOP)}")
            self.files[path] = (SpecFile if part == "specs" else RustFile)(self, crate, path)
        return self.files[path]

    def follow(self, path, name, variant=None):
        """What a path and a name of `use` mean."""
        crate, *rest = path.removeprefix("Rattle.").split(".")
        if not self.is_own(crate):
            return [KitWord(".".join([crate, *rest]), variant or name)]
        if rest[:2] != ["specs", "declared"]:
            if rest[0] != "specs" or len(rest) != 2:
                raise Unread(f"can't follow {path}")
            return self.file(crate, "specs", rest[1:]).named(name)
        rest = rest[2:]
        if rest[-1] == "TheConstants":
            return self.file(crate, "src", rest[:-1]).named(name)
        is_variant = rest[-1] == "TheVariants"
        type_name = rest[-2] if is_variant else rest[-1]
        module = rest[: -2 if is_variant else -1] or ["lib"]
        found = self.file(crate, "src", module).named(type_name)
        wanted = variant or name
        if is_variant and sum(bool(re.match(rf"    {wanted}\b", line)) for line in found[0].lines) != 1:
            raise Unread(f"{path}: '{wanted}' is not one variant")
        if not is_variant and wanted != type_name:
            raise Unread(f"{path}: '{wanted}' is not the type")
        return found

    def of_rust(self, crate, path, used):
        """What a path of Rust's `use` means, from a file of this crate."""
        *modules, name = used.split("::")
        if modules[0] == "super":
            raise Unread(f"{path}: can't follow {used}")
        if modules[0] != "crate" and not self.is_own(modules[0]):
            return [KitWord("::".join(modules), name)]
        owner = crate if modules[0] == "crate" else modules[0]
        return self.file(owner, "src", modules[1:] or ["lib"]).type_named(name)


# What the words of a definition reach.


@dataclass
class Reach:
    """What a text names: definitions and words of the kit, in order, and fields."""

    found: list = field(default_factory=list)
    fields: set = field(default_factory=set)

    def add(self, targets):
        self.found += [target for target in targets if target not in self.found]


class Walk:
    """Goes through the words of a text, and knows which are bound where."""

    def __init__(self, reach, scope, bound, find=None):
        self.reach = reach
        self.scope = scope
        self.find = find or scope.find
        self.bound = [set(bound)]  # for each open bracket the names bound in it
        self.opened = [set(bound)]  # the same as it was where the bracket opened
        self.waiting = [set()]  # the names that a bracket binds for what follows it

    def bind(self, names):
        self.bound[-1] |= {name for name in names if name != "_"}

    def walk(self, tokens):
        place = 0
        while place < len(tokens):
            place += self.step(tokens, place)
        return self

    def step(self, tokens, place):
        """Takes one token, or a few that belong together, and tells how many."""
        token = tokens[place]
        if token.text in ("(", "{"):
            return self.open(tokens, place)
        if token.text in (")", "}"):
            self.bound.pop(), self.opened.pop()
            self.bind(self.waiting.pop())
        elif token.text == ";":
            self.bound[-1] = set(self.opened[-1])
        elif token.text == "λ" or token.text == "let":
            end = "." if token.text == "λ" else "="
            count = next(n for n, each in enumerate(tokens[place:]) if each.text == end)
            self.bind(each.text for each in tokens[place : place + count] if each.sort == "word")
            return count + 1
        elif token.text == "⟦":
            return self.meaning(tokens, place)
        elif token.sort == "projection":
            self.reach.fields |= set(token.text.split(".")) - {""}
        else:
            return self.word(tokens, place)
        return 1

    def open(self, tokens, place):
        """A bracket; where names and a colon follow it, they are bound in what comes after it."""
        count = place + 1
        while tokens[count].sort == "word" and "." not in tokens[count].text:
            count += 1
        binds = count > place + 1 and tokens[count].text == ":"
        self.waiting.append({token.text for token in tokens[place + 1 : count]} if binds else set())
        self.bound.append(set(self.bound[-1]))
        self.opened.append(set(self.bound[-1]))
        return count + 1 - place if binds else 1

    def word(self, tokens, place):
        token = tokens[place]
        follows = tokens[place + 1].text if place + 1 < len(tokens) else ""
        before = tokens[place - 1].text if place else ""
        head, *rest = token.text.split(".")
        if token.sort == "word" and follows == "=" and before in ("{", ";"):
            self.reach.fields.add(token.text)
        elif token.sort == "word" and (follows == "←" or before == "pub" and follows == ":"):
            self.bind([token.text])
        elif token.text == "do":
            self.look_up(">>=", token)
        elif token.sort == "word" and head in self.bound[-1]:
            self.reach.fields |= set(rest)
        elif token.text not in WORDS_OF_THE_LANGUAGE and token.text not in ("pub", "Self"):
            self.look_up(token.text, token)
        return 1

    def look_up(self, word, token):
        found = self.find(word)
        if found is None:
            raise Unread(f"{self.scope.path}:{token.line}: nothing tells what '{word}' is")
        self.reach.add(found)
        self.reach.fields |= set(word.split(".")[1:])

    def meaning(self, tokens, place):
        """`⟦<T as Trait>⟧.word`: the type, the trait, and what the `impl` of it says."""
        _, _, kind, _, trait, _, _, word = [token.text for token in tokens[place : place + 8]]
        file = self.scope
        self.reach.add(file.type_named(kind) + file.type_named(trait))
        alias = file.type_named(kind)[0]
        given = re.search(r"= (.+);$", alias.lines[-1])[1]
        self.reach.add([alias.scope.states[given, trait]])
        self.reach.fields.add(word[1:])
        return 8


def reach_of_equation(reach, definition, lines, bound):
    """The left side of an equation binds what isn't a constructor."""
    tokens = tokens_of(lines, definition.first)
    middle = next(place for place, token in enumerate(tokens) if token.text == "=")
    names = set(parts_of(definition.name))
    depth, locals_here = 0, set(bound)
    for token in tokens[:middle]:
        depth += {"{": 1, "}": -1}.get(token.text, 0)
        is_name = token.sort == "word" and "." not in token.text
        if token.text in names or token.text == "_":
            continue
        is_variable = token.text[0].islower() and token.text not in LOWER_CONSTRUCTORS
        if is_name and (depth or is_variable or definition.scope.find(token.text) is None):
            locals_here.add(token.text)
        elif token.sort == "word" or token.text not in WORDS_OF_THE_LANGUAGE:
            Walk(reach, definition.scope, bound).look_up(token.text, token)
    Walk(reach, definition.scope, locals_here).walk(tokens[middle + 1 :])


def reach_of_spec(definition):
    """What a definition of a spec names."""
    reach = Reach()
    around = [re.sub(r"^module _| where$", "", line) for line in definition.within]
    header = Walk(reach, definition.scope, ()).walk(tokens_of(around))
    bound, indent = header.bound[-1], 2 if definition.within else 0
    lines = [line for line in definition.lines if not re.match(r" *(--|infix)", line)]
    joined = []
    for line in lines:
        if joined and line[indent:].startswith((" ", "}")):
            joined[-1].append(line)
        else:
            joined.append([line])
    head = re.sub(r"^ *(abbrev pub|unfoldable pub|pub record|pub data) \S+", "", joined[0][0])
    tokens = tokens_of([head, *joined[0][1:]], definition.first)
    if definition.sort == "data":
        firsts = {token.line: token for token in reversed(tokens) if token.sort == "word"}
        tokens = [token for token in tokens if token.line == definition.first or token is not firsts.get(token.line)]
    Walk(reach, definition.scope, bound).walk(tokens)
    for lines in joined[1:]:
        reach_of_equation(reach, definition, lines, bound)
    return reach


def types_in(text):
    """The words of a type of Rust that begin with a capital letter."""
    return re.findall(r"(?<![\w:'])[A-Z]\w*", re.sub(r"//.*", "", text))


def generics_of(header):
    """The parameters of a header, each with its bounds."""
    found = re.search(r"<(.*)>", header)
    pairs = [part.partition(":") for part in re.split(r",(?![^<]*>)", found[1])] if found else []
    return {name.split("=")[0].strip(): re.findall(r"\w+", bounds) for name, _, bounds in pairs}


@dataclass
class Function:
    """The head of a function: its parameters, its answer's type, and its clauses."""

    parameters: dict
    answer: str
    clauses: list
    first: int
    last: int


def closing(text, place, pairs="{}"):
    """The place of the bracket that closes the one at this place."""
    depth = 0
    for at in range(place, len(text)):
        depth += (text[at] == pairs[0]) - (text[at] == pairs[1])
        if depth == 0:
            return at
    raise Unread(f"no end of a bracket: {text[place:place + 60]}")


def function_at(lines, number):
    """The function that begins on this line, without its body."""
    text = "\n".join(re.sub(r"//.*", "", line) for line in lines[number - 1 :])
    opened = re.compile(r"fn \w+(<[^(]*>)?\(").search(text).end() - 1
    closed = closing(text, opened, "()")
    parameters = {}
    for part in re.split(r",(?![^<(]*[>)])", text[opened + 1 : closed]):
        name, _, kind = part.partition(":")
        name = name.replace("mut ", "").replace("&", "").strip()
        if name:
            parameters[name] = kind.strip() or "Self"
    end = re.compile(r"\s*(?:->\s*(?P<answer>[^{;]*?))?\s*(?=requires\b|ensures\b|\{|;)").match(text, closed + 1)
    clauses, place = [], end.end()
    while found := re.compile(r"\s*(?:requires|ensures)\b[^{]*\{").match(text, place):
        place = closing(text, found.end() - 1) + 1
        clauses.append((text[found.end() : place - 1], number + text.count("\n", 0, found.end())))
    return Function(parameters, end["answer"] or "", clauses, number, number + text.count("\n", 0, place))


def reach_of_function(reach, file, function, generics, own_type, bound=()):
    """The words of a function's clauses, and the types of what they name."""

    def find(word):
        head, *rest = word.split(".")
        for trait in generics.get(head, []):
            for target in file.type_named(trait) or [KitWord("std", trait)]:
                if isinstance(target, KitWord):
                    return [KitWord(target.module, f"{target.name}.{rest[0]}")]
                if any(f"ghost {rest[0]}:" in line for line in target.lines):
                    return [target]
        return file.find(word)

    named = set()
    for text, line in function.clauses:
        tokens = tokens_of(text.split("\n"), line)
        named |= {token.text.split(".")[0] for token in tokens}
        Walk(reach, file, {*function.parameters, "result", *bound}, find).walk(tokens)
    types = [kind for name, kind in function.parameters.items() if name in named]
    for name in types_in(" ".join(types + ([function.answer] if "result" in named else []))):
        if name == "Self" and own_type:
            reach.add(file.type_named(own_type))
        elif name not in generics:
            reach.add(file.type_named(name))


def reach_of_trait(definition):
    reach, file = Reach(), definition.scope
    numbers = [number for number, line in enumerate(file.lines, 1) if re.match(r"    fn ", line)]
    last = definition.first + len(definition.lines)
    for line in definition.lines:
        if found := re.match(r"    ghost \w+: \{(.*)\};", line):
            Walk(reach, file, ()).walk(tokens_of([found[1]]))
    words = re.findall(r"    ghost (\w+):", "\n".join(definition.lines))
    for number in numbers:
        if definition.first <= number < last:
            generics = generics_of(file.lines[number - 1].partition("(")[0])
            reach_of_function(reach, file, function_at(file.lines, number), generics, None, words)
    return reach


def reach_of_view(definition):
    """What an `impl` says of how a value is seen."""
    reach = Reach()
    generics = generics_of(definition.lines[0].partition(" for ")[0].partition("Model")[0])
    text = [re.sub(r"^    ghost (\w+) =", "", line) for line in definition.lines[1:-1]]

    def find(word):
        return [KitWord("the language", word)] if word.endswith("-box") else definition.scope.find(word)

    Walk(reach, definition.scope, generics, find).walk(tokens_of(text, definition.first))
    return reach


def reach_of_type(definition, fields):
    """The types of a declaration's fields that somebody names, and of all its variants."""
    reach, file = Reach(), definition.scope
    body = [line for line in definition.lines if not re.match(r"\s*(///|//|#\[)", line)]
    generics = generics_of(body[0].partition(" = ")[0] if definition.sort == "type" else body[0].partition("{")[0])
    if definition.sort == "type":
        texts = [body[-1].partition(" = ")[2]]
    elif definition.sort == "enum":
        texts = [re.sub(r"^    \w+", "", line) for line in body[1:-1]]
    elif len(body) == 1:
        texts = [body[0].partition("(")[2]]
    else:
        parts = [re.match(r"    (?:pub(?:\(\w+\))? )?(\w+): (.*),", line) for line in body[1:-1]]
        texts = [part[2] for part in parts if part and part[1] in fields]
    for name in types_in(" ".join(texts)):
        if name not in generics:
            reach.add(file.type_named(name))
    return reach


# What stands behind roots.


class Reading:
    """All that some roots reach, in reading order: first by words alone, then what the views add.

    What is taken by name stands in the list, and nothing behind it does.
    """

    def __init__(self, sources, roots, by_name=()):
        self.sources, self.roots, self.by_name = sources, roots, set(by_name)
        self.needs = {}  # of each listed definition what it names
        self.by_words = self.reached(with_views=False)
        self.check(self.by_words, [])
        known = set(self.by_words)
        self.by_views = [definition for definition in self.reached(with_views=True) if definition not in known]
        self.check(self.by_views, self.by_words)

    def reached(self, with_views):
        """What the roots reach, with what each definition needs before it."""
        self.with_views, self.fields = with_views, set()
        while True:
            self.found, self.done, self.open = [], set(), []
            for root in self.roots:
                self.visit(root)
            fields = {name for definition in self.found for name in self.reach(definition).fields}
            if fields <= self.fields:
                return self.found
            self.fields |= fields

    def reach(self, definition):
        """What a definition names. Who reads a type that has a view reads the view, and the fields that this names."""
        if definition in self.by_name:
            return Reach()
        if definition.sort in ("struct", "enum", "type"):
            view = definition.scope.views.get(definition.name)
            if view and not self.with_views:
                return Reach()
            reach = reach_of_type(definition, self.reach(view).fields if view else self.fields)
            return Reach([*reach.found, *([view] if view else [])], reach.fields)
        if definition not in self.sources.reaches:
            self.sources.reaches[definition] = reach_once(definition)
        return self.sources.reaches[definition]

    def visit(self, definition):
        """Puts what a definition needs before it."""
        if definition in self.done:
            return
        if definition in self.open:
            circle = " needs ".join(each.name for each in self.open[self.open.index(definition) :])
            raise Unread(f"a circle: {circle} needs {definition.name}")
        self.open.append(definition)
        for other in self.reach(definition).found:
            if isinstance(other, Definition) and other is not definition:
                self.visit(other)
        self.open.pop()
        self.done.add(definition)
        self.found.append(definition)

    def check(self, listed, before):
        """What each definition needs stands before it, and each stands there once."""
        there = set(before)
        for definition in listed:
            if definition in there:
                raise Unread(f"{definition.name} stands in the list twice")
            self.needs[definition] = [other for other in self.reach(definition).found if other is not definition]
            for other in self.needs[definition]:
                if isinstance(other, Definition) and other not in there:
                    raise Unread(f"{definition.name} stands before {other.name}, which it needs")
            there.add(definition)

    def behind(self):
        """What the roots reach by words, without the roots."""
        return [definition for definition in self.by_words if definition not in self.roots]

    def own_needs(self, definition):
        return [other for other in self.needs[definition] if isinstance(other, Definition)]

    def kit_words(self):
        """The words of std and of the kit that the list names, by module."""
        words = collections.defaultdict(set)
        for needs in self.needs.values():
            for target in needs:
                if isinstance(target, KitWord):
                    words[target.module].add(target.name)
        return words


def reach_once(definition):
    if definition.sort in SPEC_SORTS:
        return reach_of_spec(definition)
    if definition.sort == "view":
        return reach_of_view(definition)
    if definition.sort == "trait":
        return reach_of_trait(definition)
    if definition.sort == "const":
        return Reach()
    return reach_of_root(definition)


def reach_of_root(definition):
    """What a function's clauses name; a method has the type and the parameters of the `impl` around it, too."""
    reach, file = Reach(), definition.scope
    generics, own_type = generics_of(" ".join(definition.lines).partition("(")[0]), None
    if definition.lines[0].startswith(" "):
        around = [line for line in file.lines[: definition.first] if line.startswith("impl")][-1]
        found = re.match(r"(impl(?:<[^>]*>)?) (\w+)(?:<\w+>)? \{", around)
        generics, own_type = generics | generics_of(found[1]), found[2]
    reach_of_function(reach, file, function_at(file.lines, definition.first), generics, own_type)
    return reach


def function_named(sources, crate, module, name):
    """A public function as something to read: its head with its clauses."""
    file = sources.file(crate, "src", [module])
    numbers = [number for number, line in enumerate(file.lines, 1) if re.match(rf" *pub fn {name}\b", line)]
    if len(numbers) != 1:
        raise Unread(f"{file.path}: '{name}' is declared {len(numbers)} times")
    function = function_at(file.lines, numbers[0])
    lines = file.lines[function.first - 1 : function.last]
    return Definition(name, "function", crate, file.path, function.first, lines, file)


def spec_named(sources, crate, module, name):
    """A definition of a spec."""
    return sources.file(crate, "specs", [module]).named(name)[0]


def is_spec(definition):
    return definition.sort in SPEC_SORTS


def tally(definitions):
    """How many definitions, and how many lines they have."""
    return len(definitions), sum(len(definition.lines) for definition in definitions)


# The headline.


@dataclass(frozen=True)
class Part:
    """A part of the headline: what leads there, the definitions that it ends with, and the clause, if it has one."""

    title: str
    before: str
    last: tuple
    clause: str = ""
    after: str = ""


HEADLINE = ("act_rules", "Consistent", "Consistent")
# What the headline takes by name: the kinds' table, and the states in which it answers.
TABLE = ("act_rules", "Kinds", "reply_of")
STATES = ("act_types", "KindState", "KindState")
PARTS = [
    Part(
        "What is submitted",
        "A call of a caller, and what it carries. `Own` is for kinds of one's own.",
        ("Submission",),
    ),
    Part(
        "What ran",
        "A run list has an item for each call that its actor ran. An argument is settled there: a future is replaced by"
        " its value, or it failed.",
        ("RunItem",),
    ),
    Part(
        "What is kept",
        "An answer is a value or a fault. A caller has one place for each future.",
        ("Answer", "kept_at"),
    ),
    Part(
        "Order, and each call once",
        "The clause compares two lists of pairs, (number, future). One is what the actor ran of the caller's calls. The"
        " other is what the caller submitted to that actor, numbered from 0.",
        ("IsPrefix", "items_of", "calls_to"),
        "in_order",
        "An example: a caller submits to a1, to a2 and to a1 again, so that its calls to a1 have the futures 0 and 2."
        " What a1 ran of this caller is then one of `[]`, `(0, 0)`, or `(0, 0), (1, 2)`. So the second never runs"
        " before the first, none is passed over, and none runs twice.",
    ),
    Part(
        "As it was submitted",
        "Of each item that ran there is a submission: the caller's call with that future.",
        ("IsAsSubmitted",),
        "as_submitted",
        "So a call runs with the method and the values that were submitted. A future among its arguments has an answer"
        " by then, and the item has that answer's value, or that it failed.",
    ),
    Part(
        "Answers",
        "From the actor's opening state on, the items of its run list are answered one after another, each in the state"
        " that the items before it left.",
        ("IsAnswerOfRun",),
        "answers",
        "So an answer comes of one run of that very call. No other place of any run list has the call (`only`), so it"
        " ran once at one actor. An actor's answers are those of a plain object that is called item by item.",
    ),
    Part(
        "Deaths",
        "The clause `answers` leaves one answer out, `ActorDied`. This one has it.",
        ("IsCallToDead",),
        "deaths",
        "So no call to an actor that lives, or that retired, is ever answered by a death.",
    ),
]
PARAMETERS = [
    ("opening a", "the state in which actor a begins; `None` where there is no such actor"),
    ("calls c", "what caller c submitted and was accepted, in order; a call's place is its future"),
    ("runs a", "what actor a ran, in order: its run list"),
    ("kept c", "the answers that caller c has, by future; `None` where it has none yet"),
    ("is_dead a", "whether actor a is dead: it took a kill, or a `terminate` ended it"),
]
# How the definitions are written: the words of std that a line is for, what is written, and how it is read.
NOTATION = [
    ("", "`name : A → B`, `name x = ..`", "a function: its type, then equations, of which the first that fits counts"),
    ("", "`abbrev pub`, `Type 0`", "begins a definition; what gives a `Type 0` is a type, or a property"),
    ("", "`record`, `data`", "a struct, an enum; a property that is a record holds if each `pub` line can be given"),
    ("", "`(x : A) → P`, `P → Q`", "for each x of A, P; if P, then Q"),
    ("", "`(x : A) × P`, `P × Q`", "there is an x of A with P; both P and Q"),
    ("", "`A × B`, `pair.0`, `pair.1`", "the type of pairs, and the two parts of a pair"),
    ("", "`λ x. e`, `{A : Type 0}`", "the closure that gives e for x; a parameter that is left out where it is clear"),
    ("ℕ Bool true", "`ℕ`, `Bool`", "the numbers from 0 on; true and false"),
    ("List Option Some Result Ok Err", "`List A`, `Option A`, `Result A E`", "a `Vec`, and those of Rust"),
    ("[] ◌∷◌ ◌++◌", "`[]`, `x ∷ xs`, `xs ++ ys`", "the empty list, x before xs, xs and then ys"),
    ("◌≡◌ ◌≢◌", "`x ≡ y`, `x ≢ y`", "x is y; x is not y"),
    ("◌==◌ IsTrue", "`m == n`, `IsTrue b`", "a test whether two numbers are equal; the test b succeeds"),
    ("map filter take", "`map f xs`, `filter test xs`, `take n xs`", "as iterators do it, for lists"),
    ("slice_get", "`slice_get xs k`", "`xs.get(k)`: the item at place k, from 0, or `None`"),
    ("enumerate_from", "`enumerate_from 0 xs`", "each item with its place before it, from 0"),
    ("AllByRecursion", "`AllByRecursion P xs`", "P holds of each item of xs"),
    ("list_all", "`list_all test xs`", "whether each item of xs passes the test"),
    ("option_and_then is_some", "`option_and_then f x`, `is_some x`", "`x.and_then(f)`, `x.is_some()`"),
    ("string_bytes", "`string_bytes text`", "the bytes of a `String`"),
]


class Headline:
    """The headline, cut into parts: what the tool quotes of it, and in which order."""

    def __init__(self, sources):
        self.record = spec_named(sources, *HEADLINE)
        self.by_name = [spec_named(sources, *TABLE), spec_named(sources, *STATES)]
        self.reading = Reading(sources, [self.record], self.by_name)
        self.behind_table = Reading(sources, self.by_name)
        self.viewed = [each for each in self.reading.behind() if not is_spec(each) and each.name in each.scope.views]
        self.parts = list(self.cut())
        self.check()

    def cut(self):
        """Each part with the definitions that it needs and no part before it has."""
        passed = {self.record, *self.by_name, *self.viewed}
        by_name = {definition.name: definition for definition in self.reading.by_words}
        for part in PARTS:
            needed = set()
            for name in part.last:
                self.gather(by_name[name], needed)
            yield part, [each for each in self.reading.by_words if each in needed - passed]
            passed |= needed

    def gather(self, definition, needed):
        if definition not in needed:
            needed.add(definition)
            for other in self.reading.own_needs(definition):
                self.gather(other, needed)

    def quoted(self):
        return [self.record, *(definition for _, definitions in self.parts for definition in definitions)]

    def check(self):
        """The parts leave nothing out, and each word of std has its line."""
        left_out = set(self.reading.by_words) - {*self.quoted(), *self.by_name, *self.viewed}
        if left_out:
            raise Unread(f"no part of the headline has {', '.join(sorted(each.name for each in left_out))}")
        clauses = re.findall(r"^  pub (\w+) :", "\n".join(self.record.lines), re.MULTILINE)
        if clauses != [part.clause for part in PARTS if part.clause]:
            raise Unread(f"the parts of the headline have other clauses than {', '.join(clauses)}")
        named = {word for words in self.reading.kit_words().values() for word in words}
        told = {word for words, _, _ in NOTATION for word in words.split()}
        if named != told:
            raise Unread(f"the headline names these words of std, or its table does: {' '.join(sorted(named ^ told))}")

    def clause(self, name):
        """A field of the record, with its comment."""
        text = "\n".join(self.record.lines[1:])
        found = re.search(rf"^  --[^\n]*\n  pub {name} :.*(?:\n   .*)*", text, re.MULTILINE)
        return textwrap.dedent(found[0]).split("\n")


# The roots.


@dataclass(frozen=True)
class Root:
    """A public function whose clauses are a promise, and what it promises."""

    crate: str
    module: str
    name: str
    says: str
    by_name: tuple = ()


REACHED = ("act_world", "IsReachedBy", "IsReachedBy")
PLAYED = ("act_world", "IsReachedBy", "HasPlayed")
CONSISTENT = Root("act_world", "world", "consistent", "the headline of a world, between any two events", REACHED)
BEFORE_LAWS = [
    CONSISTENT,
    Root("act_world", "world", "play", "a list of events does and tells what the rules say"),
]
LAWS = ("act_rules", "laws")
WORLDS_TITLE = "Of which worlds it holds"
LAWS_TITLE = "The laws of act_rules"
# What the page quotes of the headline of a world: the words of this file, and some that these need.
OF_A_WORLD = ("act_world", "Headline")
ALSO_OF_A_WORLD = {"ActorSpec", "cast_of", "opening_of", "is_owner", "is_dead_slot"}
AFTER_LAWS = [
    Root("act_executor", "run", "run_plans", "callers with plans, in threads: the headline, and a play that ends so"),
    Root("act_executor", "by_code", "run_callers", "the same with callers that are code"),
    Root("act_console", "console", "play_script", "a script's bytes give the bytes of its report"),
    Root("act_console", "threads", "threads_script", "in threads they give the summary of a run by the rules"),
    Root("act_record", "record", "record_script", "a run in threads is written as a play that ends the same"),
    Root("act_histories", "check", "check_history", "a play that is written for a history ends as that says"),
]


def laws_of(sources):
    """The laws, each with its first sentence."""
    file = sources.file(LAWS[0], "src", [LAWS[1]])
    for says, name in re.findall(r"^/// (.*)\.\n(?:#.*\n)*pub fn (\w+)", "\n".join(file.lines), re.MULTILINE):
        yield Root(*LAWS, name, says[0].lower() + says[1:])


class Audit:
    """The headline, and each root with what stands behind it."""

    def __init__(self):
        self.sources = Sources()
        self.headline = Headline(self.sources)
        self.laws = list(laws_of(self.sources))
        self.roots = [*BEFORE_LAWS, *self.laws, *AFTER_LAWS]
        self.functions = {root: function_named(self.sources, root.crate, root.module, root.name) for root in self.roots}
        self.readings = {root: self.reading_of(root) for root in self.roots}
        self.whole = Reading(self.sources, list(self.functions.values()))

    def reading_of(self, root):
        by_name = [spec_named(self.sources, *root.by_name)] if root.by_name else []
        return Reading(self.sources, [self.functions[root]], by_name)

    def properties(self, root):
        """The properties that a root's clauses name, but those taken by name: their words are the promise."""
        reading = self.readings[root]
        for definition in reading.own_needs(self.functions[root]):
            if is_spec(definition) and definition.name[0].isupper() and definition not in reading.by_name:
                yield definition


# The page.

HEAD = """\
# What to read to believe it

This page is for somebody who trusts the checker and nobody else. The checker finds that each function keeps its
clauses (postconditions). What a clause means depends on the definitions that it names, so these have to be read. The
headline takes about fifteen minutes, and [what it says of a world](#of-which-worlds-it-holds) eight more. The
[roots](#the-roots) below have the promises of worlds, plays, runs in threads, records and histories by their plays.
[proved.md](proved.md#the-promises) lists all the others, too.

`python3 tools/audit.py` writes this page, and `./test` fails where it is out of date. Each block of code is quoted from
the sources. The sentences around the blocks only help to read them. [glossary.md](glossary.md) has the words.

## The headline

An actor ran each caller's calls in the order in which they were submitted: it passed none over, and ran none twice. An
answer that a caller has is that of the call's one run, or says that the actor is dead. This holds in a world between
any two events: a *world* has callers and actors, and events move it. It also holds of what a run in threads leaves:
"""
WHAT_IT_SPEAKS_OF = """\
It has four clauses, and they speak of five things. Callers c, actors a and futures k are numbers. A future stands for
the answer of a call.
"""
BEFORE_PARTS = """\
The parts below, down to *After a kill*, have the definitions that these five things and four clauses need. With the
record above they are {count} definitions of {lines} lines. From here on a definition comes after those that it needs.
Here is how they are written:
"""
BEFORE_VIEWS = """\
Types of Rust stand for themselves; a `u32` is a number of `ℕ`, and a `Vec` is a list. Of these types contracts see
something simpler (their views, or abstraction functions):
"""
AFTER_A_KILL = """\
### After a kill

An actor that takes a kill is dead, and so is one that a `terminate` ended in its turn. The four clauses hold of it as
of any other:

- What it ran is still a prefix of what each caller submitted to it, each call once.
- For a call to it, a caller keeps the answer of the call's run, or the death (`ActorDied`), or nothing yet.

Two [laws](#the-laws-of-act_rules) add what no single moment can show. Nothing more runs at an actor that is dead or
retired (`nothing_runs_after_the_end`). An answer that is kept stays (`kept_answers_stay`).
"""
WHAT_IT_DOESNT_SAY = """\
### What it doesn't say

- **That anything happens.** A call may never run, and its future may stay open: a prefix may be empty. A kill that is
  asked may never be taken. But a retired actor ran all (`retired_ran_all`), and where a run in threads ends, each call
  is answered (`answered` of `IsJoined`).
- **An order between two callers, or between two actors.** Each pair of a caller and an actor has its own.
- **That a call never ran whose answer is a death.** An actor may run it, and be dead before the reply comes. In
  threads such a call never ran (`ran` of `IsJoined`).
- **That `calls` has what somebody asked for.** The clause `shown` of `apply` says so, by
  [what was told](#what-was-told). A program reads the same lists by `World::owner` and `World::stage`.
- **What a kind answers.** That is the table, `reply_of`.
- **Time, and the machine.** [proved.md](proved.md#what-it-stands-on) says what is trusted beside the checker.
"""
OF_WHICH_WORLDS = """\
The headline holds of each world that the functions below make. `ensures name { .. }` is the clause of that name.
There `x.old` is the value of a parameter before the call and `x.new` after it, `x.now` where it doesn't change, and
`result` is what the function gives. `.items` is a `Vec` as a list. `IfOk` and `OnOk` speak of results that are `Ok`,
and `is_memory result` says that memory was refused.

`K` is the type of the actors' kinds, and `K.state` reads the state that a kind is in. A `Cast` sets up an actor, and
`actor_spec K.state` is what contracts see of it: its name, callers and opening state. `world_view K.state` is what they
see of a world. `consistent` does nothing: its clause is a law for whoever calls it.
"""
AFTER_WORLDS = """\
`IsReachedBy` needn't be unfolded. `World::open` gives it, `apply` and `play` carry it on, and `World::consistent`
asks for it. So whatever it says, each world that these functions make is consistent. `apply_owned` and `play_reserved`
have the same clauses, `shown` below among them, and `make_room` changes nothing. No other public function can change a
world. Where memory is refused, `apply` leaves the world as it was (`err`: `self.new ≡ self.old`), and `play` has played
the events before.

In threads there is no such word: what `run_plans` and `run_callers` leave is `Consistent` (`IsJoined`, below).

So four of the five things are read off a world, and the opening states off its casts (`opening_of`). Here
`option_map_or f x d` is `x.map_or(d, f)`, `option_map` is `map`, and `find` gives the first item of a list that passes.
An actor of a world `Runs`, has `Died`, or has `Ended`: it retired, once it ran all that was submitted to it.
"""
TOLD_TITLE = "What was told"
TOLD = """\
A world that was just opened shows no call and no run. After that an event adds what its outcome tells, and nothing
else does. A `Submit` whose outcome is the future k adds the caller's call k. A `Run` of caller c whose outcome is `Ran`
adds an item of c to the actor's run list, at the place that the outcome has. Which call that is, `in_order` says. So
"submitted" and "ran" mean what outcomes told, and no definition of how a world moves has to be read for that. Which
outcome an event has is said by another clause, `outcome`: by the rules no other event has such an outcome.

Here `record { a = x }` is a struct with these fields, and `if b then x else y` gives x where b succeeds. `drop n xs` is
xs without its first n items, and `length xs` is their number. `flat_map f xs` is `xs.flat_map(f)`. `zip` pairs two
lists, up to the end of the shorter. What is kept, and who is dead, is read from the world alone.
"""
ROOTS = """\
## The roots

The clauses of these public functions are promises of the service. The table has what stands behind each: the
definitions that its clauses reach by their words, and the declarations in Rust. `World::consistent` takes
`IsReachedBy` by name, and the others unfold all. For these clauses nothing else of ours has to be read: no proof, no
other function, no test.

`python3 tools/audit.py run_plans` prints all that stands behind `run_plans`, in reading order, and so for each root.
Then come the views (abstraction functions) of types, and the words of std and of the kit by name. `--text` prints it
for all roots together. The tool fails where a word means nothing or two things; its head tells how it follows words.

Below the table stand the clauses of each root, with the properties that they name and that this page hasn't shown.
There `Unit {0}` always holds and `⊥` never, and `R.remaining` is a word of the trait that bounds `R`.
"""
TABLE_BY_NAME = (
    "{table} is the kinds' table. It says what a counter, a table, an account, a list or a kind of one's own answers in"
    " a state ({states}), and which state comes next. The headline only passes states on, and holds whatever the table"
    " says. So both are taken by name. They have {count} definitions of {lines} lines: read them to know what `deposit`"
    " answers."
)


def quoted(definition):
    """The text of a definition, without Rust's attributes."""
    lines = [line for line in [*definition.within, *definition.lines] if not re.match(r" *#\[", line)]
    return textwrap.dedent("\n".join(lines)).split("\n")


def folded(line):
    """A line of a source, as the page has it: what is too wide goes on in the next line, further in."""
    at = max(line.rfind(f" {sign} ", 0, MAX_COLUMNS - 1) for sign in "→×") if len(line) > MAX_COLUMNS else -1
    if at < 0:
        return [line]
    further = " " * (len(line) - len(line.lstrip()) + 4)
    return [line[: at + 2], *folded(further + line[at + 3 :])]


def block(texts):
    """Texts in a fence, with an empty line between any two."""
    shown = ("\n".join(part for line in text for part in folded(line)) for text in texts)
    return "\n".join(["```", "\n\n".join(shown), "```"])


def linked(path, shown):
    return f"[{shown}](../{path.relative_to(TOP)})"


def places(definitions):
    """Where definitions stand, by file."""
    by_file = collections.defaultdict(list)
    for definition in definitions:
        by_file[definition.path].append(f"`{definition.name}`")
    for path, names in by_file.items():
        yield filled(f"- {', '.join(names)}: {linked(path, path.relative_to(CRATES))}", "  ")
    yield ""


def filled(text, indent=""):
    """A text in lines of at most 120 columns."""
    return textwrap.fill(text, MAX_COLUMNS, subsequent_indent=indent, break_long_words=False, break_on_hyphens=False)


def renamed(definitions):
    """The words that a quoted text has another name for: `Nothing`, where its file takes in `Unit as Nothing`."""
    found = {}
    for definition in definitions:
        for token in tokens_of(definition.lines):
            path, name = definition.scope.targets.get(token.text, ("", token.text))
            if name != token.text and "◌" not in name:
                *_, owner = path.removesuffix(".TheVariants").split(".")
                found[token.text] = f"`{token.text}` is `{name if owner == name else f'{owner}::{name}'}`"
    if found:
        yield f"Here {', and '.join(found.values())}.\n"


def table_of(heads, rows):
    rows = list(rows)
    yield "| " + " | ".join(heads) + " |"
    yield "| " + " | ".join("---:" if isinstance(cell, int) else "---" for cell in rows[0]) + " |"
    for row in rows:
        yield "| " + " | ".join(map(str, row)) + " |"


def part_of_page(headline, part, definitions):
    yield f"### {part.title}\n"
    yield filled(part.before) + "\n"
    if any(other in headline.by_name for each in definitions for other in headline.reading.own_needs(each)):
        yield table_by_name(headline)
    yield from renamed(definitions)
    yield block([*map(quoted, definitions), *([headline.clause(part.clause)] if part.clause else [])])
    yield from ["", *places(definitions)]
    if part.after:
        yield filled(part.after) + "\n"


def table_by_name(headline):
    count, lines = tally([each for each in headline.behind_table.by_words if is_spec(each)])
    table, states = (linked(each.path, f"`{each.name}`") for each in headline.by_name)
    return filled(TABLE_BY_NAME.format(table=table, states=states, count=count, lines=lines)) + "\n"


def views_of(headline):
    """The types of Rust that contracts see as something else."""
    for definition in headline.viewed:
        text = "\n".join(definition.scope.views[definition.name].lines)
        value, view = (re.search(rf"ghost {word} = \{{ (.*?) \}};", text)[1] for word in ("Value", "view"))
        yield linked(definition.path, f"`{definition.name}`"), f"`{value}`", f"`{view}`"


def headline_of_page(headline):
    yield HEAD
    yield block([quoted(headline.record)])
    yield from ["", *places([headline.record])]
    yield WHAT_IT_SPEAKS_OF
    yield from table_of(["Written", "What it is"], ((f"`{name}`", what) for name, what in PARAMETERS))
    count, lines = tally(headline.quoted())
    yield "\n" + BEFORE_PARTS.format(count=count, lines=lines)
    yield from table_of(["Written", "Read"], ((written, read) for _, written, read in NOTATION))
    yield f"\n{BEFORE_VIEWS}"
    yield from table_of(["Type", "Contracts see", "By"], views_of(headline))
    yield ""
    for part, definitions in headline.parts:
        yield from part_of_page(headline, part, definitions)


def named_clause(function, name):
    """A function's head up to its clauses, and the clause of this name."""
    text = "\n".join(function.lines)
    head = re.match(r" *pub fn [^{]*?(?=\n +(?:requires|ensures))", text)[0]
    found = re.search(rf"^ *ensures {name} \{{", text, re.MULTILINE)
    return textwrap.dedent(f"{head}\n{text[found.start() : closing(text, found.end() - 1) + 1]}").split("\n")


# The definitions by which clauses say that a world shows what was told, and whose clauses the page quotes.
SHOWN = ("act_world", "Shown")
SHOWN_OF = ("open", "apply", "play")
# What they speak of: what can be asked of a world, and what is told of it.
TOLD_TYPES = (("event", "Event"), ("outcome", "Did"), ("outcome", "Outcome"))


# The public functions that can change a world, which the page speaks of.
CHANGING = {"make_room", "apply", "apply_owned", "play", "play_reserved"}
# Those that the page quotes, each with the clause by which a world is reached.
CLAUSE_OF = {"open": "reached", "apply": "reached", "play": "ok"}
WORLD = ("act_world", "world")


def check_changing():
    """The page names each public function that can change a world."""
    folder = CRATES / WORLD[0] / "src"
    texts = {path.stem: re.sub(r"//.*", "", path.read_text()) for path in sorted(folder.glob("*.rt"))}
    there = set(re.findall(r"pub fn (\w+)(?:<[^>]*>)?\(\s*&mut self", texts.pop(WORLD[1])))
    elsewhere = [name for name, text in texts.items() if re.search(r"&mut World\b|\bimpl\b.* World\b", text)]
    if there != CHANGING or elsewhere:
        raise Unread(f"other functions change a world: {', '.join(sorted(there ^ CHANGING) + elsewhere)}")


def is_of_a_world(definition):
    return (definition.crate, definition.path.stem) == OF_A_WORLD or definition.name in ALSO_OF_A_WORLD


def worlds_of_page(audit):
    """By which calls a world is reached, and what the headline is of a world."""
    check_changing()
    functions = {name: function_named(audit.sources, *WORLD, name) for name in CLAUSE_OF}
    clauses = [named_clause(functions[name], CLAUSE_OF[name]) for name in functions]
    consistent = audit.functions[CONSISTENT]
    played = spec_named(audit.sources, *PLAYED)
    shown = [definition for definition in audit.readings[CONSISTENT].behind() if is_of_a_world(definition)]
    yield f"## {WORLDS_TITLE}\n"
    yield OF_WHICH_WORLDS
    yield from renamed([*functions.values(), consistent])
    yield block([*clauses, quoted(played), quoted(consistent)])
    yield from ["", *places([*functions.values(), consistent, played])]
    yield AFTER_WORLDS
    yield block(map(quoted, shown))
    yield from ["", *places(shown)]
    told = yield from told_of_page(audit)
    return {played, *shown, *told}


def told_of_page(audit):
    """That what is submitted and what runs is what is told."""
    functions = [function_named(audit.sources, *WORLD, name) for name in SHOWN_OF]
    named = audit.sources.file(SHOWN[0], "specs", [SHOWN[1]]).definitions
    rust = [audit.sources.file("act_rules", "src", [module]).named(name)[0] for module, name in TOLD_TYPES]
    told = [*rust, *(definition for found in named.values() for definition in found)]
    yield f"### {TOLD_TITLE}\n"
    yield TOLD
    yield block([*map(quoted, told), *(named_clause(each, "shown") for each in functions)])
    yield from ["", *places([*told, *functions])]
    return set(told)


# The roots on the page.


def numbers_of(reading):
    """How many definitions stand behind roots, with their lines, and how many declarations of Rust."""
    specs, others = [[each for each in reading.behind() if is_spec(each) is wanted] for wanted in (True, False)]
    return *tally(specs), *tally(others)


def name_of(function):
    return f"World::{function.name}" if function.lines[0].startswith(" ") else function.name


def title_of(function):
    return f"`{name_of(function)}` of {function.crate}"


def anchored(shown, title):
    anchor = re.sub(r"[^\w\- ]", "", title.lower()).replace(" ", "-")
    return f"[{shown}](#{anchor})"


def titles_of(audit):
    """Under which title each root stands: the laws have one."""
    for root in audit.roots:
        title = LAWS_TITLE if root in audit.laws else title_of(audit.functions[root])
        yield root, WORLDS_TITLE if root == CONSISTENT else title


def rows_of_roots(audit, titles):
    for root in audit.roots:
        yield anchored(f"`{name_of(audit.functions[root])}`", titles[root]), *numbers_of(audit.readings[root])
    yield "all of them", *numbers_of(audit.whole)


def roots_under(audit, roots, shown):
    """The clauses of roots, and the properties that these name, where the page hasn't shown them."""
    texts = []
    if len(roots) == 1:
        yield f"{roots[0].says[0].upper()}{roots[0].says[1:]}.\n"
    for root in roots:
        properties = [each for each in audit.properties(root) if each not in shown]
        shown.update(properties)
        texts += [audit.functions[root], *properties]
    yield from renamed(texts)
    yield block(map(quoted, texts))
    yield from ["", *places(texts)]


def roots_of_page(audit, shown):
    titles = dict(titles_of(audit))
    yield ROOTS
    yield from table_of(["Root", "Definitions", "Lines", "In Rust", "Lines"], rows_of_roots(audit, titles))
    yield ""
    for title in dict.fromkeys(title for root, title in titles.items() if root != CONSISTENT):
        yield f"### {title}\n"
        yield from roots_under(audit, [root for root in audit.roots if titles[root] == title], shown)


def page_of(audit):
    yield from headline_of_page(audit.headline)
    yield AFTER_A_KILL
    yield WHAT_IT_DOESNT_SAY
    shown = {*audit.headline.quoted()}
    shown |= yield from worlds_of_page(audit)
    yield from roots_of_page(audit, shown)


# What is printed.


def text_of(audit, reading):
    """All that stands behind roots, in reading order, then the views, and the words of the kit by name."""
    headline = set(audit.headline.quoted())
    for definition in [*reading.by_words, *reading.by_views]:
        told = ["of the headline"] if definition in headline else []
        if needs := [other.name for other in reading.own_needs(definition)]:
            told.append(f"needs {', '.join(needs)}")
        yield ", ".join([f"== {definition.place()}", *told])
        yield "\n".join([*definition.within, *definition.lines]) + "\n"
    yield "== words of std and of the kit"
    for module, words in sorted(reading.kit_words().items()):
        yield filled(f"{module}: {' '.join(sorted(words))}", "  ")


def reading_named(audit, name):
    """What stands behind the root of this name, or behind all."""
    if name == "--text":
        return audit.whole
    found = [root for root in audit.roots if root.name == name.removeprefix("World::")]
    if not found:
        sys.exit(f"audit: no root '{name}'; the roots are {', '.join(root.name for root in audit.roots)}")
    return audit.readings[found[0]]


def compare(page):
    if not PAGE.exists() or PAGE.read_text() != page:
        sys.exit("audit: docs/audit.md isn't that of the sources; `python3 tools/audit.py` writes it anew")


def main():
    words = sys.argv[1:]
    if len(words) > 1 or words and words[0].startswith("-") and words[0] not in ("--check", "--text"):
        sys.exit(__doc__.split("\n\n")[1])
    try:
        audit = Audit()
        page = "\n".join(page_of(audit)) + "\n"
    except Unread as why:
        sys.exit(f"audit: {why}")
    if words == ["--check"]:
        compare(page)
        count = len(audit.whole.by_words) + len(audit.whole.by_views)
        print(f"audit: docs/audit.md is that of the sources; {count} definitions and declarations stand behind it")
    elif words:
        # Who reads a part of it closes the rest.
        signal.signal(signal.SIGPIPE, signal.SIG_DFL)
        print("\n".join(text_of(audit, reading_named(audit, words[0]))))
    else:
        PAGE.write_text(page)


if __name__ == "__main__":
    main()
