#!/usr/bin/env python3
"""Writes docs/reference.md and docs/reference/: each public name that the crate `actors` passes on, with its clauses.

    tools/reference.py [--check]

docs/reference.md is the index, by the subjects of crates/actors/src/lib.rt: the comments between its lines. Each
subject has a page in docs/reference/, or several (PARTS). One of constants alone has none: the index lists them.

The pages are made of the sources alone. A type has its doc comment, its declaration and its methods, a trait its ghost
members and its methods. A function or a method has its doc comment, its signature and its clauses as they stand. Below
them come the words of specs/ that the clauses name, each with its file. A law, a function without arguments, has the
definition of what it says. docs/reference/words.md has the words by the modules of the door, and lemmas.md its lemmas.

`--check` writes nothing. It fails where

  - a page isn't that of the sources, or a page stands in docs/reference/ that none of them makes;
  - a public function or method has neither a doc comment nor a clause, or another name has no doc comment;
  - a sentence of a doc comment is too long for a page (tools/pages.py counts its words);
  - PARTS has a name that isn't passed on;
  - clauses name a word of std that neither the table of the index nor that of docs/audit.md has;
  - two headings of a page have one anchor, a link leads to no file or to no heading, or a page is too long.
"""
import os.path
import re
import sys
from collections import Counter, defaultdict

import audit
import claims
import door
import items
import named
import pages
from audit import TOP
from program import Stop, ended

INDEX = "docs/reference.md"
FOLDER = "docs/reference"
WORDS = f"{FOLDER}/words.md"
LEMMAS = f"{FOLDER}/lemmas.md"
# How many lines a page may have.
MAX_LINES = 850
# The pages of subjects: the file, the title, and what stands there. The first has what no other one names. A subject
# that isn't here has one page, which its first two words name.
PARTS = {
    "Names, values, calls and messages": [("values", "Names, values, calls and messages", "")],
    "One caller, and one actor": [
        ("one_caller", "One caller", ""),
        ("one_actor", "One actor", "Arrival Cast Dead Live Retired RunItem actors_of cast_fits limits_of"),
    ],
    "Threads": [
        ("threads", "Threads", ""),
        ("codes", "Callers that are code", "Code GaveUp KillRefusal Session WaitRefusal codes_fit run_callers"),
    ],
    "Every end of plans": [("ends", "Every end of plans", "")],
    "Runs in threads that follow one another": [("epochs", "Runs in threads that follow one another", "")],
    "Histories of runs in threads, judged by their order and written": [
        ("histories", "Histories of runs in threads", "")
    ],
}
# The definitions that a page quotes below its laws, with what these name of their own files.
QUOTED = {f"{FOLDER}/kinds.md": "Ask StepOf by_calls alone IsKept Left OpensAt SlotKeeps EndKeeps"}
# The crates that a kind and its law of run lists can stand on in place of the door, and what it takes from them: names
# of the code, words, types of the code with their cases, and lemmas.
OF_A_KIND = ("act_types", "act_rules", "act_kinds")
CODE_OF_A_KIND = "Actor Answer Fault Meaning Method Name NoMemory Value append_line runs_by_its_steps"
WORDS_OF_A_KIND = (
    "Value Method Fault RunItem KindState OwnAt Ask StepOf behaves by_calls on_call alone next_state step_answer Answer"
    " kind_answer told_in IsKept Left is_in_range method_text"
)
LEMMAS_OF_A_KIND = "holds_in_each_run"
GROUPS = {
    "function": "Functions", "trait": "Traits", "type": "Types", "error": "Errors", "law": "Laws",
    "constant": "Constants",
}  # fmt: skip
# How many names one sentence lists.
MOST_NAMES = 24
# An error has a list of what returns it, where so few do.
MOST_GIVERS = 12

HEAD = """\
# Reference

Each public name of the crate `actors`, by subject: functions and methods with their clauses, traits, types, errors,
limits and laws. [guide.md](guide.md) shows how to use them, and [glossary.md](glossary.md) has Ray's words for the
terms. [rules.md](rules.md) says what each event does, and what each method of the four kinds answers.
`python3 tools/reference.py` writes these pages from the sources, and `./test` fails where one is out of date.

{contents}

## How to read an entry

- A signature is followed by its clauses, as in the source. A `requires` is a premise, which each call has to meet. An
  `ensures` is proved to hold when the call has returned. The word before the brace is the clause's name.
- **Words** are the definitions in specs/ that the clauses name, each with its file. [words.md](reference/words.md) has
  those that `actors` passes on, by the module from which a program takes them.
- **Tests** are functions that decide a premise. Where a program calls one before the entry's call, and goes on only if
  it says yes, the premise is proved.
- A **law** is a function without arguments that does nothing. A program calls it where a proof needs what it says. The
  definition of what it says stands below it.
- A **ghost** member of a trait is for clauses and proofs alone. No program has it when it runs.
- Clauses see most types as their fields or their variants. Where they see something else, the type has a line for it.
- "Here `NoRoom` is `SubmitRefusal::NoMemory`" says that clauses have another word for a name of the code.
- `alloc` is where memory comes from, and `R` is the type of the runtime, which `main` is given. `K` is the type of the
  actors' kinds. A type that implements `Drop` can be let go.
"""
# How clauses are written: the words of std that a line is for, what is written, and how it is read.
NOTATION = [
    ("", "`result`", "what the call returns"),
    ("", "`self.old`, `self.new`", "what a `&mut self` refers to when the call begins, and when it has returned"),
    ("", "`self.now`", "what a `&self` refers to; so for each other reference"),
    ("", "`x.entry`", "an argument as it was passed"),
    ("", "`v.items`", "the elements of a `Vec` as a list"),
    ("IfOk IfErr IfSome", "`IfOk r (λ x. P)`", "if r is `Ok(x)`, then P; `IfErr` and `IfSome` are alike"),
    ("OnOk OnErr IfNone", "`OnOk r P`", "if r is `Ok`, then P; `OnErr r P` and `IfNone o P` are alike"),
    ("IsOk IsSome is_some None", "`IsOk r`, `IsSome o`, `is_some o`", "r is `Ok`; o is `Some`; the test whether it is"),
    ("◌↔◌ IsTrue true false", "`IsTrue b ↔ P`", "b is true exactly where P holds"),
    ("All AllPairs", "`All P xs`, `AllPairs P xs`", "P holds of each item; of each two items, in their order"),
    ("◌⊎◌", "`P ⊎ Q`", "P or Q"),
    ("⊤", "`tt`, `Unit {0}`, `⊤`, `⊥`", "the value `()`; what always holds, twice; what never does"),
    ("if◌then◌else◌ nat_lt", "`if b then x else y`, `nat_lt m n`", "x where b is true, else y; the test whether m < n"),
    ("", "`record x { a = v }`", "x with another value of its field a"),
    ("option_copied option_map", "`option_copied o`, `option_map f o`", "`o.copied()`, `o.map(f)`"),
    ("unwrap_or", "`unwrap_or o x`", "`o.unwrap_or(x)`"),
    ("length drop", "`length xs`, `drop n xs`", "the number of items; xs without its first n"),
    ("zip find", "`zip xs ys`, `find test xs`", "as iterators do it, for lists"),
    ("list_any slice_index", "`list_any test xs`, `slice_index xs k`", "whether an item passes the test; `xs[k]`"),
    ("vec_len vec_capacity", "`vec_len v`, `vec_capacity v`", "`v.len()`, `v.capacity()`"),
    ("ℤ pos decimal", "`ℤ`, `pos n`, `decimal n`", "the whole numbers; the number n among them; its decimal digits"),
    ("◌≤◌ ◌<◌ ◌+◌ ◌*◌ ◌^◌", "`m ≤ n`, `m < n`, `m + n`, `m * n`, `m ^ n`", "numbers of `ℕ`"),
    ("", "`K.state`, `C.tells`, `S.seen`", "a ghost member of the trait that bounds this type parameter"),
    ("", "`output`", "of `Display`: the bytes that `{}` writes, behind `Some`"),
    ("", "`⟦<Boxed as Actor>⟧.state`", "the ghost member `state` that `Boxed` has as an `Actor`"),
]
AFTER_NOTATION = """\
[audit.md](audit.md#the-headline) has the other signs.
"""
WORDS_HEAD = """\
# Words of clauses

All words of specs/ that the door `actors` passes on, by the module from which a clause of yours takes them. A line
`ghost use Rattle.actors.specs.Plays.{IsPlayOf};` takes in a word of the module `Plays`. In a file of specs/ such a line
is `use Rattle.actors.specs.Plays.{IsPlayOf}`.

A type of the code is a module of its own: `Rattle.actors.specs.Method.{Method}` is the type, and
`Rattle.actors.specs.Method.TheVariants.{Add}` a case of it. In a file whose code uses the type, too, the clause's word
for it needs another name, as `Rattle.actors.specs.Event.{Event as Happening}`.

The [index](../reference.md) leads to the functions whose clauses name these words.
"""
LEMMAS_HEAD = """\
# Lemmas

The lemmas that proofs of a client may cite, each with all its parameters in order. They are imported as
`use Rattle.actors.proofs.Lemmas.{run_keeps}`. `rt lemma` finds none that a crate only passes on, as `actors` does here.
It finds one where the line of crates.txt names the crate that proves it.
"""
WITHOUT_DOOR = f"""\
A kind and its law of run lists can name `{' '.join(OF_A_KIND)}` in crates.txt in place of `actors`, which is far less
to prove. It takes each name from where it is declared, as in `ghost use Rattle.act_types.specs.Own.{{StepOf}};`. A type
behind `declared` has its cases at `.TheVariants`.
"""


# Texts.


def filled(text, indent=""):
    """A text in lines of at most 120 columns, in which no piece of code and no link is broken."""
    kept = re.sub(r"`[^`]*`", lambda code: code[0].replace(" ", "\0"), text)
    return audit.filled(kept, indent).replace("\0", " ")


def listed(names, head):
    """Names as one text, in which no sentence lists more than a few."""
    parts = [", ".join(names[at : at + MOST_NAMES]) for at in range(0, len(names), MOST_NAMES)]
    return f"{head}{'. And '.join(parts)}." if parts else ""


def joined(parts):
    """Parts of a sentence, with an `and` before the last."""
    return " and ".join([", ".join(parts[:-1]), parts[-1]] if parts[1:] else parts)


def code_block(lines, language="rust"):
    return "\n".join([f"```{language}", *lines, "```"])


def anchor_of(heading):
    """The anchor that a heading makes."""
    return re.sub(r"[^\w\- ]", "", heading.lower()).strip().replace(" ", "-")


def path_from(page, target):
    """The way from a page to another file of the repository."""
    return os.path.relpath(target, os.path.dirname(page))


def wrapped(statement):
    """A statement in lines of at most 120 columns. No parameter is broken, and between two arrows only what is long."""
    kept = re.sub(r"[({](?:[^(){}]|\([^()]*\))*[)}]", lambda group: group[0].replace(" ", "\0"), statement)
    parts = kept.split(" → ")
    whole = [part if part.startswith(("(", "{")) or len(part) > 100 else part.replace(" ", "\0") for part in parts]
    return audit.filled(" →\0".join(whole), "    ").replace("\0", " ").split("\n")


def link_to(page, path):
    """A link to a source, which is shown from crates/ on."""
    return f"[{path.relative_to(audit.CRATES)}]({path_from(page, str(path.relative_to(TOP)))})"


# The pages.


class Book:
    """What the door passes on, and the page and the anchor of each name."""

    def __init__(self):
        self.door = items.Door()
        self.sources = self.door.sources
        self.titles = {}  # of each page but the index its title
        self.places = {}  # of each name its item, its page and its anchor
        for subject, found in self.door.subjects.items():
            for item in found:
                page = self.page_of(subject, item)
                list_of_constants = subject if page == INDEX else GROUPS["constant"]
                for place in item.places():
                    if place.name in self.places:
                        raise audit.Unread(f"'{place.name}' is passed on twice")
                    heading = list_of_constants if item.sort == "constant" else place.name
                    self.places[place.name] = (place, page, anchor_of(heading))
        self.tests = dict(self.tests_of_premises())

    def page_of(self, subject, item):
        """The page of an item: the index, where its subject has constants alone."""
        if all(each.sort == "constant" for each in self.door.subjects[subject]):
            return INDEX
        parts = PARTS.get(subject, [("_".join(re.findall(r"\w+", subject.lower())[:2]), subject, "")])
        stem, title, _ = next((part for part in parts if item.name in part[2].split()), parts[0])
        page = f"{FOLDER}/{stem}.md"
        if self.titles.setdefault(page, title) != title:
            raise audit.Unread(f"'{title}' and '{self.titles[page]}' have one page")
        return page

    def href(self, page, name):
        _, to, anchor = self.places[name]
        return f"#{anchor}" if to == page else f"{path_from(page, to)}#{anchor}"

    def link(self, page, name, shown=None):
        return f"[`{shown or name}`]({self.href(page, name)})"

    def links(self, page, names):
        return [self.link(page, name) for name in names]

    # Prose.

    def is_meant(self, file, name):
        """Whether a name is that of the pages, where this file speaks of it."""
        definition = self.places[name][0].definition
        if definition is None:
            return True
        try:
            return file.type_named(name) == [definition]
        except audit.Unread:
            folder = audit.CRATES / file.crate / "src"
            return not any(re.search(rf"^pub \w+ {name}\b", path.read_text(), re.M) for path in folder.glob("*.rt"))

    def meant(self, item, word):
        """The name of the pages that a word in the doc comment of an item is, if it is one."""
        owner = item.name.partition("::")[0]
        if f"{owner}::{word}" in self.places:
            return f"{owner}::{word}"
        if word in self.places and self.is_meant(item.file, word.partition("::")[0]):
            return word
        return None

    def prose(self, page, item, text):
        """A text of a doc comment, with a link at each other name that the pages have."""

        def linked(code):
            name = self.meant(item, code[1])
            return code[0] if name in (None, item.name) else self.link(page, name, code[1])

        return re.sub(r"`([^`]+)`", linked, text)

    def doc_paragraphs(self, page, item):
        return [filled(self.prose(page, item, text)) for text in item.doc]

    # Words.

    def words_of(self, item, texts, definitions=()):
        """The words that texts and definitions name: those of specs by their files, and what cases and other names of
        types are."""
        by_file, others = defaultdict(dict), {}
        for text, scope in texts:
            for written, path, name in items.named_in(self.sources, text, scope, item.bound):
                *_, owner = path.removesuffix(".TheVariants").split(".")
                if path.endswith(".TheVariants") or ".specs.declared." in path and written != name == owner:
                    others[written] = (owner, name)
                elif ".specs.declared." not in path:
                    shown = f"`{name}`" if written == name else f"`{name}` as `{written}`"
                    by_file[self.sources.follow(path, name)[0].path][shown] = None
        for definition in definitions:
            for each in audit.reach_once(definition).found:
                if isinstance(each, audit.Definition) and audit.is_spec(each) and each not in definitions:
                    by_file[each.path][f"`{each.name}`"] = None
        return by_file, others

    def other_name(self, page, owner, name):
        """A case of a type, or a type, as the code names it."""
        shown = name if owner == name else f"{owner}::{name}"
        return self.link(page, owner, shown) if owner in self.places else f"`{shown}`"

    def notes(self, page, item, definitions=()):
        """Where an item stands, and what the words of its texts are, and of the definitions that are shown with it."""
        by_file, others = self.words_of(item, item.texts, definitions)
        parts, owner = [], item.name.partition("::")[0]
        if owner == item.name or item.file is not self.places[owner][0].file:
            parts.append(f"Source: {link_to(page, item.file.path)}.")
        if by_file:
            words = [f"{', '.join(names)} ({link_to(page, path)})" for path, names in by_file.items()]
            parts.append(f"Words: {'; '.join(words)}.")
        if others:
            here = [f"`{written}` is {self.other_name(page, *target)}" for written, target in others.items()]
            parts.append(f"Here {joined(here)}.")
        if tests := self.tests_for(item):
            parts.append(f"Tests: {', '.join(self.links(page, tests))}.")
        if unknown := self.unknown_in(item):
            named_so = [f"`{each.name}` ({link_to(page, each.path)})" for each in unknown]
            parts.append(f"Not passed on by `actors`: {', '.join(named_so)}.")
        return [filled(" ".join(parts))] if parts else []

    def unknown_in(self, item):
        """The types of this library that a declaration or a signature names and the door doesn't pass on."""
        found = []
        for name in dict.fromkeys(audit.types_in(items.signature(item))) if item.sort != "trait" else ():
            try:
                found += [each for each in item.file.type_named(name) if isinstance(each, audit.Definition)]
            except audit.Unread:
                continue
        return [each for each in found if each not in self.door.declared]

    def tests_of_premises(self):
        """Of each definition that a test decides the name of this test."""
        for name, (item, _, _) in self.places.items():
            for text, scope in item.texts:
                if found := re.match(r"\s*IsTrue result ↔ (\w+)", text):
                    yield from ((definition, name) for definition in self.definitions_in(found[1], scope))

    def tests_for(self, item):
        """The tests that decide the premises of an item."""
        found = [each for text in items.premises(item) for each in self.definitions_in(text, item.file)]
        return list(dict.fromkeys(self.tests[each] for each in found if each in self.tests))

    def definitions_in(self, text, scope):
        """The definitions of specs that a text names."""
        named_so = [self.sources.follow(path, name)[0] for _, path, name in items.named_in(self.sources, text, scope)]
        return [each for each in named_so if audit.is_spec(each)]

    # Entries.

    def entry(self, page, item):
        """All paragraphs of an item."""
        yield f"### `{item.name}`"
        yield from self.doc_paragraphs(page, item)
        yield code_block(item.code)
        if item.sort in ("type", "error"):
            yield from self.of_type(page, item)
        definitions = self.definitions_of(item) if item.sort == "law" else []
        if definitions:
            yield code_block("\n\n".join("\n".join(audit.quoted(each)) for each in definitions).split("\n"), "text")
        yield from self.notes(page, item, definitions)
        for method in item.members:
            yield from self.method(page, method)

    def method(self, page, method):
        """All paragraphs of a method."""
        yield f"#### `{method.name}`"
        yield from self.doc_paragraphs(page, method)
        yield code_block(method.code)
        if method.has_body:
            yield "The trait has a body for it, which an `impl` can leave as it is."
        yield from self.notes(page, method)

    def definitions_of(self, law):
        """What a law says: the definitions that its clauses name."""
        return list(dict.fromkeys(each for text, scope in law.texts for each in self.definitions_in(text, scope)))

    def of_type(self, page, item):
        """What clauses see of a type, its traits, and its methods."""
        traits, origins = self.traits_of(page, item)
        if item.sees:
            yield filled(f"Clauses see it as `{' '.join(item.sees.split())}`.")
        for trait, word, text in item.meanings:
            named_so = self.link(page, trait) if trait in self.places else f"`{trait}`"
            yield filled(f"As {named_so} its `{word}` is `{text}`.")
        if traits:
            yield filled(listed(traits, "Implements "))
        if origins:
            yield filled(listed(origins, "`?` makes it of "))
        if item.sort == "error" and (givers := self.givers_of(item)):
            yield filled(listed(self.links(page, givers), "Returned by "))
        for block in dict.fromkeys(method.block for method in item.members):
            names = [method.name for method in item.members if method.block == block]
            where = f", in `{block}`" if "<" in block else ""
            yield filled(listed(self.links(page, names), f"Methods{where}: "))

    def traits_of(self, page, item):
        """The traits that a type has, and what `?` makes it of."""
        names, origins = set(items.derived(item)), []
        for trait, _, file in item.impls:
            if found := re.match(r"From<(.*)>$", trait):
                origins += [f"`{found[1]}`"] if self.is_known(file, found[1]) else []
            elif trait != "Model":
                names.add(trait)
        shown = [self.link(page, each) if each in self.places else f"`{each}`" for each in sorted(names)]
        return shown, sorted(origins)

    def is_known(self, file, kind):
        """Whether a program can name this type."""
        try:
            found = file.type_named(re.match(r"\w+", kind)[0])
        except audit.Unread:
            return True
        return all(isinstance(each, audit.KitWord) or each in self.door.declared for each in found)

    def givers_of(self, error):
        """The functions and methods whose `Err` is this error, where these are few."""
        pattern = rf"-> Result<.*, {error.name}(?:<.*>)?>$"
        calls = [item for item, _, _ in self.places.values() if item.is_call]
        found = [item for item in calls if re.search(pattern, items.signature(item), re.S)]
        names = [item.name for item in found if self.is_meant(item.file, error.name)]
        return names if len(names) <= MOST_GIVERS else []

    def constants(self, page, found):
        """A list of constants."""
        lines = []
        for item in found:
            said = " ".join(self.prose(page, item, text) for text in item.doc)
            lines.append(filled(f"- `{items.signature(item).removeprefix('pub const ').rstrip(';')}`. {said}", "  "))
        yield "\n".join(lines)
        places = dict.fromkeys(item.file.path for item in found)
        yield filled(listed([link_to(page, path) for path in places], "Sources: "))

    # Pages.

    def part(self, page):
        """A page of a subject."""
        groups = groups_of([item for item in self.door.items if self.places[item.name][1] == page])
        yield f"# {self.titles[page]}"
        yield f"A part of the [reference]({path_from(page, INDEX)}), which says how to read it."
        for sort, found in groups.items():
            yield filled(listed(self.links(page, [item.name for item in found]), f"{GROUPS[sort]}: "))
        for sort, found in groups.items():
            yield f"## {GROUPS[sort]}"
            if sort == "constant":
                yield from self.constants(page, found)
                continue
            for item in found:
                yield from self.entry(page, item)
        if page in QUOTED:
            yield from self.quoted(page)

    def quoted(self, page):
        """Definitions that the laws of a page lead to, by their files."""
        by_file = defaultdict(list)
        for name in QUOTED[page].split():
            first = self.sources.follow(self.home_of_word(name), name)[0]
            for each in [*self.of_its_file(first), first]:
                if each not in by_file[each.path]:
                    by_file[each.path].append(each)
        yield "## Words of these laws"
        for path, found in by_file.items():
            yield f"Of {link_to(page, path)}:"
            found.sort(key=lambda each: each.first)
            yield code_block("\n\n".join("\n".join(audit.quoted(each)) for each in found).split("\n"), "text")

    def of_its_file(self, definition):
        """What a definition names of its own file."""
        found = audit.reach_once(definition).found
        return [each for each in found if isinstance(each, audit.Definition) and each.path == definition.path]

    def home_of_word(self, name, crates=()):
        """The module that declares a word which is passed on: one of these crates, where any are given."""
        homes = {path for path, word in door.passed_words() if name == (word or path.rpartition(".")[2])}
        found = [path for path in homes if not crates or path.split(".")[1] in crates]
        if len(found) != 1:
            raise audit.Unread(f"'{name}' is passed on from {len(found)} modules")
        return found[0]

    def lemmas_page(self):
        """The lemmas that the door passes on."""
        yield LEMMAS_HEAD.rstrip("\n")
        by_subject = defaultdict(list)
        for said, path, name in items.lemmas():
            by_subject[said].append((path, name))
        for said, found in by_subject.items():
            yield f"## {said[0].upper()}{said[1:]}"
            statements = [items.statement_of(*each) for each in found]
            texts = ["\n".join([*wrapped(text), *(f"-- here {body}" for body in words)]) for text, words in statements]
            yield code_block("\n\n".join(texts).split("\n"), "text")
            paths = dict.fromkeys(path for path, _ in found)
            yield filled(listed([link_to(LEMMAS, path) for path in paths], "Sources: "))

    def homes_of_a_kind(self):
        """From where a kind and its law take each name without the door: a list of modules."""
        crates = {name: crate for _, crate, name in items.passed_by_subject()}
        rows = defaultdict(list)
        for name in CODE_OF_A_KIND.split():
            rows[f"use {crates[name]}::"].append(name)
        for name in WORDS_OF_A_KIND.split():
            rows[self.home_of_word(name, OF_A_KIND)].append(name)
        for _, path, name in items.lemmas():
            if name in LEMMAS_OF_A_KIND.split():
                module = ".".join(path.relative_to(audit.CRATES).with_suffix("").parts)
                rows[f"Rattle.{module}"].append(name)
        for home, names in rows.items():
            yield filled(f"- `{home}`: {', '.join(f'`{name}`' for name in names)}", "  ")

    def index(self):
        """The index."""
        yield HEAD.rstrip("\n").format(contents="\n".join(self.contents()))
        rows = ((written, read) for _, written, read in NOTATION)
        yield "\n".join(audit.table_of(["In a clause", "Read"], rows))
        yield AFTER_NOTATION.rstrip("\n")
        for subject, found in self.door.subjects.items():
            yield f"## {subject}"
            groups = groups_of(found)
            if [*groups] == ["constant"]:
                yield from self.constants(INDEX, found)
                continue
            for sort, members in groups.items():
                yield f"{GROUPS[sort]}:"
                yield "\n".join(self.line(item) for item in members)

    def contents(self):
        """A list of all pages, with the subjects that have none."""
        for subject, found in self.door.subjects.items():
            for page in dict.fromkeys(self.places[item.name][1] for item in found):
                to = f"#{anchor_of(subject)}" if page == INDEX else path_from(INDEX, page)
                yield f"- [{self.titles.get(page, subject)}]({to})"
        yield f"- [All words that clauses take from `actors`]({path_from(INDEX, WORDS)})"
        yield f"- [All lemmas that proofs take from `actors`]({path_from(INDEX, LEMMAS)})"

    def line(self, item):
        """The line of an item in the index, with its methods."""
        said = re.split(r"(?<=[^.]\.)\s", " ".join(item.doc[:1]))[0]
        methods = self.links(INDEX, [method.name for method in item.members])
        return filled(f"- {self.link(INDEX, item.name)}. {said} {listed(methods, 'Methods: ')}".rstrip(), "  ")

    def words_page(self):
        """The words of the door's specs, by their modules."""
        yield WORDS_HEAD.rstrip("\n")
        for title, lines in items.modules_of_words():
            head, *rest = lines
            yield f"## {title}"
            if head.startswith("-- "):
                yield filled(head.removeprefix("-- "))
            yield "\n".join(self.words_in(rest))
        yield "## A kind without `actors`"
        yield filled(" ".join(WITHOUT_DOOR.split()))
        yield "\n".join(self.homes_of_a_kind())

    def words_in(self, lines):
        """The words that lines pass on, under their comments."""
        said, found = None, defaultdict(lambda: defaultdict(list))
        for line in lines:
            if line.startswith("-- "):
                said = line.removeprefix("-- ")
            elif taken := re.match(r"pub use ([\w.]+?)(?:\.\{(.*)\})?$", line):
                for each in (taken[2] or taken[1].rpartition(".")[2]).split(", "):
                    name, _, here = each.partition(" as ")
                    found[said][self.sources.follow(taken[1], name)[0].path].append(f"`{here or name}`")
        for said, by_file in found.items():
            words = [f"{', '.join(names)} ({link_to(WORDS, path)})" for path, names in by_file.items()]
            yield filled(f"- {said}: {'; '.join(words)}", "  ")


def groups_of(found):
    """Items by their sort, in the order of the groups."""
    return {sort: members for sort in GROUPS if (members := [item for item in found if item.sort == sort])}


def text_of(book, page):
    """The text of a page."""
    others = {INDEX: book.index, WORDS: book.words_page, LEMMAS: book.lemmas_page}
    return "\n\n".join(others[page]() if page in others else book.part(page)) + "\n"


def texts_of(book):
    """The text of each page."""
    return {page: text_of(book, page) for page in [INDEX, *book.titles, WORDS, LEMMAS]}


# What is wrong.


def place_of(item):
    """Where an item is declared."""
    return f"{item.file.path.relative_to(TOP)}:{item.number}"


def faults_of_age(made, there):
    """The pages that aren't those of the sources, and those that none of them makes."""
    for page, text in made.items():
        old, new = there.get(page, "").split("\n"), text.split("\n")
        if old != new:
            differing = (number for number, pair in enumerate(zip(old, new), 1) if pair[0] != pair[1])
            number = next(differing, min(len(old), len(new)))
            yield f"{page}:{number}: it isn't that of the sources; `python3 tools/reference.py` writes it anew"
    for page in sorted(there):
        if page.startswith(f"{FOLDER}/") and page not in made:
            yield f"{page}: no source makes this page"


def faults_of_silence(book):
    """The names of which nothing is said."""
    for name, (item, _, _) in book.places.items():
        if not item.doc and not (item.is_call and item.texts):
            yield f"{place_of(item)}: {name} has no doc comment{' and no clause' if item.is_call else ''}"


def faults_of_parts(book):
    """The names of PARTS that are no subject, and aren't passed on."""
    listed_in_parts = {name for parts in PARTS.values() for _, _, names in parts for name in names.split()}
    for name in sorted({*PARTS, *listed_in_parts} - {*book.door.subjects, *book.places}):
        yield f"tools/reference.py: PARTS has '{name}', which isn't passed on, and no subject"


def faults_of_length(book):
    """The sentences of doc comments that are long."""
    for item, _, _ in book.places.values():
        for text in item.doc:
            for each in pages.sentences_of(text):
                if (count := len(pages.words_of(each))) > pages.MAX_WORDS:
                    start = " ".join(each.split()[:6])
                    yield f"{place_of(item)}: a sentence of {count} words: {start} .."


def faults_of_notation(book):
    """The words of std in clauses that no table tells how to read, and those that no clause has."""
    told = {word for words, _, _ in NOTATION for word in words.split()}
    of_audit = {word for words, _, _ in audit.NOTATION for word in words.split()}
    used = {}
    for name, (item, _, _) in book.places.items():
        for text, scope in item.texts:
            used |= {word: name for word in items.words_of_std(text, scope)}
    for word in sorted(set(used) - told - of_audit):
        yield f"tools/reference.py: NOTATION hasn't {word}, which a clause of {used[word]} names"
    for word in sorted(told - set(used)):
        yield f"tools/reference.py: NOTATION has {word}, which no clause names"


def faults_of_form(made, there):
    """The pages that are too long, the headings with one anchor, and the links that lead nowhere."""
    for page, text in made.items():
        if (count := text.count("\n")) > MAX_LINES:
            yield f"{page} has {count} lines, and may have {MAX_LINES}: PARTS can divide it"
        heads = Counter(anchor_of(line.lstrip("# ")) for _, line in named.lines_of_page(text) if line.startswith("#"))
        yield from (f"{page}: {count} headings are #{head}" for head, count in heads.items() if count > 1)
        found = claims.faults_of_links(page, text, {**there, **made})
        yield from (f"{page}:{number}: {fault}" for number, fault in found)


def faults_of_sources(book):
    """What is wrong with what the sources say, and with what this tool says in their place."""
    yield from faults_of_silence(book)
    yield from faults_of_parts(book)
    yield from faults_of_length(book)
    yield from faults_of_notation(book)


def write(made):
    """Writes the pages, and removes those that no source makes."""
    (TOP / FOLDER).mkdir(exist_ok=True)
    for path in (TOP / FOLDER).glob("*.md"):
        if f"{FOLDER}/{path.name}" not in made:
            path.unlink()
    for page, text in made.items():
        (TOP / page).write_text(text)


def main():
    words = sys.argv[1:]
    if words not in ([], ["--check"]):
        raise Stop("usage: tools/reference.py [--check]")
    try:
        book = Book()
        made = texts_of(book)
    except audit.Unread as why:
        raise Stop(why, 1) from None
    if not words:
        write(made)
    there = named.texts_there()
    found = [*faults_of_age(made, there), *faults_of_sources(book), *faults_of_form(made, there)]
    for fault in found:
        print(fault)
    print(f"reference: {len(book.places)} names on {len(made)} pages: {len(found)} failed")
    return 1 if found else 0


if __name__ == "__main__":
    ended("reference", main)
