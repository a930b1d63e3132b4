#!/usr/bin/env python3
"""Checks the door, `crates/actors`: it passes on each word that comes with its calls, and what the guide names.

Of what src/lib.rt passes on it reads the clauses: of a function its own, of a type those of its public functions, and
of a trait all. It reads what clauses see a type as, too, and what a trait leaves to its types. Each word that these
take in from a crate of this library, by `ghost use`, must stand in specs/: as one that is passed on, or behind a type
of the code whose module is. Words of std aren't looked at: a client has them anyway.

What docs/guide.md names in backticks, and a crate `act_..` declares as public, must be passed on, too, so that a reader
can import it; or its crate is named in the same paragraph or item. Names of crates that stand on the door are theirs.
"""
import re
import sys

import audit
import named
import program

DOOR = "actors"
GUIDE = "docs/guide.md"
HEAD = re.compile(r"(?:impl(?:<.*?>)?|(pub trait)) (?:[\w:<>, ']+ for )?(\w+)")
FUNCTION = re.compile(r"    (pub )?(?:const )?fn ")
GHOST = re.compile(r"    ghost (?:(Value) =|\w+:) \{ (.*) \};")
# What a file declares for other crates, by its ending.
PUBLIC = {
    ".rt": re.compile(r"^pub (?:const |unsafe )?(?:fn|struct|enum|trait|type|const) (\w+)", re.M),
    ".antt": re.compile(r"^(?:abbrev pub|unfoldable pub|pub record|pub data) (\w+)", re.M),
}


def lines_of(part):
    """The lines of the door's files of this part, with what stands in braces on one line."""
    for path in sorted((audit.CRATES / DOOR / part).glob("*.*t*")):
        yield from re.sub(r"(?<=[{,])\n\s*|,?\n(?=\})", " ", path.read_text()).split("\n")


def passed_calls():
    """What the code passes on: each name with its crate."""
    for line in lines_of("src"):
        if found := re.match(r"pub use (\w+)::(.*);$", line):
            yield from ((found[1], name) for name in re.findall(r"\w+", found[2]))


def passed_words():
    """What specs/ passes on: each word with its module, and a whole module with no word."""
    for line in lines_of("specs"):
        if found := re.match(r"pub use ([\w.]+?)(?:\.\{(.*)\})?$", line):
            names = [None] if found[2] is None else found[2].split(", ")
            yield from ((found[1], name and name.split(" as ")[0]) for name in names)


def home_of(sources, crate, name):
    """The crate and the file in which a name is declared that this crate shows."""
    owner, *module, _ = sources.file(crate, "src", ["lib"]).uses[name].split("::")
    return (crate, sources.file(crate, "src", module)) if owner == "crate" else home_of(sources, owner, name)


def clauses_of(sources, crate, name):
    """The texts that come with a name, each with the file and the number of its line."""
    home, declared = home_of(sources, crate, name)
    for number, line in enumerate(declared.lines, 1):
        if re.match(rf"pub fn {name}\b", line):
            yield from clauses_at(declared, number)
    for path in sorted((audit.CRATES / home / "src").glob("*.rt")):
        file, head = sources.file(home, "src", [path.stem]), None
        for number, line in enumerate(file.lines, 1):
            head = HEAD.match(line) if line[:1].strip() else head
            if not head or head[2] != name:
                continue
            if (found := FUNCTION.match(line)) and (found[1] or head[1]):
                yield from clauses_at(file, number)
            if (found := GHOST.match(line)) and (found[1] or head[1]):
                yield found[2], file.views[name].scope if found[1] else file, number


def clauses_at(file, number):
    for text, line in audit.function_at(file.lines, number).clauses:
        yield text, file, line


def words_of(sources, text, scope):
    """The words of a text that a crate of this library defines, each with its module."""
    for token in audit.tokens_of(text.split("\n")):
        head, *rest = token.text.split(".")
        within = scope
        while within.around and head not in {**within.targets, **within.aliases}:
            within = within.around
        path, name = within.targets.get(head, ("", ""))
        if head in within.aliases and rest:
            path, name = within.aliases[head][0], rest[0]
        if path and sources.is_own(path.split(".")[1]):
            yield path, name


def homes_of(sources):
    """Of each public name of src/ and specs/ the crates that declare it."""
    homes = {}
    for path, text in sources.texts.items():
        found = re.fullmatch(r"crates/(\w+)/(?:src|specs)/.*(\.rt|\.antt)", path)
        for name in PUBLIC[found[2]].findall(text) if found else ():
            homes.setdefault(name, set()).add(found[1])
    return homes


def faults_of_guide(text, sources):
    """What the guide names, this library declares, and the door doesn't pass on. A method or a ghost member comes with
    its type."""
    passed = {name for _, name in [*passed_calls(), *passed_words()] if name}
    known = passed.union(*(sources.members.get(name, set()) for name in passed))
    clients = {crate for crate, below in program.listed().items() if DOOR in below}
    homes = homes_of(sources)
    for number, paragraph in named.paragraphs_of(text):
        spans = named.code_of(paragraph)
        words = {word for code in spans for word in re.findall(r"(?<![\w/.:])[A-Za-z]\w{2,}", code)}
        for name in sorted(words - known):
            crates = homes.get(name, set())
            ours = sorted(crate for crate in crates if crate.startswith("act_"))
            if ours and not crates & {*clients, *spans}:
                yield f"{GUIDE}:{number}: the door doesn't pass on {name}, of {', '.join(ours)}"


def main():
    sources = audit.Sources()
    passed = set(passed_words())
    missed, count = set(), 0
    for crate, name in passed_calls():
        for text, scope, number in clauses_of(sources, crate, name):
            count += 1
            for path, word in words_of(sources, text, scope):
                if (path, word) not in passed and (path.removesuffix(".TheVariants"), None) not in passed:
                    place = f"{scope.path.relative_to(audit.TOP)}:{number}"
                    missed.add(f"{place}: {name} names {path}.{{{word}}}, which the door doesn't pass on")
    texts = named.texts_there()
    faults = [*sorted(missed), *faults_of_guide(texts[GUIDE], named.Sources(texts))]
    for line in faults:
        print(line)
    print(f"door: {count} clauses looked at: {len(faults)} failed")
    return 1 if faults else 0


if __name__ == "__main__":
    sys.exit(main())
