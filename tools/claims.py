#!/usr/bin/env python3
"""Checks that what the pages speak of is there: names, files, links, the kit, and what can be counted.

The pages are README.md, CONTRIBUTING.md, those of docs with its folders and of examples, tools/README.md, and the README
of each crate. CHANGELOG.md has names of earlier versions, and docs/edits.md is written by a tool, so of these two only
links count.

  - Each link leads to a file, and each anchor to a heading of it.
  - Each file that is named, in backticks or not, ends as some file of the repository does.
  - Each word in backticks stands in a source, comments left out. `Type::name` is a function, a variant or a constant
    of that type, `Record.field` a field of that record, and an option of a tool stands in that tool.
  - Each crate that a block names is there, too, as in the figures of docs/architecture.md.
  - Where a name comes with its file (`IsJoined`, act_executor/specs/Joined.antt), or with its crate (`Page` of
    `act_mailbox`, or a row of a table whose next cell is a crate), that file or crate has it.
  - A clause that is told behind a function, as `run_plans` (`joined`), or in its row of a table, is one of its clauses.
  - In a table of contracts, as docs/proved.md has one for each crate, the crate has the call, the call the clause, and
    the file the definition (tools/contracts.py). So it is with a table that names a crate in its last column.
  - What a crate's README names under "Carried by" stands in that crate.
  - README.md names the kit as `rt version` does, where `rt` is there, and docs/proved.md the crates of the kit that
    crates.txt names. Each command of `rt` that a page calls, and each flag, stands in `rt --help`.
  - Each number that tools/counted.py knows is what the sources say, and so are some lists.
  - No crate proves the body of a function, or that a type may go to another thread, by a proof written by hand, and none
    has something `unsafe` but the calls that docs/DECISIONS.md counts.
  - No page, and no other text of the repository, has a word of SPOKEN: none speaks of somebody who asked for something,
    or who was told.

Names that no source has are those of ELSEWHERE, each with its reason.
"""
import re

import program
from contracts import faults_of_tables
from counted import faults_of_kit, faults_of_lists, faults_of_numbers
from named import NO_SOURCES, Sources, code_of, lines_of_page, paragraphs_of, texts_there, words_of

# Where the kit looks for such a proof.
BY_HAND = re.compile(r"crates/\w+/proofs/(.*/)?(Proof\.antt|TheSend\w*/.*)")
# Pages of which links alone are looked at: the first has names as they were, the second is written by a tool.
LINKS_ALONE = {"CHANGELOG.md", "docs/edits.md"}
# Names that are no names of this repository, by the reason.
ELSEWHERE = {
    "Ray's": "remote ray ObjectRef RayTaskError ActorDiedError PendingCallsLimitExceeded __ray_terminate__",
    "Ray's options": "max_restarts max_task_retries max_pending_calls",
    "the kit's": "plant tidy start_io start_lib generated margin short goals",
    "other programs'": "chrt perf strace memchr",
    "what docs/notes/lines.md calls forms that were tried": "bits lots",
    "parts of names": "MAX_ tests_ tests_of_",
    "what a reader puts in": "NAME CRATE FILE SCRIPT REPORT TEXT",
}
STAND_INS = {"NAME", "FILE", "CRATE"}
ALSO_THERE = {name for names in ELSEWHERE.values() for name in names.split()}
KIT = r"`rattle-kit-\w+(?: logic \w+)?`|`logic \w+`"
FILE = r"(?<![\w./{*-])[\w{][\w./{}*-]*\.(?:rt|antt|py|actors|play|history|md|c|rs|svg|txt)\b(?!\.[\w{])"
# Words that tell of somebody who asked, planned or was told, whom no reader knows.
SPOKEN = re.compile(
    r"\b(?:we|us|users?|readers?) (?:were|was) (?:asked|told)\b|\bmore than was asked\b|\b[Tt]he plan had\b"
    r"|\bwas left free\b|\b[Tt]he (?:task|brief|issue|request) (?:says|asks|wants|had)\b"
    # An aim without somebody whose it is.
    r"|\b[Tt]he (?:limit|goal|aim|target) is (?:at most )?\d"
)


def headings_of(text):
    """The anchors of a page, as its headings make them."""
    heads = [line.lstrip("# ") for _, line in lines_of_page(text) if line.startswith("#")]
    return {re.sub(r"[^\w\- ]", "", head.lower()).strip().replace(" ", "-") for head in heads}


# What is wrong with a page.


def faults_of_links(page, text, texts):
    """The links that lead to no file, or to no heading of it."""
    folder = page.rpartition("/")[0]
    for number, line in lines_of_page(text):
        for to, anchor in re.findall(r"\]\(([^)#\s]*)(?:#([^)]*))?\)", line):
            if to.startswith(("http:", "https:")):
                continue
            path = page if not to else normal(f"{folder}/{to}")
            if path not in texts and not any(each.startswith(path + "/") for each in texts):
                yield number, f"the link to {to} leads to no file"
            elif anchor and not is_anchor(anchor, path, texts[path]):
                yield number, f"{path} has no #{anchor}"


def is_anchor(anchor, path, text):
    """Whether the anchor is a heading of a page, or a line of another file."""
    if path.endswith(".md"):
        return anchor in headings_of(text)
    return re.fullmatch(r"L\d+", anchor) is not None and int(anchor[1:]) <= text.count("\n")


def normal(path):
    parts = []
    for part in path.split("/"):
        if part == "..":
            parts = parts[:-1]
        elif part not in ("", "."):
            parts.append(part)
    return "/".join(parts)


def faults_of_files(text, sources):
    """The files that are named and aren't there."""
    for number, line in lines_of_page(text):
        for path in re.findall(FILE, re.sub(r"\]\([^)]*\)", "]", line)):
            stem = path.rpartition("/")[2].partition(".")[0]
            is_passed = path.startswith(("Rattle", "bank.", "NAME", "one_call.svg")) or stem in STAND_INS
            # A record's field can be called as a file ends.
            is_field = path.partition(".")[2] in sources.members.get(stem, ())
            if not is_passed and not is_field and not sources.ending_so(path.removeprefix("../").removeprefix("./")):
                yield number, f"no file {path}"


def faults_of_names(text, sources):
    """The names in backticks that no source has."""
    for number, paragraph in paragraphs_of(text):
        for code in code_of(re.sub(KIT, "", paragraph)):
            bare = re.sub(FILE, " ", code)
            for word in re.findall(r"(?<![\w/.])[A-Za-z_]\w{2,}", bare):
                if word not in sources.words and word not in ALSO_THERE:
                    yield number, f"no source has {word}, of `{code}`"
            for owner, member in re.findall(r"\b([A-Z]\w*)(?:<\w+>)?::(\w+)", bare):
                if owner in sources.declared and member not in sources.members[owner]:
                    yield number, f"{owner} has no {member}, of `{code}`"
            for record, field in re.findall(r"(?<![\w.])([A-Z]\w+)\.([a-z]\w*)", bare):
                if record in sources.declared and field not in sources.members[record]:
                    yield number, f"{record} has no field {field}, of `{code}`"
            for crate, part, module in re.findall(r"\bRattle\.(\w+)\.(specs|proofs)\.(\w+)", code):
                is_module = f"crates/{crate}/{part}/{module}.antt" in sources.texts or module in sources.declared
                if crate != "std" and module != "declared" and not is_module:
                    yield number, f"{crate} has no module {module}, of `{code}`"
            yield from ((number, fault) for fault in faults_of_options(code, sources))


def faults_of_blocks(text, sources):
    """The crates in figures and calls that aren't there."""
    prose = {number for number, _ in lines_of_page(text)}
    for number, line in enumerate(text.split("\n"), 1):
        for word in re.findall(r"(?<![\w.])(?:act|ray|own|tests_of)_\w+", line) if number not in prose else ():
            if word not in sources.words:
                yield number, f"no source has {word}"


def faults_of_options(code, sources):
    """The options in a call of a tool that the tool doesn't have."""
    tool = re.search(r"tools/(\w+\.py)|^\./(\w+)", code)
    if not tool:
        return
    path = f"tools/{tool[1]}" if tool[1] else tool[2]
    path = path if tool[1] or path == "test" else f"tools/{path}.py"
    text = sources.texts.get(path, "")
    for option in re.findall(r"(?<=\s)--[a-z][\w-]*", code):
        if option not in text and option != "--help":
            yield f"{path} has no option {option}, of `{code}`"


def faults_of_homes(text, sources, crates):
    """The names that aren't in the file or in the crate with which they are told."""
    # A name between backticks, of which the last part counts: `World::apply` is looked for as `apply`.
    last = r"`(?:[\w:<>]*::)?(\w+)(?:\([^`]*\))?`"
    for number, paragraph in paragraphs_of(text):
        place = r"((?:\w+/)?(?:specs|src|proofs)/[\w/]+\.(?:antt|rt))"
        for name, path in re.findall(rf"{last},? \(?{place}", paragraph):
            files = sources.ending_so(path)
            if files and not any(name in words_of(sources.texts[file]) for file in files):
                yield number, f"{path} has no {name}"
        for name, crate in re.findall(rf"{last} (?:of|in|\() ?`?(?:crates/)?(\w+)`?", paragraph):
            if crate in crates and name not in sources.words_of(f"crates/{crate}/"):
                yield number, f"{crate} has no {name}"
        cells = paragraph.split("|")[1:-1] if paragraph.startswith("|") else []
        for before, cell in zip(cells, cells[1:]):
            homes = code_of(cell)
            if re.fullmatch(r" (?:`\w+`,? )+", cell) and set(homes) <= crates:
                words = set().union(*(sources.words_of(f"crates/{home}/") for home in homes))
                for name in re.findall(last, before):
                    if name not in words and name not in crates:
                        yield number, f"{cell.strip()} has no {name}"


def faults_of_clauses(text, sources, crates):
    """The clauses in brackets behind a function, or in the row of one, that the function doesn't have."""
    for number, paragraph in paragraphs_of(text):
        calls = re.findall(r"`(?:\w+::)*(\w+)` \(((?:[^()`]*`[^`]+`[^()`]*)+)\)", paragraph)
        pairs = [([name], told) for name, told in calls]
        cells = [cell.strip() for cell in paragraph.split("|")[1:-1]] if paragraph.startswith("|") else []
        if len(cells) == 4 and set(code_of(cells[1])) & crates:
            pairs.append((re.findall(r"`(?:\w+::)*(\w+)`", cells[0]), cells[3]))
        for names, told in pairs:
            words = set().union(*(sources.clauses.get(name, set()) for name in names))
            for label in re.findall(r"`([a-z]\w*)`", told) if words else ():
                # What decides a premise, or where else it stands, is told in brackets, too.
                if label not in words and label not in sources.clauses and label not in crates:
                    yield number, f"{' and '.join(names)} has no clause {label}"


def faults_of_carried(page, text, sources):
    """The names under "Carried by" that the crate of this README doesn't have."""
    crate = page.split("/")[1]
    for number, paragraph in paragraphs_of(text):
        if paragraph.startswith("- **Carried by**"):
            for name in words_of(" ".join(code_of(re.sub(FILE, " ", paragraph)))) - {crate}:
                if name not in sources.words_of(f"crates/{crate}/"):
                    yield number, f"the crate has no {name}"


def faults_of_speech(text):
    """The places of a page or of another text that speak of somebody who asked, planned or was told."""
    # A line may end within, and the next one begin as a comment does.
    for found in SPOKEN.finditer(re.sub(r"\n *(?:///?!?|--|#)? ?", " ", text)):
        yield f"whom no reader knows: {found[0]}"


def faults_by_hand(texts):
    """What the prover would take over from a text instead of checking it against the code: a body's proof by hand,
    and what is declared `unsafe`."""
    for path in sorted(texts):
        if BY_HAND.fullmatch(path):
            yield path, "a body, or that a type may be sent, is proved by hand"
        elif re.fullmatch(r"crates/\w+/src/.*\.rt", path) and re.search(r"^[^/]*\bunsafe (?!\{)", texts[path], re.MULTILINE):
            yield path, "something but a call is unsafe"


def faults_of_page(page, text, sources, texts, crates):
    """All that is wrong with a page, each with the number of its line."""
    yield from faults_of_links(page, text, texts)
    if page in LINKS_ALONE:
        return
    yield from faults_of_files(text, sources)
    yield from faults_of_names(text, sources)
    yield from faults_of_blocks(text, sources)
    yield from faults_of_homes(text, sources, crates)
    yield from faults_of_clauses(text, sources, crates)
    yield from faults_of_tables(text, sources, crates)
    if re.match(r"crates/\w+/README", page):
        yield from faults_of_carried(page, text, sources)


def faults(texts):
    """All faults, each with its place."""
    sources, crates = Sources(texts), program.listed()
    for page in sorted(path for path in texts if path.endswith(".md")):
        for number, fault in faults_of_page(page, texts[page], sources, texts, set(crates)):
            yield f"{page}:{number}", fault
    for path in sorted(set(texts) - NO_SOURCES):
        yield from ((path, fault) for fault in faults_of_speech(texts[path]))
    yield from faults_of_numbers(sources, texts)
    yield from faults_of_lists(sources, texts, program.ours())
    yield from faults_of_kit(texts)
    yield from faults_by_hand(texts)


def main():
    found = list(faults(texts_there()))
    for place, fault in found:
        print(f"{place}: {fault}")
    print(f"claims: {len(found)} failed")
    return 1 if found else 0


if __name__ == "__main__":
    program.ended("claims", main)
