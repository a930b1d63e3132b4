#!/usr/bin/env python3
"""Checks what pages say twice: the version, and which tools there are.

The version is the newest of CHANGELOG.md, and each place of VERSIONED must name it and no other. tools/README.md must
have a line for each tool, and for nothing else, with a star where ./test runs it. Each line of docs/glossary.md ends
with a name and its file, which must have that name. Each crate of crates.txt has a README.md of at most 30 lines, which
tells on which crates it stands. The pages of SHORT_PAGES have at most so many lines, and the index of docs/notes links
each note.

No page of the repository, in whatever folder, has a line over 120 columns, but where a block quotes a file, or a
sentence of over 30 words. In docs/edits.md, which is a list that a tool writes, sentences don't count. It is counted so:

  - Prose is what is in no block: neither behind a fence nor four spaces in. Headings and pictures are none.
  - A paragraph, an item of a list and a cell of a table are each a text of their own.
  - A sentence ends at a `.`, `?` or `!` before a space or the end of its text; `..` ends none, nor do `:` and `;`.
  - A word is what stands between spaces and has a letter or a digit. A piece of code is one word, and of a link its
    text counts.
"""
import os
import pathlib
import re

import program
import steps
from named import LEFT_BY_RUNS
from program import TOP

VERSIONED = ["README.md", "crates.txt", "crates/ray_actors/src/main.rt"]
GLOSSARY = "docs/glossary.md"
WRITTEN_BY_TOOLS = {"docs/edits.md"}
# Pages that are for a first reading, and how many lines each may have.
SHORT_PAGES = {"README.md": 120, "docs/architecture.md": 130, "docs/measures.md": 150}
NOTES = "docs/notes/README.md"
# What a crate's README may have.
MAX_LINES = 30
MAX_COLUMNS = 120
MAX_WORDS = 30
# The lines of the glossary that are of no single file.
WITHOUT_FILE = ("- **clause, premise**", "- **must-fail edit**")
NOT_TOOLS = {"README.md", "__pycache__"}


def version():
    """The newest version that the changelog has."""
    found = re.search(r"^## (\d+\.\d+\.\d+)", (TOP / "CHANGELOG.md").read_text(), re.MULTILINE)
    if not found:
        raise program.Stop("CHANGELOG.md has no version", 1)
    return found[1]


def faults_of_versions(wanted):
    """The places that don't name this version, or name another."""
    for place in VERSIONED:
        named = set(re.findall(r"(?<![\d.])\d+\.\d+\.\d+(?!\.?\d)", (TOP / place).read_text()))
        if named != {wanted}:
            yield f"{place} names the versions {sorted(named)}, and CHANGELOG.md {wanted}"


def faults_of_tools():
    """The tools without a line, and the lines without a tool."""
    lines = re.findall(r"^\| (`.*?) \|", (TOP / "tools/README.md").read_text(), re.MULTILINE)
    names = {line: [name.rstrip("/") for name in re.findall(r"`([^`]+)`", line)] for line in lines}
    listed = {name for line in lines for name in names[line]}
    there = {path.name for path in (TOP / "tools").iterdir()} - NOT_TOOLS
    yield from (f"tools/README.md has no line for {name}" for name in sorted(there - listed))
    yield from (f"tools/README.md has {name}, which isn't there" for name in sorted(listed - there))
    starred = {name for line in lines if line.endswith("*") for name in names[line]}
    differing = sorted(starred ^ steps.tools())
    yield from (f"tools/README.md: {name} has a star, or ./test runs it, and not both" for name in differing)


def faults_of_words():
    """The lines of the glossary whose name isn't where they say."""
    for number, line in enumerate((TOP / GLOSSARY).read_text().split("\n"), 1):
        if not line.startswith("- ") or line.startswith(WITHOUT_FILE):
            continue
        found = re.search(r"`(\w+)`, ([\w/.]+)$", line)
        path = program.CRATES / found[2] if found else None
        if not found or not path.is_file():
            yield f"{GLOSSARY}:{number} names no file"
        elif not re.search(rf"\b{found[1]}\b", path.read_text()):
            yield f"{GLOSSARY}:{number}: {found[2]} has no {found[1]}"


def faults_of_crates():
    """The crates without a README.md, and those in which it is long."""
    for crate in sorted(program.listed()):
        page = program.CRATES / crate / "README.md"
        if not page.is_file():
            yield f"crates/{crate} has no README.md"
        elif (count := page.read_text().count("\n")) > MAX_LINES:
            yield f"crates/{crate}/README.md has {count} lines, and may have {MAX_LINES}"
        elif told_below(page) != sorted(program.listed()[crate]):
            yield f"crates/{crate}/README.md tells other crates below it than crates.txt"


def told_below(page):
    """The crates on which this one stands, as its README tells."""
    found = re.search(r"^- \*\*Stands on\*\*: (.*?)\.$", page.read_text(), re.MULTILINE | re.DOTALL)
    words = re.split(r"; of the kit: |,", " ".join(found[1].split())) if found else []
    return sorted(word.strip() for word in words if word.strip() != "none of the others")


def faults_of_lengths():
    """The pages for a first reading that are too long for it."""
    for page, most in SHORT_PAGES.items():
        if (count := (TOP / page).read_text().count("\n")) > most:
            yield f"{page} has {count} lines, and may have {most}"


def faults_of_notes():
    """The notes that their index doesn't link."""
    index = TOP / NOTES
    linked = set(re.findall(r"\]\((\w+\.md)\)", index.read_text()))
    notes = {path.name for path in index.parent.glob("*.md")} - {index.name}
    yield from (f"{NOTES} has no link to {name}" for name in sorted(notes - linked))


# Plain English.


def lines_of(page):
    """The lines of a page, each with its number and whether it stands in a block."""
    fenced = False
    for number, line in enumerate((TOP / page).read_text().split("\n"), 1):
        is_fence = line.startswith("```")
        yield number, line, fenced or is_fence or line.startswith("    ")
        fenced ^= is_fence


def texts_of(page):
    """The texts of a page, each with the number of its first line."""
    first, text = 0, []
    for number, line, in_block in [*lines_of(page), (0, "", False)]:
        item = re.match(r" *(?:[-*]|\d+\.) +", line)
        ends = in_block or not line.strip() or line.startswith(("#", "|", "!["))
        if text and (ends or item):
            yield first, " ".join(text)
            text = []
        if line.startswith("|") and not in_block:
            yield from ((number, cell) for cell in re.split(r"(?<!\\)\|", line))
        elif not ends:
            first = first if text else number
            text.append(line[item.end() if item else 0 :].strip())


def sentences_of(text):
    """The sentences of a text, with a piece of code as one word and of a link its text."""
    plain = re.sub(r"\[([^\]]*)\]\([^)]*\)", r"\1", re.sub(r"`[^`]*`", "code", text))
    return re.split(r'(?<=[^.][.?!])[)"*]*\s+', plain)


def words_of(sentence):
    return [word for word in sentence.split() if re.search(r"\w", word)]


def faults_of_columns(page):
    """The lines of a page that are too long."""
    for number, line, in_block in lines_of(page):
        if len(line) > MAX_COLUMNS and not in_block:
            yield f"{page}:{number} has {len(line)} columns, and may have {MAX_COLUMNS}"


def faults_of_sentences(page):
    """The sentences of a page that are too long."""
    for number, text in texts_of(page):
        for sentence in sentences_of(text):
            if (count := len(words_of(sentence))) > MAX_WORDS:
                start = " ".join(sentence.split()[:6])
                yield f"{page}:{number}: a sentence of {count} words, and it may have {MAX_WORDS}: {start} .."


def all_pages():
    """Each page of the repository, in whatever folder, but those that runs and builds leave."""
    found = set()
    for folder, folders, names in os.walk(TOP):
        folders[:] = set(folders) - LEFT_BY_RUNS
        pages = (pathlib.Path(folder, name) for name in names if name.endswith(".md"))
        found.update(str(page.relative_to(TOP)) for page in pages)
    return found


def plain_pages():
    """The pages whose sentences count."""
    return all_pages() - WRITTEN_BY_TOOLS


def main():
    faults = [
        *faults_of_versions(version()),
        *faults_of_tools(),
        *faults_of_words(),
        *faults_of_crates(),
        *faults_of_lengths(),
        *faults_of_notes(),
        *(fault for page in sorted(all_pages()) for fault in faults_of_columns(page)),
        *(fault for page in sorted(plain_pages()) for fault in faults_of_sentences(page)),
    ]
    for fault in faults:
        print(fault)
    print(f"pages: version {version()}: {len(faults)} failed")
    return 1 if faults else 0


if __name__ == "__main__":
    program.ended("pages", main)
