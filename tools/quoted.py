#!/usr/bin/env python3
"""Compares the code that the pages show with the code that the gate proves, byte for byte.

A page quotes by a fenced block whose first line names the file, as "```rust crates/../main.rt". The lines
of the block must stand in that file one after another, but for the spaces that all of them begin with. The
guide has to quote the first program whole, and the README a part of it. The guide and the README of each
crate show no code but quotes, and each crate's README shows some.
"""
import sys
from dataclasses import dataclass
from pathlib import Path

TOP = Path(__file__).resolve().parent.parent
README = "README.md"
GUIDE = "docs/guide.md"
FIRST_PROGRAM = "crates/example_first/src/main.rt"
# The files that a page quotes whole, or in part.
WHOLE = {GUIDE: [FIRST_PROGRAM]}
IN_PART = {README: [FIRST_PROGRAM], GUIDE: ["crates/example_traced/src/main.rt"]}
# The README of each crate.
OF_CRATES = sorted(str(path.relative_to(TOP)) for path in TOP.glob("crates/*/README.md"))
# Pages that show no code but quotes.
QUOTES_ALONE = {GUIDE, *OF_CRATES}
FENCE = "```"


@dataclass
class Block:
    """A fenced block: the number of its first line, the words after its fence, and its lines."""

    first: int
    words: list
    lines: list

    def path(self):
        """The file that it names, or None."""
        return self.words[1] if len(self.words) == 2 else None


def lines_of(path):
    """The lines of a file of the repository, with nothing translated."""
    return (TOP / path).read_bytes().decode().split("\n")


def parts_of(page):
    """The blocks of a page, and its other lines, each with its number."""
    blocks, others, block = [], [], None
    for number, line in enumerate(lines_of(page), 1):
        if line.startswith(FENCE) and block is None:
            block = Block(number, line.removeprefix(FENCE).split(), [])
        elif line == FENCE:
            blocks.append(block)
            block = None
        elif block is not None:
            block.lines.append(line)
        else:
            others.append((number, line))
    if block is not None:
        sys.exit(f"quoted: {page}:{block.first}: the block has no end")
    return blocks, others


def flush(lines):
    """The lines without the spaces that all of them begin with."""
    margin = min((len(line) - len(line.lstrip(" ")) for line in lines if line), default=0)
    return [line[margin:] for line in lines]


def stands_in(quote, lines):
    """Whether the quote's lines stand among these one after another."""
    wanted, count = flush(quote), len(quote)
    return any(flush(lines[at : at + count]) == wanted for at in range(len(lines) - count + 1))


def is_whole(block):
    """Whether a quote has all lines of its file."""
    return block.lines + [""] == lines_of(block.path())


def fault_of(block):
    """Why a block is no quote, or None."""
    path = block.path()
    if path is None or not (TOP / path).is_file():
        return "the block names no file that it quotes"
    if not any(block.lines):
        return "the block is empty"
    return None if stands_in(block.lines, lines_of(path)) else f"these lines don't stand so in {path}"


def indented(others):
    """The numbers of the lines that markdown takes for code without a fence."""
    return [number for number, line in others if line.startswith("    ") and line.strip()]


def faults_in(page):
    """What is wrong with a page, each with its line."""
    blocks, others = parts_of(page)
    named = [block for block in blocks if page in QUOTES_ALONE or block.path()]
    told = [(block.first, fault) for block in named if (fault := fault_of(block))]
    if page in QUOTES_ALONE:
        told += [(number, "code stands here without a fence") for number in indented(others)]
    if not named:
        told.append((1, "the page quotes nothing"))
    for path in {*WHOLE.get(page, []), *IN_PART.get(page, [])}:
        quotes = [block for block in named if block.path() == path]
        if not quotes:
            told.append((1, f"the page doesn't quote {path}"))
        elif path in WHOLE.get(page, []) and not any(map(is_whole, quotes)):
            told.append((quotes[0].first, f"this is not the whole of {path}"))
    return told, len(named)


def main():
    """Whether each page is as the code is."""
    failed, count = 0, 0
    for page in (README, GUIDE, *OF_CRATES):
        faults, quotes = faults_in(page)
        for line, fault in sorted(faults):
            print(f"quoted: {page}:{line}: {fault}")
        failed, count = failed + len(faults), count + quotes
    print(f"quoted: {count} blocks compared: {failed} failed")
    return failed == 0


if __name__ == "__main__":
    sys.exit(0 if main() else 1)
