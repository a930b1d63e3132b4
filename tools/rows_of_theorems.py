#!/usr/bin/env python3
"""Compares the worked scripts beside the program with the theorems of the rules.

Each theorem of act_rows that says what a script writes, line by line, must have a script of the same
bytes in crates/ray_actors/rows, with the same report. So what the gate proves of the definitions is
what the tests and the tools ask of the program. Theorems whose lines are computed (long lines, and
bytes that don't print) are left to the other scripts. `--list` names the script of each theorem. Ends
with status 1 where one is missing or differs, and where a file has no theorem to compare.
"""
import pathlib
import re
import sys

TOP = pathlib.Path(__file__).resolve().parent.parent
SPECS = TOP / "crates/act_rows/specs"
ROWS = TOP / "crates/ray_actors/rows"
FILES = ["ScriptRows", "FurtherRows", "EndRows", "PendingRows", "LineRows"]
# How many uses of these words in a file are definitions of others.
DEFINED = {"LineRows": 2}
HEADER = "actor a1 counter c1"
STRING = re.compile(r'codes "((?:[^"\\]|\\.)*)"')
USE = re.compile(r"(?:=|:) (?:Writes|IsFaulty|LineWrites) ")
REPORT = re.compile(r"^abbrev pub (\w+_report) : List \(List ℕ\)\n\1 =\n(.*?)\n\n", re.S | re.M)
THEOREM = re.compile(r"(?:abbrev pub (\w+) : Type 0\n\w+ =|^  pub (\w+) :) (Writes|IsFaulty|LineWrites) (.*?)(?=\n\n|\n  pub |\n  -- |\Z)", re.S | re.M)


def lines_of(text):
    """The lines of a list of texts."""
    return [line.replace('\\"', '"').replace("\\\\", "\\") for line in STRING.findall(text)]


def arguments(text):
    """The arguments of a word: what stands in brackets on the outside, and bare words."""
    found, depth, start, in_text = [], 0, 0, False
    for place, letter in enumerate(text):
        if letter == '"' and text[place - 1] != "\\":
            in_text = not in_text
        elif not in_text and letter == "(":
            start, depth = (place if depth == 0 else start), depth + 1
        elif not in_text and letter == ")":
            depth -= 1
            if depth == 0:
                found.append(text[start : place + 1])
    bare = re.sub(r"\s+", " ", text).rsplit(" ", 1)[-1]
    return found + [bare] if bare.endswith("_report") else found


def reports():
    """The reports that the theorems of events name."""
    return {name: lines_of(text) for name, text in REPORT.findall((SPECS / "Rows.antt").read_text())}


def theorem(kind, text, named):
    """The script's lines and the report's, of a theorem; nothing where its lines are computed."""
    if "replicate" in text or "++" in text or "comment" in text:
        return None
    parts = [named.get(part) if part in named else lines_of(part) for part in arguments(text)]
    if kind == "IsFaulty":
        return [HEADER] + parts[0], ["line 2: BadLine"]
    if kind == "LineWrites":
        return ([HEADER] + parts[0], parts[1]) if len(parts) == 2 else None
    return tuple(parts) if len(parts) == 2 else None


def theorems_of(file, named):
    """Each theorem of a file that says what a script writes, with its name."""
    source = (SPECS / f"{file}.antt").read_text()
    found = THEOREM.findall(source)
    # A theorem of a form that is not known here would else be passed over.
    if len(found) != len(USE.findall(source)) - DEFINED.get(file, 0):
        sys.exit(f"rows_of_theorems: a theorem of {file}.antt is not read")
    told = [(f"{file}.{top or field}", theorem(kind, text, named)) for top, field, kind, text in found]
    compared = [each for each in told if each[1] is not None]
    if not compared:
        sys.exit(f"rows_of_theorems: no theorem of {file}.antt says what a script writes")
    return compared


def theorems():
    """The same of all files."""
    named = reports()
    return [each for file in FILES for each in theorems_of(file, named)]


def bytes_of(lines):
    return "".join(line + "\n" for line in lines).encode("ascii")


def main():
    rows = {path.read_bytes(): path for path in sorted(ROWS.glob("*.actors"))}
    wrong, count = [], 0
    for name, (script, report) in theorems():
        path = rows.get(bytes_of(script))
        count += 1
        if path is None:
            wrong.append(f"{name}: no script of these bytes")
        elif path.with_suffix(".report").read_bytes() != bytes_of(report):
            wrong.append(f"{name}: another report in {path.stem}")
        elif "--list" in sys.argv[1:]:
            print(f"{name}: {path.stem}")
    for line in wrong:
        print(f"rows_of_theorems: {line}", file=sys.stderr)
    print(f"rows_of_theorems: {count - len(wrong)} passed, {len(wrong)} failed")
    sys.exit(1 if wrong else 0)


if __name__ == "__main__":
    main()
