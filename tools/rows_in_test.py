#!/usr/bin/env python3
"""Writes the worked scripts beside the program into the tables that the tests of scripts run.

The scripts of events make one table, and those for threads another, but for those whose report depends
on the schedule. Each table is written as functions of a few rows: the check of one function reads all
of its rows, and takes far longer the more there are, up to what it may read at all; and the tests that
call them are checked without the rows. `--check` writes nothing, and ends with status 1 where a table
is not that of the scripts.
"""
import pathlib
import sys

TOP = pathlib.Path(__file__).resolve().parent.parent
ROWS = TOP / "crates/ray_actors/rows"
THREAD_ROWS = TOP / "crates/ray_actors/thread_rows"
TESTS = TOP / "crates/tests_of_programs/src/console"
HEAD = """//! The worked scripts that lie beside the program, as tools/rows_in_test.py writes them.

use act_console::ConsoleFault;

/// A script, what is written of it, and how its run ends.
pub struct Row {
    pub script: &'static str,
    pub output: &'static str,
    pub answer: Result<(), ConsoleFault>,
}

"""
THREAD_HEAD = """//! The worked scripts for threads that lie beside the program, as tools/rows_in_test.py writes them.

use super::rows::Row;
use act_console::ConsoleFault;

"""
# So many rows stand in one function.
ROWS_AT_ONCE = 8
TABLES = {TESTS / "rows.rt": (HEAD, ROWS), TESTS / "thread_rows.rt": (THREAD_HEAD, THREAD_ROWS)}


def literal(data):
    """Bytes as a string literal of one line."""
    text = data.decode("ascii").replace("\\", "\\\\").replace('"', '\\"')
    return '"' + text.replace("\n", "\\n").replace("\t", "\\t").replace("\r", "\\r") + '"'


def row(path):
    """A script with its output and its answer, as a value of the table."""
    status = path.with_suffix(".status")
    fault = status.exists() and int(status.read_text()) == 1
    answer = "Err(ConsoleFault::Script)" if fault else "Ok(())"
    script, output = literal(path.read_bytes()), literal(path.with_suffix(".report").read_bytes())
    return f"        // {path.stem}\n        Row {{\n            script: {script},\n            output: {output},\n            answer: {answer},\n        }},\n"


def all_rows(count):
    """The function that gives the rows of all functions."""
    calls = [f"rows_{number}()" for number in range(1, count + 1)]
    line = f"[{', '.join(calls)}]"
    # As rt fmt lays out an array: on one line where it is short.
    array = line if len(line) <= 62 else "[\n" + "".join(f"        {call},\n" for call in calls) + "    ]"
    return f"/// All of the scripts.\npub fn tables() -> [&'static [Row]; {count}] {{\n    {array}\n}}\n"


def rows(number, paths):
    """A function that gives some of the rows."""
    return f"\nfn rows_{number}() -> &'static [Row] {{\n    &[\n{''.join(map(row, paths))}    ]\n}}\n"


def table(head, folder):
    """The whole file of the scripts in a folder; in threads of those with a fixed report."""
    paths = sorted(path for path in folder.glob("*.actors") if folder == ROWS or path.with_suffix(".report").exists())
    parts = [paths[at : at + ROWS_AT_ONCE] for at in range(0, len(paths), ROWS_AT_ONCE)]
    return head + all_rows(len(parts)) + "".join(rows(number, part) for number, part in enumerate(parts, 1))


def is_told(path, text):
    return path.exists() and path.read_text() == text


def main():
    texts = {path: table(*source) for path, source in TABLES.items()}
    if "--check" in sys.argv[1:]:
        stale = [path.name for path, text in texts.items() if not is_told(path, text)]
        if stale:
            sys.exit(f"rows_in_test: not the table of the scripts in act_console's tests: {', '.join(stale)}")
        return
    for path, text in texts.items():
        path.write_text(text)


if __name__ == "__main__":
    main()
