#!/usr/bin/env python3
"""Records a run of a script for threads, as a script of events that ends as the threads did.

    ./record [FILE]

Without FILE, or where it is `-`, the script is read from the standard input. The script of events goes to the
standard output, for `./run play` and `./draw`, and notes to the standard error. The status is the program's: 0; 1 for
a script fault; 2 for wrong words, and for a file that can't be read; 3 for no memory or no thread; 4 where reading or
writing failed; 5 where no play was found.
"""
import sys

import program
import run

USAGE = "usage: ./record [FILE]    (without FILE, or where it is `-`, the standard input)\n"


def main():
    words = sys.argv[1:]
    if program.asks_for_help(words):
        program.write_out(__doc__)
        return 0
    is_silent = not words and sys.stdin is not None and sys.stdin.isatty()
    if len(words) > 1 or any(word.startswith("-") and word != "-" for word in words) or is_silent:
        program.note(USAGE)
        return program.WRONG_WORDS
    script = program.script_in(words[0] if words else "-")
    records = program.RECORDS
    return run.run("record", [program.kept("record", records), *records.words], "threads", script)


if __name__ == "__main__":
    program.ended("record", main)
