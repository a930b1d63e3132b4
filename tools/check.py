#!/usr/bin/env python3
"""Checks whether a history, what callers and actors left, obeys the rules.

    ./check [--all] [--order] [FILE]

Without FILE, or where it is `-`, the history is read from the standard input: roles, what was submitted, and below
them a summary as `./run threads` prints it. The answer goes to the standard output: a script of events that ends so,
for `./run play` and `./draw`, or the line where no play can go on, and why. With --all every fault of what actors ran
and of what callers were answered is told, and not the first alone. Of a line that can't be read the standard error has
the line, a mark under what is wrong, and the reason.

The status is the program's: 0; 1 for a line that can't be read; 2 for wrong words, and for a file that can't be read; 3
for no memory; 4 where reading or writing failed; 5 where no play ends so.

A history whose first line is `history order` is judged by its order alone. Then the answer is `in order: N calls`, with
--order the order itself; or why there is none, with --all each reason.
"""
import subprocess
import sys

import program

LONGEST_HISTORY = 67_108_864
UNREAD = 1
OPTIONS = ["--all", "--order"]
USAGE = "usage: ./check [--all] [--order] [FILE]    (without FILE, or where it is `-`, the standard input)\n"


def check(command, history):
    """Runs the program on a history, and explains a line that it can't read. Its status."""
    done = subprocess.run(command, input=history, stdout=subprocess.PIPE)
    if done.returncode < 0:
        raise program.Stop(f"the program was ended by signal {-done.returncode}", 128 - done.returncode)
    program.write_out(done.stdout)
    if done.returncode == UNREAD:
        import explain_histories  # a fault is rare, and its imports are dear

        program.note_fault(explain_histories.explanation(history, done.stdout.decode("latin-1").partition("\n")[0]))
    return done.returncode


def main():
    words = sys.argv[1:]
    options = [word for word in words if word in OPTIONS]
    if program.asks_for_help(words):
        program.write_out(__doc__)
        return 0
    words = [word for word in words if word not in OPTIONS]
    is_silent = not words and sys.stdin is not None and sys.stdin.isatty()
    is_said_twice = len(options) > len({*options})
    if len(words) > 1 or is_said_twice or any(word.startswith("-") and word != "-" for word in words) or is_silent:
        program.note(USAGE)
        return program.WRONG_WORDS
    history = program.bytes_in(words[0] if words else "-", LONGEST_HISTORY + 1)
    if history.startswith(program.BY_ORDER):
        command = [program.kept_alone("check", program.ORDERS), *options]
    elif "--order" in options:
        raise program.Stop("--order is for a history whose first line is `history order`")
    else:
        checks = program.CHECKS_ALL if options else program.CHECKS
        history = history[: program.LONGEST_SCRIPT + 1]
        command = [program.kept("check", checks), *checks.words]
    return check(command, history)


if __name__ == "__main__":
    program.ended("check", main)
