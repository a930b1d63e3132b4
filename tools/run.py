#!/usr/bin/env python3
"""Runs the program on a script.

    ./run play|threads [FILE]

Without FILE, or where it is `-`, the script is read from the standard input. The report goes to the standard
output, and notes to the standard error. The status is the program's: 0; 1 for a script fault; 2 for wrong words,
and for a file that can't be read; 3 for no memory or no thread; 4 where reading or writing failed.
"""
import subprocess
import sys

import program

USAGE = "usage: ./run play|threads [FILE]    (without FILE, or where it is `-`, the standard input)\n"
FAULT = 1
FOR_BOTH = {b"actor", b"submit", b"copy", b"release", b"kill"}


def first_words(script):
    """The first word of each line that isn't a comment."""
    return {line.split(b" ")[0] for line in script.split(b"\n") if line and not line.startswith(b"#")}


def tell_unsent(tool, script, way="./run threads FILE"):
    """Of a script that was played: says so where no call was ever sent, as in one for threads, for which there is a
    way."""
    words = first_words(script)
    if b"submit" in words and b"send" not in words:
        like_threads = f"; the script looks like one for threads: {way}" if words <= FOR_BOTH else ""
        program.say(tool, "no call was ever sent, since no line says `send`" + like_threads)


def explained(script, mode):
    """What ./explain tells of a script."""
    import explain  # a fault is rare, and its imports are dear

    return explain.explained(mode, script)


def explanation(script, mode):
    """The same as text."""
    return explained(script, mode).text()


def outcome_of(command, script, output=None):
    """Runs a command on a script. Its status, and what it wrote to a pipe."""
    # Where nobody reads on, the program is to say so, and not to be ended by the signal.
    done = subprocess.run(command, input=script, stdout=output, restore_signals=False)
    if done.returncode < 0:
        raise program.Stop(f"the program was ended by signal {-done.returncode}", 128 - done.returncode)
    return done.returncode, done.stdout


def run(tool, command, mode, script):
    """Runs a command that reads scripts of this mode, and tells what a reader of its report may miss. Its status."""
    status, _ = outcome_of(command, script)
    if status == 0 and mode == "play":
        tell_unsent(tool, script)
    if status == FAULT:
        program.note_fault(explanation(script, mode))
    return status


def main():
    words = sys.argv[1:]
    if program.asks_for_help(words):
        program.write_out(__doc__)
        return 0
    is_silent = len(words) == 1 and sys.stdin is not None and sys.stdin.isatty()
    if len(words) not in (1, 2) or words[0] not in ("play", "threads") or is_silent:
        program.note(USAGE)
        return program.WRONG_WORDS
    script = program.script_in(words[1] if len(words) == 2 else "-")
    return run("run", [program.kept("run"), words[0]], words[0], script)


if __name__ == "__main__":
    program.ended("run", main)
