"""The programs as every tool finds them, and what else the tools share.

A proved program is the one that the gate leaves. Where none stands, or a source is newer, an unproved one is built
once and kept, which plays, runs, records and checks. It is kept by what its sources hold, and not by their times: those
of the crates that it stands on, as crates.txt lists them.
"""
import contextlib
import hashlib
import itertools
import os
import pathlib
import sys

TOP = pathlib.Path(__file__).resolve().parent.parent
CRATES = TOP / "crates"
# What a program is made of, and what its proof rests on besides.
CODE = ["src"]
PROVED_CODE = ["src", "specs", "proofs"]
LONGEST_SCRIPT = 1_048_576
# The first line of a history that is judged by its order alone.
BY_ORDER = b"history order\n"
WRONG_WORDS = 2
WRITE_FAILED = 4


class Program:
    """What a command runs: the proved program of a crate, with these words. What is unproved has the same words."""

    def __init__(self, name, *words):
        self.name, self.words = name, words
        self.proved = CRATES / name / "out" / name


RUNS = Program("ray_actors")
RECORDS = Program("ray_commands", "record")
CHECKS = Program("ray_commands", "check")
ORDERS = Program("ray_orders")
CHECKS_ALL = Program("ray_commands", "check-all")
PROVED = RUNS.proved
# The one that is built unproved, for all of them.
UNPROVED = "ray_commands"
# The line of crates.txt below which tools/new_app.py puts apps.
APPS = "# apps of your own"
KEPT_IN = TOP / ".built"
PROJECT = "nelovashum"


class Stop(Exception):
    """Why a tool ends without what it was asked for, and the status."""

    def __init__(self, why, status=WRONG_WORDS):
        super().__init__(why)
        self.status = status


def say(tool, text):
    """One line on the standard error. Where that is closed the line is lost, and nothing else."""
    note(f"{tool}: {text}\n")


def note(text):
    with contextlib.suppress(OSError):
        os.write(2, text.encode())


def note_fault(text):
    """Says on the standard error what is wrong. Its first line, which is the program's, is left out where both outputs
    are a terminal, since it was shown there."""
    is_shown = os.isatty(1) and os.isatty(2)
    note(text.partition("\n")[2] if is_shown else text)


def ended(tool, main):
    """Runs a tool to its end: a Stop is one line and its status, and so is an interrupt. A reader that has read enough
    is no failure to tell of."""
    try:
        status = main()
        if sys.stdout is not None:  # it may be closed
            sys.stdout.flush()
        sys.exit(status)
    except BrokenPipeError:
        os.dup2(os.open(os.devnull, os.O_WRONLY), sys.stdout.fileno())
        sys.exit(141)
    except Stop as why:
        say(tool, why)
        sys.exit(why.status)
    except KeyboardInterrupt:
        say(tool, "interrupted")
        sys.exit(130)


# The crates that a program stands on.


def listed(top=TOP):
    """Of each crate of crates.txt the libraries that its line names."""
    return crates_in((top / "crates.txt").read_text())


def ours():
    """The same without the apps that somebody made in this clone, of which no page of the repository tells."""
    return crates_in((TOP / "crates.txt").read_text().partition(f"\n{APPS}\n")[0])


def crates_in(text):
    """Of each crate of such a text the libraries that its line names."""
    lines = [line.partition("#")[0] for line in text.splitlines()]
    crates = (line.partition(":") for line in lines if ":" in line)
    return {head.split()[0]: libraries.split() for head, _, libraries in crates}


def crates_of(name, crates):
    """The crate and those of this repository below it, each after those that it names."""
    below = [crate for library in crates[name] if library in crates for crate in crates_of(library, crates)]
    return list(dict.fromkeys([*below, name]))


def files_of(name, parts):
    """Every source in these folders of the crates that the program of this name stands on."""
    folders = [CRATES / crate / part for crate in crates_of(name, listed()) for part in parts]
    for folder, _, names in itertools.chain.from_iterable(map(os.walk, folders)):
        yield from (os.path.join(folder, name) for name in names if name.endswith((".rt", ".antt")))


def is_fresh(path, name, parts):
    """Whether the program of this name stands there, and none of these files is newer."""
    try:
        made = os.stat(path).st_mtime_ns
    except OSError:
        return False
    return os.access(path, os.X_OK) and all(os.stat(file).st_mtime_ns <= made for file in files_of(name, parts))


def digest(name):
    """A digest of what the crates hold that the program of this name stands on."""
    crates, told = listed(), hashlib.sha256()
    for crate in crates_of(name, crates):
        told.update(f"{crate}: {' '.join(crates[crate])}\n".encode())
    for file in sorted(files_of(name, CODE)):
        with open(file, "rb") as source:
            text = source.read()
        told.update(f"{os.path.relpath(file, CRATES)} {len(text)}\n".encode())
        told.update(text)
    return told.hexdigest()[:16]


# The programs.


def folders():
    """Where an unproved program can be kept: in this checkout, and for one that can't be written in the user's cache."""
    cache = pathlib.Path(os.environ.get("XDG_CACHE_HOME", ""))
    return KEPT_IN, (cache if cache.is_absolute() else pathlib.Path.home() / ".cache") / PROJECT


def name_of(program):
    """The name by which an unproved program of these sources is kept."""
    return f"{program}-{digest(program)}"


def shown(path):
    """A path as it is told: from the top of the checkout, if it is there."""
    return path.relative_to(TOP) if path.is_relative_to(TOP) else path


def unproved_of(tool):
    """An unproved program of these sources: one that is kept, else one that is built."""
    name = name_of(UNPROVED)
    for path in (folder / name for folder in folders()):
        if os.access(path, os.X_OK):
            return path
    import unproved  # its imports are dear, and a build is rare

    return unproved.build(tool, UNPROVED, name)


def kept(tool, program=RUNS):
    """The program that a run takes: the proved one, else an unproved one, which is built where none is kept."""
    if is_fresh(program.proved, program.name, PROVED_CODE):
        say(tool, f"the proved program, {program.proved.relative_to(TOP)}")
        return program.proved
    path = unproved_of(tool)
    say(tool, f"an unproved program of these sources, {shown(path)} (./test makes a proved one)")
    return path


def kept_alone(tool, program):
    """The same of a program that no other one stands for: it is built unproved by itself."""
    if is_fresh(program.proved, program.name, PROVED_CODE):
        say(tool, f"the proved program, {program.proved.relative_to(TOP)}")
        return program.proved
    name = name_of(program.name)
    path = next((folder / name for folder in folders() if os.access(folder / name, os.X_OK)), None)
    if path is None:
        import unproved  # its imports are dear, and a build is rare

        path = unproved.build(tool, program.name, name)
    say(tool, f"an unproved program of these sources, {shown(path)} (./test makes a proved one)")
    return path


def proved(tool, path=PROVED):
    """The path of a program of the gate, for a tool that takes no other."""
    if not path.exists():
        sys.exit(f"{tool}: {path} is not built: run `rt ci` first")
    return path.resolve()


def program_of(tool, path, program=RUNS):
    """The program that the words of a tool name, else the one that a run takes."""
    return proved(tool, path) if path else kept(tool, program)


# What comes in and goes out.


def bytes_in(path, most=-1):
    """The bytes of a file, or of the standard input where the path is `-`, up to so many."""
    try:
        if path == "-":
            return sys.stdin.buffer.read(most)
        with open(path, "rb") as file:
            return file.read(most)
    except AttributeError:
        raise Stop("the standard input is closed") from None
    except (OSError, ValueError) as why:
        raise Stop(f"can't read {path}: {getattr(why, 'strerror', None) or why}") from None


def script_in(path):
    """The bytes of a script. Of one that is too long a byte too many, which tells the program so."""
    return bytes_in(path, LONGEST_SCRIPT + 1)


def write_out(text):
    """Writes all of it, which is text or bytes, to the standard output."""
    left = text if isinstance(text, bytes) else text.encode()
    try:
        while left:
            left = left[os.write(1, left) :]
    except OSError as why:
        raise Stop(f"write failed: {why.strerror}", WRITE_FAILED) from None


def asks_for_help(words):
    return words in (["--help"], ["-h"])
