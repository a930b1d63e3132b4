"""Runs of a program in which requests for memory, or one thread, are refused from outside, by refuse.c."""
import os
import pathlib
import subprocess

from program import TOP

MAX_SECONDS = 60
HANGS = (None, b"", b"it does not end")
ALONE, AND_ALL_AFTER = "REFUSE", "REFUSE_FROM"  # one request is refused; or with it all that come after
WAYS = {ALONE: "refused", AND_ALL_AFTER: "refused, and all after it"}


class Refusing:
    """Starts programs, with files of its own in the folder."""

    def __init__(self, folder):
        library = pathlib.Path(folder, "refuse.so")
        self.report = pathlib.Path(folder, "count")
        subprocess.run(["cc", "-O2", "-shared", "-fPIC", "-o", library, TOP / "tools/refuse.c"], check=True)
        self.environment = dict(os.environ, LD_PRELOAD=str(library), REFUSE_REPORT=str(self.report))
        self.starts = {}  # of each program where it asks for what a thread starts with, as its last whole run told

    def run(self, command, nth, standard_input=os.devnull, thread=0, way=ALONE):
        """The status and what is written, where the nth request and the start of a thread are refused,
        or none for 0. HANGS of a run that was stopped."""
        self.report.write_text("0 0 0 0")
        starts = ",".join(map(str, self.starts.get(command[0], [])))
        told = {way: nth, "REFUSE_THREAD": thread, "REFUSE_STARTS": starts}
        environment = dict(self.environment, **{name: str(value) for name, value in told.items()})
        with open(standard_input, "rb") as given:
            try:
                done = subprocess.run(command, stdin=given, capture_output=True, timeout=MAX_SECONDS, env=environment)
            except subprocess.TimeoutExpired:
                return HANGS
        if nth == thread == 0 and self.threads():
            self.starts[command[0]] = self.numbers()[4:]
        return done.returncode, done.stdout, done.stderr

    def numbers(self):
        return [int(word) for word in self.report.read_text().split()]

    def requests(self):
        """How many requests the last run made, if it came to its end by itself, else 0."""
        return self.numbers()[0]

    def threads(self):
        """How many threads the last run was to start, if it came to its end by itself, else 0."""
        return self.numbers()[1]

    def refused(self):
        """How many requests the last run was refused, if it came to its end by itself, else 0."""
        return self.numbers()[2]

    def has_refused_a_start(self):
        """Whether the start of a thread was refused in the last run for want of memory. So `no thread` is told in
        such a run, and in no other one of which requests alone were refused."""
        return self.numbers()[3] > 0
