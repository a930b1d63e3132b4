"""The page of `./test`: what it shows while it runs, and the file that has the full text.

On a terminal the last line tells what is running now, and is written over again and again. Elsewhere each line stays,
and where none came for five minutes, one tells what is running.
"""
import contextlib
import os
import shutil
import subprocess
import sys
import threading
import time

from program import TOP

KEPT = TOP / ".built"
SIGN_OF_LIFE_SECONDS = 300
BEAT_SECONDS = 1
CLEARED = "\r\x1b[K"


def stem_of(words):
    """A command's name on the page: of a tool its name, as `rows` of `python3 tools/rows.py`."""
    named = [word for word in map(str, words) if word.endswith(".py")] or [str(words[0])]
    return named[0].rpartition("/")[2].removesuffix(".py")


class Page:
    """What is shown of a run, by lines that threads don't mix, and the file with all of its text."""

    def __init__(self, name="test", folder=KEPT, out=None, clock=time.monotonic):
        folder.mkdir(exist_ok=True)
        self.place = folder / f"{name}.log"
        self.file = self.place.open("w", errors="replace")
        self.out, self.clock = out or sys.stdout, clock
        self.began = self.shown_at = clock()
        # What is running: named while it lasts, and told by functions that look.
        self.named, self.lookers, self.head = [], [], ""
        # What the end says once more.
        self.sums = []
        self.lock, self.ended = threading.RLock(), threading.Event()
        self.pulse = threading.Thread(target=self.beat_on, daemon=True)

    def __enter__(self):
        self.pulse.start()
        return self

    def __exit__(self, *_):
        self.ended.set()
        self.pulse.join()
        with self.lock:
            self.write("")
            self.file.close()

    # What is written.

    def keep(self, line):
        """Writes a line to the file alone."""
        with self.lock:
            self.file.write(f"{line}\n")
            self.file.flush()

    def show(self, *lines):
        """Shows lines, which the file has, too."""
        with self.lock:
            for line in lines:
                self.keep(line)
            self.show_kept(*lines)

    def show_kept(self, *lines):
        """Shows lines that the file already has."""
        with self.lock:
            self.shown_at = self.clock()
            self.write("".join(f"{line}\n" for line in lines))

    def minutes(self):
        """The minutes so far."""
        return f"{(self.clock() - self.began) / 60:.1f}"

    def tell(self, text):
        """Shows a line with the minutes so far."""
        self.show(f"{self.minutes():>5} min: {text}")

    def sum_up(self, text):
        """Tells what the end says once more."""
        self.sums.append(text)
        self.tell(text)

    def write(self, text, rest=""):
        """Writes lines in the place of the terminal's last one, and below them the rest of what that is to have."""
        cleared = CLEARED if self.out.isatty() else ""
        self.out.write(f"{cleared}{text}{rest}")
        self.out.flush()

    # What is running.

    @contextlib.contextmanager
    def running(self, what):
        """Has this told as running for a while: a text, or a function that gives several."""
        to = self.lookers if callable(what) else self.named
        with self.lock:
            to.append(what)
        try:
            yield
        finally:
            with self.lock:
                to.remove(what)

    def now(self):
        """What is running, as a text."""
        with self.lock:
            named, lookers, head = [*self.named], [*self.lookers], self.head
        found = [text for look in lookers for text in look()] + named
        return "; ".join(filter(None, [head, f"running: {', '.join(found)}" if found else ""]))

    def beat(self):
        """Tells what is running: on a terminal each time, and elsewhere where nothing was shown for long."""
        if self.out.isatty():
            text = f"{self.minutes():>5} min: {self.now()}"
            with self.lock:
                self.write("", text[: shutil.get_terminal_size().columns - 1])
        elif self.clock() - self.shown_at >= SIGN_OF_LIFE_SECONDS:
            self.tell(self.now())

    def beat_on(self):
        while not self.ended.wait(BEAT_SECONDS):
            self.beat()

    # Commands.

    def run(self, words, name=None, folder=TOP, is_told=True):
        """Runs a command. Where it passes its last line is told, and else all that it said. Returns whether it
        passes."""
        name = name or stem_of(words)
        status, lines = self.ran(words, name, folder)
        if status:
            self.show_kept(*lines)
            self.tell(f"{name} FAILED, with the status {status}: what it said is above")
        elif is_told:
            self.tell(ending_of(name, lines))
        return status == 0

    def ran(self, words, name, folder=TOP):
        """The status of a command, and its lines, which the file has."""
        how = {"stdin": subprocess.DEVNULL, "stdout": subprocess.PIPE, "stderr": subprocess.STDOUT, "text": True}
        began = self.clock()
        with self.running(name), subprocess.Popen(list(map(str, words)), cwd=folder, errors="replace", **how) as ran:
            lines = [*self.kept_lines(ran.stdout, f"{name}: ")]
            _, status, used = os.wait4(ran.pid, 0)
            ran.returncode = os.waitstatus_to_exitcode(status)
        took = f"{self.clock() - began:.0f} s, and {used.ru_utime:.0f} + {used.ru_stime:.0f} of a processor"
        self.keep(f"{name}: ended with {ran.returncode} after {took}, user and system")
        return ran.returncode, lines

    def kept_lines(self, stream, head=""):
        """The lines of a stream, each kept as it comes, with this head."""
        for line in stream:
            self.keep(head + line.rstrip("\n"))
            yield line.rstrip("\n")


def ending_of(name, lines):
    """The last line that a command of this name said, with the name before it."""
    last = next((line for line in reversed(lines) if line.strip()), "passed")
    return last if last.startswith(f"{name}:") else f"{name}: {last}"
