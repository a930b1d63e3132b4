#!/usr/bin/env python3
"""Tries the judge of histories by order alone, on good ones and ones with a planted fault, and shows how it grows.

    tools/orders.py [--small] [--seeds N] [--program PATH] [--keep FOLDER]

First come rows: histories by hand, and what is told of each, letter by letter.

A history comes of a play: callers submit calls, wait for answers and take them as arguments, and actors run the calls,
are killed or retire. A good one must be in order. Its order (`--order`) is read again here: it has each happening once,
and each cause before its effect. Then one fault is planted, and the program must tell it, with its line, by `--all`:

  - skips: two runs in a row of one caller change places;
  - again: a run is told a second time, at the end of the run list;
  - stray: a run is told of another actor;
  - alive: a death is told of an actor that lives;
  - spoiled: a call is answered, though it takes an answer that failed;
  - unrun: the last run of a list isn't told, and its call has an answer;
  - left out: an actor retired, and a call to it didn't run;
  - role: a caller isn't named by the role of an actor that it calls;
  - open: the answer for which a caller waited is open;
  - circle: two callers each wait for their first call, which ran behind the other's second one;
  - restarted: an actor ran a call that was submitted after a death there was awaited;
  - renamed: a run tells another method than its call.

Then the size is doubled, up to a million calls, with --small up to 16,000. The time of a call may not grow, and a call
may take 500 bytes of memory at most.

The status is 0, or 1 where the program told something else.
"""
import argparse
import collections
import pathlib
import random
import re
import subprocess
import sys
import tempfile

import program

MOST_BYTES_OF_A_CALL = 500
SECONDS_OF_A_MILLION = 60
# A run of the program takes so much without any call: its tables of callers and actors.
BASE_BYTES = 32 << 20


class Call:
    """A call: who submitted it, to whom, what it waited for and takes, and what became of it."""

    def __init__(self, caller, number, actor, waits, takes, method=""):
        self.caller, self.number, self.actor, self.waits, self.takes = caller, number, actor, waits, takes
        self.ran, self.answered, self.taken, self.outcome = False, False, False, "open"
        # As its line tells it, and as the line of its run does.
        self.method, self.ran_as = method, method

    def name(self):
        return f"c{self.caller}.{self.number}"


class History:
    """A play of so many calls, and the history that it leaves."""

    def __init__(self, seed, count, callers=4, actors=3):
        self.chance = random.Random(seed)
        self.actors = list(range(1, actors + 1))
        self.roles = {a: list(range(1, callers + 1)) for a in self.actors}
        self.calls = {c: [] for c in range(1, callers + 1)}
        self.waits = {c: [] for c in range(1, callers + 1)}
        self.steps, self.runs = [], {a: [] for a in self.actors}
        self.queues = {a: collections.defaultdict(collections.deque) for a in self.actors}
        self.ends = dict.fromkeys(self.actors, "live")
        self.deadly = 0.5 / count
        self.play(count)

    def play(self, count):
        submitted = 0
        while submitted < count:
            if self.chance.random() < 0.5:
                submitted += self.caller_goes_on()
            else:
                self.actor_goes_on(self.chance.choice(self.actors))
        for _ in range(4 * count):
            if self.chance.random() < 0.001:
                break
            self.actor_goes_on(self.chance.choice(self.actors))
        self.finish()

    def caller_goes_on(self):
        """A caller waits for an answer that is there, or submits a call."""
        caller = self.chance.choice(list(self.calls))
        mine = self.calls[caller]
        recent = mine[-20:]
        if recent and self.chance.random() < 0.2:
            call = self.chance.choice(recent)
            if not call.answered and self.ends[call.actor] == "dead":
                call.answered, call.outcome = True, "died"
            if call.answered:
                call.taken = True
                self.waits[caller].append(call)
                self.steps.append(f"await c{caller} {call.number}")
            return 0
        takes = [self.chance.choice(recent) for _ in range(self.chance.choice([0, 0, 0, 1, 2]))] if recent else []
        actor = self.chance.choice(self.actors)
        method = self.chance.choice(["", " add", " get_1"])
        call = Call(caller, len(mine), actor, self.waits[caller], takes, method)
        call.ran_as = self.chance.choice(["", method])
        self.waits[caller] = []
        mine.append(call)
        self.queues[actor][caller].append(call)
        self.steps.append(f"call c{caller} a{actor}{method}" + "".join(f" @{each.number}" for each in takes))
        return 1

    def actor_goes_on(self, actor):
        """An actor runs a call that has its arguments, if it lives."""
        if self.ends[actor] == "dead":
            return
        if self.chance.random() < self.deadly:
            self.ends[actor] = "dead"
            return
        ready = [queue for queue in self.queues[actor].values() if queue and all(t.answered for t in queue[0].takes)]
        if ready:
            call = self.chance.choice(ready).popleft()
            for taken in call.takes:
                taken.taken = True
            call.ran = call.answered = True
            is_good = all(taken.outcome == "answered" for taken in call.takes)
            call.outcome = self.chance.choice(["answered", "answered", "failed"]) if is_good else "failed"
            self.runs[actor].append(call)

    def finish(self):
        """What of the answers came, and which actors retired."""
        for call in self.all_calls():
            dead = self.ends[call.actor] == "dead"
            if not call.ran and not call.answered:
                call.outcome = self.chance.choice(["died", "open"]) if dead else "open"
            elif call.ran and not call.taken and self.chance.random() < 0.2:
                call.outcome = "died" if dead else "open"
        for actor in self.actors:
            if self.ends[actor] == "live" and not any(self.queues[actor].values()) and self.chance.random() < 0.7:
                self.ends[actor] = "retired"

    def all_calls(self):
        return (call for calls in self.calls.values() for call in calls)

    def text(self):
        lines = ["history order"]
        lines += [f"actor a{a} " + " ".join(f"c{c}" for c in self.roles[a]) for a in self.actors if self.roles[a]]
        lines += self.steps
        lines += [f"{call.name()} {call.outcome}" for call in self.all_calls()]
        for actor in self.actors:
            lines.append(f"a{actor} {self.ends[actor]}")
            lines += [f"a{actor}.{place} {call.name()}{call.ran_as}" for place, call in enumerate(self.runs[actor])]
        return "\n".join(lines) + "\n"


# What is wrong with an order.


def wrong_order(history, text):
    """Why these lines are no order of the history, or None."""
    places = {}
    for place, line in enumerate(text.splitlines()):
        if line in places:
            return f"{line} stands twice"
        places[line] = place
    happened = set()
    for call in history.all_calls():
        happened.add(f"{call.name()} submitted")
        happened |= {f"{call.name()} ran"} if call.ran else set()
        happened |= {f"{call.name()} answered"} if call.outcome != "open" else set()
    if happened != set(places):
        return f"the order has other happenings: {sorted(happened ^ set(places))[:3]}"
    for one, other in causes(history):
        if places[one] >= places[other]:
            return f"{one} stands after {other}"
    return None


def causes(history):
    """Each cause, with its effect."""
    for calls in history.calls.values():
        for before, call in zip(calls, calls[1:]):
            yield f"{before.name()} submitted", f"{call.name()} submitted"
        for call in calls:
            for wait in call.waits:
                yield f"{wait.name()} answered", f"{call.name()} submitted"
            if call.ran:
                yield f"{call.name()} submitted", f"{call.name()} ran"
                for taken in call.takes:
                    yield f"{taken.name()} answered", f"{call.name()} ran"
            if call.outcome in ("answered", "failed"):
                yield f"{call.name()} ran", f"{call.name()} answered"
            elif call.outcome == "died":
                yield f"{call.name()} submitted", f"{call.name()} answered"
                for last in history.runs[call.actor][-1:]:
                    yield f"{last.name()} ran", f"{call.name()} answered"
    for runs in history.runs.values():
        for before, call in zip(runs, runs[1:]):
            yield f"{before.name()} ran", f"{call.name()} ran"


# Faults. Each gives what must be told, or None where the history has no place for it.


def skips(history):
    for actor, runs in history.runs.items():
        for place in range(len(runs) - 1):
            one, next_one = runs[place : place + 2]
            if one.caller == next_one.caller:
                runs[place], runs[place + 1] = next_one, one
                return rf"a{actor}\.{place} skips {re.escape(one.name())}, which runs at a{actor}\.{place + 1} "
    return None


def again(history):
    for actor, runs in history.runs.items():
        if runs and history.ends[actor] != "dead":
            place = history.chance.randrange(len(runs))
            runs.append(runs[place])
            name = re.escape(runs[place].name())
            return rf"a{actor}\.{len(runs) - 1} runs {name} again, after a{actor}\.{place} "
    return None


def stray(history):
    for actor, runs in history.runs.items():
        other = history.actors[actor % len(history.actors)]
        if runs and other != actor:
            call = runs.pop()
            history.runs[other].append(call)
            place, name = len(history.runs[other]) - 1, re.escape(call.name())
            return rf"a{other}\.{place} runs {name}, which was submitted to a{actor} "
    return None


def alive(history):
    for call in history.all_calls():
        if history.ends[call.actor] != "dead" and not call.taken:
            call.outcome = "died"
            return rf"{re.escape(call.name())} died, and a{call.actor} isn't dead "
    return None


def spoiled(history):
    for call in history.all_calls():
        if call.outcome == "answered" and call.takes:
            call.takes[0].outcome = "failed"
            name = re.escape(call.takes[0].name())
            return rf"{re.escape(call.name())} is answered, and takes the answer of {name}, which failed "
    return None


def unrun(history):
    for actor, runs in history.runs.items():
        if runs and runs[-1].outcome in ("answered", "failed") and history.ends[actor] != "retired":
            call = runs.pop()
            name = re.escape(call.name())
            return rf"the answer of {name} comes after the run of {name}, which isn't told "
    return None


def left_out(history):
    for actor, runs in history.runs.items():
        if runs and history.ends[actor] != "dead" and not runs[-1].taken:
            call = runs.pop()
            call.ran, call.outcome, history.ends[actor] = False, "open", "retired"
            return rf"a{actor} retired, and didn't run {re.escape(call.name())} "
    return None


def role(history):
    call = next(history.all_calls(), None)
    if call is None:
        return None
    history.roles[call.actor].remove(call.caller)
    return rf"{re.escape(call.name())} is submitted to a{call.actor}, whose role doesn't name its caller"


def restarted(history):
    for call in history.all_calls():
        is_after_a_death = any(wait.outcome == "died" and wait.actor == call.actor for wait in call.waits)
        if is_after_a_death and not call.ran:
            history.runs[call.actor].append(call)
            name = re.escape(call.name())
            return rf"the answer of c\d+\.\d+ comes after the run of {name}, the last one of a{call.actor} "
    return None


def renamed(history):
    for actor, runs in history.runs.items():
        for place, call in enumerate(runs):
            if call.method:
                call.ran_as = " other"
                return rf"a{actor}\.{place} isn't {re.escape(call.name())} as it was submitted "
    return None


def opened(history):
    for call in history.all_calls():
        if call.waits:
            call.waits[0].outcome = "open"
            name = re.escape(call.waits[0].name())
            call = re.escape(call.name())
            return rf"the submission of {call} comes after the answer of {name}, by this await, which is open "
    return None


def circle(history):
    if len(history.actors) < 2 or any(end == "dead" for end in history.ends.values()):
        return None
    one, other = history.actors[:2]
    first, second = max(history.calls) + 1, max(history.calls) + 2
    for caller, near, far in (first, one, other), (second, other, one):
        history.roles[one].append(caller)
        history.roles[other].append(caller)
        begun = Call(caller, 0, near, [], [])
        later = Call(caller, 1, far, [begun], [])
        history.calls[caller] = [begun, later]
        history.steps += [f"call c{caller} a{near}", f"await c{caller} 0", f"call c{caller} a{far}"]
        for call in begun, later:
            call.ran, call.outcome = True, "answered"
    history.runs[one] += [history.calls[second][1], history.calls[first][0]]
    history.runs[other] += [history.calls[first][1], history.calls[second][0]]
    return rf"the submission of c{first}\.1 comes after the answer of c{first}\.0, by this await "


FAULTS = {
    "skips": skips,
    "again": again,
    "stray": stray,
    "alive": alive,
    "spoiled": spoiled,
    "unrun": unrun,
    "left out": left_out,
    "role": role,
    "open": opened,
    "circle": circle,
    "restarted": restarted,
    "renamed": renamed,
}


# Runs of the program.

# Rows: lines after the first, the program's words, its status, and what it tells.

ROWS = {
    "an actor that was started again": (
        "actor a1 c1|call c1 a1|await c1 0|call c1 a1|c1.0 died|c1.1 answered|a1 dead|a1.0 c1.0|a1.1 c1.1",
        [],
        5,
        "line 6: the answer of c1.0 comes after the run of c1.1, the last one of a1 (line 10)\n"
        "line 10: the run of c1.1 comes after the submission of c1.1 (line 5)\n"
        "line 4: the submission of c1.1 comes after the answer of c1.0, by this await (line 6)\n",
    ),
    "a death before anything ran": (
        "actor a1 c1|call c1 a1|await c1 0|call c1 a1|c1.0 died|c1.1 open|a1 dead",
        [],
        0,
        "in order: 2 calls\n",
    ),
    "a death after what another caller's call ran": (
        "actor a1 c1 c2|call c1 a1|call c2 a1|await c1 0|c1.0 died|c2.0 answered|a1 dead|a1.0 c2.0",
        [],
        0,
        "in order: 2 calls\n",
    ),
    "a circle through a call that ran twice": (
        "actor a1 c1 c2|call c1 a1|call c2 a1|c1.0 answered|c2.0 answered|a1 live|a1.0 c1.0|a1.1 c2.0|a1.2 c1.0",
        ["--all"],
        5,
        "line 10: a1.2 runs c1.0 again, after a1.0 (line 8)\n"
        "line 10: the run of c1.0 comes after the run of c2.0 (line 9)\n"
        "line 9: the run of c2.0 comes after the run of c1.0 (line 8)\n",
    ),
    "a role without callers": (
        "actor a1 c1|actor a2",
        [],
        1,
        "line 3: NoCaller: a role names no caller, so nobody could call or kill this actor\n",
    ),
    "another method": (
        "actor a1 c1|call c1 a1 add|c1.0 answered|a1 live|a1.0 c1.0 get",
        [],
        5,
        "line 6: a1.0 isn't c1.0 as it was submitted (line 3)\n",
    ),
    "another method, told before other reasons": (
        "actor a1 c1|call c1 a1 add|call c1 a1 add|c1.0 open|c1.1 answered|a1 live|a1.0 c1.1 get",
        ["--all"],
        5,
        "line 8: a1.0 isn't c1.1 as it was submitted (line 4)\n"
        "line 8: a1.0 skips c1.0, which doesn't run (line 3)\n",
    ),
    "another method, told alone": (
        "actor a1 c1|call c1 a1 add|call c1 a1 add|c1.0 open|c1.1 answered|a1 live|a1.0 c1.1 get",
        [],
        5,
        "line 8: a1.0 isn't c1.1 as it was submitted (line 4)\n",
    ),
    "a method that only one line tells": (
        "actor a1 c1|call c1 a1 add|call c1 a1 @0|c1.0 answered|c1.1 answered|a1 live|a1.0 c1.0|a1.1 c1.1 get",
        [],
        0,
        "in order: 2 calls\n",
    ),
    "an answer that is awaited at last": (
        "actor a1 c1|call c1 a1|await c1 0|c1.0 open|a1 live",
        [],
        5,
        "line 5: c1.0 is open, and its caller waited for its answer (line 4)\n",
    ),
    "the second of two awaits": (
        "actor a1 c1|call c1 a1|call c1 a1|await c1 1|await c1 0|call c1 a1|c1.0 open|c1.1 answered|c1.2 open|a1 live"
        "|a1.0 c1.0|a1.1 c1.1",
        [],
        5,
        "line 6: the submission of c1.2 comes after the answer of c1.0, by this await, which is open (line 8)\n",
    ),
}


def tried_row(path, name):
    """Why the program errs at this row, or None."""
    lines, words, status, told = ROWS[name]
    text = "history order\n" + lines.replace("|", "\n") + "\n"
    done = subprocess.run([path, *words], input=text.encode(), stdout=subprocess.PIPE)
    if (done.returncode, done.stdout.decode()) != (status, told):
        return f"{name}: status {done.returncode}, {done.stdout.decode()!r}"
    return None


# A run begun by a small process, since a process is charged with the memory of the one that it comes of.
MEASURED = """
import resource, subprocess, sys, time
begun = time.monotonic()
status = subprocess.call(sys.argv[1:])
seconds = time.monotonic() - begun
print(status, seconds, resource.getrusage(resource.RUSAGE_CHILDREN).ru_maxrss, file=sys.stderr)
"""


def judged(path, text, *words):
    """What the program says of a history: its status, its text, its seconds and the bytes of memory that it took."""
    with tempfile.TemporaryFile() as given, tempfile.TemporaryFile() as told:
        given.write(text.encode())
        given.seek(0)
        command = [sys.executable, "-I", "-c", MEASURED, path, *words]
        done = subprocess.run(command, stdin=given, stdout=told, stderr=subprocess.PIPE, check=True)
        status, seconds, kilobytes = done.stderr.split()[-3:]
        told.seek(0)
        return int(status), told.read().decode(), float(seconds), int(kilobytes) * 1024


def tried_good(path, seed, count):
    """Why the program errs at a good history, or None."""
    history = History(seed, count)
    status, told, _, _ = judged(path, history.text())
    if (status, told) != (0, f"in order: {sum(map(len, history.calls.values()))} calls\n"):
        return f"seed {seed}: status {status}, {told[:200]!r}"
    status, told, _, _ = judged(path, history.text(), "--order")
    wrong = wrong_order(history, told) if status == 0 else f"status {status}"
    return wrong and f"seed {seed}, --order: {wrong}"


def tried_bad(path, seed, count, name):
    """Why the program errs at a history with this fault, or None; and whether it was planted."""
    history = History(seed, count)
    pattern = FAULTS[name](history)
    if pattern is None:
        return None, False
    status, told, _, _ = judged(path, history.text(), "--all")
    if status != 5 or not re.search(rf"^line \d+: {pattern}", told, re.MULTILINE):
        return f"seed {seed}, {name}: status {status}, no {pattern!r} in {told[:300]!r}", True
    first, one, _, _ = judged(path, history.text())
    if first != 5 or not told.startswith(one) or not one:
        return f"seed {seed}, {name}: status {first}, and {one[:200]!r} doesn't begin what --all tells", True
    return None, True


def growth(path, sizes):
    """Shows what a call costs, and gives what is too much."""
    wrong, before = [], None
    print(f"{'calls':>9} {'bytes':>10} {'seconds':>8} {'us a call':>9} {'memory a call':>13}")
    for size in sizes:
        text = History(size, size, callers=200, actors=50).text()
        status, told, seconds, memory = judged(path, text)
        each, room = 1e6 * seconds / size, max(memory - BASE_BYTES, 0) / size
        print(f"{size:9,} {len(text):10,} {seconds:8.2f} {each:9.2f} {room:13.0f}")
        if status:
            wrong.append(f"{size} calls: status {status}, {told[:200]!r}")
        if size >= 100_000 and room > MOST_BYTES_OF_A_CALL:
            wrong.append(f"{size} calls: {room:.0f} bytes a call")
        if size >= 1_000_000 and seconds > SECONDS_OF_A_MILLION:
            wrong.append(f"{size} calls: {seconds:.0f} seconds")
        if size >= 100_000 and before and each > 2 * before:
            wrong.append(f"{size} calls: {each:.1f} us a call, and {before:.1f} before")
        before = each
    return wrong


def read_words(words):
    reader = argparse.ArgumentParser(description=__doc__, formatter_class=argparse.RawDescriptionHelpFormatter)
    reader.add_argument("--small", action="store_true")
    reader.add_argument("--seeds", type=int)
    reader.add_argument("--program", type=pathlib.Path)
    reader.add_argument("--keep", type=pathlib.Path)
    return reader.parse_args(words)


def main():
    words = read_words(sys.argv[1:])
    path = words.program.resolve() if words.program else program.kept_alone("orders", program.ORDERS)
    seeds = words.seeds or (12 if words.small else 60)
    wrong, planted = [*filter(None, (tried_row(path, name) for name in ROWS))], collections.Counter()
    for seed in range(seeds):
        count = 10 + 37 * seed % 400
        wrong += filter(None, [tried_good(path, seed, count)])
        for name in FAULTS:
            why, is_planted = tried_bad(path, seed, count, name)
            planted[name] += is_planted
            wrong += filter(None, [why])
    print(f"{len(ROWS)} rows, {seeds} good histories; planted: " + ", ".join(f"{name} {planted[name]}" for name in FAULTS))
    wrong += [f"{name} was never planted" for name in FAULTS if not planted[name]]
    wrong += growth(path, [4000, 16_000] if words.small else [125_000, 250_000, 500_000, 1_000_000])
    for why in wrong:
        print(why)
    return 1 if wrong else 0


if __name__ == "__main__":
    program.ended("orders", main)
