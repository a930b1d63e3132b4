#!/usr/bin/env python3
"""Records runs of scripts for threads by `ray_commands record`, and plays each record by `ray_actors`.

    tools/recorded.py [--noted] [--unrefused] [--seed N] [--count N] [--program PATH] [--player PATH]

Recorded are the examples for threads, the worked scripts for threads, and random ones of tools/threads.py; half of
these on one processor (taskset -c 0). Without `--seed` there are two seeds, as there. A record fails where

  - it has other roles than its script, in another order or with another limit;
  - `ray_actors play` ends with a fault, or tells of an event that it was `refused`, a `gap`, a `repeat` or a `stranger`;
  - an actor is `live` at the end;
  - it was noted, and a caller doesn't do its plan in it: the steps in order, then releases; what an `await` waits for is
    there before the next step, and a kill is missing only where the caller had collected the actor's death;
  - the summary is not one that the second reading of the rules allows of the script (tools/threads.py tells how), or
    not the worked one, where there is one;
  - something stands on the standard error, but for the line that a play was found and not noted; with `--noted` that
    fails, too.

Of a script with a fault the line of the fault and the status 1 must come. A run of more than 60 seconds fails. A script
whose play is too long for a script must be recorded all the same, and a line must say so. Then, of one worked script,
each request for memory is refused in turn, alone and with all that come after, and each thread: the run must say `no
memory`, or `no thread` where the start of one was refused, end with 3 and write nothing, or leave a record that is good.
Some runs must leave one that is told as found, since a thread was refused the memory to note what it did. It must start
a thread for each caller and each actor. With `--unrefused` this is left out: an unproved program asks for memory in a
way of its own, which nothing refuses from outside.

The checks are tried themselves: a record of the bank from which a line is taken, or in which two lines change places,
must fail, but where the rules say that it means the same.
"""
import argparse
import concurrent.futures
import pathlib
import re
import subprocess
import sys
import tempfile

import reading_of_rules as reading
import seeds
import threads
from program import RECORDS, TOP, program_of
from refusing import ALONE, HANGS, WAYS, Refusing

EXAMPLES = TOP / "examples"
ROWS = TOP / "crates/ray_actors/thread_rows"
BANK = EXAMPLES / "bank.actors"
SWEPT = ROWS / "kill.actors"
COUNT = 1_000  # random scripts of each seed
AT_ONCE = 4
MAX_SECONDS = 60
MAX_SHOWN = 5
ONE_PROCESSOR = ["taskset", "-c", "0"]
BAD_OUTCOMES = re.compile(rb"^\d+: (refused .*|gap|repeat|stranger)$", re.MULTILINE)
LIVE = re.compile(rb"^a\d+ live .*$", re.MULTILINE)
OUTCOMES = re.compile(rb"(?:\d+: .*\n)*")
LONG_CALLS = 16_000  # of a script whose play is too long for a script
NO_MEMORY = (3, b"", b"no memory\n")
NO_THREAD = (3, b"", b"no thread\n")
FOUND = b"the play is found, not noted: one way in which the run can have gone\n"
TOO_LONG = b"the play has more than 1048576 bytes, and can't be read again\n"


def ran(command, script):
    """The status of a run, its output, and its notes."""
    try:
        done = subprocess.run(list(map(str, command)), input=script, capture_output=True, timeout=MAX_SECONDS)
    except subprocess.TimeoutExpired:
        return None, b"", b"no end within %d seconds" % MAX_SECONDS
    return done.returncode, done.stdout, done.stderr


# What is wrong with a record.


def roles_of(script):
    return [line for line in script.split(b"\n") if line.startswith(b"actor ")]


def fault_of(script):
    """The line of the script's fault, or nothing."""
    try:
        reading.read_plans(script)
    except reading.ScriptFault as fault:
        return str(fault).encode()
    return None


def complaint_of_play(player, script, play, wanted):
    """What is wrong with the play of a script, by the report that it gives."""
    if roles_of(play) != roles_of(script):
        return "the play has other roles"
    status, report, notes = ran([player, "play"], play)
    if (status, notes) != (0, b""):
        return f"the play ends with {status}, {report[:200]!r} and {notes[:200]!r}"
    bad = BAD_OUTCOMES.search(report) or LIVE.search(report)
    if bad:
        return f"the play's report has '{bad[0].decode()}'"
    summary = report[OUTCOMES.match(report).end() :]
    if wanted is not None and summary != wanted:
        return f"the play ends otherwise than the worked run: {summary!r:.600}"
    return threads.complaint(script, summary, 0)


class Follower:
    """Plays a record, and follows each caller's plan in it."""

    def __init__(self, script, play):
        self.events = reading.read_script(play).events
        self.world = reading.World(reading.read_script(play).roles)
        self.left = {caller: [] for caller in self.world.callers}  # the steps that are still to be done, the next one last
        for verb, spelt in reversed(reading.read_script(script, reading.THREAD_FORMS).events):
            self.left[spelt[0]].append((verb, spelt))

    def pass_over(self, caller, but_for=None):
        """Passes over the next steps that are no events, up to this one; or says which of them holds the caller."""
        left, known = self.left[caller], self.world.callers[caller]
        while left and left[-1] != but_for and left[-1][0] in ("await", "kill"):
            verb, (_, other) = left[-1]
            if verb == "await" and known.calls[other].kept is None or verb == "kill" and other not in known.known_dead:
                return f"c{caller} goes on before its step '{verb} {other}'"
            left.pop()
        return None

    def strays(self, verb, spelt):
        """Why a caller's event is none of its plan at this place."""
        why = self.pass_over(spelt[0], (verb, spelt))
        left = self.left[spelt[0]]
        if why or not left and verb == "release":
            return why
        return None if left and left.pop() == (verb, spelt) else f"'{verb} {spelt}' is not the next step of c{spelt[0]}"

    def stray(self):
        """The first event that no plan has at its place, or what is left of a plan."""
        for verb, spelt in self.events:
            why = self.strays(verb, spelt) if verb in reading.COMMON_FORMS else None
            if why:
                return why
            self.world.after(verb, spelt)
        held = next(filter(None, map(self.pass_over, self.left)), None)
        return held or next((f"c{caller} doesn't do {left[-1]}" for caller, left in self.left.items() if left), None)


def complaint(player, script, got, wanted=None, notes=(b"", FOUND)):
    """What is wrong with what was recorded of a script, with one of these notes."""
    status, output, told = got
    fault = fault_of(script)
    if fault is not None:
        return None if got == (1, fault, b"") else f"the fault is {fault!r}, and it ends with {got!r:.600}"
    if status != 0 or told not in notes:
        return f"it ends with {status} and {told!r:.600}"
    return complaint_of_play(player, script, output, wanted) or (Follower(script, output).stray() if not told else None)


# The scripts.


def worked_scripts():
    """By name: a script, and its summary where that is fixed. Of a faulty one the reading tells the fault."""
    for path in sorted(EXAMPLES.glob("*.actors")):
        if not set(reading.PLAY_FORMS) - set(reading.THREAD_FORMS) & first_words(path):
            yield path.stem, path.read_bytes(), None
    for path in sorted(ROWS.glob("*.actors")):
        report = path.with_suffix(".report")
        is_fixed = report.exists() and not path.with_suffix(".status").exists()
        yield path.stem, path.read_bytes(), report.read_bytes() if is_fixed else None


def first_words(path):
    return {line.split(" ")[0] for line in path.read_text().splitlines()}


def random_scripts(seed, count):
    for place in range(count):
        yield f"{seed}.{place}", threads.random_script(seed, place), None


def record_all(program, player, scripts, notes, before=()):
    """Of each script its name and what is wrong with its record, several at once; `before` stands before the command."""

    def one(each):
        name, script, wanted = each
        return name, script, complaint(player, script, ran([*before, program, *RECORDS.words], script), wanted, notes)

    with concurrent.futures.ThreadPoolExecutor(max_workers=AT_ONCE) as pool:
        yield from pool.map(one, scripts)


def failures_of(results):
    """How many records are good, and the lines that tell of the others; the first few scripts are kept."""
    good, failures = 0, []
    for name, script, why in results:
        good += why is None
        if why is not None:
            failures.append(f"{name}: {why}")
            if len(failures) <= MAX_SHOWN:
                with tempfile.NamedTemporaryFile(prefix="recorded-", suffix=".actors", delete=False) as file:
                    file.write(script)
                failures[-1] += f"; the script is {file.name}"
    return good, failures


# A play that is too long for a script.


def long_failures(program):
    script = b"actor a1 counter c1\n" + b"submit c1 a1 add 9000000000000\n" * LONG_CALLS
    status, play, notes = ran([program, *RECORDS.words], script)
    lines = play.count(b"\n")
    wanted = 1 + 5 * LONG_CALLS + 3  # five events of each call, and the release, its delivery and the end
    if status == 0 and notes in (TOO_LONG, FOUND + TOO_LONG) and len(play) > 1_048_576 and lines == wanted:
        return 1, []
    return 0, [f"a long play: it ends with {status} and {notes!r:.200}, and has {len(play)} bytes in {lines} lines, not {wanted}"]


# Refused requests.


def count_of_parties(script):
    """How many callers and actors a script names."""
    roles = [line.split() for line in script.decode().splitlines() if line.startswith("actor ")]
    return len(roles) + len({word for role in roles for word in role[3:] if word.startswith("c")})


def swept(program, player):
    """Of each request and each thread that is refused in turn, what is wrong with what comes."""
    script = SWEPT.read_bytes()
    with tempfile.TemporaryDirectory() as folder:
        refusing = Refusing(folder)
        whole = refusing.run([program, *RECORDS.words], 0, SWEPT)
        yield "no request refused", script, complaint(player, script, whole)
        requests, threads_to_start = refusing.requests(), refusing.threads()
        for way in WAYS:
            yield from requests_refused(refusing, program, player, way, requests)
        for nth in range(1, threads_to_start + 1):
            got = refusing.run([program, *RECORDS.words], 0, SWEPT, thread=nth)
            yield f"thread {nth}", script, None if got == NO_THREAD else f"it ends with {got!r:.600}"
        wanted = count_of_parties(script)
        why = None if threads_to_start == wanted else f"{threads_to_start} were to start, and not {wanted}"
        yield "each caller and each actor is run in a thread", script, why


def requests_refused(refusing, program, player, way, most):
    """The same of the requests, in one way."""
    script = SWEPT.read_bytes()
    nth = refused = starts = found = 0
    while nth < most:
        nth += 1
        got = refusing.run([program, *RECORDS.words], nth, SWEPT, way=way)
        most = max(most, refusing.requests())
        is_start = refusing.has_refused_a_start()
        is_refused = got == (NO_THREAD if is_start else NO_MEMORY)
        refused, starts, found = refused + is_refused, starts + is_start, found + (got[2] == FOUND)
        why = None if is_refused else complaint(player, script, got)
        if is_start and not is_refused:
            why = f"the start of a thread is refused, and it ends with {got!r:.600}"
        yield f"request {nth} of {most} {WAYS[way]}", script, why
        if got == HANGS:
            return
    yield f"some request is {WAYS[way]}", script, None if refused else "none was"
    yield f"some start of a thread is {WAYS[way]}", script, None if starts else "none was"
    if way == ALONE:
        yield "of some run the play is found and not noted", script, None if found else "each was told as noted"


# The checks are tried.


def cause_of(lines, place):
    """Of a line of the bank's play that follows another one by necessity: the words of that other one, or None.

    Each caller of the bank has one copy of a handle, so each release is the last one, and posts a note."""
    before = [line.split() for line in lines[:place]]
    words = lines[place].split()
    letters = [each for each in before if each[0] in ("send", "release")]
    notices = [each for each in before if each[0] in ("run", "tell")]
    if words[0] == "deliver":
        return letters[int(words[1])]
    if words[0] == "collect":
        return notices[int(words[1])]
    delivered = [letters[int(each[1])] for each in before if each[0] == "deliver"]
    if words[0] == "run":
        future = sum(each[:3] == words for each in before)  # so many of the caller's calls to the actor ran
        calls = [each for each in before if each[0] == "submit" and each[1] == words[2]]
        sent = [place for place, each in enumerate(calls) if each[2] == words[1]][future]
        return ["deliver", str(letters.index(["send", words[2], str(sent)]))]
    if words[0] == "retire":
        return ["deliver", str(letters.index([each for each in delivered if each[0] == "release" and each[2] == words[1]][-1]))]
    return ["actor"] if words[0] == "actor" else None


def spoilt(lines):
    """Plays with one line less, or with two neighbours that can't change places."""
    for place, line in enumerate(lines):
        yield f"line {place} left out: {line}", lines[:place] + lines[place + 1 :]
    for place, (one, other) in enumerate(zip(lines, lines[1:])):
        cause = cause_of(lines, place + 1)
        if cause and one.split()[: len(cause)] == cause:
            yield f"lines {place} and {place + 1} swapped", lines[:place] + [other, one] + lines[place + 2 :]


def others_of_one_caller(lines):
    """Plays in which a caller does its steps in another order: those of the accounts' owners at their neighbours."""
    steps = [place for place, line in enumerate(lines) if line.startswith("submit ")]
    for one, other in zip(steps, steps[1:]):
        if lines[one].split()[1] == lines[other].split()[1]:
            changed = list(lines)
            changed[one], changed[other] = lines[other], lines[one]
            yield changed


# A plan, and records of it that plays allow: with the await kept, with the await passed over, and without its kill.
HELD = b"actor a1 counter c1\nsubmit c1 a1 get\nawait c1 0\nkill c1 a1\n"
TO_THE_ANSWER = b"actor a1 counter c1\nsubmit c1 a1 get\nsend c1 0\ndeliver 0\nrun a1 c1\ncollect 0\n"
BEFORE_IT = b"actor a1 counter c1\nsubmit c1 a1 get\nkill c1 a1\nsend c1 0\ndeliver 0\nrun a1 c1\ncollect 0\n"
DEATH, RELEASE = b"take a1\ntell a1 c1\ncollect 1\n", b"release c1 a1\n"
FOLLOWED = [
    (TO_THE_ANSWER + b"kill c1 a1\n" + DEATH + RELEASE, True),
    (BEFORE_IT + DEATH + RELEASE, False),
    (TO_THE_ANSWER + RELEASE + b"deliver 1\nretire a1\n", False),
    (TO_THE_ANSWER + b"copy c1 a1\nkill c1 a1\n" + DEATH + RELEASE, False),
]


def trial_of_plans(program):
    """Whether it is told that a record is none of its plans."""
    for play, is_well in FOLLOWED:
        why = Follower(HELD, play).stray()
        yield f"follows: {play!r}", HELD, None if (why is None) == is_well else f"it is told: {why}"
    script = BANK.read_bytes()
    lines = ran([program, *RECORDS.words], script)[1].decode().splitlines()
    for others in others_of_one_caller(lines):
        why = Follower(script, "".join(f"{line}\n" for line in others).encode()).stray()
        yield "steps in another order", script, None if why else f"nothing is wrong with {others}"


def trial(program, player):
    """Each spoilt record of the bank, and whether it passes."""
    script = BANK.read_bytes()
    _, play, _ = ran([program, *RECORDS.words], script)
    lines = play.decode().splitlines()
    for name, others in spoilt(lines):
        text = "".join(f"{line}\n" for line in others).encode()
        is_told = complaint_of_play(player, script, text, None) is not None
        yield f"spoilt: {name}", script, None if is_told else "the check finds nothing wrong with it"


def chosen_options():
    options = argparse.ArgumentParser(description=__doc__.splitlines()[0])
    options.add_argument("--noted", action="store_true", help="a play that was found and not noted fails")
    options.add_argument("--unrefused", action="store_true", help="no request is refused, as in an unproved program")
    options.add_argument("--seed", type=int)
    options.add_argument("--count", type=int, default=COUNT, help="so many random scripts of each seed")
    options.add_argument("--program", type=pathlib.Path, help="the one that records, and not the one that ./record takes")
    options.add_argument("--player", type=pathlib.Path, help="the one that plays, and not the one that ./run takes")
    chosen = options.parse_args()
    chosen.program = program_of("recorded", chosen.program, RECORDS)
    chosen.player = program_of("recorded", chosen.player)
    return chosen


def main():
    chosen = chosen_options()
    program, player = chosen.program, chosen.player
    notes = (b"",) if chosen.noted else (b"", FOUND)
    good, failures = failures_of(record_all(program, player, worked_scripts(), notes))
    for seed in seeds.chosen(chosen.seed, "recorded"):
        scripts = list(random_scripts(seed, chosen.count))
        half = len(scripts) // 2
        for before, some in ((), scripts[:half]), (ONE_PROCESSOR, scripts[half:]):
            more, wrong = failures_of(record_all(program, player, some, notes, before))
            good, failures = good + more, failures + wrong
    of_refusals = () if chosen.unrefused else swept(program, player)
    tries = of_refusals, trial(program, player), trial_of_plans(program)
    for more, wrong in long_failures(program), *map(failures_of, tries):
        good, failures = good + more, failures + wrong
    print("".join(f"{failure}\n" for failure in failures), end="")
    print(f"recorded: {good} passed, {len(failures)} failed")
    sys.exit(1 if failures else 0)


if __name__ == "__main__":
    main()
