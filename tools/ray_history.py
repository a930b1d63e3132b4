#!/usr/bin/env python3
"""Records what the actors of a Ray program ran and what their callers asked, as a history for `./check`.

    import ray_history                                              in the program, of which docs/histories.md has one
    python3 ray_history.py [--values] [--bare] FOLDER > FILE.history        once it has ended

It needs Python's standard library alone, so it can be copied beside the program. Of Ray it knows `.remote`, `ray.get`
and the exceptions that tell of a failed task and of a dead actor.

  - `@recorded` on an actor's class, under `@ray.remote`: the actor writes down each call that it runs, as it begins.
  - `Caller(number, folder)` is one thread of control that submits calls: the driver, a task, or an actor that calls
    others. It writes down each call before that goes. `caller.actor(number, handle)` is Ray's handle with a record:
    `.method.remote(..)` gives Ray's own reference.
  - `caller.get(ref)` is `ray.get`, and writes down that the caller waited here. `caller.close()` takes what answers are
    left; a `with` does so at its end.

Each caller and each actor has a file of its own in the folder, c1.log and a1.*.log, written line by line: what stands
there outlives an actor that is killed. No clock and no common order is needed.

The history has order alone: each call stands in it as `push`, to a counter, which knows no such method. So it is
answered by `NoMethod`, or by `Dependency` where an argument is an earlier answer. With `--values` it has methods,
arguments, answers and states, where each actor is one of the four kinds: `@recorded(kind="counter", state=..)`.

A call that failed with one of its arguments isn't run by Ray, so no log has it, and it is left out of the history. The
calls after it have other numbers there. A comment above each call tells its own number and its method; `--bare` leaves
these comments out.

Statuses: 0; 1 where the logs make no history, with the reason; 2 for wrong words, and for what can't be read.
"""
from __future__ import annotations

import argparse
import functools
import inspect
import json
import os
import pathlib
import sys
import threading
import uuid
from dataclasses import dataclass, field
from typing import Any, Callable, Iterator, Optional

MAX_CALLERS, MAX_ACTORS, MAX_ARGS = 16, 8, 4
MAX_BYTES = 1_048_576
MAX_NOTE = 200
LEAST, MOST = -(2**63), 2**63 - 1
MAX_TEXT = 64
KINDS = ("counter", "table", "account", "list")
FAULTS = {
    "NoMethod", "BadArgs", "Overflow", "KindFull", "NoKey", "BadAmount", "Insufficient", "NoItems", "NoItem",
}  # fmt: skip
# How a call was answered; a call without an answer has none of these.
VALUE, FAILED, DIED, LOST = "value", "failed", "died", "lost"


class NotAHistory(Exception):
    """Why logs make no history."""


# Words: how a value stands in a history.


def word_of(value: Any) -> Optional[str]:
    """A number, a text or None as a history has it; nothing for any other value."""
    if value is None:
        return "unit"
    if isinstance(value, int) and not isinstance(value, bool) and LEAST <= value <= MOST:
        return str(value)
    if isinstance(value, str) and 1 <= len(value) <= MAX_TEXT and all("!" <= letter <= "~" for letter in value):
        return f'"{value}"'
    return None


def words_of_state(value: Any) -> Optional[str]:
    """The state of one of the four kinds: a number, a dictionary or a list."""
    if isinstance(value, dict):
        parts = [word_of(part) for pair in value.items() for part in pair]
    elif isinstance(value, (list, tuple)):
        parts = [word_of(part) for part in value]
    else:
        parts = [word_of(value)]
    return None if None in parts else "".join(f" {part}" for part in parts)


# Logs: one file of each caller and each actor, a line of JSON for each thing that happened.


class Log:
    """A file that is written line by line, each by one call of the system, so that a kill cuts none but the last."""

    file: Any = None

    def __init__(self, path: pathlib.Path):
        path.parent.mkdir(parents=True, exist_ok=True)
        try:
            self.file = open(path, "xb", buffering=0)
        except FileExistsError:
            raise NotAHistory(f"{path} is there: another caller has this number, or an earlier run left it") from None

    def write(self, **what: Any) -> None:
        self.file.write((json.dumps(what) + "\n").encode())

    def close(self) -> None:
        if self.file:
            self.file.close()

    def __del__(self) -> None:  # an actor's log ends with the actor
        self.close()


def lines_of(path: pathlib.Path) -> Iterator[dict]:
    """What a log tells. A last line that was cut off tells of nothing that happened."""
    for line in path.read_bytes().splitlines(keepends=True):
        if line.endswith(b"\n"):
            yield json.loads(line)


# The actor's side.


class Runs:
    """What an actor writes down: each call as it begins, and the state that it leaves."""

    def __init__(self, folder: str, number: int, kind: Optional[str]):
        self.log = Log(pathlib.Path(folder, f"a{number}.{uuid.uuid4().hex}.log"))
        self.log.write(did="open", kind=kind)
        self.lock, self.running = threading.Lock(), 0

    def begin(self, caller: int, future: int, method: str, args: tuple) -> None:
        with self.lock:
            words = [word_of(arg) for arg in args]
            self.log.write(did="run", caller=caller, future=future, method=method, args=words, beside=self.running)
            self.running += 1

    def end(self, state: Optional[str]) -> None:
        with self.lock:
            self.running -= 1
            self.log.write(did="end", state=state)


def recorded(
    cls: Optional[type] = None, *, kind: Optional[str] = None, state: Optional[Callable[[Any], Any]] = None
) -> Any:
    """The class of an actor that writes down what it runs. The kind is one of the four, and `state` gives its number,
    its dictionary or its list; without them order alone can be judged."""
    if cls is None:
        return functools.partial(recorded, kind=kind, state=state)
    if kind is not None and (kind not in KINDS or state is None):
        raise ValueError(f"a kind is one of {', '.join(KINDS)}, and comes with its state")
    for name, method in inspect.getmembers(cls, inspect.isfunction):
        is_stream = inspect.isgeneratorfunction(method) or inspect.isasyncgenfunction(method)
        if inspect.iscoroutinefunction(method) or is_stream:
            raise TypeError(f"{cls.__name__}.{name} is asynchronous or a generator, of which the rules say nothing")

    class Recorded(cls):  # type: ignore[misc, valid-type]
        _recorded_runs: Optional[Runs] = None  # opened by the first call, which tells where

        def recorded_call(self, tag: tuple, method: str, *args: Any, **named: Any) -> Any:
            folder, actor, caller, future = tag
            if self._recorded_runs is None:
                self._recorded_runs = Runs(folder, actor, kind)
            self._recorded_runs.begin(caller, future, method, (*args, *named.values()))
            try:
                return getattr(self, method)(*args, **named)
            finally:
                self._recorded_runs.end(words_of_state(state(self)) if state else None)

    for name in ("__name__", "__qualname__", "__module__", "__doc__"):
        setattr(Recorded, name, getattr(cls, name))
    return Recorded


# The caller's side.


class Caller:
    """A thread of control that submits calls, and the file in which it writes them down."""

    def __init__(self, number: int, folder: Any):
        if not 1 <= number <= MAX_CALLERS:
            raise NotAHistory(f"a caller has a number from 1 to {MAX_CALLERS}, and not {number}")
        self.number, self.folder = number, os.path.abspath(folder)
        self.log = Log(pathlib.Path(self.folder, f"c{number}.log"))
        self.lock = threading.Lock()
        self.futures: dict = {}  # of each reference its number
        self.answered: set = set()

    def actor(self, number: int, handle: Any) -> Actor:
        """The handle of a recorded actor, with its number: the same for all callers of that actor."""
        if not 1 <= number <= MAX_ACTORS:
            raise NotAHistory(f"an actor has a number from 1 to {MAX_ACTORS}, and not {number}")
        return Actor(self, number, handle)

    def submit(self, method: Method, args: tuple, named: dict) -> Any:
        """Submits a call and gives Ray's reference of its answer. What Ray refuses at once is no call."""
        with self.lock:
            future = len(self.futures)
            told = [self.argument(arg) for arg in (*args, *named.values())]
            self.log.write(did="call", actor=method.actor, method=method.name, args=told)
            tag = (self.folder, method.actor, self.number, future)
            try:
                ref = method.handle.recorded_call.remote(tag, method.name, *args, **named)
            except BaseException:
                self.log.write(did="refused")
                raise
            self.futures[ref] = future
            return ref

    def argument(self, value: Any) -> dict:
        """An argument as the log has it. References of other callers and those within a list are plain values."""
        import ray

        future = self.futures.get(value) if isinstance(value, ray.ObjectRef) else None
        return {"word": word_of(value)} if future is None else {"future": future}

    def get(self, ref: Any) -> Any:
        """What `ray.get` gives of one reference, or of a list. The caller's next call comes after that answer."""
        return [self.take(each, True) for each in ref] if isinstance(ref, list) else self.take(ref, True)

    def take(self, ref: Any, awaited: bool) -> Any:
        import ray

        future = self.futures.get(ref)
        try:
            value = ray.get(ref)
        except Exception as error:
            self.answer(future, awaited, how_failed(error), type(getattr(error, "cause", error)).__name__)
            raise
        self.answer(future, awaited, VALUE, word_of(value))
        return value

    def answer(self, future: Optional[int], awaited: bool, how: Optional[str], word: Optional[str]) -> None:
        with self.lock:
            if future is not None and how is not None and future not in self.answered:
                self.answered.add(future)
                self.log.write(did="answer", future=future, awaited=awaited, how=how, word=word)

    def close(self) -> None:
        """Waits for each call that has no answer yet, so that the log has all answers."""
        for ref in [ref for ref, future in self.futures.items() if future not in self.answered]:
            try:
                self.take(ref, False)
            except Exception as error:
                if how_failed(error) is None:
                    raise
        self.log.close()

    def __enter__(self) -> Caller:
        return self

    def __exit__(self, *_: Any) -> None:
        self.close()


def how_failed(error: Exception) -> Optional[str]:
    """What an exception of `ray.get` says of the call; nothing where it is no answer."""
    from ray import exceptions

    if isinstance(error, exceptions.RayTaskError):  # first: it may be the death of an actor that the method called
        return FAILED
    if isinstance(error, getattr(exceptions, "ActorDiedError", exceptions.RayActorError)):
        return DIED
    # Whether such a call ran isn't known.
    return LOST if isinstance(error, exceptions.RayError) and not isinstance(error, TimeoutError) else None


class Actor:
    """Ray's handle, as one caller has it: `.method.remote(..)` submits a call, and writes it down."""

    def __init__(self, caller: Caller, number: int, handle: Any):
        self._has = (caller, number, handle)  # one name, since any other may be a method's

    def __getattr__(self, method: str) -> Method:
        if method.startswith("_"):
            raise AttributeError(method)
        return Method(*self._has, method)


@dataclass(frozen=True)
class Method:
    """A method of a recorded actor, as one caller has it."""

    caller: Caller
    actor: int
    handle: Any
    name: str

    def remote(self, *args: Any, **named: Any) -> Any:
        """Submits the call, as Ray's does, and gives Ray's reference."""
        return self.caller.submit(self, args, named)


# What the logs tell.


@dataclass
class Call:
    """A call as its caller's log has it. An argument is {"word": ..} or {"future": ..}."""

    actor: int
    method: str
    args: list
    how: Optional[str] = None
    word: Optional[str] = None
    number: Optional[int] = None  # its future in the history; none where it is left out

    def futures(self) -> list:
        return [arg["future"] for arg in self.args if "future" in arg]

    def has_failed(self) -> bool:
        return self.how in (FAILED, DIED)


@dataclass
class Asked:
    """What one caller did: its calls, and by their numbers its steps, each a call or an answer that it waited for."""

    calls: list = field(default_factory=list)
    steps: list = field(default_factory=list)


@dataclass
class Ran:
    """What one actor did: its kind, if it is one of the four, the calls that it ran, and its last state."""

    kind: Optional[str] = None
    runs: list = field(default_factory=list)
    state: Optional[str] = None


def asked_in(path: pathlib.Path) -> Asked:
    asked = Asked()
    for line in lines_of(path):
        if line["did"] == "call":
            asked.steps.append(("submit", len(asked.calls)))
            asked.calls.append(Call(line["actor"], line["method"], line["args"]))
        elif line["did"] == "refused":
            asked.steps.pop()
            asked.calls.pop()
        else:
            call = asked.calls[line["future"]]
            call.how, call.word = line["how"], line["word"]
            if line["awaited"] and call.how != LOST:
                asked.steps.append(("await", line["future"]))
    return asked


def ran_in(path: pathlib.Path) -> Ran:
    ran = Ran()
    for line in lines_of(path):
        if line["did"] == "open":
            ran.kind = line["kind"]
        elif line["did"] == "end":
            ran.state = line["state"]
        elif line["beside"]:
            call = f"c{line['caller']}.{line['future']}"
            raise NotAHistory(f"{path.name}: {call} began while another call ran; the rules know one call at a time")
        else:
            ran.runs.append(line)
    return ran


def logs_in(folder: pathlib.Path, letter: str) -> list:
    """The logs of callers or of actors, by rising numbers."""
    return sorted((int(path.name.split(".")[0][1:]), path) for path in folder.glob(f"{letter}*.log"))


class Told:
    """All that the logs of a folder tell."""

    def __init__(self, folder: pathlib.Path):
        self.asked = {number: asked_in(path) for number, path in logs_in(folder, "c")}
        self.ran: dict = {}
        for number, path in logs_in(folder, "a"):
            if number in self.ran:
                why = "it was restarted, two actors have its number, or it ran calls at the same time"
                raise NotAHistory(f"a{number} has two logs: {why}")
            self.ran[number] = ran_in(path)
        if not self.asked:
            raise NotAHistory(f"{folder} has no log of a caller")
        for call in self.calls():
            self.ran.setdefault(call.actor, Ran())
        self.number_calls()

    def calls(self) -> Iterator[Call]:
        return (call for asked in self.asked.values() for call in asked.calls)

    def number_calls(self) -> None:
        """Gives each call its future in the history. Left out is what failed with an argument: no actor ran it."""
        ran = {(run["caller"], run["future"]): number for number, each in self.ran.items() for run in each.runs}
        for (caller, future), number in ran.items():
            if caller not in self.asked or future >= len(self.asked[caller].calls):
                raise NotAHistory(f"a{number} ran c{caller}.{future}, which no log of a caller has")
            calls = self.asked[caller].calls
            for used in (calls[each] for each in calls[future].futures()):
                # What a call ran with was answered, though the caller may have ended before it looked.
                used.how = VALUE if used.how in (None, LOST) else used.how
        for caller, asked in self.asked.items():
            count = 0
            for place, call in enumerate(asked.calls):
                used = [asked.calls[future] for future in call.futures()]
                if (caller, place) in ran or not any(each.has_failed() or each.number is None for each in used):
                    call.number, count = count, count + 1

    def is_dead(self, actor: int) -> bool:
        return any(call.actor == actor and call.how == DIED for call in self.calls())

    def callers(self) -> list:
        """The callers. Where an actor died and each of them has awaits, which hold it to its own steps, there is one
        more, without steps: whatever else ended that actor."""
        numbers = sorted(self.asked)
        bound = all(any(step == "await" for step, _ in asked.steps) for asked in self.asked.values())
        if bound and any(map(self.is_dead, self.ran)):
            if numbers[-1] == MAX_CALLERS:
                raise NotAHistory(f"an actor died, and the number {MAX_CALLERS} is needed for whatever ended it")
            numbers.append(numbers[-1] + 1)
        return numbers


# The history.


class Order:
    """How a history of order alone tells calls, answers and states."""

    def kind(self, _: str, __: Ran) -> str:
        return "counter"

    def args(self, call: Call, calls: list) -> list:
        numbers = [calls[future].number for future in call.futures()]
        return [f"@{number}" for number in numbers if number is not None][:MAX_ARGS]

    def submitted(self, _: str, call: Call, calls: list) -> str:
        return " ".join(["push", *self.args(call, calls)])

    def answer(self, _: str, call: Call, calls: list) -> str:
        args = self.args(call, calls)
        return f"Dependency({args[0][1:]})" if args else "NoMethod"

    def state(self, _: str, __: Ran) -> str:
        return "counter 0"

    def run(self, _: str, __: dict, call: Call, calls: list) -> str:
        return " ".join(["push", *(arg.replace("@", "!") for arg in self.args(call, calls))])


class Values:
    """How a history with values tells them."""

    def kind(self, name: str, ran: Ran) -> str:
        if ran.runs and ran.kind is None:
            raise NotAHistory(f"{name} was recorded without a kind, so order alone can be judged")
        return ran.kind or KINDS[0]

    def submitted(self, name: str, call: Call, calls: list) -> str:
        return self.joined(name, call.method, [self.argument(arg, calls) for arg in call.args])

    def argument(self, arg: dict, calls: list) -> Optional[str]:
        number = calls[arg["future"]].number if "future" in arg else None
        return arg.get("word") if number is None else f"@{number}"

    def joined(self, name: str, method: str, words: list) -> str:
        if None in words:
            raise NotAHistory(f"an argument of {name} is no number, text or None, so order alone can be judged")
        return " ".join([method, *words])

    def answer(self, name: str, call: Call, _: list) -> str:
        if call.word is None:
            raise NotAHistory(f"no log has a number, a text or None as {name}'s answer, so order alone can be judged")
        if call.how == FAILED and call.word not in FAULTS:
            raise NotAHistory(f"{name} is answered by {call.word}, no fault of the rules, so order alone can be judged")
        return call.word

    def state(self, name: str, ran: Ran) -> str:
        if ran.runs and ran.state is None:
            raise NotAHistory(f"the state of {name} has no words")
        return f"{self.kind(name, ran)}{ran.state if ran.runs else ' 0'}"

    def run(self, name: str, run: dict, _: Call, __: list) -> str:
        return self.joined(name, run["method"], run["args"])


def note(name: str, call: Call) -> str:
    """A comment that tells the call's own number and method."""
    letters = "".join(letter if " " <= letter <= "~" else "?" for letter in f"{name} is {call.method}")
    return f"# {letters[:MAX_NOTE]}"


def steps_of(told: Told, how: Any, notes: bool) -> Iterator[str]:
    """What each caller submitted and waited for."""
    for caller, asked in told.asked.items():
        for step, place in asked.steps:
            call = asked.calls[place]
            if call.number is not None and step == "await":
                yield f"await c{caller} {call.number}"
            elif call.number is not None:
                name = f"c{caller}.{place}"
                if notes:
                    yield note(name, call)
                yield f"submit c{caller} a{call.actor} {how.submitted(name, call, asked.calls)}"


def futures_of(told: Told, how: Any) -> Iterator[str]:
    """How each call was answered. A death that its caller was told answers what is open of that actor, too."""
    for caller, asked in told.asked.items():
        dead = {call.actor for call in asked.calls if call.how == DIED}
        for place, call in enumerate(asked.calls):
            begin, is_open = f"c{caller}.{call.number} a{call.actor}", call.how in (None, LOST)
            if call.number is None:
                continue
            if call.how == DIED or (is_open and call.actor in dead):
                yield f"{begin} = ActorDied"
            else:
                yield f"{begin} ?" if is_open else f"{begin} = {how.answer(f'c{caller}.{place}', call, asked.calls)}"


def ends_of(told: Told, how: Any) -> Iterator[str]:
    """How each actor ended, and what it ran."""
    for number, ran in sorted(told.ran.items()):
        yield f"a{number} dead" if told.is_dead(number) else f"a{number} live {how.state(f'a{number}', ran)}"
        for place, run in enumerate(ran.runs):
            calls = told.asked[run["caller"]].calls
            call, name = calls[run["future"]], f"c{run['caller']}.{run['future']}"
            yield f"a{number}.{place} c{run['caller']}.{call.number} {how.run(name, run, call, calls)}"


def history(folder: Any, values: bool = False, notes: bool = True) -> str:
    """The history of the logs in this folder: order alone, or with values."""
    told = Told(pathlib.Path(folder))
    how = Values() if values else Order()
    names = "".join(f" c{caller}" for caller in told.callers())
    roles = [f"actor a{number} {how.kind(f'a{number}', ran)}{names}" for number, ran in sorted(told.ran.items())]
    lines = [*roles, *steps_of(told, how, notes), *futures_of(told, how), *ends_of(told, how)]
    text = "".join(f"{line}\n" for line in lines)
    if len(text) > MAX_BYTES:
        shorter = "; --bare has no comments" if notes else ""
        raise NotAHistory(f"the history has {len(text):,} bytes, and {MAX_BYTES:,} are the most{shorter}")
    return text


def main() -> int:
    options = argparse.ArgumentParser(description=__doc__.splitlines()[0])
    options.add_argument("--values", action="store_true", help="methods, arguments, answers and states, too")
    options.add_argument("--bare", action="store_true", help="no comments")
    options.add_argument("folder", type=pathlib.Path, help="where the logs are")
    chosen = options.parse_args()
    try:
        sys.stdout.write(history(chosen.folder, chosen.values, not chosen.bare))
    except NotAHistory as why:
        print(f"ray_history: {why}", file=sys.stderr)
        return 1
    except (OSError, ValueError, KeyError) as why:
        print(f"ray_history: can't read {chosen.folder}: {why}", file=sys.stderr)
        return 2
    return 0


if __name__ == "__main__":
    sys.exit(main())
