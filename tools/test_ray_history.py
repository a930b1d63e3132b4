#!/usr/bin/env python3
"""Tests of tools/ray_history.py over a stand-in for Ray, in seconds: what it writes, and what `./check` says of that.

    tools/test_ray_history.py [--program PATH]

Ray itself isn't needed, and nothing here tells how it behaves: tools/peers/stand_in_for_ray.py has its interface.
Random programs, of seeds that stay, leave histories of order alone and with values. Of a correct run a play must be
found, which the second reading of the rules plays to the same end. Where the stand-in lets a call pass an earlier one,
or runs a call twice, the reason must name that call at its place. Threads are joined, and nothing depends on time: a
call that has to wait does so for an event.
"""
import argparse
import contextlib
import io
import os
import pathlib
import random
import re
import signal
import subprocess
import sys
import tempfile
import threading
import unittest
from unittest import mock

import peers_checked
import program
import ray_history

sys.path.append(str(program.TOP / "tools/peers"))
import stand_in_for_ray as ray  # noqa: E402

SEEDS = range(20)
CALLERS, COUNTERS, CALLS = 3, 2, 12
PAGE = program.TOP / "docs/histories.md"
CHECK = None  # the program, once it is known
# An actor in a process of its own, which is killed in its second call of three.
KILLED = """
import os, signal, sys
import ray_history

class There:
    def work(self): pass
    def end(self): os.kill(os.getpid(), signal.SIGKILL)

actor = ray_history.recorded(There)()
for number, method in enumerate(["work", "end", "work"]):
    actor.recorded_call((sys.argv[1], 1, 1, number), method)
"""


class Overflow(Exception):
    pass


class PlainCounter:
    def __init__(self):
        self.number = 0

    def add(self, number):
        if not -(2**63) <= self.number + number < 2**63:
            raise Overflow
        self.number += number
        return self.number

    def get(self):
        return self.number


Counter = ray_history.recorded(kind="counter", state=lambda self: self.number)(PlainCounter)


class Held:
    """A counter of which each `get` waits until it is let go."""

    def __init__(self, event):
        self.event = event

    def get(self):
        self.event.wait()
        return 0


class Run:
    """Counters of the stand-in and a folder for what is logged."""

    def __init__(self, folder, count=COUNTERS, **fault):
        self.folder, self.callers = folder, []
        self.handles = [ray.remote(Counter, **fault).remote() for _ in range(count)]

    def caller(self):
        caller = ray_history.Caller(len(self.callers) + 1, self.folder)
        self.callers.append(caller)
        return caller, [caller.actor(place, handle) for place, handle in enumerate(self.handles, 1)]

    def end(self):
        for caller in self.callers:
            caller.close()
        for handle in self.handles:
            ray.join(handle)

    def history(self, values):
        return ray_history.history(self.folder, values)


def random_calls(chance, caller, actors, calls, may_pass=True):
    """Calls as a driver makes them. Some take earlier answers as arguments; some of these are waited for before, and
    all where no call may be passed."""
    refs = []
    for _ in range(calls):
        actor, sort = chance.choice(actors), chance.random()
        if sort < 0.2:
            refs.append(actor.get.remote())
        elif sort < 0.5 and refs:
            ref = chance.choice(refs)
            if not may_pass or chance.random() < 0.3:
                with contextlib.suppress(ray.exceptions.RayError):
                    caller.get(ref)
            refs.append(actor.add.remote(ref))
        else:
            refs.append(actor.add.remote(chance.choice([1, 2, 3, 2**62]) if may_pass else 1))


def in_threads(works):
    threads = [threading.Thread(target=work) for work in works]
    for thread in threads:
        thread.start()
    for thread in threads:
        thread.join()


def random_run(folder, seed, killed=False, **fault):
    """A run of some callers, each a thread. One actor may be killed between its calls."""
    run = Run(folder, **fault)
    works = []
    for number in range(1, CALLERS + 1):
        caller, actors = run.caller()
        chance = random.Random(f"{seed} {number}")

        def work(chance=chance, caller=caller, actors=actors, number=number):
            random_calls(chance, caller, actors, CALLS // 2, not fault)
            if killed and number == 1:
                ray.kill(run.handles[0])
            random_calls(chance, caller, actors, CALLS // 2, not fault)

        works.append(work)
    in_threads(works)
    return run


def overtaken_run(folder, seed):
    """A run in which a call whose argument isn't there is passed by the next one, and the name of the first."""
    let_go = threading.Event()
    run = random_run(folder, seed, in_order=False)
    held = ray.remote(ray_history.recorded(kind="counter", state=lambda _: 0)(Held), in_order=False).remote(let_go)
    run.handles.append(held)
    caller = random.Random(seed).choice(run.callers)
    actor = caller.actor(1 + seed % COUNTERS, run.handles[seed % COUNTERS])
    late = actor.add.remote(caller.actor(len(run.handles), held).get.remote())
    caller.get(actor.add.remote(1))
    let_go.set()
    run.end()
    return run, f"c{caller.number}.{caller.futures[late]}"


def doubled_run(folder, seed):
    """A run in which one call is queued twice, and its name."""
    run = random_run(folder, seed, twice=CALLERS * CALLS)
    run.handles[0]._twice = 1
    caller = run.callers[seed % CALLERS]
    ref = caller.actor(1, run.handles[0]).add.remote(1)
    run.handles[0]._twice = 0
    run.end()
    assert run.handles[0]._doubled == [ref]
    return run, f"c{caller.number}.{caller.futures[ref]}"


def died(*_):
    """The reference of a call that a death answers."""
    ref = ray.ObjectRef()
    ref.set_exception(ray.exceptions.ActorDiedError())
    return ref


def leave_out(path, part):
    """Takes the lines from a log that have this part."""
    lines = path.read_text().splitlines(keepends=True)
    path.write_text("".join(line for line in lines if part not in line))


class OfARun(unittest.TestCase):
    def setUp(self):
        kept = tempfile.TemporaryDirectory()
        self.addCleanup(kept.cleanup)
        self.top = pathlib.Path(kept.name)

    def refused(self, folder):
        with self.assertRaises(ray_history.NotAHistory) as refused:
            ray_history.history(folder)
        return str(refused.exception)


class Judged(OfARun):
    def is_judged_well(self, run, planted=""):
        for values in (False, True):
            history = planted + run.history(values)
            is_well, told = peers_checked.verdict(CHECK, history)
            self.assertTrue(is_well, f"{told}\n{history}")

    def test_a_correct_run_is_a_play(self):
        for seed in SEEDS:
            with self.subTest(seed=seed):
                run = random_run(self.top / str(seed), seed)
                run.end()
                self.is_judged_well(run)

    def test_so_is_one_of_as_many_as_there_may_be(self):
        run = Run(self.top, count=ray_history.MAX_ACTORS)
        works = []
        for number in range(ray_history.MAX_CALLERS):
            caller, actors = run.caller()
            works.append(lambda c=caller, a=actors, n=number: random_calls(random.Random(n), c, a, 2 * CALLS))
        in_threads(works)
        run.end()
        self.is_judged_well(run)

    def test_so_is_one_with_a_kill(self):
        dead = 0
        for seed in SEEDS:
            with self.subTest(seed=seed):
                run = random_run(self.top / str(seed), seed, killed=True)
                run.end()
                self.is_judged_well(run)
                dead += "\na1 dead\n" in run.history(False)
        self.assertGreater(dead, len(SEEDS) // 2)

    def test_a_caller_that_knows_of_a_death_and_not_of_an_answer(self):
        run = Run(self.top)
        caller, [first, _] = run.caller()
        first.add.remote(1)
        with self.assertRaises(ray.exceptions.RayTaskError):
            caller.get(first.add.remote("x"))
        ray.kill(run.handles[0])
        first.get.remote()
        run.end()
        leave_out(self.top / "c1.log", '"answer", "future": 0')
        self.assertIn("c1.0 a1 = ActorDied\n", run.history(False))
        is_well, told = peers_checked.verdict(CHECK, run.history(False))
        self.assertTrue(is_well, told)

    def test_a_call_that_passes_another_is_told(self):
        for seed in SEEDS:
            with self.subTest(seed=seed):
                run, name = overtaken_run(self.top / str(seed), seed)
                self.is_judged_well(run, f"# planted: {name} is sent after the next\n")

    def test_a_call_that_runs_twice_is_told(self):
        for seed in SEEDS:
            with self.subTest(seed=seed):
                run, name = doubled_run(self.top / str(seed), seed)
                self.is_judged_well(run, f"# planted: {name} is sent twice\n")

    def test_callers_that_wait_for_an_actor_that_somebody_killed(self):
        run = Run(self.top)
        caller, [first, _] = run.caller()
        caller.get(first.add.remote(1))
        ray.kill(run.handles[0])
        with self.assertRaises(ray.exceptions.ActorDiedError):
            caller.get(first.get.remote())
        run.end()
        self.assertIn("actor a1 counter c1 c2\n", run.history(False))  # c2 is whoever killed it
        self.is_judged_well(run)

    def test_a_log_outlives_its_process(self):
        handle = mock.Mock(**{"recorded_call.remote": died})
        with ray_history.Caller(1, self.top) as caller:
            actor = caller.actor(1, handle)
            for method in ("work", "end", "work"):
                getattr(actor, method).remote()
        command = [sys.executable, "-c", KILLED, self.top]
        self.assertEqual(subprocess.run(command, cwd=program.TOP / "tools").returncode, -signal.SIGKILL)
        history = ray_history.history(self.top)
        self.assertTrue(history.endswith("a1 dead\na1.0 c1.0 push\na1.1 c1.1 push\n"), history)
        self.assertTrue(peers_checked.verdict(CHECK, history)[0])

    def test_the_program_of_the_page(self):
        block = re.search(r"```python\n(import ray\n.*?)```", PAGE.read_text(), re.S)[1]
        out = io.StringIO()
        with changed_to(self.top), contextlib.redirect_stdout(out):
            exec(compile(block, "the page", "exec"), {"__name__": "page"})
        self.assertEqual(out.getvalue(), "10\n")
        with mock.patch.object(sys, "argv", ["ray_history.py", f"{self.top}/run1"]):
            with contextlib.redirect_stdout(io.StringIO()) as out:
                self.assertEqual(ray_history.main(), 0)
        self.assertTrue(peers_checked.verdict(CHECK, out.getvalue())[0])
        told = re.search(r"```text\n(actor a1 .*?)```", PAGE.read_text(), re.S)[1]
        self.assertEqual(out.getvalue(), told)


@contextlib.contextmanager
def changed_to(folder):
    before = os.getcwd()
    os.chdir(folder)
    try:
        yield
    finally:
        os.chdir(before)


class JudgeOfPeers(unittest.TestCase):
    def test_a_fault_that_is_another_or_none_is_no_success(self):
        for name in peers_checked.EXAMPLES_OF_PEERS:
            history = (peers_checked.EXAMPLES / name).read_text()
            planted = peers_checked.PLANTED.search(history)
            self.assertTrue(peers_checked.verdict(CHECK, history)[0])
            right = peers_checked.PLANTED.sub("# c1.1 is", history)
            for other in ("c1.1 is sent twice", "c1.0 is sent after c1.1"):
                self.assertFalse(peers_checked.verdict(CHECK, f"# planted: {other}\n{right}")[0])
            self.assertEqual(peers_checked.verdict(CHECK, right)[0], planted is None)
        wrong = history.replace("c1.4 a2 = 42", "c1.4 a2 = 41")
        self.assertNotEqual(wrong, history)
        self.assertTrue(peers_checked.verdict(CHECK, wrong)[0])  # the first reason alone is told
        self.assertFalse(peers_checked.verdict(CHECK, peers_checked.PLANTED.sub("# c1.1 is", wrong))[0])


class Written(OfARun):
    def small_run(self):
        """c1 adds 5 and then that answer, once it has seen it; a2 fails, and what takes its answer isn't run."""
        run = Run(self.top)
        caller, [first, second] = run.caller()
        ref = first.add.remote(5)
        self.assertEqual(caller.get([ref]), [5])
        second.add.remote(ref)
        failed = second.add.remote(2**63 - 1)
        second.add.remote(failed)
        first.get.remote()
        run.end()
        return run

    def test_order_alone(self):
        wanted = """actor a1 counter c1
actor a2 counter c1
# c1.0 is add
submit c1 a1 push
await c1 0
# c1.1 is add
submit c1 a2 push @0
# c1.2 is add
submit c1 a2 push
# c1.4 is get
submit c1 a1 push
c1.0 a1 = NoMethod
c1.1 a2 = Dependency(0)
c1.2 a2 = NoMethod
c1.3 a1 = NoMethod
a1 live counter 0
a1.0 c1.0 push
a1.1 c1.3 push
a2 live counter 0
a2.0 c1.1 push !0
a2.1 c1.2 push
"""
        run = self.small_run()
        self.assertEqual(run.history(False), wanted)
        bare = re.sub(r"#.*\n", "", wanted)
        self.assertEqual(ray_history.history(self.top, notes=False), bare)

    def test_values(self):
        wanted = """actor a1 counter c1
actor a2 counter c1
# c1.0 is add
submit c1 a1 add 5
await c1 0
# c1.1 is add
submit c1 a2 add @0
# c1.2 is add
submit c1 a2 add 9223372036854775807
# c1.4 is get
submit c1 a1 get
c1.0 a1 = 5
c1.1 a2 = 5
c1.2 a2 = Overflow
c1.3 a1 = 5
a1 live counter 5
a1.0 c1.0 add 5
a1.1 c1.3 get
a2 live counter 5
a2.0 c1.1 add 5
a2.1 c1.2 add 9223372036854775807
"""
        self.assertEqual(self.small_run().history(True), wanted)

    def test_words_of_values(self):
        good = {None: "unit", 0: "0", -(2**63): "-9223372036854775808", "a\"b": '"a"b"', "x" * 64: f'"{"x" * 64}"'}
        for value, word in good.items():
            self.assertEqual(ray_history.word_of(value), word)
        for value in (True, 2**63, 1.5, "", "a b", "\x7f", "é", "x" * 65, [1], b"a"):
            self.assertIsNone(ray_history.word_of(value), value)
        self.assertEqual(ray_history.words_of_state({"k": 5, "l": "x"}), ' "k" 5 "l" "x"')
        self.assertEqual(ray_history.words_of_state([1, "x"]), ' 1 "x"')
        self.assertEqual(ray_history.words_of_state({}), "")
        self.assertIsNone(ray_history.words_of_state([1.5]))

    def test_what_was_written_outlives_a_kill_and_a_cut(self):
        run = self.small_run()
        whole = run.history(False)
        for path in self.top.glob("*.log"):
            path.write_bytes(path.read_bytes() + b'{"did": "ru')
        self.assertEqual(run.history(False), whole)

    def test_a_caller_that_ended_before_it_looked(self):
        run = self.small_run()
        leave_out(self.top / "c1.log", '"answer"')
        text = run.history(False)
        self.assertIn("c1.0 a1 = NoMethod\n", text)  # a2 ran a call with its answer
        self.assertIn("c1.2 a2 ?\n", text)
        self.assertNotIn("await", text)


class Refused(OfARun):
    def test_what_the_rules_say_nothing_of(self):
        async def later(self):
            pass

        def stream(self):
            yield

        for method in (later, stream):
            with self.assertRaises(TypeError):
                ray_history.recorded(type("Other", (), {"method": method}))
        with self.assertRaises(ValueError):
            ray_history.recorded(PlainCounter, kind="queue", state=lambda self: 0)

    def test_numbers(self):
        caller = ray_history.Caller(1, self.top)
        for number in (1, 0, 17):
            with self.assertRaises(ray_history.NotAHistory):
                ray_history.Caller(number, self.top)
        for number in (0, 9):
            with self.assertRaises(ray_history.NotAHistory):
                caller.actor(number, None)

    def test_calls_at_the_same_time(self):
        both = threading.Barrier(2)
        busy = type("Busy", (), {"meet": lambda self: both.wait() and None, "start": lambda self: None})
        handle = ray.remote(ray_history.recorded(busy), threads=2).remote()
        with ray_history.Caller(1, self.top) as caller:
            actor = caller.actor(1, handle)
            caller.get(actor.start.remote())
            actor.meet.remote()
            actor.meet.remote()
        ray.join(handle)
        self.assertRegex(self.refused(self.top), r"c1\.[12] began while another call ran")

    def test_two_actors_of_one_number(self):
        run = Run(self.top)
        caller, _ = run.caller()
        caller.get([caller.actor(1, handle).get.remote() for handle in run.handles])
        run.end()
        self.assertIn("a1 has two logs", self.refused(self.top))

    def test_a_caller_without_a_log(self):
        run = Run(self.top)
        caller, actors = run.caller()
        caller.get(actors[0].get.remote())
        run.end()
        (self.top / "c1.log").rename(self.top / "c2.log")
        self.assertIn("a1 ran c1.0, which no log of a caller has", self.refused(self.top))
        (self.top / "c2.log").unlink()
        self.assertIn("has no log of a caller", self.refused(self.top))

    def test_what_has_no_word(self):
        run = Run(self.top)
        caller, [first, _] = run.caller()
        with self.assertRaises(ray.exceptions.RayTaskError):
            caller.get(first.add.remote("a b"))
        run.end()
        with self.assertRaises(ray_history.NotAHistory):
            run.history(True)
        self.assertIn("c1.0 a1 = NoMethod", run.history(False))

    def test_a_submission_that_is_refused_is_no_call(self):
        class Full:
            class recorded_call:
                @staticmethod
                def remote(*_, **__):
                    raise BufferError

        run = Run(self.top)
        caller, [first, _] = run.caller()
        with self.assertRaises(BufferError):
            caller.actor(1, Full).get.remote()
        first.get.remote()
        run.end()
        self.assertIn("# c1.0 is get\nsubmit c1 a1 push\nc1.0 a1 = NoMethod\n", run.history(False))

    def test_a_history_that_is_too_long(self):
        run = Run(self.top)
        caller, [first, _] = run.caller()
        first.get.remote()
        run.end()
        with mock.patch.object(ray_history, "MAX_BYTES", 10):
            self.assertRegex(self.refused(self.top), r"has [\d]+ bytes, and 10 are the most; --bare")


def main():
    global CHECK
    options = argparse.ArgumentParser(description=__doc__.splitlines()[0])
    options.add_argument("--program", type=pathlib.Path, help="the program that checks")
    chosen, words = options.parse_known_args()
    CHECK = program.program_of("test_ray_history", chosen.program, program.CHECKS)
    with mock.patch.dict(sys.modules, ray=ray):
        unittest.main(argv=[sys.argv[0], *words])


if __name__ == "__main__":
    main()
