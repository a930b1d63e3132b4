#!/usr/bin/env python3
"""Refuses each request for memory of some proved tests in turn, and each thread.

Each of the first tests makes calls that may want memory. Where a call is refused it must have
changed nothing, and it succeeds when it is made again; a world stops at the event, and plays on from
there. So the test passes; where the test itself is refused while it sets things up, its result is the
error that says so, and no other. An actor or a caller in a thread of its own ends, and has told or heard
by then what is due. Anything else is a failure, as a run is that doesn't end, and so is a test of which
no call is refused.

Each of the others is a run of callers and actors in threads, by plans or by code. There each request is also refused
with all that come after, so that callers and actors starve together. The run ends, whatever is refused: as if nothing
were, or the test's result is want of memory; but always want of a thread where one is refused, or memory for its start,
and nowhere else. The number of requests may vary there, so the sweep goes on until no run that it saw made so many.

All is refused from outside, by tools/refuse.c.
"""
import re
import sys
import tempfile
from itertools import chain

from program import TOP
from refusing import HANGS, WAYS, Refusing

PARTS = [("tests_of_parts", part) for part in ["inbox", "actor", "handles", "replies", "resolver", "owner"]]
TESTS = [(crate, f"{part}::refused_memory_changes_nothing") for crate, part in PARTS]
ROWS = ["another_caller_passes", "one_packet_for_good", "release_and_retire", "ran_and_yet_died", "terminate_in_turn", "pending_limit"]
TESTS += [("tests_of_plays", f"world::{row}") for row in ROWS]
TESTS += [("tests_of_examples", "memory::refused_memory_changes_nothing")]
TESTS += [("tests_of_threads", f"{part}::refused_memory_starves") for part in ["serve", "drive"]]
ONCE = ["a_table_and_an_account", "a_kill_once", "a_terminate_once", "waiting_pushes_once"]
ONCE += ["answers_decide", "gives_up", "lets_all_go"]
RUNS = [("tests_of_threads", f"executor::{run}") for run in ONCE]
RUNS += [("tests_of_examples", run) for run in ["queue::in_threads_beside_a_known_kind", "histories::written_and_read_again"]]
RUNS += [("tests_of_examples", f"transfers::{run}") for run in ["moves_what_is_there", "the_sum_is_kept"]]
PASSED = 0
FAILED = 101
# What a test writes whose result is an error. A failed assertion writes something else, and ends by a signal.
RESULT = re.compile(rb"error: (.*)\nthe test failed: its result gives status 1\n")
NO_MEMORY = [b"NoMemory", b"AllocError", b"AllocFailed { .. }"]
NO_THREAD = [b"NoThread"]


def command_of(crate, test):
    return [TOP / f"crates/{crate}/out/{crate}_tests", test]


def whole_of(refusing, crate, test):
    """What comes of a test that is refused nothing."""
    whole = refusing.run(command_of(crate, test), 0)
    if whole[0] != PASSED or b"test result: ok" not in whole[1]:
        sys.exit(f"sweep_tests: {crate}: {test} goes wrong with ample memory: {whole!r:.600}")
    return whole


def is_error(got, errors):
    """Whether a test's result is one of these errors."""
    status, _, told = got
    result = RESULT.fullmatch(told)
    return status == FAILED and result is not None and result[1] in errors


def sweep(refusing, crate, test):
    """How many of a test's requests pass when they are refused, and what is wrong."""
    whole = whole_of(refusing, crate, test)
    requests = refusing.requests()
    wrong = []
    refused_calls = 0
    for nth in range(1, requests + 1):
        got = refusing.run(command_of(crate, test), nth)
        refused_calls += got == whole
        if got != whole and not is_error(got, NO_MEMORY):
            wrong.append(f"request {nth} of {requests} refused: got {got!r:.600}")
    passed = requests - len(wrong)
    if not refused_calls:
        wrong.append(f"none of {requests} requests was that of a call under test")
    return passed, wrong


def refuse_requests(refusing, command, whole, way, most):
    """Which request a run of threads was refused in this way, what came of it, and whether that is well."""
    nth = 0
    while nth < most:
        nth += 1
        got = refusing.run(command, nth, way=way)
        most = max(most, refusing.requests())
        if refusing.has_refused_a_start():
            is_well = is_error(got, NO_THREAD)
        else:
            is_well = got == whole or is_error(got, NO_MEMORY)
        yield f"request {nth} {WAYS[way]}", got, is_well


def refuse_threads(refusing, command, threads):
    """Which thread a run was refused, what came of it, and whether that is well."""
    for nth in range(1, threads + 1):
        got = refusing.run(command, 0, thread=nth)
        yield f"thread {nth} of {threads} refused", got, is_error(got, NO_THREAD)


def sweep_run(refusing, crate, test):
    """How many refused requests and threads a run ends well after, and what is wrong. Where a run
    does not end, no more are made."""
    whole = whole_of(refusing, crate, test)
    command = command_of(crate, test)
    requests, threads = refusing.requests(), refusing.threads()
    passed = 0
    wrong = [] if threads else ["no thread was to start"]
    tries = [refuse_requests(refusing, command, whole, way, requests) for way in WAYS]
    for refused, got, is_well in chain(*tries, refuse_threads(refusing, command, threads)):
        passed += is_well
        if not is_well:
            wrong.append(f"{refused}: got {got!r:.600}")
        if got == HANGS:
            break
    return passed, wrong


def main():
    passed = failed = 0
    with tempfile.TemporaryDirectory() as folder:
        refusing = Refusing(folder)
        for sweep_one, tests in [(sweep, TESTS), (sweep_run, RUNS)]:
            for crate, test in tests:
                right, wrong = sweep_one(refusing, crate, test)
                for line in wrong:
                    print(f"{crate}: {test}: {line}")
                passed += right
                failed += len(wrong)
    print(f"sweep_tests: {passed} passed, {failed} failed")
    sys.exit(1 if failed else 0)


main()
