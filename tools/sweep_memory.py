#!/usr/bin/env python3
"""Refuses each request for memory of the proved program in turn, on some worked scripts, and each thread.

    tools/sweep_memory.py [--program PATH]

Each request is refused alone; in threads with all that come after it, too, so that callers and actors starve together.
Each play must write nothing, say `no memory` and end with status 3, or write the whole report. So must each run in
threads; but where a thread is refused, or memory for its start, it must say `no thread`, and nowhere else. Where it
writes a report, the rules must allow it, and it must be the whole one where that is fixed. The number of requests may
vary in threads, so the sweep goes on until no run that it saw made so many. All is refused from outside, by
tools/refuse.c.
"""
import argparse
import pathlib
import sys
import tempfile

import reading_of_rules as reading
from program import PROVED, TOP, proved
from refusing import ALONE, AND_ALL_AFTER, HANGS, WAYS, Refusing

ROWS = TOP / "crates/ray_actors/rows"
THREAD_ROWS = TOP / "crates/ray_actors/thread_rows"
SCRIPTS = ["one_call", "another_caller_passes", "one_packet_for_good", "release_and_retire", "table_script", "fault_late_actor"]
SCRIPTS += ["terminate_waits_its_turn", "limit_counts_each_caller_alone"]
SCRIPTS_FOR_THREADS = ["a_table_and_an_account", "kill", "terminate_of_two_callers", "bad_step_of_a_lower_caller"]
SCRIPTS_FOR_THREADS += ["limit_and_a_chain_over_two_actors"]
NO_MEMORY = (3, b"", b"no memory\n")
NO_THREAD = (3, b"", b"no thread\n")


class Sweep:
    """Refuses what a run of one script asks for."""

    def __init__(self, refusing, program, mode, script):
        self.refusing = refusing
        self.command = [program, mode]
        self.script = script
        self.data = script.read_bytes()
        self.is_threaded = mode == "threads"
        report, status = script.with_suffix(".report"), script.with_suffix(".status")
        self.report = report.read_bytes() if report.exists() else None
        self.status = int(status.read_text()) if status.exists() else 0
        ways = WAYS if self.is_threaded else [ALONE]
        self.refusals = dict.fromkeys(ways, 0)  # how many runs were refused memory, by the way in which they were
        self.at_once = dict.fromkeys(ways, 0)  # and how many requests one of them at most
        self.starts = 0  # how many runs were refused the start of a thread

    def run(self, nth, **how):
        return self.refusing.run(self.command, nth, self.script, **how)

    def is_whole(self, got):
        """Whether a run ended as if nothing were refused."""
        status, report, told = got
        if self.report is not None:
            return got == (self.status, self.report, b"")
        return not told and reading.judge(self.data, report, status) is None

    def refuse_requests(self, way, most):
        """Which request was refused in this way, what came of it, and whether that is well."""
        nth = 0
        while nth < most:
            nth += 1
            got = self.run(nth, way=way)
            most = max(most, self.refusing.requests()) if self.is_threaded else most
            is_start = self.refusing.has_refused_a_start()
            is_refused = got == (NO_THREAD if is_start else NO_MEMORY)
            self.refusals[way] += is_refused
            self.at_once[way] = max(self.at_once[way], self.refusing.refused())
            self.starts += is_start
            yield f"request {nth} of {most} {WAYS[way]}", got, is_refused or not is_start and self.is_whole(got)

    def refuse_threads(self, threads):
        """The same of threads."""
        for nth in range(1, threads + 1):
            got = self.run(0, thread=nth)
            yield f"thread {nth} of {threads} refused", got, got == NO_THREAD

    def refuse_all(self, requests, threads):
        for way in self.refusals:
            yield from self.refuse_requests(way, requests)
        yield from self.refuse_threads(threads)

    def sweep(self):
        """How many refused requests and threads the run ends well after, and what is wrong. Where a run does not
        end, no more are made."""
        whole = self.run(0)
        if not self.is_whole(whole):
            sys.exit(f"sweep_memory: {self.script.name} goes wrong with ample memory: {whole!r:.600}")
        requests, threads = self.refusing.requests(), self.refusing.threads()
        passed, wrong = 0, []
        for refused, got, is_well in self.refuse_all(requests, threads):
            passed += is_well
            if not is_well:
                wrong.append(f"{refused}: got {got!r:.600}")
            if got == HANGS:
                break
        if not all(self.refusals.values()):
            wrong.append("no request was refused")
        if self.at_once[ALONE] > 1 or threads and self.at_once[AND_ALL_AFTER] < 2:
            wrong.append(f"so many requests of one run were refused: {self.at_once}")
        if threads and self.starts < 2 * threads:
            wrong.append(f"of {threads} threads the start was refused {self.starts} times alone: they ask for memory twice each")
        if (threads > 0) != (self.is_threaded and not self.status):
            wrong.append(f"{threads} threads were to start")
        return passed, wrong


def chosen_program():
    options = argparse.ArgumentParser(description=__doc__.splitlines()[0])
    options.add_argument("--program", type=pathlib.Path, default=PROVED)
    return proved("sweep_memory", options.parse_args().program)


def main():
    program = chosen_program()
    runs = [("play", ROWS / f"{name}.actors") for name in SCRIPTS]
    runs += [("threads", THREAD_ROWS / f"{name}.actors") for name in SCRIPTS_FOR_THREADS]
    passed = failed = 0
    with tempfile.TemporaryDirectory() as folder:
        refusing = Refusing(folder)
        for mode, script in runs:
            right, wrong = Sweep(refusing, program, mode, script).sweep()
            for line in wrong:
                print(f"{mode}: {script.stem}: {line}")
            passed += right
            failed += len(wrong)
    print(f"sweep_memory: {passed} passed, {failed} failed")
    sys.exit(1 if failed else 0)


main()
