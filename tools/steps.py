#!/usr/bin/env python3
"""Runs the steps of `./test`, which calls it: the checks, the gate and what runs programs, or the quick ones alone.

    tools/steps.py all | programs | quick

With `all` the checks come first, then tools/gate.py, and beside its last edits what runs the programs. The first step
that fails ends it. With `programs` these alone are run, over the proved programs that an earlier run left.

With `quick` nothing is proved. The checks are run, the tests of each crate that has some (tools/try_tests.py), and what
can run over programs that aren't proved, as `./run` takes them. As many run side by side as there are processors. Each
is run, and those that failed are named at the end.

What is shown is a page (tools/page.py). The full text is in .built/: test.log, programs.log and quick.log.
"""
import os
import sys
from concurrent.futures import ThreadPoolExecutor
from contextlib import contextmanager

import explore
import program
from gate import crates_with_tests, gate, put_back, sources_of
from page import Page

CHECKS = [
    "rows_of_theorems.py", "rows_in_test.py --check", "audit.py --check", "test_edits.py", "more_edits.py --check",
    "pages.py", "claims.py", "test_claims.py", "quoted.py", "door.py", "reference.py --check", "test_reference.py",
    "test_new_app.py",
]  # fmt: skip
# What can run over any programs: {run}, {record}, {check} and {explore} stand for those that these commands take.
OVER_ANY = [
    "commands.py", "readme.py", "recorded.py --noted --program {record} --player {run}", "pictures.py --check",
    "fuzz.py --program {run}", "threads.py --program {run}", "check_histories.py --program {check} --runs {run}",
    "explained.py --program {run} --checker {check}", "plain_play.py --small --may-miss --program {run}",
    "test_ray_history.py --program {check}", "peers_checked.py --small --may-miss --program {check}",
    "orders.py --small",
]  # fmt: skip
# What runs the programs as two compilers made them, and what can run over one of them that isn't proved.
ROWS, ROWS_OF_ONE = "rows.py", "rows.py --program {run}"
# Where nothing is proved, fewer random scripts do, and no memory can be refused from outside.
QUICKLY = {"recorded": "--count 100 --unrefused"}
# What needs proved programs: some refuse memory from outside, and the others run programs that the gate alone leaves.
OVER_PROVED = [
    "sweep_memory.py", "sweep_tests.py", "code_runs.py", "explored.py --count 100 --program {explore} --runner {run}",
    "bank_runs.py --small --may-miss", "peers.py --small --may-miss", "idle.py --small",
    "call_cost.py --small --may-miss", "long_runs.py --small --may-miss", "history_cost.py --small",
]  # fmt: skip
HOW_LONG = "takes an hour to an hour and a half on four quiet cores, twice that on two"
# What finds or builds the programs, and tells last where each is.
BUILD = "programs"
TAKE = """import explore
import program
taken = [program.kept("test", each) for each in (program.RUNS, program.RECORDS, program.CHECKS)]
print(*taken, explore.kept(), sep="\\n")"""
PROGRAMS = {"run": program.RUNS, "record": program.RECORDS, "check": program.CHECKS, "explore": explore.EXPLORES}


def tools():
    """The names of the tools that `./test` runs."""
    listed = {words.split()[0] for words in [*CHECKS, *OVER_ANY, ROWS, *OVER_PROVED]}
    return listed | {"gate.py", "steps.py", "try_tests.py"}


def run_tool(page, words, programs=(), is_told=True):
    """Runs a tool over these programs, by the names of the commands that take them. Returns whether it passes."""
    name, *rest = words.format(**dict(programs)).split()
    return page.run([sys.executable, f"tools/{name}", *rest], is_told=is_told)


def processors():
    return len(os.sched_getaffinity(0))


# All of it, or what runs the programs.


def run_programs(page):
    """Whether all passes that runs the proved programs."""
    proved = {name: each.proved for name, each in PROGRAMS.items()}
    steps = [*OVER_ANY, ROWS, *OVER_PROVED]
    passed = all(run_tool(page, words, proved) for words in steps)
    if passed:
        page.sum_up(f"programs: {len(steps)} tools passed")
    return passed


def run_all(page):
    """Whether the checks pass, the gate, and what runs programs."""
    page.show(f"test: {HOW_LONG}; here are {processors()}")
    if not all(run_tool(page, words, is_told=False) for words in CHECKS):
        return False
    page.sum_up(f"checks: {len(CHECKS)} passed")
    return gate(page, lambda: run_programs(page))


# The quick ones.


def taken_programs(page):
    """The programs that `./run`, `./record` and `./check` take, which are built where none stands, by these names; none
    where that fails."""
    status, lines = page.ran([sys.executable, "-c", TAKE], BUILD, program.TOP / "tools")
    if status:
        page.show_kept(*lines)
        return {}
    taken = dict(zip(PROGRAMS, lines[-len(PROGRAMS) :]))
    page.tell(f"{BUILD}: {', '.join(path.rpartition('/')[2] for path in taken.values())}")
    return taken


def try_tests(page, crate):
    """Whether the tests of a crate pass, which aren't proved."""
    return page.run([sys.executable, "tools/try_tests.py", crate], crate)


def crates_to_try():
    """The crates that have tests, the largest first."""
    crates = [crate for crate, has_tests in crates_with_tests().items() if has_tests]
    sizes = {crate: sum(path.stat().st_size for path in sources_of(crate)) for crate in crates}
    return sorted(crates, key=sizes.get, reverse=True)


def name_of(words):
    """The name of a tool, by its words."""
    return words.partition(".")[0]


def quick_steps(page, pool):
    """Begins all steps. Gives the name of each, and what tells whether it passed."""
    taken = pool.submit(taken_programs, page)
    for crate in crates_to_try():
        yield crate, pool.submit(try_tests, page, crate)
    for words in CHECKS:
        yield name_of(words), pool.submit(run_tool, page, words)
    yield BUILD, taken
    for words in [ROWS_OF_ONE, *OVER_ANY] if taken.result() else ():
        words = f"{words} {QUICKLY.get(name_of(words), '')}"
        yield name_of(words), pool.submit(run_tool, page, words, taken.result())


@contextmanager
def lanes(count):
    """A pool of so many threads, in which nothing more begins where this ends early."""
    pool = ThreadPoolExecutor(count)
    try:
        yield pool
    finally:
        pool.shutdown(cancel_futures=True)


def run_quick(page):
    """Whether all passes that needs no proof."""
    with lanes(processors()) as pool:
        steps = [*quick_steps(page, pool)]
        failed = [name for name, step in steps if not step.result()]
    page.sums.append(f"{len(steps)} steps, {len(failed)} failed")
    page.show(f"test: not run, as they need proved programs: {', '.join(map(name_of, OVER_PROVED))}")
    if failed:
        page.show(f"test: failed: {', '.join(failed)}")
    return not failed


# Each way, by its word: what runs it, and what its last line is.
WAYS = {
    "all": (run_all, "passed", "failed"),
    "programs": (run_programs, "the programs passed", "a tool that runs programs failed"),
    "quick": (run_quick, "quick checks passed; nothing was proved", "quick checks failed; nothing was proved"),
}


def main(way):
    """Runs the steps of this way, and returns whether all passed."""
    run, well, ill = WAYS[way]
    with Page("test" if way == "all" else way) as page:
        place = page.place.relative_to(program.TOP)
        page.show(f"test: the full text goes to {place}")
        passed = run(page)
        page.show(f"test: {'; '.join([*page.sums, f'{page.minutes()} minutes'])}")
        page.show(f"test: the full text is in {place}", f"test: {well if passed else ill}")
    return passed


if __name__ == "__main__":
    if sys.argv[1:] not in [[way] for way in WAYS]:
        sys.exit(f"usage: tools/steps.py {'|'.join(WAYS)}")
    if sys.argv[1] == "all":
        put_back()
    program.ended("test", lambda: 0 if main(sys.argv[1]) else 1)
