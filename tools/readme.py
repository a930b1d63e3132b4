#!/usr/bin/env python3
"""Runs what README.md shows: the commands of its quick start, and the scripts that have their reports next to them.

Each command of a block but those of `./test` is run in a folder of links, one after another, as a reader would who
copies them; and then each that the text names with an example. It must end with the status of ENDS, write something,
and complain of nothing. A file that it writes into the clone must be one that .gitignore knows. What the play of a
record ends in must be allowed by the second reading of the rules.

A script on the left of a block must give the report on its right, and each page must have those of SCRIPTS. One without
events is run in threads, and several times, since the page says that it gives the same whatever the schedule.

Of examples/README.md the scripts are run in threads whose lines tell what each call is answered by. Of the examples
that are played each text in the quotes of a comment must stand in the script or in its report. What a comment says of a
run in threads depends on the schedule; tools/threads.py judges such runs.
"""
import fnmatch
import pathlib
import re
import subprocess
import sys
import tempfile

import program
from program import TOP

# What README.md has to show, and the names that are in the folder in which it is run.
COMMANDS = ["./run", "./draw", "./record", "./check", "./explore", "./explain"]
LINKED = ["examples", *COMMANDS]
# How a command ends that doesn't end with 0: the history that is shown breaks a rule.
ENDS = {"./check": 5}
# What runs this tool isn't run here.
LEFT_OUT = "./test"
EVENTS = {"send", "deliver", "run", "collect", "take", "tell", "retire"}
# The scripts that a page shows, each with its report, by how they are run.
SCRIPTS = {"README.md": ["play"], "examples/README.md": ["threads"]}
REPORT = r"\d+: |[ac]\d+[. ]"
RUNS_IN_THREADS = 20
MAX_SECONDS = 120
RECORD = "bank.play"
SCRIPT_OF_RECORD = "examples/bank.actors"


def blocks_of(text):
    """The blocks of a page that stand four spaces in, each as its lines."""
    fenced, block = False, []
    for line in [*text.split("\n"), ""]:
        fenced ^= line.startswith("```")
        if not fenced and line.startswith("    "):
            block.append(line[4:])
        elif block:
            yield block
            block = []


def commands_of(text):
    """The commands that a page shows in blocks, without what is said of them, and those in its text with an example."""
    lines = [line for block in blocks_of(text) for line in block if line.startswith("./")]
    commands = [re.split(r"\s+# ", line)[0].rstrip() for line in lines]
    commands += [" ".join(code.split()) for code in re.findall(r"`(\./[^`]*\sexamples/[^`]*)`", text)]
    return [command for command in commands if command.split()[0] != LEFT_OUT]


def written_by(command):
    """The file into which a command writes, or None."""
    into = re.search(r" > (\S+)$", command)
    return into and into[1]


def columns_of(block):
    """The lines on the left of a block and those on its right; none on the right where it has one column."""
    begins = [found.start(1) for line in block if (found := re.match(r"\S.*?   +(\S)", line))]
    if not begins:
        return [line for line in block if line.strip()], []
    at = min(begins)
    return [line[:at].rstrip() for line in block if line[:at].strip()], [line[at:] for line in block if line[at:]]


def scripts_of(text):
    """The scripts that have something on their right: their lines, and those."""
    pairs = [columns_of(block) for block in blocks_of(text) if not block[0].startswith("./")]
    return [(script, beside) for script, beside in pairs if beside]


def reported_of(text):
    """The scripts that have their report on their right, and the reports."""
    return [(script, beside) for script, beside in scripts_of(text) if re.match(REPORT, beside[0])]


def mode_of(script):
    return "play" if EVENTS & {line.split()[0] for line in script} else "threads"


def faults_of_reports(page, text, run):
    """The scripts of a page that don't give the report next to them; `run` plays one or runs it in threads."""
    pairs = reported_of(text)
    if (modes := [mode_of(script) for script, _ in pairs]) != SCRIPTS[page]:
        yield f"{page} has scripts with reports for {modes}, and should have some for {SCRIPTS[page]}"
    for script, report in pairs:
        mode = mode_of(script)
        for _ in range(RUNS_IN_THREADS if mode == "threads" else 1):
            if (got := run(mode, script)) != report:
                yield f"the script that begins with {script[0]!r} gives {got}, and not {report}"
                break


def faults_of_answers(text, run):
    """The calls of examples/README.md that are answered by something else than is told beside them."""
    told = 0
    for script, beside in scripts_of(text):
        if not script[0].startswith("actor"):
            continue
        report = "\n".join(run("threads", script))
        for number, answer in re.findall(r"the call (\d+), answered by (\d+)", "\n".join(beside)):
            told += 1
            if not re.search(rf"^c1\.{number} a\d = {answer}$", report, re.M):
                yield f"the call {number} isn't answered by {answer}: {report!r}"
    if not told:
        yield "examples/README.md tells no answer"


def faults_of_example(name, text, run):
    """The texts that the comments of a played example quote, and that stand neither in it nor in its report."""
    comments = " ".join(line.lstrip("# ") for line in text.splitlines() if line.startswith("#"))
    lines = [line for line in text.splitlines() if not line.startswith("#")]
    given = "\n".join([*lines, *run("play", lines)])
    for quoted in re.findall(r"(?<!\w)'([^']+)'(?!\w)", comments):
        if quoted not in given:
            yield f"{name}: neither the script nor its report has '{quoted}'"


def played_examples():
    """Name and text of the examples whose first lines say that they are played."""
    texts = {path.name: path.read_text() for path in sorted((TOP / "examples").glob("*.actors"))}
    return {name: text for name, text in texts.items() if "./run play " in text.split("\n")[0]}


def run_script(mode, script):
    """The lines of the report of a script."""
    text = "".join(line + "\n" for line in script)
    how = {"capture_output": True, "text": True, "timeout": MAX_SECONDS, "check": False}
    done = subprocess.run([TOP / "run", mode], input=text, **how)
    return done.stdout.splitlines()


def fault_of_command(command, done):
    """What is wrong with how a command ended, or None."""
    wanted = ENDS.get(command.split()[0], 0)
    # Which program is taken, or that one is built, is told on the standard error, in lines with the tool's name.
    notes = [line for line in done.stderr.splitlines() if not re.match(r"\w+: ", line)]
    if done.returncode != wanted or "Traceback" in done.stderr or notes:
        return f"{command}: it ended with {done.returncode} and not {wanted}: {done.stderr!r:.300}"
    return None


def faults_of_commands(text, folder):
    """The commands of README.md that don't do what they are shown for, run in this folder."""
    for name in LINKED:
        (folder / name).symlink_to(TOP / name)
    for command in commands_of(text):
        how = {"cwd": folder, "capture_output": True, "text": True, "timeout": MAX_SECONDS, "check": False}
        done = subprocess.run(["bash", "-c", command], **how)
        if fault := fault_of_command(command, done):
            yield fault
        into = written_by(command)
        written = (folder / into).read_text() if into and (folder / into).exists() else done.stdout
        if not written.strip():
            yield f"{command}: it wrote nothing"
        if command.endswith(f" {RECORD}"):
            yield from faults_of_end(command, done.stdout)


def faults_of_shown(text, ignored):
    """The commands that README.md doesn't show, and those that leave a file in the clone, by what .gitignore has."""
    commands, known = commands_of(text), [line.removeprefix("/") for line in ignored.splitlines()]
    for missing in sorted({*COMMANDS} - {command.split()[0] for command in commands}):
        yield f"README.md doesn't show {missing}"
    for command in commands:
        into = written_by(command)
        if into and not any(fnmatch.fnmatchcase(into, pattern) for pattern in known):
            yield f"{command}: .gitignore doesn't know {into}"


def faults_of_end(command, report):
    """Whether the rules don't allow what the play of a record ends in."""
    if not command.startswith("./run play"):
        return
    summary = "".join(line + "\n" for line in report.splitlines() if not re.match(r"\d+: ", line))
    reading = [sys.executable, TOP / "tools/reading_of_rules.py", TOP / SCRIPT_OF_RECORD]
    done = subprocess.run(reading, input=summary, capture_output=True, text=True, check=False)
    if done.returncode != 0 or not summary:
        yield f"{command}: the rules don't allow its end: {done.stdout!r:.300}"


def main():
    for each in program.RUNS, program.RECORDS, program.CHECKS:
        program.kept("readme", each)
    texts = {page: (TOP / page).read_text() for page in SCRIPTS}
    readme = texts["README.md"]
    with tempfile.TemporaryDirectory(prefix="readme-") as folder:
        faults = [
            *faults_of_shown(readme, (TOP / ".gitignore").read_text()),
            *faults_of_commands(readme, pathlib.Path(folder)),
            *(fault for each in texts.items() for fault in faults_of_reports(*each, run_script)),
            *faults_of_answers(texts["examples/README.md"], run_script),
            *(fault for each in played_examples().items() for fault in faults_of_example(*each, run_script)),
        ]
    for fault in faults:
        print(fault)
    scripts = sum(len(reported_of(text)) for text in texts.values())
    counts = f"{len(commands_of(readme))} commands, {scripts} scripts and {len(played_examples())} examples"
    print(f"readme: {counts} run: {len(faults)} failed")
    return 1 if faults else 0


if __name__ == "__main__":
    program.ended("readme", main)
