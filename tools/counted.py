"""What pages tell in numbers and lists, and how the sources have it: a module of tools/claims.py."""
import functools
import re
import shutil
import subprocess

from named import code_of, paragraphs_of, words_of

NUMBERS = "no one two three four five six seven eight nine ten eleven twelve thirteen fourteen fifteen sixteen"
TENS = {"twenty": 20, "thirty": 30, "forty": 40, "fifty": 50, "sixty": 60}


def number_in(word):
    """The number that a word or digits name."""
    word = word.lower().replace(",", "")
    if word.isdigit():
        return int(word)
    return NUMBERS.split().index(word) if word in NUMBERS.split() else TENS.get(word)


@functools.lru_cache(maxsize=None)
def constant(sources, name):
    """The value of a constant of the code."""
    texts = (text for path, text in sources.texts.items() if path.endswith(".rt"))
    found = next(filter(None, (re.search(rf"\bconst {name}: \w+ = ([\d_]+);", text) for text in texts)), None)
    return found and int(found[1].replace("_", ""))


def paths_of(sources, pattern):
    return [path for path in sources.texts if re.fullmatch(pattern, path)]


@functools.lru_cache(maxsize=None)
def examples(sources, mode):
    """How many examples say in their first line that they run so."""
    texts = (sources.texts[path] for path in paths_of(sources, r"examples/\w+\.actors"))
    return sum(f"./run {mode} " in text.split("\n")[0] for text in texts)


def matches_in(sources, path, pattern):
    return len(re.findall(pattern, sources.texts.get(path, ""), re.M))


@functools.lru_cache(maxsize=None)
def in_code(sources, pattern):
    """How often this stands in the code of all crates."""
    return sum(matches_in(sources, path, pattern) for path in paths_of(sources, r"crates/\w+/src/.*\.rt"))


@functools.lru_cache(maxsize=None)
def structs_with(sources, crate, trait):
    """How many structs of a crate have an impl of this trait."""
    text = "\n".join(sources.texts[path] for path in paths_of(sources, rf"crates/{crate}/src/.*\.rt"))
    names = re.findall(rf"^impl(?:<.*>)? {trait} for (\w+)", text, re.M)
    return sum(bool(re.search(rf"^pub struct {name}\b", text, re.M)) for name in names)


@functools.lru_cache(maxsize=None)
def laws_of(sources, crate):
    """How many laws a crate has: public functions without arguments and results."""
    paths = paths_of(sources, rf"crates/{crate}/src/.*\.rt")
    return sum(matches_in(sources, path, r"^pub fn \w+(?:<.*>)?\(\)\n") for path in paths)


def longest_loop(sources, path):
    """Over how many thousands the longest loop of a file goes that counts and names nothing."""
    return max(int(count.replace("_", "")) for count in re.findall(r"for _ in 0\.\.([\d_]+)", sources.texts[path])) // 1000


def lines_of_history(sources, path):
    """The lines of a history that are neither empty nor a comment."""
    return sum(bool(line.strip()) and not line.startswith("#") for line in sources.texts.get(path, "").split("\n"))


def counted():
    """Of each number that a page tells: the page, the words around it, and how it is counted."""
    examples_page, rules, guide = "examples/README.md", "docs/rules.md", "docs/guide.md"
    yield examples_page, r"The first (\w+) list events", lambda it: examples(it, "play")
    yield examples_page, r"in one of the first (\w+);", lambda it: examples(it, "play")
    yield examples_page, r"the last (\w+) are for threads", lambda it: examples(it, "threads")
    yield examples_page, r"(\w+) such plays lie here", lambda it: len(paths_of(it, r"examples/\w+\.play"))
    yield examples_page, r"script, in (\w+) lines", lambda it: lines_of_history(it, "examples/out_of_order.history")
    yield "README.md", r"has (\w+) scripts", lambda it: examples(it, "play") + examples(it, "threads")
    yield "README.md", r"The last (\w+) are for threads", lambda it: examples(it, "threads")
    yield "README.md", r"`crates/example_kinds` has (\w+) to copy", lambda it: structs_with(it, "example_kinds", "Actor")
    yield "README.md", r"`crates/example_callers` has (\w+) to copy", lambda it: structs_with(it, "example_callers", "Code")
    first = "crates/example_first"
    yield f"{first}/README.md", r"the (\w+) events of", lambda it: matches_in(it, f"{first}/src/main.rt", r"^ +Event::")
    yield rules, r"The (\w+) laws again", lambda it: matches_in(it, "crates/act_world/src/laws.rt", r"^pub fn l\d")
    kind = "crates/act_kinds/src/actor.rt"
    yield guide, r"the (\w+) clauses of `Actor`", lambda it: matches_in(it, kind, r"^ {8}ensures ")
    thousands = r"on (\w+) thousand and (?:\w+) thousand random", r"on \w+ thousand and (\w+) thousand random"
    for words, part in zip([*thousands, r"one run of (\w+) thousand steps"], ["inbox", "resolver", "replies"]):
        yield "docs/proved.md", words, functools.partial(longest_loop, path=f"crates/tests_of_parts/src/{part}.rt")
    yield "docs/DECISIONS.md", r"\*\*(\w+) calls are `unsafe`\*\*", lambda it: in_code(it, r"\bunsafe \{")
    yield "docs/DECISIONS.md", r"are stored in (\w+) slots", lambda it: constant(it, "MAX_ACTORS") + 1
    for page, words, name in CONSTANTS:
        yield page, words, functools.partial(lambda it, name: constant(it, name), name=name)
    yield guide, r"(\w+) kinds do so", lambda it: laws_of(it, "example_kinds")
    yield "README.md", r"and of (\w+) of them what they keep is proved", lambda it: laws_of(it, "example_kinds")


# Numbers that are constants of the code: the page, the words around the number, and the constant.
CONSTANTS = [
    ("docs/rules.md", r"up to (\d+) \*\*callers\*\*", "MAX_CALLERS"),
    ("docs/rules.md", r"up to (\d+) \*\*actors\*\*", "MAX_ACTORS"),
    ("docs/rules.md", r"more than (\d+) arguments", "MAX_ARGS"),
    ("docs/rules.md", r"has submitted ([\d,]+) calls", "MAX_CALLS"),
    ("docs/rules.md", r"holds ([\d,]+) copies", "MAX_COPIES"),
    ("docs/rules.md", r"may be pending, from 1 to ([\d,]+)", "MAX_CALLS"),
    ("docs/rules.md", r"All of it has ([\d,]+) bytes at most", "MAX_SCRIPT_BYTES"),
    ("docs/rules.md", r"list of bytes of at most ([\d,]+)", "MAX_SCRIPT_BYTES"),
    ("docs/rules.md", r"the script has more than ([\d,]+) bytes", "MAX_SCRIPT_BYTES"),
    ("docs/rules.md", r"A line has at most (\d+) bytes", "MAX_LINE_BYTES"),
    ("docs/rules.md", r"good where it has 1 to (\d+) bytes", "MAX_TEXT_BYTES"),
    ("docs/rules.md", r"A name has 1 to (\d+) ASCII", "MAX_NAME_BYTES"),
    ("docs/rules.md", r"`KindFull`: ([\d,]+) keys", "MAX_KEYS"),
    ("docs/rules.md", r"there are ([\d,]+) items", "MAX_ITEMS"),
    ("docs/rules.md", r"`c1` to `c(\d+)`,", "MAX_CALLERS"),
    ("docs/rules.md", r"`c1` to `c\d+`, `a1` to `a(\d+)`", "MAX_ACTORS"),
    ("docs/rules.md", r"LIMIT \| 1 to (\d+)", "MAX_CALLS"),
    ("docs/rules.md", r"after each (\d+) steps of its plan", "STEPS_BETWEEN_TURNS"),
    ("docs/rules.md", r"A session asks ([\d,]+) kills", "MAX_KILLS"),
    ("docs/DECISIONS.md", r"\*\*A line holds (\d+) letters or notices", "MAIL_CAPACITY"),
    ("docs/DECISIONS.md", r"\*\*A line holds \d+ letters or notices, and (\d+) kills", "CONTROL_CAPACITY"),
    ("docs/DECISIONS.md", r"(\d+) of each at most, which is what a line holds", "MAX_IN_A_TURN"),
    ("docs/DECISIONS.md", r"takes such a turn after each (\d+) steps", "STEPS_BETWEEN_TURNS"),
    ("docs/DECISIONS.md", r"(\d+) short pauses are longer than most waits", "SHORT_PAUSES"),
    ("docs/DECISIONS.md", r"after ([\d,]+) pauses more, each of which gives", "YIELDS_AT_A_BELL"),
    ("docs/DECISIONS.md", r"gives the processor away ([\d,]+) times, and then naps", "YIELDS"),
    ("docs/DECISIONS.md", r"Each sleep ends after\s+([\d,]+) milliseconds", "LONGEST_SLEEP"),
    ("docs/DECISIONS.md", r"naps double from (\d+) microseconds", "FIRST_NAP"),
    ("docs/DECISIONS.md", r"naps double from \d+ microseconds up to ([\d,]+)", "LONGEST_NAP"),
    ("docs/arguments.md", r"After ([\d,]+) of these it sleeps", "YIELDS_AT_A_BELL"),
    ("docs/arguments.md", r"after ([\d,]+) pauses that give", "YIELDS"),
    ("docs/arguments.md", r"it naps, for ([\d,]+) microseconds at most", "LONGEST_NAP"),
    ("docs/DECISIONS.md", r"tried at one wait of (\w+)", "WAITS_BETWEEN_TRIALS"),
    ("docs/DECISIONS.md", r"(\d+) letters cost a method", "MAX_NAME_BYTES"),
    ("docs/arguments.md", r"(\d+) pauses are short at first", "SHORT_PAUSES"),
    ("docs/arguments.md", r"with a turn after each (\d+)", "STEPS_BETWEEN_TURNS"),
    ("docs/arguments.md", r"Each (\d+) submissions bring a turn", "STEPS_BETWEEN_TURNS"),
    ("docs/arguments.md", r"(\d+) of each at most", "MAX_IN_A_TURN"),
    ("docs/arguments.md", r"a line of (\d+)", "REPLY_CAPACITY"),
    ("docs/arguments.md", r"control line holds (\d+) kills", "CONTROL_CAPACITY"),
    ("docs/guide.md", r"`CallerId::new` takes 1 to (\d+)", "MAX_CALLERS"),
    ("docs/guide.md", r"`ActorId::new` takes 1 to (\d+)", "MAX_ACTORS"),
    ("docs/guide.md", r"a text of 1 to (\d+) bytes", "MAX_TEXT_BYTES"),
    ("docs/guide.md", r"A caller has ([\d,]+) calls in an epoch", "MAX_CALLS"),
    ("CONTRIBUTING.md", r"holds 32 letters in place of (\d+)", "MAIL_CAPACITY"),
    ("README.md", r"At most (\d+) callers", "MAX_CALLERS"),
    ("README.md", r"callers, (\d+) actors and", "MAX_ACTORS"),
    ("README.md", r"and ([\d,]+) calls of a caller", "MAX_CALLS"),
    ("docs/limits.md", r"\| callers \| (\d+) \|", "MAX_CALLERS"),
    ("docs/limits.md", r"\| actors \| (\d+) \|", "MAX_ACTORS"),
    ("docs/limits.md", r"`Bank` has ([\d,]+) accounts", "MAX_ACCOUNTS"),
    ("docs/limits.md", r"\| calls of a caller in a run \| ([\d,]+) \|", "MAX_CALLS"),
    ("docs/limits.md", r"\| pending calls in a cast \| ([\d,]+) \|", "MAX_CALLS"),
    ("docs/limits.md", r"\| arguments of a call \| (\d+) \|", "MAX_ARGS"),
    ("docs/limits.md", r"\| copies of a handle \| ([\d,]+) \|", "MAX_COPIES"),
    ("docs/limits.md", r"\| kills, of a session to an actor \| ([\d,]+) \|", "MAX_KILLS"),
    ("docs/limits.md", r"\| steps of a plan \| below ([\d,]+) \|", "MAX_STEPS"),
    ("docs/limits.md", r"\| letters and notices of a world \| below ([\d,]+) \|", "MAX_PLACES"),
    ("docs/limits.md", r"\| bytes of a text \| (\d+) \|", "MAX_TEXT_BYTES"),
    ("docs/limits.md", r"\| bytes of a name \| (\d+) \|", "MAX_NAME_BYTES"),
    ("docs/limits.md", r"\| keys of a table \| ([\d,]+) \|", "MAX_KEYS"),
    ("docs/limits.md", r"\| items of a list \| ([\d,]+) \|", "MAX_ITEMS"),
    ("docs/limits.md", r"\| bytes of a script \| ([\d,]+) \|", "MAX_SCRIPT_BYTES"),
    ("docs/limits.md", r"\| bytes of a line \| (\d+) \|", "MAX_LINE_BYTES"),
    ("docs/limits.md", r"up to ([\d,]+) callers, as many actors", "MAX_NUMBER"),
    ("docs/limits.md", r"as many actors, and ([\d,]+) bytes", "MAX_BYTES"),
]


def faults_of_numbers(sources, texts):
    """The numbers that are others by the sources."""
    for page, words, count in counted():
        text = " ".join(texts.get(page, "").split())
        told = re.findall(words, text)
        wanted = count(sources)
        if not told:
            yield page, f"no number stands where one is counted: {words}"
        for word in told:
            if number_in(word) != wanted:
                yield page, f"it says {word} where the sources have {wanted}: {words}"


def faults_of_lists(sources, texts, crates):
    """The lists of pages that aren't complete: crates of the kit, handles, refusals, examples."""
    page = "docs/proved.md"
    text = " ".join(texts[page].split())
    found = re.search(r"over its std and its crates (.*?)\. ", text)
    named = set(code_of(found[1] if found else ""))
    of_kit = {library for libraries in crates.values() for library in libraries} - set(crates)
    if named != of_kit:
        yield page, f"the crates of the kit are {', '.join(sorted(of_kit))}, and it names {', '.join(sorted(named))}"
    handles = texts["HANDLES"].strip().rstrip(".")
    if handles not in text:
        yield page, f"it doesn't say: {handles}"
    found = re.search(r"Handles allowed: [\w, ]+;(.*?)use them", text)
    named = set(code_of(found[1] if found else ""))
    users = {crate for crate in crates if uses_threads(sources, crate)}
    if named != {crate for crate in users if not crate.startswith("tests_of_")}:
        yield page, f"crates with handles: {', '.join(sorted(users))}"
    floors = words_of(texts["docs/architecture.md"])
    for crate in sorted(crates):
        if crate not in floors and not crate.startswith("tests_of_"):
            yield "docs/architecture.md", f"it doesn't name {crate}"
    table = set(re.findall(r"^\| \d+ \| \[\w+\]\((\S+?)\)", texts["examples/README.md"], re.M))
    scripts = {path.rpartition("/")[2] for path in paths_of(sources, r"examples/\w+\.actors")}
    if table != scripts:
        yield "examples/README.md", f"the table and the folder differ in {', '.join(sorted(table ^ scripts))}"
    decisions = " ".join(texts["docs/DECISIONS.md"].split())
    named = set(code_of(re.search(r"are in crates of tests\*\* \((.*?)\)", decisions)[1]))
    if named != (of_tests := {crate for crate in crates if crate.startswith("tests_of_")}):
        yield "docs/DECISIONS.md", f"the crates of tests are {', '.join(sorted(of_tests))}"
    laws = re.findall(r"^pub fn (\w+)\(\)", sources.texts["crates/act_rules/src/laws.rt"], re.M)
    for law in laws:
        if f"`{law}`" not in texts["docs/rules.md"]:
            yield "docs/rules.md", f"it doesn't tell the law {law}"
    yield from faults_of_refusals(sources, texts["docs/rules.md"])
    yield from faults_of_methods(sources, texts["docs/rules.md"])


REFUSALS = ["WorldRefusal", "SubmitRefusal", "HandleRefusal", "SendRefusal"]


def faults_of_refusals(sources, rules):
    """The refusals of the code that the table of docs/rules.md hasn't, and the other way round."""
    text = sources.texts["crates/act_rules/src/outcome.rt"]
    blocks = [re.search(rf"pub enum {name} \{{(.*?)^\}}", text, re.S | re.M)[1] for name in REFUSALS]
    # Those with a refusal of another type are no refusal of their own, and want of memory is no outcome.
    there = {name for block in blocks for name in re.findall(r"^    (\w+),", block, re.M)} - {"NoMemory"}
    table = rules.partition("| Refusal | The check fails where |")[2].partition("\n\n")[0]
    told = set(re.findall(r"^\| `(\w+)` \|", table, re.M))
    if told != there:
        yield "docs/rules.md", f"the table of refusals and the code differ in {', '.join(sorted(told ^ there))}"


# Methods that no kind of the table has: the actor's own, and those of kinds of one's own.
NOT_IN_TABLE = {"terminate", "own"}


def faults_of_methods(sources, rules):
    """The methods of the code that the table of kinds hasn't, and the other way round."""
    block = re.search(r"pub enum Method \{(.*?)^\}", sources.texts["crates/act_types/src/call.rt"], re.S | re.M)[1]
    there = {name.lower() for name in re.findall(r"^    (\w+)", block, re.M)} - NOT_IN_TABLE
    table = rules.partition("| Kind, opening state | Method |")[2].partition("\n\n")[0]
    told = set(re.findall(r"^\|[^|]*\| `(\w+)[^`|]*` \|", table, re.M))
    if told != there:
        yield "docs/rules.md", f"the table of kinds and the code differ in {', '.join(sorted(told ^ there))}"


@functools.lru_cache(maxsize=None)
def uses_threads(sources, crate):
    """Whether the code of a crate names a handle for threads, or is a program that runs plans."""
    texts = (text for path, text in sources.texts.items() if path.startswith(f"crates/{crate}/src/"))
    handle = r"\bR: (?:Threads|Wait)\b|\bThreads \+|\+ Wait\b"
    return any(re.search(rf"{handle}|HostRuntime\b.*\n[\s\S]*run_(?:plans|callers)", text) for text in texts)


def said_by(*words):
    """What a command of the kit prints; nothing where it isn't there."""
    if not shutil.which("rt"):
        return ""
    done = subprocess.run(["rt", *words], capture_output=True, text=True, check=False)
    return done.stdout.strip() if done.returncode == 0 else ""


def faults_of_kit(texts):
    """Whether README.md names another logic than that of the kit which is there, and what the kit has no command or flag
    for. Kits of one logic accept the same proofs, so their names may differ."""
    _, word, logic = said_by("version").partition(" logic ")
    if word and f"`logic {logic}`" not in " ".join(texts["README.md"].split()):
        yield "README.md", f"the kit's logic is {logic}, and another is named"
    told = set(re.findall(r"--[\w-]+|[\w-]+", said_by("--help")))
    for page in sorted(path for path in texts if path.endswith(".md") and told):
        spans = (code for _, paragraph in paragraphs_of(texts[page]) for code in code_of(paragraph))
        for call in (code for code in spans if code.startswith("rt ")):
            for word in [call.split()[1], *re.findall(r"(?<=\s)--[\w-]+", call)]:
                if word not in told:
                    yield page, f"the kit has no {word}, of `{call}`"
