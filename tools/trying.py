"""Tries must-fail edits over what was proved before, as many of a crate in one check as can be told apart.

What an edit costs is mostly loading: two seconds or three each for the front end, for the logic and the libraries, and
for what the prover prints. So edits of different functions are applied together, and these functions alone are checked.

All others are bare there: a function has a hole for its proof, and no body. The prover takes it by what it promises,
as it takes a function that it refuses, and no edit of a group changes that. As a control each check has one function
more, which is as it was: where that is refused, the check tells nothing.

Two edits of one function are tried in one check, too: the second is made in a copy, below it and under another name,
with what is written of its proof. So is one that changes what a function promises. As a control, each function that is
copied is copied once as it stands, too, and accepted.

What is written of an edited function's proof has a line more, which can't stand. Of such a function the prover prints
no answers to fill in, which takes as long as to look for its proof. It tells all the same which goals aren't proved. No
function that has to be accepted has such a line.

An edit counts as refused where its own function has a message that tells of a goal; one that has others alone is
refused by its shape, and counts for nothing (tools/refusals.py). Each message of the check has to name a function that
was edited. Else something that an edit did not change is refused, too: then a function counts only where nothing that
it calls is refused beside it, and is else tried in a group again, without those that were.

An edit may have an equivalent body, by its lines `same:`. That is tried in a copy beside it, and must be accepted; then
what is written of the proof fits bodies of that shape, and each message of the edit's own tells of what it does.

An edit of definitions is tried over the functions whose clauses speak of these, where all others are bare. It counts
where it has an equivalent definition with which they are accepted, and one of them is refused. It counts, too, where a
worked example is no longer what the rules compute. Every other edit is tried alone, over the whole crate, as `rt ci`
does it.
"""
import functools
import importlib.machinery
import importlib.util
import random
import re
import shutil
import subprocess
import sys
import tempfile
from pathlib import Path
from typing import NamedTuple

from edits import TOP, BadEdit, functions_in, heads_in, with_copy, without_bodies
from refusals import ERROR, UNPROVED, is_in, of_a_goal, own_messages, plain, written_of

ONE_JOB = ["--jobs", "1"]
HOLES = "--allow-holes"
# The crate whose laws are computed by the definitions.
WORKED_EXAMPLES = "act_rows"
# More take more memory: 2 GB for these.
MAX_TOGETHER = 48

# The proof of a function that is not to be proved.
HOLE = """use Rattle.{module}.Statement.{{statement}}

pub {name}_spec : {{M : Type 1}} → statement M
{name}_spec = ?
"""
# What stands in the place of a proof that is written out, and what the prover then wouldn't read.
ANSWERS = "Answers.antt"
PROOF, PARTS_OF_A_PROOF = "Proof.antt", (ANSWERS, "Invariants.antt")
# What an edited function has beside its answers: with a line that can't stand the prover offers none to fill in.
NO_ANSWER = "no-answer-of-an-edit"
UNFILLED = f"""
pub {NO_ANSWER} : {NO_ANSWER}-asked
{NO_ANSWER} = {NO_ANSWER}-asked
"""

VERDICT = re.compile(r"fn (\S+): (.*)")
# A closure, what a type's end runs, or one of a cycle: each has its proof elsewhere.
OF_ANOTHER = re.compile(r"[+]|::fn::")
REFUSED_VERDICT = re.compile(r"(not proved|no proof)\b")
# The function may be refused only because another one is.
RESTS = re.compile(r"(is|are) not proved|it waits for")
NOT_TOLD = "no proof"
# The first alone is what has to come of an edit.
REFUSED, BY_SHAPE, PROVED, UNTRIED = "refused", "REFUSED BY ITS SHAPE", "NOT REFUSED", "NOT TRIED"


class Tried(NamedTuple):
    """What came of an edit: one of the words below."""

    edit: object
    came: str
    told: str

    @property
    def is_refused(self):
        return self.came == REFUSED


@functools.lru_cache(maxsize=None)
def kit():
    """The command `rt` of the kit, as a module: what tries an edit in the gate tries it here."""
    path = Path(shutil.which("rt") or "").resolve()
    if not path.is_file():
        sys.exit("the command rt of the Rattle kit is not on the PATH")
    loader = importlib.machinery.SourceFileLoader("rt_of_the_kit", str(path))
    module = importlib.util.module_from_spec(importlib.util.spec_from_loader(loader.name, loader))
    sys.dont_write_bytecode = True
    loader.exec_module(module)
    # (its first call sets a signal's handler, which only the main thread may)
    module.rtlib.guarded()
    return module


def checked(crate, texts, flags, kept):
    """Checks a copy of the crate with these texts in place of its own files, or no file where a text is None, as `rt`
    checks an edit."""
    rtlib = kit().rtlib
    with tempfile.TemporaryDirectory(prefix="rt-edit-") as room:
        for part in rtlib.PARTS:
            if Path(crate.folder, part).is_dir():
                shutil.copytree(f"{crate.folder}/{part}", f"{room}/{part}")
        for path, text in texts.items():
            put(Path(room, path), text)
        words = [*rtlib.guarded(), rtlib.RATTLE, "check", *crate.words(flags, keeps=False), "--incremental", kept]
        how = {"stdin": subprocess.DEVNULL, "stdout": subprocess.PIPE, "stderr": subprocess.STDOUT, "errors": "replace"}
        return subprocess.run(words, cwd=room, **how)


def put(path, text):
    """Has this text stand in that file, or no file there."""
    if text is None:
        path.unlink(missing_ok=True)
    else:
        path.parent.mkdir(parents=True, exist_ok=True)
        path.write_text(text)


def folder_of(symbol):
    """The folder of what is written of a function's proof."""
    return "/".join(["proofs", *symbol.split("::")[1:]])


def hole_of(symbol):
    """The files of a function's proof, where that is a hole."""
    names = symbol.split("::")[1:]
    folder, module = folder_of(symbol), ".".join([symbol.split("::")[0], "proofs", *names])
    written = dict.fromkeys(f"{folder}/{part}" for part in PARTS_OF_A_PROOF)
    return written | {f"{folder}/{PROOF}": HOLE.format(module=module, name=names[-1])}


def proof_of_copy(folder, symbol, name):
    """The files of what is written of a function's proof, as a copy under that name has them."""
    crate, *above, old = symbol.split("::")
    before, after = (".".join(["Rattle", crate, "proofs", *above, word, ""]) for word in (old, name))
    for part in (PROOF, *PARTS_OF_A_PROOF):
        file = Path(folder, "proofs", *above, old, part)
        if file.is_file():
            text = file.read_text().replace(before, after).replace(f"{old}_spec", f"{name}_spec")
            yield "/".join(["proofs", *above, name, part]), text


def symbols_in(lines):
    """The functions of which a check tells, as the prover names them."""
    return [found[1] for found in map(VERDICT.match, lines) if found]


class Trial:
    """A crate, whose edits are tried over what was proved of it before.

    A check keeps what it proves, and takes of what is kept only what is as it was. So what several checks
    have in common is proved once."""

    def __init__(self, name, room, wait):
        self.wait = wait
        self.crate = next(it for it in kit().rtlib.crates_below(str(TOP)) if it.name == name)
        self.kept = f"{room}/{name}"
        self.symbols, self.controlled = [], set()
        Path(self.kept).mkdir()

    def check(self, texts, *words):
        """The status of a check of the crate with these texts, and its lines."""
        self.wait()
        ran = checked(self.crate, texts, [*ONE_JOB, *words], self.kept)
        return ran.returncode, ran.stdout.split("\n")

    def bare(self, texts, functions):
        """These texts, in which each function of the crate but these has a hole for its proof, and no body."""
        texts, others = dict(texts), {*self.others(functions)}
        for path in Path(self.crate.folder, "src").rglob("*.rt"):
            file = str(path.relative_to(self.crate.folder))
            text = texts.get(file) or path.read_text()
            # (where a place has the names of several functions, none of them may be one of these)
            named = [(place, {*symbols_of(self.symbols, self.crate.name, place)}) for place in functions_in(file, text)]
            texts[file] = without_bodies(text, [place for place, symbols in named if symbols and symbols <= others])
        for symbol in sorted(others):
            texts |= hole_of(symbol)
        return texts

    def others(self, functions):
        """The functions of the crate but these, of which each has its proof in a folder of its own."""
        return sorted(it for it in self.symbols if it not in functions and not OF_ANOTHER.search(it))

    def prepare(self):
        """Builds what the crate uses, begins with what its last check kept, and returns whether it is proved."""
        with open(f"{self.kept}.log", "w") as log:
            for lower in self.crate.below():
                lower.out = log
                if lower.build_rlib(ONE_JOB, anew=False):
                    return False
        if self.crate.has_kept():
            shutil.copytree(f"{self.crate.folder}/out/incremental", self.kept, dirs_exist_ok=True)
        return self.is_proved()

    def knows(self, symbols):
        """Takes these as the crate's functions, from a check that proved it, or checks it where they are none.
        Returns whether it is proved."""
        self.symbols = symbols
        return bool(symbols) or self.is_proved()

    def is_proved(self):
        """Whether the crate is proved as it stands, all of which is then kept."""
        status, said = self.check({})
        self.symbols = symbols_in(said)
        return status == 0

    def functions(self, edit):
        """The functions that it changes as the prover names them, each with its place; none where it isn't plain."""
        places = edit.places() or ()
        named = {symbol: place for place in places for symbol in symbols_of(self.symbols, self.crate.name, place)}
        return named if len({*named.values()}) == len({*places}) else {}

    def control(self, group):
        """Functions as they are: a copy of each that the group copies and that none before it did, or else one that no
        edit of it changes, drawn by the edits. None where each is changed."""
        copied = dict(one for edit in group.has_copies() for one in self.functions(edit).items())
        new = [one for one in copied.items() if one[0] not in self.controlled] or [*copied.items()][:1]
        if new:
            return {group.add_copy(self.crate.folder, *one)[0]: one[0] for one in new}
        others = self.others({symbol for named in group.functions.values() for symbol in named})
        drawn = random.Random("".join(edit.name for edit in group.functions)).sample(others, min(len(others), 1))
        return dict.fromkeys(drawn)

    def check_edited(self, group):
        """The lines of a check of a group of edits, or none where it tells nothing."""
        control = self.control(group)
        edited = [it for named in group.functions.values() for it in named]
        asked = [*edited, *(it for named in group.same.values() for it in named), *control]
        said = self.said_of(self.unfilled(group.texts, edited), asked)
        if not said or any(is_refused(verdicts_in(said).get(it, NOT_TOLD)) for it in control):
            return []
        self.controlled |= {*control.values()}
        return said

    def unfilled(self, texts, functions):
        """These texts, where the answers of each of these functions have a line more, which can't stand."""
        texts = dict(texts)
        for symbol in functions:
            file, proof = (f"{folder_of(symbol)}/{part}" for part in (ANSWERS, PROOF))
            if not (texts.get(proof) or Path(self.crate.folder, proof).is_file()):
                path = Path(self.crate.folder, file)
                texts[file] = (texts.get(file) or (path.read_text() if path.is_file() else "")) + UNFILLED
        return texts

    def said_of(self, texts, asked):
        """The lines of a check of these functions, where the crate has these texts and all others are bare; none where
        it did not end."""
        _, said = self.check(self.bare(texts, asked), HOLES, *(word for it in asked for word in ("--only", it)))
        return said if any(line.startswith("only=") for line in said) else []

    def try_together(self, edits):
        """Tries these edits in one check. Returns what came of those that are refused, and those of which it can't be
        told, since what their functions call is refused."""
        group = Group()
        for edit in edits:
            group.takes(edit, self.functions(edit))
        group.make_copies(self.crate.folder, self.functions)
        functions = group.functions
        every = {symbol: place for named in functions.values() for symbol, place in named.items()}
        said = self.check_edited(group)
        if not said:
            return {}, edits
        is_mixed = len(edits) > 1 and is_told_elsewhere(said, every)
        verdicts = verdicts_in(said)
        resting = [edit for edit in edits if any(RESTS.search(verdicts.get(symbol, "")) for symbol in functions[edit])]
        told = {}
        for edit in edits:
            own = own_messages_of(said, functions[edit], not is_mixed)
            if own:
                fits = not any(is_refused(verdicts.get(it, NOT_TOLD)) for it in group.same.get(edit, ()))
                told[edit] = judged(edit, self.goal_of(own, group.texts), *first_of(own), fits)
        return told, resting

    def goal_of(self, own, texts):
        """The first message of a goal, among these of each function, where the crate has these texts; or None."""
        written = lambda symbol: written_of(self.crate.folder, texts, symbol)
        return next(filter(None, (of_a_goal(messages, written(symbol)) for symbol, messages in own.items())), None)

    def try_definitions(self, edits):
        """Tries these edits of definitions over the functions whose clauses speak of them, and yields what came of each
        that is refused there."""
        fit = self.fitting([edit for edit in edits if edit.has_same()])
        for edit in edits:
            asked = self.speaking(edit)
            said = asked and self.said_of(edit.applied({}), asked)
            if said and not any(map(is_of_statements, said)) and not are_accepted(said, asked):
                own = own_messages_of(said, asked, True)
                # A function may be refused only for a lemma on which it stands, or since `search` finds it in one form.
                others = [*first_of(own), *filter(is_of_proofs, said)]
                goal = self.goal_of(own, {}) if self.crate.name == WORKED_EXAMPLES else None
                if others:
                    yield judged(edit, goal, others[0], edit in fit or not edit.has_same())

    def speaking(self, edit):
        """The functions whose clauses speak of the definitions that an edit changes, each with its place."""
        return {it: place for place in edit.speaking() for it in symbols_of(self.symbols, self.crate.name, place)}

    def fitting(self, edits):
        """Those of these edits whose equivalent definitions are accepted, in one check or else each alone."""
        texts, asked = {}, {}
        try:
            for edit in edits:
                texts, asked = edit.same(texts), {**asked, **self.speaking(edit)}
            said = self.said_of(texts, asked) if edits else []
        except BadEdit:
            said = []
        if said and are_accepted(said, asked) and not any(map(ERROR.match, said)):
            return edits
        return [it for edit in edits for it in self.fitting([edit])] if len(edits) > 1 else []

    def try_alone(self, edit):
        """Tries it over the whole crate, as `rt ci` does, and leaves what is kept as it was."""
        texts = edit.applied({})
        status, said = self.check_alone(texts)
        if status == 0:
            return Tried(edit, PROVED, "the crate is still proved with it")
        unread = next((line for line in said if kit().unread(line, texts)), None)
        every = dict(self.every())
        own = {} if unread or status != 1 else own_messages_of(said, every, True)
        if not own or not said[-1].startswith("logic=not-proved"):
            return Tried(edit, UNTRIED, plain(unread or said[0]))
        fits = not edit.has_same() or self.check_alone(edit.same({}))[0] == 0
        return judged(edit, self.goal_of(own, texts), *first_of(own), fits)

    def check_alone(self, texts):
        """The status of a check of the whole crate with these texts, and its lines. What is kept stays as it was."""
        with tempfile.TemporaryDirectory(prefix="edit-alone-") as room:
            self.wait()
            shutil.copytree(self.kept, f"{room}/kept")
            ran = checked(self.crate, texts, ONE_JOB, f"{room}/kept")
        return ran.returncode, ran.stdout.rstrip("\n").split("\n")

    def every(self):
        """The functions of the crate, each with its place."""
        for path in sorted(Path(self.crate.folder, "src").rglob("*.rt")):
            for place, _ in heads_in(str(path.relative_to(self.crate.folder)), path.read_text()):
                yield from ((it, place) for it in symbols_of(self.symbols, self.crate.name, place))

    def try_all(self, edits):
        """Tries each, and yields what came of it."""
        left = [edit for edit in edits if not self.functions(edit)]
        waiting = groups([edit for edit in edits if edit not in left], self.functions)
        while waiting:
            group = waiting.pop(0)
            refused, resting = self.try_together(group)
            yield from refused.values()
            others = [edit for edit in group if edit not in refused]
            # Without what was refused there, these can be told apart; where nothing was, the group is halved.
            again = [edit for edit in others if edit in resting] if refused else others if len(group) > 1 else []
            left += [edit for edit in others if edit not in again]
            half = len(again) if refused else len(again) // 2
            waiting += filter(None, [again[:half], again[half:]])
        for each in self.try_definitions([edit for edit in left if edit.is_of_definitions()]):
            left.remove(each.edit)
            yield each
        if len(left) > 1 and not self.is_proved():
            return
        yield from map(self.try_alone, left)


def symbols_of(symbols, crate, place):
    """What the prover names the function that stands at this place. A method goes by the module of its type."""
    named = [(symbol, symbol.split("::")) for symbol in symbols if symbol.endswith(f"::{place.name}")]
    if not place.owner:
        return [symbol for symbol, words in named if words[:-1] == [crate, *place.module()]]
    of_blocks = [(symbol, words[-2]) for symbol, words in named if len(words) > 2]
    found = [symbol for symbol, block in of_blocks if block.startswith("".join(place.owner))]
    return found or [symbol for symbol, block in of_blocks if is_of_more(block, place.owner)]


def is_of_more(block, owner):
    """Whether the prover names a type and a trait so, with what the type is made of between them."""
    return len(owner) == 2 and block.startswith(owner[0]) and block.endswith(owner[1])


class Group:
    """Edits that are tried in one check. No two change one function: a second one changes a copy of it."""

    def __init__(self):
        self.functions, self.copied, self.same, self.texts, self.is_full = {}, [], {}, {}, False

    def takes(self, edit, functions):
        """Adds the edit, of these functions, where it fits. Returns whether it does."""
        if self.is_full:
            return False
        is_apart = not edit.is_of_bodies()
        is_second = any(functions.keys() & named.keys() for named in self.functions.values())
        if is_apart or is_second or not self.makes(edit):
            if edit.is_for_a_copy([*functions.values()]):
                self.copied.append(edit)
                functions = {}
            elif self.functions or not self.makes(edit):
                return False
        self.functions[edit] = functions
        self.is_full = is_apart and bool(functions) or len(self.functions) >= MAX_TOGETHER
        return True

    def makes(self, edit):
        """Makes the edit, and returns whether it could."""
        try:
            self.texts = edit.applied(self.texts)
        except BadEdit:
            return False
        return True

    def has_copies(self):
        """The edits of whose function there is a copy."""
        return [edit for edit in self.functions if edit in self.copied or edit in self.same]

    def make_copies(self, folder, functions):
        """Makes the edits that are made in copies, and what is equivalent. All others are made before, as each finds
        its text once."""
        for edit in self.functions:
            if edit in self.copied or edit.has_same():
                (symbol, place), = functions(edit).items()
            if edit in self.copied:
                copy = self.add_copy(folder, symbol, place, f"of_{edit.path.stem}", edit.applied({}))
                self.functions[edit] = dict([copy])
            if edit.has_same():
                copy = self.add_copy(folder, symbol, place, f"same_as_{edit.path.stem}", edit.same({}))
                self.same[edit] = dict([copy])

    def add_copy(self, folder, symbol, place, ending="as_it_is", texts=None):
        """Adds a copy of a function, as it is or as these texts have it. Returns what the prover names it, and its
        place."""
        above, _, old = symbol.rpartition("::")
        name = f"{old}_{ending}"
        as_it_is = Path(folder, place.file).read_text()
        edited = texts[place.file] if texts else as_it_is
        text, placed = with_copy(self.texts.get(place.file, as_it_is), edited, place, name)
        self.texts = {**self.texts, place.file: text, **dict(proof_of_copy(folder, symbol, name))}
        return f"{above}::{name}", placed


def groups(edits, functions):
    """These edits in groups, each in the first that takes it, or by itself."""
    found = []
    for edit in edits:
        if not any(group.takes(edit, functions(edit)) for group in found):
            found.append(Group())
            found[-1].takes(edit, functions(edit))
    return [[*group.functions] for group in found]


def verdicts_in(said):
    """What a check says of each function, by its name."""
    return dict(found.groups() for found in map(VERDICT.match, said) if found)


def own_messages_of(said, functions, may_rest):
    """The messages of errors in each of these functions that the prover refuses by itself. If it may rest on another
    one, that can be refused, too."""
    verdicts, found = verdicts_in(said), {}
    for symbol, place in functions.items():
        verdict = verdicts.get(symbol, "")
        if is_refused(verdict) or may_rest and REFUSED_VERDICT.match(verdict):
            found[symbol] = [it for it in own_messages(said, symbol, place) if NO_ANSWER not in it[0]]
    return {symbol: messages for symbol, messages in found.items() if messages}


def first_of(own):
    """The first line of these messages of functions, or nothing."""
    return [message[0] for messages in own.values() for message in messages][:1]


def are_accepted(said, functions):
    """Whether a check tells of each of these functions, and refuses none."""
    verdicts = verdicts_in(said)
    return not any(REFUSED_VERDICT.match(verdicts.get(it, NOT_TOLD)) for it in functions)


def judged(edit, goal, other, fits):
    """What came of an edit that is refused with this message of a goal, or None, or else with another. Where it has an
    equivalent, and that fits what is written of the proof, any message counts."""
    if not fits:
        return Tried(edit, BY_SHAPE, "what it has as equivalent is refused, too")
    is_by_goal = goal or edit.has_same()
    return Tried(edit, REFUSED if is_by_goal else BY_SHAPE, plain(goal or other))


def is_of_proofs(line):
    """Whether an error is told of a file of proofs."""
    found = ERROR.match(line)
    return bool(found) and found[1].startswith("proofs/")


def is_of_statements(line):
    """Whether an error is told of a definition or of a clause."""
    found = ERROR.match(line)
    return bool(found) and found[1].startswith(("specs/", "src/"))


def is_refused(verdict):
    """Whether a function is refused by itself, and not only since another one is."""
    return bool(REFUSED_VERDICT.match(verdict)) and not RESTS.search(verdict)


def is_told_elsewhere(said, functions):
    """Whether an error is told outside these functions. None is told of what only calls a refused function, since it is
    proved by what that promises."""
    told = [line for line in said if UNPROVED.match(line) or ERROR.match(line)]
    return not all(any(is_in(line, *function) for function in functions.items()) for line in told)


def try_crate(name, edits, wait=lambda: None, prepare=Trial.prepare):
    """What came of each edit of a crate, as it comes; nothing where the crate itself isn't proved. Waits before each
    check as told."""
    with tempfile.TemporaryDirectory(prefix="more-edits-") as room:
        trial = Trial(name, room, wait)
        if prepare(trial):
            yield from trial.try_all(edits)
