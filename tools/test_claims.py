#!/usr/bin/env python3
"""Tests of tools/claims.py, door.py, pages.py, quoted.py and readme.py: what is wrong on a page must be told.

Each plant is put into a page as it stands, and must be told, and not be told without it.
"""
import functools
import types
import unittest
from unittest import mock

import claims
import contracts
import counted
import door
import named
import pages
import program
import quoted
import readme

TEXTS = named.texts_there()
SOURCES = named.Sources(TEXTS)
CRATES = set(program.listed())

# A page, what is put behind its first heading, and what must be told of it.
PLANTS = [
    ("README.md", "`run_the_plans` runs them.", "no source has run_the_plans"),
    ("README.md", "`World::fly` does it.", "World has no fly"),
    ("README.md", "`Session::submit` and `Session::soar` do it.", "Session has no soar"),
    ("README.md", "`IsJoined.winged` says it.", "IsJoined has no field winged"),
    ("README.md", "See [there](docs/nowhere.md).", "leads to no file"),
    ("README.md", "See [there](docs/rules.md#no-such-heading).", "has no #no-such-heading"),
    ("README.md", "See [there](#no-such-heading).", "has no #no-such-heading"),
    ("docs/rules.md", "See crates/act_world/src/wings.rt.", "no file crates/act_world/src/wings.rt"),
    ("docs/guide.md", "Take it from `Rattle.actors.specs.Wings`.", "actors has no module Wings"),
    ("docs/rules.md", "    +- act_wings -+", "no source has act_wings"),
    ("docs/rules.md", "See `specs/Wings.antt`.", "no file specs/Wings.antt"),
    ("docs/rules.md", "The rule (`IsJoined`, act_world/specs/Refines.antt).", "act_world/specs/Refines.antt has no IsJoined"),
    ("docs/rules.md", "It is `IsJoined` of `act_types`.", "act_types has no IsJoined"),
    ("docs/rules.md", "| `run_plans` | `act_types` |", "`act_types` has no run_plans"),
    ("docs/rules.md", "Call `tools/fuzz.py --winged` for it.", "tools/fuzz.py has no option --winged"),
    ("docs/rules.md", "Call `./draw --winged FILE` for it.", "tools/draw.py has no option --winged"),
    ("docs/rules.md", "It is told by `run_plans` (`joined`, `winged`).", "run_plans has no clause winged"),
    ("docs/guide.md", "| `World::play` | `act_world` | | `ok`: all; `winged`: more |", "play has no clause winged"),
    ("crates/act_world/README.md", "- **Carried by**: `serve`.", "the crate has no serve"),
]

SPEECH = [
    "What was left out. The plan had it in another way.",
    "It is more than was\nasked of it.",
    "/// It holds 64, as users were\n    /// told.",
    "# Where what we were\n# asked for was silent.",
    "The limit is 60.",
    "The goal is at most 2.0 in each shape.",
]

# A page, what stands there, what is put in its place, and what must be told.
CHANGES = [
    ("examples/README.md", "The first nine list events", "The first ten list events", "it says ten where the sources have 9"),
    ("examples/README.md", "in sixty lines", "in thirty lines", "it says thirty"),
    ("docs/rules.md", "holds 65,535 copies", "holds 65,536 copies", "it says 65,536 where the sources have 65535"),
    ("README.md", "`crates/example_kinds` has four", "`crates/example_kinds` has five", "it says five where the sources have 4"),
    ("docs/DECISIONS.md", "stored in nine slots", "stored in eight slots", "it says eight where the sources have 9"),
    ("docs/rules.md", "A line has at most 512 bytes", "A line has at most 511 bytes", "it says 511 where the sources have 512"),
    ("docs/rules.md", "The five laws again", "The laws again", "no number stands where one is counted"),
    ("README.md", "has sixteen scripts", "has fourteen scripts", "it says fourteen where the sources have 16"),
    ("README.md", "At most 16 callers", "At most 32 callers", "it says 32 where the sources have 16"),
    ("docs/limits.md", "| 4 | `TooManyArgs`", "| 5 | `TooManyArgs`", "it says 5 where the sources have 4"),
    ("docs/limits.md", "| below 4,294,967,296 | `plans_fit`", "| 4,294,967,296 | `plans_fit`", "no number stands where"),
    ("docs/arguments.md", "a line of 64", "a line of 32", "it says 32 where the sources have 64"),
    ("docs/guide.md", "`ActorId::new` takes 1 to 8", "`ActorId::new` takes 1 to 9", "it says 9 where the sources have 8"),
]
LISTS = [
    ("docs/proved.md", "`thiserror`, `anyhow`", "`anyhow`", "the crates of the kit are"),
    ("docs/proved.md", "`act_mailbox`, `act_tasks`", "`act_tasks`", "crates with handles"),
    ("docs/proved.md", "Handles allowed: Threads, Wait;", "Handles allowed: Threads;", "it doesn't say"),
    ("docs/rules.md", "- `retired_ran_all`: a", "- A", "it doesn't tell the law retired_ran_all"),
    ("docs/rules.md", "| `NoKill` | no caller", "| `NoWing` | no caller", "differ in NoKill, NoWing"),
    ("docs/rules.md", "| `withdraw n` |", "| `draw n` |", "differ in draw, withdraw"),
    ("docs/DECISIONS.md", "`tests_of_parts`, `tests_of_threads`", "`tests_of_threads`", "the crates of tests are"),
    ("docs/architecture.md", "act_resolver", "act_wings", "it doesn't name act_resolver"),
    ("examples/README.md", "(bank.actors) | threads", "(purse.actors) | threads", "differ in bank.actors, purse.actors"),
]

# What stands in the tables of docs/proved.md, what is put in its place, and what must be told.
CONTRACTS = [
    ("| `World::open` | `reached` |", "| `World::open` | `winged` |", "World::open has no clause winged"),
    ("| `World::open` | `reached` |", "| `World::open` | |", "World::open has no clause without a label"),
    ("| premise `fit` | `IsFitting`, act_actor", "| premise `winged` | `IsFitting`, act_actor", "has no premise winged"),
    ("| `World::owner` | `reached` |", "| `World::wing` | `reached` |", "act_world has no call World::wing"),
    ("### `act_own`\n", "### `act_world`\n", "act_world has no call kept_in_each_run"),
    ("### `act_own`\n", "### Kinds of one's own\n", "no heading names the crate of this table"),
    ("`ShowsNothing`, specs/Shown.antt", "`ShowsNothing`, specs/Steps.antt", "specs/Steps.antt has no definition ShowsNothing"),
    ("`ShowsNothing`, specs/Shown.antt", "`ShowsNothing`, act_own/specs/Kept.antt", "has no definition ShowsNothing"),
    ("`ShowsNothing`, specs/Shown.antt", "`ShowsWhatIsTold`, specs/Shown.antt", "of World::open that is named speaks of ShowsWhatIsTold"),
    ("| `ShowsWhatIsTold.ran` |", "| `ShowsWhatIsTold.flew` |", "ShowsWhatIsTold has no field flew"),
    ("| | `empty` | |", "| | `empty` |", "a row of 3 cells"),
    ("| `Buyer` | `tells` |", "| `Buyer` | `winged` |", "Buyer has no clause winged"),
    ("| `kept_answers_stay` | `act_rules` |", "| `kept_answers_stay` | `act_owner` |", "act_owner has no call kept_answers_stay"),
    ("| `World::apply`, `World::play` (`shown`) |", "| `World::apply`, `World::play` (`winged`) |", "World::play has no clause winged"),
]


def planted(page, line):
    """A page with a line put behind its first heading."""
    head, _, rest = TEXTS[page].partition("\n")
    return f"{head}\n\n{line}\n{rest}"


@functools.lru_cache(maxsize=None)
def told(page, text):
    return [fault for _, fault in claims.faults_of_page(page, text, SOURCES, {**TEXTS, page: text}, CRATES)]


class Pages(unittest.TestCase):
    def test_each_plant_is_told(self):
        for page, line, wanted in PLANTS:
            with self.subTest(line):
                self.assertFalse([fault for fault in told(page, TEXTS[page]) if wanted in fault])
                self.assertEqual(len([fault for fault in told(page, planted(page, line)) if wanted in fault]), 1)

    def test_what_is_there_is_not_told(self):
        line = "`World::apply`, `IsJoined.submitted`, `run_plans`, docs/rules.md, [rules](docs/rules.md#order), `./draw --events 0..4 FILE`."
        self.assertEqual(told("README.md", planted("README.md", line)), told("README.md", TEXTS["README.md"]))

    def test_a_word_of_a_comment_is_none_of_the_code(self):
        sources = named.Sources({"a.rt": "fn one() {} // winged", "b.antt": "-- feathered\nx = 1", "c.py": '"""Beaked."""\ny = 2  # clawed'})
        self.assertFalse({"winged", "feathered", "Beaked", "clawed"} & sources.words)
        self.assertTrue({"one", "x", "y"} <= sources.words)

    def test_blocks_are_passed_over(self):
        text = "# Page\n\n```text\n`no_such_name` of `World::fly`\n```\n\n    `no_other_name`\n"
        self.assertEqual(told("docs/rules.md", text), [])


class Contracts(unittest.TestCase):
    def faults_with(self, old, new):
        text = TEXTS["docs/proved.md"]
        self.assertIn(old, text)
        return [fault for _, fault in contracts.faults_of_tables(text.replace(old, new), SOURCES, CRATES)]

    def test_each_wrong_name_is_told(self):
        self.assertEqual(self.faults_with("", ""), [])
        for old, new, wanted in CONTRACTS:
            with self.subTest(new):
                found = self.faults_with(old, new)
                self.assertTrue(any(wanted in fault for fault in found), found)

    def test_a_head_without_clauses_has_none(self):
        one, two = "    fn one(&self) -> u8 {\n        1\n    }\n", "    fn two()\n        ensures ok { Winged }\n    {\n    }\n"
        text = f"impl Kind {{\n{one}\n{two}}}\n"
        found = {name: clauses for _, name, clauses, _ in named.contracts_in(text)}
        self.assertEqual(found, {"one": {}, "two": {"ok": {"Winged"}}, "Kind": {}})

    def test_definitions_are_told_apart(self):
        text = "pub mod One\n\nabbrev pub A : Type 0\nA = B\n\npub record B : Type 0 where\n  pub c : D\n"
        found = {name: words & {"A", "B", "D"} for name, words in named.definitions_in(text).items()}
        self.assertEqual(found, {"A": {"A", "B"}, "B": {"B", "D"}})


class Guide(unittest.TestCase):
    def test_a_name_that_the_door_lacks_is_told(self):
        for line, count in ("`Resolver` has it.", 1), ("`Resolver` of `act_resolver` has it.", 0), ("`run_plans` has it.", 0):
            with self.subTest(line):
                self.assertEqual(len(list(door.faults_of_guide(f"# Page\n\n{line}\n", SOURCES))), count)


class Speech(unittest.TestCase):
    def test_whoever_asked_or_planned_is_told(self):
        for text in SPEECH:
            with self.subTest(text):
                self.assertEqual(len(list(claims.faults_of_speech(text))), 1)

    def test_callers_who_ask_are_not(self):
        text = "A caller asked for the kill, and was told its death. A plan had a step. What is asked for is given."
        self.assertEqual(list(claims.faults_of_speech(text)), [])


class Numbers(unittest.TestCase):
    def faults_with(self, faults, page, old, new):
        self.assertIn(old, TEXTS[page])
        return [fault for _, fault in faults({**TEXTS, page: TEXTS[page].replace(old, new)})]

    def test_each_wrong_number_is_told(self):
        self.assertEqual(list(counted.faults_of_numbers(SOURCES, TEXTS)), [])
        for page, old, new, wanted in CHANGES:
            with self.subTest(new):
                found = self.faults_with(lambda texts: counted.faults_of_numbers(SOURCES, texts), page, old, new)
                self.assertTrue(any(wanted in fault for fault in found), found)

    def test_each_list_that_lacks_something_is_told(self):
        crates = program.listed()
        self.assertEqual(list(counted.faults_of_lists(SOURCES, TEXTS, crates)), [])
        for page, old, new, wanted in LISTS:
            with self.subTest(new):
                found = self.faults_with(lambda texts: counted.faults_of_lists(SOURCES, texts, crates), page, old, new)
                self.assertEqual(len([fault for fault in found if wanted in fault]), 1, found)

    def test_another_logic_is_told(self):
        page = "Proved with `rattle-kit-1` of `logic\n2`."
        for said, count in ("rattle-kit-1 logic 2", 0), ("rattle-kit-3 logic 2", 0), ("rattle-kit-1 logic 4", 1), ("", 0):
            with mock.patch.object(counted, "said_by", lambda word, said=said: said if word == "version" else ""):
                self.assertEqual(len(list(counted.faults_of_kit({"README.md": page}))), count)

    def test_a_command_that_the_kit_lacks_is_told(self):
        with mock.patch.object(counted, "said_by", lambda word: "rt check [--only NAME]" if word == "--help" else ""):
            for call, count in ("rt check --only NAME", 0), ("rt fly", 1), ("rt check --winged", 1), ("run", 0):
                texts = {"README.md": "", "docs/page.md": f"Call `{call}`."}
                self.assertEqual(len(list(counted.faults_of_kit(texts))), count)


class ByHand(unittest.TestCase):
    def test_what_is_proved_by_hand_is_told(self):
        own = "crates/act_actor"
        wrong = {
            f"{own}/proofs/past/Past/push/Proof.antt": "pub push_spec = tt",
            f"{own}/proofs/past/Past/TheSendSync/Send.antt": "pub send = tt",
            f"{own}/src/past.rt": "unsafe impl Send for Past {}",
        }
        self.assertEqual([path for path, _ in claims.faults_by_hand({**TEXTS, **wrong})], sorted(wrong))

    def test_nothing_is(self):
        self.assertEqual(list(claims.faults_by_hand(TEXTS)), [])


class Sentences(unittest.TestCase):
    def test_a_page_that_grew_too_long_is_told(self):
        self.assertEqual(list(pages.faults_of_lengths()), [])
        with mock.patch.object(pages, "SHORT_PAGES", {page: 10 for page in pages.SHORT_PAGES}):
            self.assertEqual(len(list(pages.faults_of_lengths())), len(pages.SHORT_PAGES))

    def test_a_note_that_the_index_lacks_is_told(self):
        self.assertEqual(list(pages.faults_of_notes()), [])
        with mock.patch.object(pages, "NOTES", "docs/measures.md"):
            self.assertIn("docs/measures.md has no link to rules.md", list(pages.faults_of_notes()))

    def test_a_wide_line_is_told_where_nothing_is_quoted(self):
        line = "w" * (pages.MAX_COLUMNS + 1)
        for in_block, count in (False, 1), (True, 0):
            with mock.patch.object(pages, "lines_of", lambda _, in_block=in_block: [(1, line, in_block)]):
                self.assertEqual(len(list(pages.faults_of_columns("docs/rules.md"))), count)

    def test_a_long_sentence_is_told_on_each_page(self):
        sentence = " ".join(["word"] * (pages.MAX_WORDS + 1)) + "."
        for page in sorted(pages.plain_pages()):
            with self.subTest(page), mock.patch.object(pages, "lines_of", lambda _: [(1, sentence, False)]):
                self.assertEqual(len(list(pages.faults_of_sentences(page))), 1)

    def test_each_page_of_the_repository_is_held_to_it(self):
        there = {path for path in TEXTS if path.endswith(".md")}
        self.assertTrue({"CONTRIBUTING.md", "docs/rules.md", "docs/notes/README.md", "tools/README.md"} <= there)
        self.assertEqual(there - pages.plain_pages(), pages.WRITTEN_BY_TOOLS)


class Quotes(unittest.TestCase):
    SOURCE = TEXTS[quoted.FIRST_PROGRAM].split("\n")

    def told_of(self, quote):
        page = [f"```rust {quoted.FIRST_PROGRAM}", *quote, "```"]
        lines = {"page.md": page, quoted.FIRST_PROGRAM: self.SOURCE}
        whole = {"page.md": [quoted.FIRST_PROGRAM]}
        with mock.patch.object(quoted, "lines_of", lines.get), mock.patch.dict(quoted.WHOLE, whole):
            return [fault for _, fault in quoted.faults_in("page.md")[0]]

    def test_a_part_is_told_where_the_whole_is_wanted(self):
        self.assertEqual(self.told_of(self.SOURCE[:-1]), [])
        self.assertEqual(self.told_of(self.SOURCE[3:9]), [f"this is not the whole of {quoted.FIRST_PROGRAM}"])

    def test_a_quote_that_isn_t_one_is_told(self):
        self.assertTrue(any("don't stand so" in fault for fault in self.told_of(["let a = 1;"])))
        self.assertTrue(any("is empty" in fault for fault in self.told_of([])))


PAGE = """# Page

    ./run play one.actors      # plays it
    ./record a.actors > a.play # writes it
    ./test                     # all of it

Then `./explore
examples/two.actors` tells more, and `./run threads FILE` runs another.

Left and right:

    actor a1 counter c1        0: future c1.0
    send c1 0                  1: mail 0

And in threads:

    actor a1 table c1 c2       a1 retired table
                               a1.0 c1.0 get

    actor a1 account c1        the call 0, answered by 1
"""
SHOWN = {"page.md": ["play", "threads"]}


class Readme(unittest.TestCase):
    def test_commands_and_columns(self):
        wanted = ["./run play one.actors", "./record a.actors > a.play", "./explore examples/two.actors"]
        self.assertEqual(readme.commands_of(PAGE), wanted)
        first = (["actor a1 counter c1", "send c1 0"], ["0: future c1.0", "1: mail 0"])
        second = (["actor a1 table c1 c2"], ["a1 retired table", "a1.0 c1.0 get"])
        self.assertEqual(readme.reported_of(PAGE), [first, second])

    @mock.patch.dict(readme.SCRIPTS, SHOWN)
    def test_another_report_is_told(self):
        right = {mode: report for mode, (_, report) in zip(["play", "threads"], readme.reported_of(PAGE))}
        self.assertEqual(list(readme.faults_of_reports("page.md", PAGE, lambda mode, _: right[mode])), [])
        for mode in right:
            wrong = {**right, mode: right[mode][:-1]}
            self.assertEqual(len(list(readme.faults_of_reports("page.md", PAGE, lambda mode, _: wrong[mode]))), 1)
        turns = iter([right["play"], right["threads"], ["a1 dead"]])
        self.assertEqual(len(list(readme.faults_of_reports("page.md", PAGE, lambda *_: next(turns)))), 1)

    def test_a_missing_script_is_told(self):
        for page in readme.SCRIPTS:
            self.assertEqual(len(list(readme.faults_of_reports(page, "# Page\n", lambda *_: []))), 1)

    def test_a_missing_command_and_a_file_that_is_left_are_told(self):
        page, ignored = TEXTS["README.md"], TEXTS[".gitignore"]
        self.assertEqual(list(readme.faults_of_shown(page, ignored)), [])
        self.assertEqual(len(list(readme.faults_of_shown(page.replace("./check ", "./run "), ignored))), 1)
        self.assertEqual(len(list(readme.faults_of_shown(page.replace("> bank.svg", "> bank.png"), ignored))), 1)

    def test_a_command_that_ends_otherwise_is_told(self):
        for status, notes, is_told in (0, "run: the proved program", False), (1, "", True), (0, "usage", True):
            done = types.SimpleNamespace(returncode=status, stderr=notes)
            self.assertEqual(readme.fault_of_command("./run play", done) is not None, is_told)
        self.assertIsNone(readme.fault_of_command("./check x", types.SimpleNamespace(returncode=5, stderr="")))

    def test_what_an_example_quotes_is_looked_for(self):
        text = "# It isn't so: look for 'a1 live', and at 'send c1 0'.\nsend c1 0\n"
        self.assertEqual(list(readme.faults_of_example("one", text, lambda *_: ["a1 live counter 5"])), [])
        self.assertEqual(len(list(readme.faults_of_example("one", text, lambda *_: ["a1 dead"]))), 1)
        self.assertGreater(len(readme.played_examples()), 1)

    def test_another_answer_is_told(self):
        text = "# Page\n\n    actor a1 account c1        text\n    submit c1 a1 deposit 1     the call 0, answered by 1\n"
        self.assertEqual(list(readme.faults_of_answers(text, lambda *_: ["c1.0 a1 = 1"])), [])
        self.assertEqual(len(list(readme.faults_of_answers(text, lambda *_: ["c1.0 a1 = 2"]))), 1)


if __name__ == "__main__":
    unittest.main()
