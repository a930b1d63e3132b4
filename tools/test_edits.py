#!/usr/bin/env python3
"""Tests of the tools that read and try must-fail edits, and of the page that ./test shows, in seconds: what is damaged
or fails must be told."""
import io
import os
import subprocess
import sys
import tempfile
import unittest
from pathlib import Path
from unittest import mock

import functions_told
import gate
import gate_time
import more_edits
import page
import refusals
import steps
import try_tests
import trying
from edits import GATE, MORE, Edit, Place, definitions_in, fault_of, functions_in, place_at
from page import CLEARED, SIGN_OF_LIFE_SECONDS
from trying import BY_SHAPE, PROVED, REFUSED, UNTRIED, Tried

SOURCE = """use std::fmt;

impl<T: Clone> Few<T> {
    /// How many there are.
    #[tactic(auto)]
    pub fn len(&self) -> usize
        ensures { result ≡ length self.now }
    {
        self.list.len()
    }
}

impl fmt::Display for Few<u8> {
    fn fmt(&self) -> bool {
        self.len() > 1
    }
}

fn first(list: &[u8]) -> u8 {
    list[0]
}
"""
GOOD = "file: src/few.rt\nold: self.list.len()\nnew: self.list.len() + 1\n"
SAME = "same: 0 + self.list.len()\n"
OF_TRAIT = "file: src/few.rt\nold: self.len() > 1\nnew: true\n"
LEN = "low::few::Few::len"
FMT = "low::few::FewDisplay::fmt"
FIRST = "low::few::first"
SAID = [
    "note: src/few.rt:5:5: it is not proved that what the function ensures holds when it returns (`returns`)",
    f"fn {LEN}: no proof: expected answers in ./proofs/few/Few/len/Answers.antt; `search` did not prove `returns`",
    f"fn {FMT}: no proof: it calls `{LEN}`, which is not proved",
    f"fn {FIRST}: proved",
    "only=3 proved=1",
]


class Scratch(unittest.TestCase):
    """A crate of one file, made for the test."""

    def setUp(self):
        room = tempfile.TemporaryDirectory()
        self.addCleanup(room.cleanup)
        self.crate = Path(room.name) / "low"
        for folder in ("src", GATE, MORE):
            (self.crate / folder).mkdir(parents=True)
        (self.crate / "src/few.rt").write_text(SOURCE)

    def edit(self, text, kind=MORE, name="longer.edit"):
        path = self.crate / kind / name
        path.write_text(text)
        return Edit(path)


class Edits(Scratch):
    def test_a_good_edit_has_no_fault(self):
        edit = self.edit(GOOD)
        self.assertIsNone(fault_of(edit))
        self.assertIn("self.list.len() + 1\n", edit.applied({})["src/few.rt"])

    def test_each_damage_is_told(self):
        damaged = [
            GOOD.replace("src/few.rt", "src/many.rt"),
            GOOD.replace("src/few.rt", "src/../../low/src/few.rt"),
            GOOD.replace("self.list.len()\n", "self.list.size()\n"),
            GOOD.replace("old: self.list.len()", "old: self"),
            GOOD.replace("old: self.list.len()\n", ""),
            GOOD.replace(" + 1", ""),
            "file: src/few.rt\n",
        ]
        for text in damaged:
            self.assertIsNotNone(fault_of(self.edit(text)), text)

    def test_an_equivalent_body_is_read_and_its_damages_are_told(self):
        edit = self.edit(GOOD + "same: 0 + self.list.len()\n")
        self.assertIsNone(fault_of(edit))
        self.assertIn("        0 + self.list.len()\n", edit.same({})["src/few.rt"])
        self.assertIn("self.list.len() + 1\n", edit.applied({})["src/few.rt"])
        self.assertFalse(self.edit(GOOD).has_same())
        of_trait = OF_TRAIT + "same: 1 < self.len()\n"
        for text in GOOD + "same: self.list.len()\n", GOOD + "same: self.list.len() + 1\n", of_trait:
            self.assertIsNotNone(fault_of(self.edit(text)), text)

    def test_what_rt_reads_of_an_edit_is_without_its_equivalent(self):
        texts = [trying.kit().read_edit(str(self.edit(GOOD + more).path), str(self.crate)) for more in ("", SAME)]
        self.assertEqual(texts[0], texts[1])
        self.assertIsNone(texts[0][1])

    def test_the_functions_whose_clauses_speak_of_a_definition_are_found(self):
        specs = self.crate / "specs/Few.antt"
        specs.parent.mkdir()
        parts = ["use Rattle.x.{y}", "", "-- few", "abbrev pub is_few : N → Bool", "is_few n = n < 3", ""]
        parts += ["pub record IsFew (n : N) : Type 0 where", "  pub fits : is_few n ≡ true", "", "data Other where"]
        specs.write_text("\n".join(parts))
        found = [name for name, _ in definitions_in(specs.read_text())]
        self.assertEqual(found, ["is_few", "is_few", "IsFew", "Other"])
        edit = self.edit("file: specs/Few.antt\nold: n < 3\nnew: n < 4\n")
        self.assertEqual(edit.definitions(), {"is_few", "IsFew"})
        head = "fn {}()\n    ensures {{ {} }}\n{{}}\n\n"
        text = "ghost use Rattle.low.specs.Few.{\n    IsFew, Other};\nghost use Rattle.low.specs.Few as few;\n"
        text += "".join(head.format(*each) for each in zip("abcd", ("IsFew 2", "Other", "few.is_few 2", "is_few")))
        (self.crate / "src/few.rt").write_text(text)
        self.assertEqual([place.name for place in edit.speaking()], ["a", "c"])

    def test_a_name_in_both_folders_is_told(self):
        self.edit(GOOD, GATE)
        self.assertIsNotNone(fault_of(self.edit(GOOD)))

    def test_an_edit_is_placed_in_its_function(self):
        self.assertEqual(self.edit(GOOD).places(), {Place("src/few.rt", ("Few",), "len", 5, 10)})
        of_trait = "file: src/few.rt\nold: self.len() > 1\nnew: true\n"
        self.assertEqual(self.edit(of_trait).places(), {Place("src/few.rt", ("Few", "Display"), "fmt", 14, 16)})
        self.assertIsNone(self.edit("file: src/few.rt\nold: impl<T: Clone>\nnew: impl<T>\n").places())


    def test_an_edit_of_a_proof_is_placed_in_its_function(self):
        text = "file: proofs/few/{}Answers.antt\nold: true\nnew: false\n"
        for folder, names in ("Few/len/", ["len"]), ("first/", ["first"]), ("", None):
            file = self.crate / "proofs/few" / folder / "Answers.antt"
            file.parent.mkdir(parents=True, exist_ok=True)
            file.write_text("true\n")
            places = self.edit(text.format(folder)).places()
            self.assertEqual(places and [place.name for place in places], names)


class Trying(Scratch):
    def places(self, text):
        places = self.edit(text).places()
        return {symbol: place for place in places for symbol in trying.symbols_of([LEN, FMT], "low", place)}

    def own(self, said, text, may_rest):
        return trying.first_of(trying.own_messages_of(said, self.places(text), may_rest))

    def test_a_refusal_of_its_own_is_told(self):
        for may_rest in (True, False):
            self.assertIn("src/few.rt:5:5", *self.own(SAID, GOOD, may_rest))

    def test_a_refusal_for_another_function_is_not(self):
        for may_rest in (True, False):
            self.assertEqual(self.own(SAID, OF_TRAIT, may_rest), [])

    def test_a_refusal_of_its_own_beside_another_counts_where_it_may_rest(self):
        rests = f"fn {FMT}: no proof: `search` did not prove `returns`; it calls `{LEN}`, which is not proved"
        said = [*SAID[:2], "note: src/few.rt:15:9: it is not proved that .. (`returns`)", rests]
        self.assertIn("src/few.rt:15:9", *self.own(said, OF_TRAIT, True))
        self.assertEqual(self.own(said, OF_TRAIT, False), [])

    def test_the_line_that_cannot_stand_is_no_refusal(self):
        name = trying.NO_ANSWER
        error = f"./proofs/few/Few/len/Answers.antt:9:3: error: `{name}`: `{name}-asked` is not in scope"
        for may_rest in (True, False):
            self.assertEqual(self.own([error, f"fn {LEN}: not proved"], GOOD, may_rest), [])
            self.assertIn("src/few.rt:5:5", *self.own([error, *SAID], GOOD, may_rest))
        self.assertFalse(trying.is_told_elsewhere([error, *SAID], self.places(GOOD)))

    def test_an_error_elsewhere_is_seen(self):
        self.assertFalse(trying.is_told_elsewhere(SAID, self.places(GOOD)))
        self.assertTrue(trying.is_told_elsewhere(SAID, self.places(OF_TRAIT)))
        lemma = "./proofs/Lists.antt:3:5: error: the two types differ"
        self.assertTrue(trying.is_told_elsewhere([*SAID, lemma], self.places(GOOD)))

    def test_an_edit_of_more_than_bodies_is_apart(self):
        clause = "file: src/few.rt\nold: length self.now\nnew: 1\n"
        head = "file: src/few.rt\nold: (&self) -> usize\nnew: (self) -> usize\n"
        path = "file: src/few.rt\nold: use std::fmt\nnew: use core::fmt\n" + GOOD
        found = [self.edit(text).is_of_bodies() for text in (GOOD, OF_TRAIT, clause, head, path)]
        self.assertEqual(found, [True, True, False, False, False])
        edits = [self.edit(path, name="a.edit"), self.edit(OF_TRAIT, name="b.edit")]
        self.assertEqual(trying.groups(edits, lambda edit: self.places(edit.content.decode())), [[it] for it in edits])

    def test_a_proved_function_is_not_refused(self):
        self.assertEqual(self.own([SAID[0], f"fn {LEN}: proved"], GOOD, True), [])

    def test_with_an_equivalent_that_is_accepted_each_message_counts(self):
        plain, same = self.edit(GOOD), self.edit(GOOD + SAME, name="with.edit")
        cases = [(plain, "of a goal", True, REFUSED), (plain, None, True, BY_SHAPE), (same, None, True, REFUSED),
                 (same, None, False, BY_SHAPE), (same, "of a goal", False, BY_SHAPE)]
        for edit, goal, fits, came in cases:
            self.assertEqual(trying.judged(edit, goal, "other", fits).came, came)

    def test_edits_of_one_method_of_a_trait_are_apart(self):
        edits = [self.edit(OF_TRAIT, name=name) for name in ("a.edit", "b.edit")]
        found = trying.groups(edits, lambda edit: self.places(OF_TRAIT))
        self.assertEqual(found, [[edit] for edit in edits])


ONLY = "as printed, the two types differ only where one has"


class Refusals(unittest.TestCase):
    """Messages as the prover writes them."""

    FILE = "./proofs/few/Few/len/Answers.antt:9:5: error: "
    NOTE = "note: src/few.rt:5:1: it is not proved that what the function ensures holds when it returns (`{}`)"
    NO_FIELD = FILE + "`invariant_of-self`: record `low.Few.len.Lts.After` has no field `keep` (nearest: .kept)"
    LOST = "returns-gt0-clause-ok"
    GONE = FILE + f"`{LOST}`: `goal.{LOST}`: module `Rattle.low.proofs.few.Few.len.Goals` has no `{LOST}` that can"
    OMEGA = FILE + "`loop-smaller`: `omega`: the goal does not follow from what it read. All of that holds"
    GRIND = FILE + "`returns-answer`: `grind` stopped at its own limit of instances of lemmas, so the goal may hold"
    WRITTEN = "returns c = lemma c.args.list c.kept.result"

    def kinds(self, *said):
        """Whether a goal refuses, by these lines."""
        place = Place("src/few.rt", ("Few",), "len", 5, 10)
        messages = [*refusals.own_messages(said, LEN, place)]
        self.assertEqual(len(messages), len([line for line in said if not line.startswith("  ")]))
        return bool(refusals.of_a_goal(messages, self.WRITTEN))

    def differ(self, expected, found="`c.kept.result`", words=ONLY):
        first = f"{self.FILE}`returns`: {words} {expected} (expected), right after `IfSome`"
        return first, f"  and the other has {found} (found)"

    def test_a_goal_that_is_not_found_refuses(self):
        self.assertTrue(self.kinds(self.NOTE.format("returns")))
        self.assertTrue(self.kinds(self.NO_FIELD, self.NOTE.format("returns-clause-value")))
        self.assertTrue(self.kinds(self.OMEGA))

    def test_what_no_longer_fits_does_not(self):
        expected = f"{self.FILE}`returns`: expected type `IsFew c.self-3`", "  but this has type `IsFew c.kept`"
        occurrence = self.FILE + "`returns`: `rw`: no occurrence of the path's left-hand side"
        admitted = self.FILE + "`returns`: `lemma` was not admitted"
        for said in [self.NO_FIELD], expected, [occurrence], [admitted], [self.GONE], [self.NO_FIELD, self.GONE], [self.GRIND]:
            self.assertFalse(self.kinds(*said))

    def test_a_goal_that_may_have_lost_its_answer_refuses_only_where_it_is_false(self):
        false = "; the facts known there allow values at which this goal is false"
        for name, ending, is_by_goal in [("returns-gt1-clause-ok", "", False), ("returns-gt1-clause-ok", false, True),
                                         ("returns-clause-value", "", True), ("invariant_of-self", "", True)]:
            self.assertEqual(self.kinds(self.GONE, self.NOTE.format(name) + ending), is_by_goal)
            broken = self.GONE.replace(" has no", "\n  has no").split("\n")
            self.assertEqual(self.kinds(*broken, self.NOTE.format(name) + ending), is_by_goal)

    def test_another_value_of_the_same_steps_refuses_and_another_step_does_not(self):
        first = "as printed, the two types first differ where one has"
        for expected, is_by_goal in [("`0`", True), ("`c.args.list`", True), ("`c.filter.result`", False),
                                     ("`c.kept-in-Some.result`", False)]:
            for words in ONLY, first:
                self.assertTrue(self.kinds(*self.differ(expected, words=words)))
                self.assertEqual(self.kinds(*self.differ(expected, words=words), self.NO_FIELD), is_by_goal)
        whole = [*self.differ("`0`"), "  expected type `IfSome 0 c.filter.result`", self.NO_FIELD]
        self.assertFalse(self.kinds(*whole))
        self.assertTrue(self.kinds(*self.differ("`c.other.result`", "`c.other.result + c.kept.result`"), self.NO_FIELD))
        self.assertFalse(self.kinds(*self.differ("`c.args.list`", "`c.another.result`"), self.NO_FIELD))
        words = "computed as far as they go, the two types are"
        self.assertTrue(self.kinds(*self.differ("`0 ≡ 1`", words=words)))
        self.assertFalse(self.kinds(*self.differ("`Unit {0}`", words=words)))

    def test_a_correct_twin_is_refused_by_its_shape(self):
        """An equivalent body whose index has a step more, as the prover told of it."""
        said = [self.FILE + "`invariant_of-self-2`: expected type `holds_asked the_row 19 1 (λ x. x) c.self-3-1.given`",
                "  but this has type `IsHandles (set c.kept.items c.args.place record {copies = ?5 c})`",
                self.FILE + "`returns`: as printed, the two types first differ where one has `set (set c.kept 0)`",
                "  (expected), right after `◌≡◌ (set`, and the other has `c.kept.items` (found)",
                "  expected type `set (set c.kept.items 0 c.kept.now) 0 record {actor = c.index_mut.result.now.actor}`",
                "  but this has type `set c.kept.items c.args.place record {actor = c.kept.now.actor}`"]
        self.assertFalse(self.kinds(*said))


class Bare(Scratch):
    """Checks of functions that were edited, where all others are bare."""

    def trial(self, *said):
        trial = trying.Trial.__new__(trying.Trial)
        trial.crate = mock.Mock(folder=str(self.crate))
        trial.crate.name, trial.symbols = "low", [LEN, FMT, FIRST, "low::fn::first::map"]
        trial.controlled = set()
        trial.check = mock.Mock(return_value=(1, [*said]))
        return trial

    def test_each_other_function_has_a_hole_and_no_body(self):
        edited = self.edit(GOOD).applied({})
        texts = self.trial().bare(edited, [LEN])
        rows = zip(SOURCE.split("\n"), texts.pop("src/few.rt").split("\n"), strict=True)
        changed = [(old.strip(), new.strip()) for old, new in rows if old != new]
        edited = ("self.list.len()", "self.list.len() + 1")
        self.assertEqual(changed, [edited, ("self.len() > 1", "loop {}"), ("list[0]", "loop {}")])
        folders = ["proofs/few/FewDisplay/fmt", "proofs/few/first"]
        names = ["Answers.antt", "Invariants.antt", "Proof.antt"]
        self.assertEqual([*texts], [f"{folder}/{name}" for folder in folders for name in names])
        self.assertIn("use Rattle.low.proofs.few.first.Statement.{statement}", texts["proofs/few/first/Proof.antt"])
        self.assertIsNone(texts["proofs/few/first/Answers.antt"])

    def test_answers_of_an_edited_function_have_a_line_that_cannot_stand(self):
        proofs = self.crate / "proofs/few/Few/len"
        proofs.mkdir(parents=True)
        proofs.joinpath("Answers.antt").write_text("returns c = refl\n")
        texts = self.trial().unfilled({}, [LEN, FIRST])
        written = {"few/Few/len": "returns c = refl\n", "few/first": ""}
        self.assertEqual(texts, {f"proofs/{at}/Answers.antt": text + trying.UNFILLED for at, text in written.items()})
        proofs.joinpath("Proof.antt").touch()
        self.assertEqual(self.trial().unfilled({}, [LEN]), {})

    def test_a_function_with_no_body_ends_where_it_does(self):
        law = "fn law()\n    ensures { A ≡ record {\n      b = c;\n    } }\n{}\n"
        given = "trait Each {\n    fn run(self)\n        ensures { done self };\n    fn end(self);\n}\n"
        text = law + "fn none() {}\n" + given + SOURCE
        found = [(place.name, place.last) for place in functions_in("src/few.rt", text)]
        self.assertEqual(found, [("len", 21), ("fmt", 27), ("first", 32)])
        places = [place_at("src/few.rt", text, text.index(word)) for word in ("b = c", "fn none", "done self", "end(")]
        found = [(place.name, place.first, place.last) for place in places]
        self.assertEqual(found, [("law", 1, 5), ("none", 6, 6), ("run", 8, 9), ("end", 10, 10)])

    def test_a_body_stays_where_its_place_may_be_of_a_function_that_is_asked_for(self):
        trial = self.trial()
        trial.symbols.append("low::few::FewOther::len")
        self.assertIn("self.list.len()", trial.bare({}, ["low::few::FewOther::len"])["src/few.rt"])
        self.assertNotIn("self.list.len()", trial.bare({}, [FMT])["src/few.rt"])

    def test_where_the_control_is_refused_the_check_tells_nothing(self):
        edit = self.edit(GOOD)
        proved, refused = ["no holes", "depends on a hole in `x`"], ["not proved; it stands on `x`", "no proof: `x`", ""]
        for control in [*proved, *refused]:
            lines = [f"fn {it}: {control}" for it in (FMT, FIRST) if control]
            trial = self.trial(*SAID[:2], *lines, "only=2 holes=1")
            self.assertEqual([*trial.try_together([edit])[0]], [edit] * (control in proved))
            asked = [word for word in trial.check.call_args.args[1:] if word.startswith("low::")]
            self.assertEqual(asked[:1] + [len(asked)], [LEN, 2])

    def test_an_edit_of_definitions_counts_where_a_clause_refuses_it_and_not_its_equivalent(self):
        (self.crate / "specs").mkdir()
        (self.crate / "specs/Few.antt").write_text("abbrev pub few : N\nfew = 3\n")
        source = f"ghost use Rattle.low.specs.Few.{{few}};\n{SOURCE.replace('result', 'few')}"
        (self.crate / "src/few.rt").write_text(source)
        text = "file: specs/Few.antt\nold: few = 3\nnew: few = 4\n"
        plain, same = self.edit(text), self.edit(text + "same: few = 2 + 1\n", name="same.edit")
        note, refused = SAID[0].replace(":5:5", ":7:5"), f"fn {LEN}: not proved; it stands on `lemma`"
        lemma, unread = "./proofs/Few.antt:3:5: error: they differ", "./specs/Few.antt:3:5: error: expected the end"
        ended = "only=1 proved=0"
        proved, of_lemma = [f"fn {LEN}: proved", ended], [lemma, refused, ended]
        cases = [(plain, [[note, refused, ended]], [BY_SHAPE]), (plain, [of_lemma], [BY_SHAPE]), (plain, [proved], []),
                 (plain, [[lemma, *proved]], []), (plain, [[note, refused]], []),
                 (plain, [[unread, note, refused, ended]], []), (same, [of_lemma, proved], [REFUSED]),
                 (same, [[note, refused, ended], proved], [REFUSED]), (same, [proved, proved], []),
                 (same, [of_lemma, of_lemma], [BY_SHAPE]),
                 (same, [[note, refused, ended], [lemma, *proved]], [BY_SHAPE])]
        for edit, said, came in cases:
            trial = self.trial()
            # (what is equivalent comes first)
            trial.check.side_effect = [(1, lines) for lines in reversed(said)]
            self.assertEqual([each.came for each in trial.try_definitions([edit])], came)
            asked = [word for word in trial.check.call_args.args if str(word).startswith("low::")]
            self.assertEqual(asked, [LEN])
        for lines, came in ([note, refused, ended], REFUSED), (of_lemma, BY_SHAPE):
            trial = self.trial(*lines)
            trial.speaking = lambda _: {LEN: Place("src/few.rt", ("Few",), "len", 6, 11)}
            trial.crate.name = trying.WORKED_EXAMPLES
            self.assertEqual([each.came for each in trial.try_definitions([plain])], [came])


class Copies(Scratch):
    """Several edits of one function in one check."""

    def setUp(self):
        super().setUp()
        clause = "file: src/few.rt\nold: length self.now\nnew: 1\n"
        of_first = "file: src/few.rt\nold: list[0]\nnew: list[{}]\n"
        texts = {"a": GOOD, "b": clause, "c": of_first.format(1), "d": of_first.format(2)}
        self.edits = [self.edit(text, name=f"{name}.edit") for name, text in texts.items()]
        self.trial = Bare.trial(self)

    def group(self):
        group = trying.Group()
        self.assertTrue(all(group.takes(edit, self.trial.functions(edit)) for edit in self.edits))
        group.make_copies(str(self.crate), self.trial.functions)
        return group

    def test_the_second_edit_of_a_function_and_one_of_a_clause_are_made_in_copies(self):
        group = self.group()
        lines = group.texts["src/few.rt"].split("\n")
        in_place = SOURCE.replace("self.list.len()", "self.list.len() + 1").replace("list[0]", "list[1]")
        self.assertEqual(lines[: in_place.count("\n")], in_place.rstrip("\n").split("\n"))
        places = {symbol: place for each in group.functions.values() for symbol, place in each.items()}
        found = {symbol: lines[place.first - 1 : place.last] for symbol, place in places.items()}
        self.assertEqual([*found], [LEN, "low::few::Few::len_of_b", FIRST, "low::few::first_of_d"])
        copy = ["    #[tactic(auto)]", "    pub fn len_of_b(&self) -> usize", "        ensures { result ≡ 1 }", "    {"]
        self.assertEqual(found["low::few::Few::len_of_b"], [*copy, "        self.list.len()", "    }"])
        self.assertEqual(found["low::few::first_of_d"], ["fn first_of_d(list: &[u8]) -> u8 {", "    list[2]", "}"])
        at = lines.index(copy[0], 20)
        self.assertEqual((lines[at - 1], lines[at + 6]), ("impl<T: Clone> Few<T> {", "}"))

    def test_what_is_written_of_a_proof_is_copied_with_its_names(self):
        proofs = self.crate / "proofs/few/Few/len"
        proofs.mkdir(parents=True)
        text = "use Rattle.low.proofs.few.Few.len.Goals as goal\nreturns c = len_spec\n"
        proofs.joinpath("Answers.antt").write_text(text)
        found = dict(trying.proof_of_copy(str(self.crate), LEN, "len_of_b"))
        renamed = text.replace("Few.len.", "Few.len_of_b.").replace("len_spec", "len_of_b_spec")
        self.assertEqual(found, {"proofs/few/Few/len_of_b/Answers.antt": renamed})

    def asked(self, trial):
        return [word for word in trial.check.call_args.args if str(word).startswith("low::")]

    def test_each_function_that_is_copied_has_a_copy_as_it_is_once(self):
        said = [f"fn {FIRST}: no proof: `x`", "note: src/few.rt:20:5: it is not proved that .. (`x`)", "only=6 holes=1"]
        names = ("low::few::Few::len_as_it_is", "low::few::first_as_it_is")
        proved = "no holes"
        for controls, count in ([proved, proved], 1), ([proved, "no proof: `x`"], 0), ([proved, None], 0):
            lines = [f"fn {name}: {control}" for name, control in zip(names, controls) if control]
            trial = Bare.trial(self, *said, *lines)
            self.assertEqual(len(trial.try_together(self.edits)[0]), count)
            self.assertEqual((len(self.asked(trial)), {*self.asked(trial)[4:]}), (6, {*names}))
            self.assertEqual(trial.controlled, {LEN, FIRST} if count else set())
        trial.controlled = {LEN, FIRST}
        trial.try_together(self.edits)
        self.assertEqual(len(self.asked(trial)), 5)

    def test_an_equivalent_body_stands_in_a_copy_and_has_to_be_accepted(self):
        edit = self.edit(GOOD + SAME, name="e.edit")
        lost = "./proofs/few/Few/len/Answers.antt:3:5: error: `c` has no field `len`"
        same, control = "low::few::Few::len_same_as_e", "low::few::Few::len_as_it_is"
        for verdict, came in ("no holes", REFUSED), ("no proof: `x`", BY_SHAPE), (None, BY_SHAPE):
            lines = [lost, f"fn {LEN}: not proved; it stands on `x`, which antt refuses", "only=3 holes=1"]
            lines += [f"fn {control}: no holes", *([f"fn {same}: {verdict}"] if verdict else [])]
            trial = Bare.trial(self, *lines)
            self.assertEqual([each.came for each in trial.try_together([edit])[0].values()], [came])
            self.assertEqual(self.asked(trial), [LEN, same, control])
            text = trial.check.call_args.args[0]["src/few.rt"]
            self.assertEqual((text.count("0 + self.list.len()"), text.count("self.list.len() + 1")), (1, 1))

    def test_a_method_of_a_trait_and_an_edit_of_more_than_one_function_have_no_copy(self):
        both = self.edit(GOOD + "old: list[0]\nnew: list[1]\n", name="both.edit")
        imported = self.edit("file: src/few.rt\nold: use std::fmt;\nnew: use std::io;\n" + GOOD, name="use.edit")
        edits = [*self.edits[:1], self.edit(OF_TRAIT, name="trait.edit"), both, imported]
        found = [edit.is_for_a_copy([*self.trial.functions(edit).values()]) for edit in edits]
        self.assertEqual(found, [True, False, False, False])
        given = "trait Each {\n    fn run(&self) -> u8 {\n        1\n    }\n}\n"
        (self.crate / "src/each.rt").write_text(given)
        of_given = self.edit("file: src/each.rt\nold: 1\nnew: 2\n", name="given.edit")
        self.assertFalse(of_given.is_for_a_copy([*of_given.places()]))

    def test_a_method_of_a_type_made_of_others_is_found(self):
        place = Place("src/few.rt", ("Box", "Actor"), "ask", 1, 3)
        ask = "low::few::BoxDynActorSendActor::ask"
        self.assertEqual(trying.symbols_of([ask, LEN], "low", place), [ask])
        symbols = ["low::few::CallDisplay::fmt", "low::few::CallErrorDisplay::fmt"]
        place = Place("src/few.rt", ("Call", "Display"), "fmt", 1, 3)
        self.assertEqual(trying.symbols_of(symbols, "low", place), symbols[:1])


class Rounds(Scratch):
    """Groups of edits, with a prover that says what the test has it say."""

    def tried(self, edits, *answers):
        trial = trying.Trial.__new__(trying.Trial)
        checks, answers = [], [*answers]
        says = lambda group: checks.append([edit.path.stem for edit in group]) or of_each(*answers.pop(0))
        alone = lambda edit: Tried(edit, PROVED, "alone")
        of_each = lambda told, resting: ({edit: Tried(edit, REFUSED, text) for edit, text in told.items()}, resting)
        functions = lambda edit: {} if edit.path.stem == "d" else {edit.path.stem: edit}
        together = mock.patch.object(trying, "groups", lambda edits, _: [edits])
        patches = {"functions": functions, "try_together": says, "try_alone": alone, "is_proved": lambda: True}
        patches["try_definitions"] = lambda edits: []
        with together, mock.patch.multiple(trial, create=True, **patches):
            return [(each.edit.path.stem, each.told) for each in trial.try_all(edits)], checks

    def test_what_rests_on_a_refused_one_is_tried_again_without_it(self):
        a, b, c, d = (self.edit(GOOD, name=f"{name}.edit") for name in "abcd")
        found, checks = self.tried([a, b, c, d], ({a: "of a"}, [b]), ({b: "of b"}, []))
        self.assertEqual(found, [("a", "of a"), ("b", "of b"), ("d", "alone"), ("c", "alone")])
        self.assertEqual(checks, [["a", "b", "c"], ["b"]])

    def test_a_crate_is_proved_before_its_edits_where_no_check_told_its_functions(self):
        for symbols, is_proved in ([LEN], False), ([], True), ([], False):
            trial = trying.Trial.__new__(trying.Trial)
            with mock.patch.object(trial, "is_proved", lambda: is_proved):
                self.assertIs(trial.knows(symbols), bool(symbols) or is_proved)

    def test_where_nothing_is_refused_the_group_is_halved_and_each_is_tried_alone_in_the_end(self):
        a, b, c = (self.edit(GOOD, name=f"{name}.edit") for name in "abc")
        found, checks = self.tried([a, b, c], ({}, [a, b, c]), ({}, []), ({c: "of c"}, [b]), ({}, [b]))
        self.assertEqual(found, [("c", "of c"), ("a", "alone"), ("b", "alone")])
        self.assertEqual(checks, [["a", "b", "c"], ["a"], ["b", "c"], ["b"]])


class Gate(Scratch):
    SAID = ["== low", f"fn {LEN}: proved", f"fn {FMT}: proved, may wait", "logic=proved functions=2", "rt: low proved",
            "== low: its tests", "fn low::tests::few: proved", "rt: low: its tests are proved",
            "rt: kept is kept: an earlier run on this machine proved the same files over the same libraries",
            "== high", "fn high::top: not proved", "rt: high NOT PROVED"]

    def test_a_crate_that_is_proved_is_told_with_its_functions(self):
        self.assertEqual([*gate.proved_crates(self.SAID)], [("low", [LEN, FMT]), ("kept", [])])

    def functions(self, crate, symbols, digest, kit_id="kit"):
        """What is kept of the crate in a folder of the test, where its sources have this digest."""
        folders = lambda: (None, self.crate.parent / "cache")
        with mock.patch.multiple(functions_told.program, digest=lambda _: digest, folders=folders):
            return functions_told.functions_of(crate, symbols, kit_id)

    def test_the_functions_of_a_crate_are_kept_for_a_run_that_finds_it_proved(self):
        self.assertEqual(self.functions("low", [], "old"), [])
        self.assertEqual(self.functions("low", [LEN, FMT], "old"), [LEN, FMT])
        self.assertEqual(self.functions("low", [], "old"), [LEN, FMT])
        for crate, digest, kit_id in ("low", "new", "kit"), ("high", "old", "kit"), ("low", "old", "other"):
            self.assertEqual(self.functions(crate, [], digest, kit_id), [])
        self.assertEqual(self.functions("low", [FIRST], "new"), [FIRST])
        self.assertEqual(self.functions("low", [], "old"), [])
        self.assertEqual(len([*(self.crate.parent / "cache" / functions_told.FOLDER).iterdir()]), 1)

    def test_functions_that_cannot_be_kept_are_told_all_the_same(self):
        (self.crate.parent / "cache").write_text("a file where the folder is due")
        self.assertEqual(self.functions("low", [LEN], "old"), [LEN])
        self.assertEqual(self.functions("low", [], "old"), [])

    def test_edits_of_a_program_are_dear_and_those_of_definitions_too(self):
        of_path = self.edit("file: src/few.rt\nold: Few<T> {\nnew: Few<T> {{\n", name="path.edit")
        edits = [self.edit(GOOD), of_path]
        self.assertEqual([gate.dearness(edit) for edit in edits], [1, 2])
        (self.crate / "src/main.rt").write_text("")
        self.assertEqual([gate.dearness(edit) for edit in edits], [4, 4])

    def test_edits_out_of_sight_are_put_back(self):
        top = self.crate.parent / "top"
        folder = top / "crates/low" / GATE
        folder.mkdir(parents=True)
        (folder / "longer.edit").write_text(GOOD)
        with mock.patch.object(gate, "TOP", top):
            with self.assertRaises(KeyboardInterrupt), gate.out_of_sight():
                self.assertFalse(folder.exists())
                raise KeyboardInterrupt
        self.assertEqual((folder / "longer.edit").read_text(), GOOD)

    def test_edits_that_a_killed_run_left_are_not_put_over_others(self):
        for kind in (GATE, gate.ASIDE):
            (self.crate.parent / "crates/low" / kind).mkdir(parents=True)
        with mock.patch.object(gate, "TOP", self.crate.parent):
            with self.assertRaisesRegex(SystemExit, "crates/low has must-fail and"):
                gate.put_back()

    def test_an_edit_of_a_crate_that_is_not_proved_is_not_refused(self):
        low, high = self.edit(GOOD, GATE), Edit(self.edit(GOOD, name="other.edit").path)
        high.crate = "high"
        tries = lambda crate, edits, *_: [Tried(edit, REFUSED, "..") for edit in edits]
        with mock.patch.multiple(gate, create=True, try_crate=tries), self.page() as page:
            lanes = gate.Lanes([low, high], page)
            lanes.add("low", [LEN])
            lanes.begin(2)
            self.assertEqual([(each.edit, each.came) for each in lanes.end()], [(low, REFUSED), (high, UNTRIED)])

    def page(self):
        """A page whose lines the test reads, and the time of which it sets."""
        self.out, self.now = io.StringIO(), 0
        return page.Page("test", self.crate.parent / "kept", self.out, lambda: self.now)

    def verdict(self, status=0, came=(REFUSED, REFUSED), command=(), known=(), said=(*SAID[:5], "1 passed, 0 failed")):
        """What the gate says with a fake `rt`, which says this and ends with this status, where this comes of the edits
        and these are listed as refused by their shape: whether it passes, and its lines."""
        rt = self.crate.parent / "bin/rt"
        rt.parent.mkdir(exist_ok=True)
        rt.write_text("\n".join(["#!/bin/sh", "cat << 'END'", *said, "END", f"echo on the error >&2; exit {status}\n"]))
        rt.chmod(0o755)
        edits = [self.edit(GOOD, GATE, f"{name}.edit") for name in "ab"]
        tries = lambda crate, edits, *_: [Tried(edit, each, "..") for edit, each in zip(edits, came)]
        patches = {"TOP": self.crate.parent, "edits_in": lambda kind: edits if kind == GATE else [], "try_crate": tries,
                   "kit": lambda: None, "kit_id": lambda: "kit", "listed_as_refused": set,
                   "functions_of": lambda crate, symbols, _: symbols, "output_of": lambda *_: "commit",
                   "known_by_shape": lambda: {*known},
                   "crates_with_tests": lambda: {"low": True, "kept": False, "high": False}}
        path = mock.patch.dict(os.environ, {"PATH": f"{rt.parent}:{os.environ['PATH']}"})
        with path, mock.patch.multiple(gate, create=True, **patches), self.page() as page:
            passes = gate.gate(page, (lambda: page.run(command)) if command else None)
        self.kept, self.sums = page.place.read_text().splitlines(), page.sums
        return passes, self.out.getvalue().splitlines()

    def test_the_gate_passes_where_all_is_refused_and_rt_ci_passes(self):
        passes, lines = self.verdict()
        self.assertTrue(passes)
        self.assertEqual(lines[-1], "gate: 2 edits tried: 0 failed")
        self.assertTrue(self.verdict(command=["true"])[0])

    def test_the_gate_fails_where_rt_ci_does_or_what_runs_after_it(self):
        for status, command in (1, ["true"]), (0, ["false"]):
            passes, lines = self.verdict(status, command=command)
            self.assertFalse(passes)
            self.assertEqual(lines[-2:], ["gate: rt ci failed, or what runs after it", "gate: 2 edits tried: 0 failed"])

    def test_the_gate_fails_and_names_each_edit_that_is_not_refused_for_what_it_does(self):
        for other in PROVED, BY_SHAPE, UNTRIED:
            passes, lines = self.verdict(came=(REFUSED, other))
            self.assertFalse(passes)
            self.assertIn(f"gate: low/b.edit: {other}: ..", lines)
            self.assertEqual(lines[-1], "gate: 2 edits tried: 1 failed")
        passes, lines = self.verdict(came=(REFUSED,))
        self.assertFalse(passes)
        self.assertIn(f"gate: low/b.edit: {UNTRIED}: ", lines[-2])

    def test_an_edit_that_is_known_to_be_refused_by_its_shape_is_told_and_no_failure(self):
        passes, lines = self.verdict(came=(REFUSED, BY_SHAPE), known=["low/b.edit"])
        self.assertTrue(passes)
        self.assertIn("gate: 1 of these edits are refused by their shape alone, and count for nothing", lines)
        for other in PROVED, UNTRIED:
            self.assertFalse(self.verdict(came=(REFUSED, other), known=["low/b.edit"])[0])
        self.assertTrue(self.verdict(came=(REFUSED, BY_SHAPE), known=[GATE])[0])
        self.assertFalse(self.verdict(came=(REFUSED, BY_SHAPE), known=["must-fail-more"])[0])

    def test_an_edit_that_is_refused_for_what_it_does_is_not_to_be_listed(self):
        passes, lines = self.verdict(known=["low/b.edit"])
        self.assertFalse(passes)
        self.assertIn("gate: low/b.edit: is refused for what it does, so by_shape.txt is not to have it", lines)


    def test_of_what_passes_a_line_is_shown_and_the_file_has_all(self):
        ran = "rt: low ran, and wrote what its file stdout has"
        of_tests = "test few ... ok", "rt: low: its tests passed"
        said = [*self.SAID[:9], *of_tests, ran, "rt: ok; all", "3 passed, 0 failed"]
        passes, lines = self.verdict(said=said, command=["echo", "of a command"])
        self.assertTrue(passes)
        self.assertEqual(sorted(lines), sorted([
            "  0.0 min: tries 0 of the 0 edits that docs/edits.md has, by the commit commit", "on the error",
            "  0.0 min: crate 1 of 3: low proved", "  0.0 min: crate 2 of 3: kept is kept",
            "  0.0 min: rt ci: 3 passed, 0 failed", "  0.0 min: edits of low: 2 tried, 0 failed, in 0 s",
            "  0.0 min: echo: of a command", "gate: 2 edits tried: 0 failed"]))
        told = [f"low/{name}.edit: refused: .." for name in "ab"]
        self.assertLessEqual({*said, *told, *lines, "echo: of a command"}, {*self.kept})
        self.assertEqual(self.sums, ["rt ci: 3 passed, 0 failed", "2 edits tried, 0 failed"])

    def test_of_what_fails_all_is_shown(self):
        tests = ["== low: its tests", "fn low::tests::few: not proved", "rt: low: its tests are NOT PROVED"]
        of_runs = ["rt: high NOT PROVED: its library low failed"], ["rt: low: the program ended with status 1"]
        parts = [self.SAID[9:], tests, ["test few ... FAILED", "rt: low: its tests FAILED"], *of_runs,
                 ["2 passed, 1 failed"], ["== killed", "fn killed::it"]]
        for part in parts:
            passes, lines = self.verdict(1, said=[*self.SAID[:5], *part])
            self.assertFalse(passes)
            self.assertEqual(self.sums[-1], "2 edits tried, 0 failed")
            at = lines.index(part[0])
            self.assertEqual(lines[at : at + len(part)], part)
            self.assertFalse({*lines} & {*self.SAID[:5]})
            self.assertLessEqual({*lines}, {*self.kept})

    def test_an_edit_that_is_not_refused_is_shown_as_it_comes(self):
        _, lines = self.verdict(came=(REFUSED, PROVED))
        self.assertIn(f"low/b.edit: {PROVED}: ..", lines)
        self.assertIn("  0.0 min: edits of low: 2 tried, 1 failed, in 0 s", lines)

    def test_what_rt_ci_works_on_is_found_by_its_processes(self):
        for more, told in ([], "low"), (["--test"], "tests of low"):
            code = "import time; print(flush=True); time.sleep(60)"
            words = ["/kit/bin/rattle", "-c", code, "check", "--crate-name", "low", *more]
            with subprocess.Popen(words, executable=sys.executable, stdout=subprocess.PIPE) as ran:
                ran.stdout.readline()
                found = gate.crates_below(os.getpid())
                ran.kill()
            self.assertEqual(found, [told])


class PageShown(Scratch):
    """The page, and what runs by its steps."""

    page = Gate.page

    def test_what_is_running_is_told_after_five_minutes_of_silence(self):
        page = self.page()
        with page.running("edits of low"), page.running(lambda: ["high"]):
            page.head = "crate 1 of 3"
            for self.now in (1, SIGN_OF_LIFE_SECONDS - 1, SIGN_OF_LIFE_SECONDS, SIGN_OF_LIFE_SECONDS + 1):
                page.beat()
        self.assertEqual(self.out.getvalue(), "  5.0 min: crate 1 of 3; running: high, edits of low\n")
        self.assertEqual(page.now(), "crate 1 of 3")

    def test_on_a_terminal_the_last_line_tells_what_is_running(self):
        page = self.page()
        self.out.isatty = lambda: True
        with page.running("edits of low"):
            page.beat()
            page.show("a line")
        status = "  0.0 min: running: edits of low"
        self.assertEqual(self.out.getvalue(), f"{CLEARED}{status}{CLEARED}a line\n")
        self.assertEqual(page.place.read_text(), "a line\n")

    def test_of_a_step_that_passes_the_last_line_is_told_and_all_where_it_fails(self):
        page = self.page()
        for status in (0, 1):
            passes = page.run(["sh", "-c", f"echo first; echo last >&2; exit {status}"], "it")
            self.assertIs(passes, status == 0)
        failed = "  0.0 min: it FAILED, with the status 1: what it said is above"
        self.assertEqual(self.out.getvalue().splitlines(), ["  0.0 min: it: last", "first", "last", failed])
        self.assertEqual(page.place.read_text().count("it: first\n"), 2)
        self.assertFalse(page.run(["sh", "-c", "kill -9 $$"], "killed"))

    def quick(self, failing=()):
        """What the quick steps say where these fail, and what they ran."""
        ran, page = [], self.page()

        def run(words, name=None, folder=None, is_told=True):
            ran.append(" ".join(map(str, words[1:])))
            return (name or ran[-1]) not in failing

        build = (1, ["no kit"]) if "build" in failing else (0, ["note", "/a", "/b", "/c", "/d"])
        page.run, page.ran = run, lambda *_: build
        with mock.patch.object(steps, "crates_to_try", lambda: ["tests_of_low"]):
            return steps.run_quick(page), ran, self.out.getvalue()

    def test_the_quick_steps_take_the_programs_of_run_and_name_what_they_leave_out(self):
        passes, ran, said = self.quick()
        self.assertTrue(passes)
        of_each_sort = {"tools/try_tests.py tests_of_low", "tools/pages.py", "tools/rows.py --program /a"}
        self.assertLessEqual(of_each_sort, {*ran})
        self.assertIn("tools/recorded.py --noted --program /b --player /a --count 100 --unrefused", ran)
        self.assertFalse([words for words in ran if "sweep" in words or "peers.py" in words or "--quick" in words])
        self.assertIn("test: not run, as they need proved programs: sweep_memory, ", said)

    def test_each_quick_step_that_fails_is_named(self):
        named = {"tests_of_low": "tests_of_low", "tools/pages.py": "pages", "tools/rows.py --program /a": "rows"}
        for failing, name in named.items():
            passes, _, said = self.quick([failing])
            self.assertFalse(passes)
            self.assertIn(f"test: failed: {name}\n", said)
        passes, ran, said = self.quick(["build"])
        self.assertFalse(passes)
        self.assertIn("no kit\n", said)
        self.assertFalse([words for words in ran if "rows.py --program" in words])

    def test_tests_that_are_not_proved_pass_by_the_last_line(self):
        said, last = try_tests.RESULT.search("test result: ok. 2 passed; 0 failed"), "run=ended status={} proved=no\n"
        ended = last.format(0)
        ways = [(0, said, ended), (0, said, last.format(101)), (0, None, ended), (6, said, ended)]
        ways.append((0, said, f"{ended}more\n"))
        self.assertEqual([try_tests.is_passed(*way) for way in ways], [True, False, False, False, False])


class GateTime(Scratch):
    def test_edits_made_together_are_each_found_in_a_copy(self):
        of_first = "file: src/few.rt\nold: list[0]\nnew: list[1]\n"
        made = [self.edit(GOOD, name="a.edit"), self.edit(of_first, name="b.edit")]
        other = self.edit(GOOD.replace("+ 1", "+ 2"), name="c.edit")
        room = self.crate.parent / "rt-edit-1"
        (room / "src").mkdir(parents=True)
        (room / "src/few.rt").write_text(made[1].applied(made[0].applied({}))["src/few.rt"])
        words = ["/kit/rattle", "check", "--crate-name", "low"]
        with mock.patch.multiple(gate_time, is_as_it_stands=lambda *_: False):
            found = gate_time.crate_and_kind(words, str(room), [*made, other])
        self.assertEqual(found, ("low", "edits", ("low/a.edit", "low/b.edit")))


class Page(Scratch):
    def test_a_section_is_written_anew_and_others_stay(self):
        edit = self.edit(GOOD)
        page = self.crate / "edits.md"
        other = self.crate.parent / "high" / MORE / "a.edit"
        other.parent.mkdir(parents=True)
        other.write_text(GOOD)
        patches = {"PAGE": page, "edits_in": lambda _: [edit, Edit(other)]}
        with mock.patch.multiple(more_edits, output_of=lambda *_: "abc", **patches):
            more_edits.write_section("low", [Tried(edit, PROVED, "still proved")])
            untried = "were refused for what they do, and none by its shape alone. Not tried yet: those of high."
            self.assertIn(f"In all 0 of 1 {untried}", page.read_text().replace("\n", " "))
            self.assertIn("- longer: `len` in src/few.rt, **not refused**", page.read_text())
            more_edits.write_section("low", [Tried(edit, BY_SHAPE, "src/few.rt:5:5: ..")])
            self.assertIn("and 1 by its shape alone.", page.read_text())
            self.assertIn("- longer: `len` in src/few.rt, **by its shape**", page.read_text())
            self.assertEqual(more_edits.listed_as_refused(), set())
            more_edits.write_section("low", [Tried(edit, REFUSED, "src/few.rt:5:5: ..")])
        self.assertIn("In all 1 of 1 were refused", page.read_text())
        self.assertNotIn("**", page.read_text())

    def test_a_page_that_is_older_than_a_crates_sources_is_told(self):
        top = self.crate.parent
        (top / "crates").mkdir()
        self.crate.rename(top / "crates/low")
        path = top / "crates/low" / MORE / "longer.edit"
        path.write_text(GOOD)
        patches = {"PAGE": top / "edits.md", "TOP": top, "edits_in": lambda *_: [Edit(path)]}
        with mock.patch.multiple(more_edits, output_of=lambda *_: "abc", **patches):
            self.assertEqual(more_edits.stale(), ["low"])
            for file in "src/few.rt", f"{MORE}/longer.edit":
                more_edits.write_section("low", [Tried(Edit(path), REFUSED, "..")])
                self.assertEqual(more_edits.stale(), [])
                changed = top / "crates/low" / file
                changed.write_text(changed.read_text() + "\n")
                self.assertEqual(more_edits.stale(), ["low"])

    def test_what_came_of_a_crates_own_edits_is_told_and_not_written(self):
        edit, page = self.edit(GOOD, kind=GATE), self.crate / "edits.md"
        for came in REFUSED, BY_SHAPE, PROVED, UNTRIED:
            patches = {"PAGE": page, "kit": lambda: None, "edits_in": lambda kind, crates: [edit] if kind == GATE else [],
                       "try_crate": lambda crate, edits: [Tried(each, came, "..") for each in edits]}
            with mock.patch.multiple(more_edits, print=lambda *_, **__: None, create=True, **patches):
                self.assertIs(more_edits.try_all_of(["low"], GATE, 1), came == REFUSED)
        self.assertFalse(page.exists())


class Share(Scratch):
    def test_the_share_is_of_those_that_the_page_has_as_refused(self):
        page = self.crate / "edits.md"
        page.write_text("# Edits\n\n- other: of no crate\n\n## low\n\n- longer: `len` in src/few.rt\n- kept: definitions, **not refused**\n")
        with mock.patch.object(more_edits, "PAGE", page):
            self.assertEqual(more_edits.listed_as_refused(), {"low/longer.edit"})

    def test_a_share_turns_with_the_commit(self):
        edits = [self.edit(GOOD, name=f"{number}.edit") for number in range(60)]
        shares = [more_edits.share_of(edits, commit) for commit in ("1", "2", "1")]
        self.assertEqual([len(share) for share in shares], [3, 3, 3])
        self.assertEqual(shares[0], shares[2])
        self.assertNotEqual(shares[0], shares[1])


class Jobs(unittest.TestCase):
    def test_all_processors_where_each_check_has_its_memory(self):
        self.assertEqual(gate.jobs_of_the_gate(4, 16 << 30), {"RT_JOBS": "4"})
        self.assertEqual(gate.jobs_of_the_gate(4, (16 << 30) - 1), {})

if __name__ == "__main__":
    unittest.main()
