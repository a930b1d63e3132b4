#!/usr/bin/env python3
"""Tests of tools/reference.py: what changes in a source or on a page must be told.

Each change is made to the text of one file as it is read, and must be told, and not be told without it.
"""
import pathlib
import unittest
from unittest import mock

import named
import reference
from program import CRATES

TEXTS = named.texts_there()
# Files of crates/.
WORLD = "act_world/src/world.rt"
EVENT = "act_rules/src/event.rt"
CAST = "act_actor/src/cast.rt"
RUN = "act_executor/src/run.rt"
NAME = "act_types/src/name.rt"

# What is changed, in which file, what stands there, what is put in its place, and the page that is old then.
CHANGES = [
    ("a signature", WORLD, "has_room(&self, count: usize)", "has_room(&self, count: u32)", "worlds"),
    ("a premise", WORLD, "requires reserved {", "requires spare {", "worlds"),
    ("a clause", WORLD, "ensures grown { IsGrown self.old", "ensures grown { IsGrown self.new", "worlds"),
    ("a comment between clauses", WORLD, "// Want of memory comes last.", "// It comes last.", "worlds"),
    ("a method's doc comment", WORLD, "/// A caller, where some cast names it.", "/// A caller.", "worlds"),
    ("a type's doc comment", WORLD, "/// A world of callers and actors.", "/// A world.", "worlds"),
    ("a variant", EVENT, "    Deliver(u32),", "    Deliver(u64),", "worlds"),
    ("a variant's doc comment", EVENT, "/// The caller asks for the actor's kill.", "/// A kill.", "worlds"),
    ("a field", CAST, "    pub kind: K,", "    pub kind: Box<K>,", "one_actor"),
    ("a derived trait", CAST, "#[derive(Drop)]", "#[derive(Debug, Drop)]", "one_actor"),
    ("an impl", "act_types/src/call.rt", "impl fmt::Display for Settled", "impl fmt::Debug for Settled", "values"),
    ("what `?` makes it of", RUN, "impl From<NoMemory> for", "impl From<u8> for", "threads"),
    ("what clauses see", "act_owner/src/owner.rt", "Value = { OwnerView }", "Value = { ℕ }", "one_caller"),
    ("a kind's state", "act_kinds/src/counter.rt", "state = { CounterAt }", "state = { AccountAt }", "kinds"),
    ("a trait's ghost member", "act_drive/src/code.rt", "ghost tells: {", "ghost says: {", "codes"),
    ("a trait's method", "act_serve/src/turn.rt", "fn pass(&self, actor", "fn pass(&self, a", "threads"),
    ("what a law says", "act_rules/specs/Laws.antt", "IsTrue (is_retired a w)", "IsTrue (is_dead a w)", "worlds"),
    ("a subject", "actors/src/lib.rt", "// Worlds.", "// Worlds to play.", "worlds_to"),
    ("what is passed on", "actors/src/lib.rt", "Stage, World, is_memory", "Stage, World", "worlds"),
    ("a word that is passed on", "actors/specs/Plays.antt", "{IsPlayed, IsPlayOf,", "{IsPlayed,", "words"),
    ("what a law leads to", "act_own/specs/Kept.antt", "(Starved dead)) = Left", "(Starved dead)) = Keeps", "kinds"),
    ("a lemma's parameter", "act_own/proofs/Kept.antt", "holds) (start : S)", "holds) (first : S)", "lemmas"),
    ("a lemma's type", "act_own/proofs/Kept.antt", "pub run_keeps : (casts", "pub run_keeps : (all", "lemmas"),
    ("what a lemma names", "act_own/proofs/Kept.antt", "  opened = OwnAt (", "  opened = CounterAt (", "lemmas"),
    ("a lemma that is passed on", "actors/proofs/Lemmas.antt", "{run_keeps, slot_keeps}", "{run_keeps}", "lemmas"),
    ("from where a kind takes words", "actors/proofs/Lemmas.antt", "{holds_in_each_run, ", "{", "words"),
    ("a limit", "act_types/src/limits.rt", "MAX_ARGS: usize = 4", "MAX_ARGS: usize = 5", ""),
]
LONG = " ".join(["word"] * 31)
# What is wrong, in which file, what stands there, what is put in its place, and what must be told.
FAULTS = [
    (
        "a method of which nothing is said", NAME, "impl Name {\n", "impl Name {\n    pub fn bare(&self) {\n    }\n\n",
        "Name::bare has no doc comment and no clause",
    ),
    (
        "a type of which nothing is said", "act_types/src/memory.rt", "/// Memory was refused.\n", "",
        "NoMemory has no doc comment",
    ),
    ("a name of PARTS that isn't passed on", "actors/src/lib.rt", "Arrival, ", "", "PARTS has 'Arrival'"),
    ("a subject of PARTS that is none", "actors/src/lib.rt", "// Threads.", "// In threads.", "PARTS has 'Threads'"),
    ("a long sentence", NAME, "/// The name's text.", f"/// {LONG}.", "a sentence of 31 words"),
    (
        "a word of std that no table has", WORLD, "ensures { self.new ≡ self.old }", "ensures { replicate }",
        "NOTATION hasn't replicate",
    ),
]  # fmt: skip


def reading_otherwise(path, old, new):
    """Has a file of crates/ read with another text in one place."""
    read_text = pathlib.Path.read_text

    def read_changed(self, *args, **named_args):
        text = read_text(self, *args, **named_args)
        if self != CRATES / path:
            return text
        if old not in text:
            raise AssertionError(f"{path} has no '{old}'")
        return text.replace(old, new, 1)

    return mock.patch.object(pathlib.Path, "read_text", read_changed)


def faults_of(page):
    """What is told of a page as it stands, by the sources as they are read now."""
    made = reference.text_of(reference.Book(), page)
    return list(reference.faults_of_age({page: made}, {page: TEXTS.get(page, "")}))


def told():
    """What is told of the sources as they are read now."""
    return list(reference.faults_of_sources(reference.Book()))


class Sources(unittest.TestCase):
    def test_nothing_is_told_of_what_stands(self):
        book = reference.Book()
        self.assertEqual(list(reference.faults_of_sources(book)), [])
        self.assertEqual(list(reference.faults_of_age(reference.texts_of(book), TEXTS)), [])

    def test_each_change_is_told(self):
        for what, path, old, new, page in CHANGES:
            with self.subTest(what), reading_otherwise(path, old, new):
                self.assertEqual(len(faults_of(f"docs/reference/{page}.md" if page else reference.INDEX)), 1)

    def test_each_fault_is_told(self):
        for what, path, old, new, wanted in FAULTS:
            with self.subTest(what), reading_otherwise(path, old, new):
                found = told()
                self.assertEqual(len([fault for fault in found if wanted in fault]), 1, found)


class Pages(unittest.TestCase):
    PAGE = "docs/reference/ends.md"

    def test_a_page_that_was_changed_by_hand_is_told_with_its_line(self):
        made = reference.texts_of(reference.Book())
        lines = made[self.PAGE].split("\n")
        lines[4] = "By hand."
        changed, without = {**made, self.PAGE: "\n".join(lines)}, {**made}
        del without[self.PAGE]
        for there, begin in (
            (changed, f"{self.PAGE}:5: it isn't"),
            (without, f"{self.PAGE}:1: it isn't"),
            ({**made, "docs/reference/old.md": ""}, "docs/reference/old.md: no source"),
        ):
            found = list(reference.faults_of_age(made, there))
            self.assertEqual([fault.startswith(begin) for fault in found], [True], found)

    def test_each_fault_of_form_is_told(self):
        plants = [
            ("See [there](nowhere.md).", "leads to no file"),
            ("See [there](#nowhere).", "has no #nowhere"),
            ("See [there](worlds.md#nowhere).", "has no #nowhere"),
            ("### `always`", "2 headings are #always"),
            ("\n" * reference.MAX_LINES, "PARTS can divide it"),
        ]
        for plant, wanted in plants:
            with self.subTest(wanted):
                for text, count in (TEXTS[self.PAGE], 0), (f"{TEXTS[self.PAGE]}\n{plant}\n", 1):
                    found = list(reference.faults_of_form({self.PAGE: text}, TEXTS))
                    self.assertEqual(len([fault for fault in found if wanted in fault]), count)


if __name__ == "__main__":
    unittest.main()
