#!/usr/bin/env python3
"""Tests of tools/new_app.py and tools/vendor.py, in a scratch folder: what they make, and what they refuse.

Nothing is built. What an app begins as is what the gate proves here, under another name: so it is compared, byte for
byte, and the kit has to read the crates.txt.
"""
import contextlib
import io
import os
import pathlib
import shutil
import tempfile
import unittest
from unittest import mock

import new_app
import pages
import program
import quoted
import vendor
from trying import kit

NAMES = [
    ("Tickets", "is no name of a crate"),
    ("4tickets", "is no name of a crate"),
    ("tickets-office", "is no name of a crate"),
    ("../tickets", "is no name of a crate"),
    ("", "is no name of a crate"),
    ("t" * 41, "has more than 40 letters"),
    ("match", "is a word of the language"),
    ("tests_of_tickets", "would be the tests of another crate"),
    ("anyhow", "is a library of the kit"),
    ("tokio", "is a library of the kit"),
    ("actors", "is a crate of crates.txt already"),
    ("lying_about", "crates/lying_about is there already"),
]


def files_in(folder):
    """Each file below a folder with its bytes."""
    paths = (pathlib.Path(at, name) for at, _, names in os.walk(folder) for name in names)
    return {str(path.relative_to(folder)): path.read_bytes() for path in paths}


def told(main, *words):
    """What a tool prints."""
    with contextlib.redirect_stdout(io.StringIO()) as out:
        assert main([*map(str, words)]) == 0
    return out.getvalue()


class InScratch(unittest.TestCase):
    """A repository of one's own, in a scratch folder."""

    def setUp(self):
        room = tempfile.TemporaryDirectory(prefix="test_new_app-")
        self.addCleanup(room.cleanup)
        self.top = pathlib.Path(room.name, "mine").resolve()
        self.top.mkdir()

    def stops(self, words, call, *given):
        """Whether a call stops with these words, and changes nothing."""
        before = files_in(self.top)
        with self.assertRaisesRegex(program.Stop, words):
            call(*given)
        self.assertEqual(files_in(self.top), before)


class Apps(InScratch):
    """Apps beside a door that is an empty crate here."""

    def setUp(self):
        super().setUp()
        (self.top / "crates/actors/src").mkdir(parents=True)
        (self.top / "crates.txt").write_text("actors:\n")

    def test_an_app_begins_as_what_is_proved(self):
        self.assertIn("rt ci tickets tests_of_tickets", told(new_app.main, "tickets", "--in", self.top))
        first = files_in(program.CRATES / new_app.PROGRAM)
        made = files_in(self.top / "crates/tickets")
        self.assertEqual({**made, "README.md": b""}, {**without_out(first), "README.md": b""})
        test = pathlib.Path("crates/tests_of_tickets/src") / f"{new_app.TEST}.rt"
        self.assertEqual((self.top / test).read_bytes(), (program.CRATES / new_app.TESTED / f"src/{test.name}").read_bytes())

    def test_the_kit_reads_its_crates(self):
        new_app.make("tickets", self.top)
        new_app.make("fans", self.top)
        crates = {crate.name for crate in kit().rtlib.crates_below(str(self.top))}
        apps = {"tickets", "tests_of_tickets", "fans", "tests_of_fans"}
        self.assertEqual(crates, apps | {"actors"})
        lines = (self.top / "crates.txt").read_text().split("\n")
        self.assertEqual(lines.count(program.APPS), 1)

    def test_its_pages_are_as_pages_of_crates_are(self):
        new_app.make("tickets", self.top)
        for crate in ("tickets", "tests_of_tickets"):
            page = self.top / f"crates/{crate}/README.md"
            lines = page.read_text().split("\n")
            self.assertLessEqual(len(lines), pages.MAX_LINES)
            self.assertLessEqual(max(map(len, lines)), pages.MAX_COLUMNS)
            self.assertEqual(pages.told_below(page), sorted(program.listed(self.top)[crate]))
            with mock.patch.object(quoted, "TOP", self.top):
                faults, count = quoted.faults_in(f"crates/{crate}/README.md")
            self.assertEqual(([fault for fault in faults if "without a fence" not in fault[1]], count), ([], 1))

    def test_a_name_that_cannot_be_is_refused(self):
        (self.top / "crates/lying_about").mkdir()
        for name, words in NAMES:
            with self.subTest(name):
                self.stops(words, new_app.make, name, self.top)
        new_app.make("tickets", self.top)
        self.stops("tickets is a crate of crates.txt already", new_app.make, "tickets", self.top)

    def test_without_the_library_nothing_is_made(self):
        (self.top / "crates.txt").write_text("other:\n")
        self.stops("no crates.txt that names actors", new_app.make, "tickets", self.top)
        (self.top / "crates.txt").unlink()
        self.stops("no crates.txt that names actors", new_app.make, "tickets", self.top)

    def test_the_library_may_be_a_folder_there(self):
        shutil.rmtree(self.top / "crates")
        (self.top / "ray_actors/crates/actors/src").mkdir(parents=True)
        (self.top / "ray_actors/crates.txt").write_text("actors:\n")
        (self.top / "crates.txt").write_text("ray_actors/crates/actors:\n")
        said = told(new_app.main, "tickets", "--in", self.top)
        self.assertIn("(cd tests_of_tickets && rt test)", said)
        self.assertNotIn("rt ci", said)
        crates = {crate.name: crate for crate in kit().rtlib.crates_below(str(self.top))}
        self.assertEqual(set(crates), {"actors", "tickets", "tests_of_tickets"})
        self.assertEqual(crates["tickets"].deps, [crates["actors"]])
        self.stops("tickets is a crate of crates.txt already", new_app.make, "tickets", self.top)

    def test_in_this_clone_no_gate_of_all_crates_is_told(self):
        folders = [program.CRATES / "tickets", program.CRATES / "tests_of_tickets"]
        said = "\n".join(new_app.next_steps("tickets", program.TOP, folders))
        self.assertIn("(cd crates/tests_of_tickets && rt test)", said)
        self.assertNotIn("rt ci", said)

    def test_no_page_has_to_tell_of_an_app(self):
        text = new_app.with_lines((program.TOP / "crates.txt").read_text(), "tickets", "actors")
        with mock.patch.object(pathlib.Path, "read_text", return_value=text):
            self.assertIn("tickets", program.listed())
            self.assertNotIn("tickets", program.ours())
            self.assertIn("actors", program.ours())


class Vendored(InScratch):
    """The crates of this library, put into a repository of one's own: all of them, or the lowest alone."""

    def setUp(self):
        super().setUp()
        self.addCleanup(mock.patch.stopall)
        mock.patch.object(vendor, "DOOR", "act_types").start()
        vendor.vendor(self.top)

    @mock.patch.object(vendor, "DOOR", "actors")
    def test_the_crates_are_those_of_the_door(self):
        vendor.vendor(self.top)
        self.assertEqual(set(program.listed(self.top)), set(program.crates_of("actors", program.listed())))
        for crate in program.listed(self.top):
            for part in vendor.PARTS:
                folder = pathlib.Path("crates", crate, part)
                self.assertEqual(files_in(self.top / folder), files_in(program.TOP / folder))
        self.assertFalse([*self.top.glob("crates/*/must-fail")])
        self.assertEqual({crate.name for crate in kit().rtlib.crates_below(str(self.top))}, set(program.listed(self.top)))
        self.assertEqual((self.top / "HANDLES").read_text(), (program.TOP / "HANDLES").read_text())

    def test_what_is_ones_own_stays(self):
        (self.top / "crates/tickets/src").mkdir(parents=True)
        (self.top / "crates/tickets/src/main.rt").write_text("// mine\n")
        with (self.top / "crates.txt").open("a") as crates:
            crates.write("\n# mine\ntickets: act_types\n")
        (self.top / "crates/act_types/src/old.rt").write_text("// of an earlier version\n")
        before = files_in(self.top)
        self.assertIn("crates of ray_actors", told(vendor.main, self.top))
        self.assertEqual(files_in(self.top), {path: text for path, text in before.items() if not path.endswith("/old.rt")})

    def test_a_crate_that_the_library_has_no_more_goes(self):
        text = (self.top / "crates.txt").read_text()
        (self.top / "crates.txt").write_text(text.replace("act_types: ", "act_gone:\nact_types: "))
        (self.top / "crates/act_gone/src").mkdir(parents=True)
        vendor.vendor(self.top)
        self.assertFalse((self.top / "crates/act_gone").exists())
        self.assertEqual((self.top / "crates.txt").read_text(), text)

    def test_a_crate_of_ones_own_is_not_written_over(self):
        (self.top / "crates.txt").write_text("act_types:\n")
        self.stops("act_types is a crate of your own", vendor.vendor, self.top)
        (self.top / "crates.txt").write_text("")
        self.stops("act_types is a crate of your own", vendor.vendor, self.top)

    def test_a_folder_that_cannot_be_is_refused(self):
        self.stops("is no folder", vendor.vendor, self.top / "nowhere")
        self.stops("one within the other", vendor.vendor, program.TOP)
        self.stops("one within the other", vendor.vendor, program.CRATES)
        self.stops("one within the other", vendor.vendor, program.TOP.parent)

    def test_other_handles_are_told(self):
        (self.top / "HANDLES").write_text("Handles allowed: none.\n")
        self.assertIn("says 'Handles allowed: none.', and these crates need", told(vendor.main, self.top))

    def test_a_block_without_an_end_is_refused(self):
        text = (self.top / "crates.txt").read_text()
        (self.top / "crates.txt").write_text(text.replace(vendor.END, ""))
        self.stops("has no line", vendor.vendor, self.top)


def without_out(files):
    """These files without what rt left."""
    return {path: text for path, text in files.items() if not path.startswith("out/")}


if __name__ == "__main__":
    unittest.main()
