"""Tests how files of edits are read, as wrong bodies and as wrong rules, and how their faults are told."""
import contextlib
import io
import pathlib
import sys
import tempfile
import unittest
from unittest import mock

import edit_files
import edits
import rules
import turn_rules
from crates import ROOT, lines_of

ONE = ["name: one", "file: src/lib.rt", "old: 1", "new: 2"]
TWO = ["name: two", "file: src/lib.rt", "old: 3", "new: 4"]
BOTH = [*ONE, "", *TWO]
RULE = ["name: one", "says: It is not so.", "law: laws::it_is_so", "file: spec/specs/It.antt"]


class InAFolder(unittest.TestCase):
    """Writes a file of edits, and reads it."""

    def setUp(self):
        place = tempfile.TemporaryDirectory(prefix="edit_files_test.")
        self.addCleanup(place.cleanup)
        self.folder = pathlib.Path(place.name, "wrong_bodies")
        self.folder.mkdir()
        for module in (edits, rules):
            self.enter(mock.patch.object(module, "FOLDER", self.folder))

    def enter(self, patch):
        """Makes a change that ends with the test."""
        patch.start()
        self.addCleanup(patch.stop)

    def write(self, lines):
        pathlib.Path(self.folder, "low.edits").write_text("\n".join([*lines, ""]), encoding="utf-8")

    def bodies(self, *lines):
        """What wrong bodies with these lines are: the edits, the control and the faults."""
        self.write(lines)
        return edits.edits_of("low")

    def rules(self, *lines):
        """What wrong rules with these lines are, and the faults."""
        self.write(lines)
        return rules.rules()

    def one_fault(self, fault, *lines):
        """Sees that a file of wrong bodies has this fault alone, and gives no edit."""
        self.assertEqual(([], None, [f"wrong_bodies/low.edits:{fault}"]), self.bodies(*lines))


class Bodies(InAFolder):
    """A wrong body keeps each byte of its texts."""

    def test_edits_have_their_names_and_places(self):
        found, control, faults = self.bodies("name: control", *ONE[1:], "", *BOTH)
        self.assertEqual([], faults)
        self.assertEqual(["low/one", "low/two"], [str(it) for it in found])
        self.assertEqual(["wrong_bodies/low.edits:6, one", "wrong_bodies/low.edits:11, two"],
                         [it.place for it in found])
        self.assertEqual("low/control", str(control))

    def test_a_crate_without_a_file_has_no_edits(self):
        self.assertEqual(([], None, []), edits.edits_of("high"))
        self.assertEqual(([], None, []), self.bodies())

    def test_an_edit_of_two_files(self):
        found, _, faults = self.bodies(*ONE, "old: 3", "new: 4", "file: src/other.rt", "old: 5", "new: 6")
        self.assertEqual([], faults)
        pairs = (("src/lib.rt", "1", "2"), ("src/lib.rt", "3", "4"), ("src/other.rt", "5", "6"))
        self.assertEqual(pairs, found[0].pairs)
        texts = {"src/lib.rt": "1 and 3", "src/other.rt": "5"}
        self.assertEqual({"src/lib.rt": "2 and 4", "src/other.rt": "6"}, edits.changed(found[0], texts))

    def test_blanks_and_colons_of_a_text_stay(self):
        found, _, faults = self.bodies(*ONE[:2], "old:     a: u8, ", "new:   new: b")
        self.assertEqual([], faults)
        self.assertEqual((("src/lib.rt", "    a: u8, ", "  new: b"),), found[0].pairs)

    def test_the_blank_after_the_colon_may_be_missing(self):
        found, _, faults = self.bodies("name:one", "file:src/lib.rt", "old:1", "new:2")
        self.assertEqual(([], (("src/lib.rt", "1", "2"),)), (faults, found[0].pairs))

    def test_texts_may_be_empty(self):
        for end in ("", " "):
            with self.subTest(end):
                found, _, faults = self.bodies(*ONE[:2], f"old:{end}", f"new:{end}", "old: 1", f"new:{end}")
                self.assertEqual([], faults)
                self.assertEqual((("src/lib.rt", "", ""), ("src/lib.rt", "1", "")), found[0].pairs)

    def test_an_edit_that_must_fail_is_a_file_of_its_own(self):
        path = ROOT / "crates" / "low" / "must-fail" / "one.edit"
        with mock.patch.object(pathlib.Path, "read_text", lambda *_, **__: "\n".join([*ONE[1:], ""])):
            found = edits.must_fail_edit("low", path)
        self.assertEqual(edits.Edit("low", "one", "crates/low/must-fail/one.edit", (("src/lib.rt", "1", "2"),)), found)

    def test_a_wrong_body_is_found_by_its_name(self):
        self.write(BOTH)
        self.assertEqual("low/two", str(edits.wrong_body("low", "two")))
        with self.assertRaisesRegex(edits.Fault, "^there is no wrong body low/three$"):
            edits.wrong_body("low", "three")
        self.write([*BOTH, ""])
        with self.assertRaisesRegex(edits.Fault, "^wrong_bodies/low.edits:10: a blank line stands after the last"):
            edits.wrong_body("low", "two")


class Faults(InAFolder):
    """Each fault of a file is told with its line, and no edit of the file is taken."""

    def test_two_edits_of_one_name(self):
        self.one_fault("6: a second edit has the name one: the first is in line 1", *ONE, "", "name: one", *TWO[1:])

    def test_an_edit_without_a_file(self):
        self.one_fault("6: two has no line 'file:'", *ONE, "", TWO[0], *TWO[2:])
        self.one_fault("1: one has no line 'file:'", ONE[0])
        self.one_fault("2: no line 'file:' stands before it", ONE[0], *ONE[2:], *ONE[1:])

    def test_a_name_of_other_letters(self):
        for name in ("One", "one-1", "one ", " one", "öne", "", "a/b"):
            with self.subTest(name):
                self.one_fault(f"1: a name has only a to z, 0 to 9 and '_', and not: {name}", f"name: {name}", *ONE[1:])

    def test_a_line_that_is_none_of_an_edit(self):
        cause = "it begins with none of name:, file:, old:, new:, so it is not read"
        for line in ("odl: 1", "# a word", " ", " old: 1", "Old: 1", "old 1", "says: It is so.", "mend: src/lib.rt"):
            with self.subTest(line):
                self.one_fault(f"3: {cause}: {line}", *ONE[:2], line, *ONE[2:])

    def test_an_old_text_without_a_new_one(self):
        self.one_fault("3: no line 'new:' follows it", *ONE[:3], "", *TWO)
        self.one_fault("3: no line 'new:' follows it", *ONE[:3], *ONE[2:])
        self.one_fault("3: no line 'new:' follows it", *ONE[:3], "file: src/other.rt", *ONE[2:])

    def test_a_new_text_without_an_old_one(self):
        self.one_fault("3: no line 'old:' stands before it", *ONE[:2], ONE[3], *ONE[2:])
        self.one_fault("5: no line 'old:' stands before it", *ONE, "new: 3")

    def test_an_edit_that_is_not_at_its_place(self):
        self.one_fault("6: one has to stand before two, in the order of the names", *TWO, "", *ONE)

    def test_blank_lines_that_do_not_stand_between_two_edits(self):
        here = "here an edit has to begin, with a line 'name: NAME'"
        self.one_fault("5: a blank line has to stand before it", *ONE, *TWO)
        self.one_fault(f"1: {here}", "", *ONE)
        self.one_fault(f"6: {here}", *ONE, "", "", *TWO)
        self.one_fault(f"4: {here}", *ONE[:2], "", *ONE[2:])
        self.one_fault("5: a blank line stands after the last edit", *ONE, "")

    def test_a_file_that_begins_with_no_name(self):
        self.one_fault("1: here an edit has to begin, with a line 'name: NAME'", *ONE[1:])

    def test_each_fault_is_told(self):
        lines = [*ONE[:3], "", "name: Two", TWO[1], "odl: 3", "new: 4"]
        *_, faults = self.bodies(*lines)
        self.assertEqual(["3", "5", "7", "8"], [it.split(":")[1] for it in faults])


class Rules(InAFolder):
    """A wrong rule has texts of several lines, and more words."""

    def test_lines_of_one_word_are_one_text(self):
        found, faults = self.rules(*RULE, "old: a", "old:   b", "new: c", "new:", "new:  d", "old: e", "new: f")
        self.assertEqual([], faults)
        file = "spec/specs/It.antt"
        changes = ((file, "a\n  b", "c\n\n d"), (file, "e", "f"))
        where = "wrong_bodies/low.edits:1, one"
        self.assertEqual([rules.Rule("one", where, "It is not so.", "laws::it_is_so", changes, ())], found)

    def test_the_lines_of_an_old_text_without_a_new_one_go(self):
        found, faults = self.rules(*RULE, "old: a", "mend: spec/proofs/It.antt", "old: b", "new: c")
        self.assertEqual([], faults)
        self.assertEqual((("spec/specs/It.antt", "a\n", ""),), found[0].edits)
        self.assertEqual((("spec/proofs/It.antt", "b", "c"),), found[0].mends)

    def test_mending_may_stand_before_the_change(self):
        mend = ["mend: spec/proofs/It.antt", "old: a", "new: b"]
        found, faults = self.rules(*RULE[:3], *mend, RULE[3], "old: c", "new: d")
        self.assertEqual([], faults)
        self.assertEqual((("spec/specs/It.antt", "c", "d"),), found[0].edits)
        self.assertEqual((("spec/proofs/It.antt", "a", "b"),), found[0].mends)

    def test_faults_are_told_of_each_file(self):
        pathlib.Path(self.folder, "high.edits").write_text("says: It is so.\n", encoding="utf-8")
        found, faults = self.rules(*RULE, "new: a", "old: b", "new: c", "told: d")
        self.assertEqual([], found)
        cause = "it begins with none of name:, says:, law:, file:, mend:, old:, new:, so it is not read"
        self.assertEqual(["wrong_bodies/high.edits:1: here an edit has to begin, with a line 'name: NAME'",
                          "wrong_bodies/low.edits:5: no line 'old:' stands before it",
                          f"wrong_bodies/low.edits:8: {cause}: told: d"], faults)

    def test_no_rule_is_tried_where_a_file_has_a_fault(self):
        self.write([*RULE, "old: a", "new: b", ""])
        for words in ("", "--texts", "--list", "one"):
            printed, called = io.StringIO(), ["turn_rules.py", *words.split()]
            with mock.patch.object(sys, "argv", called), contextlib.redirect_stdout(printed):
                self.assertEqual(1, turn_rules.main())
            self.assertEqual("wrong_bodies/low.edits:7: a blank line stands after the last edit\n"
                             "0 passed, 1 failed\n", printed.getvalue())

    def test_what_a_rule_lacks_is_told_with_its_place(self):
        found, _ = self.rules(RULE[0], *RULE[2:])
        self.assertEqual(["wrong_bodies/low.edits:1, one: it wants lines says:, law:, file:, old: and new:"],
                         rules.faults_of(found[0]))


class Files(unittest.TestCase):
    """The files of this repository."""

    def test_each_file_is_read(self):
        """Nothing else stands in the folders, as no tool would read it."""
        for folder, form in ((edits.FOLDER, edits.FORM), (rules.FOLDER, rules.FORM)):
            for path in sorted(folder.rglob("*")):
                with self.subTest(str(path.relative_to(ROOT))):
                    self.assertEqual((folder, ".edits"), (path.parent, path.suffix))
                    found, faults = edit_files.read(path, form)
                    self.assertEqual([], faults)
                    self.assertTrue(found)

    def test_each_file_of_wrong_bodies_is_one_of_a_crate(self):
        for path in sorted(edits.FOLDER.glob("*.edits")):
            self.assertIn(path.stem, lines_of())


if __name__ == "__main__":
    unittest.main()
