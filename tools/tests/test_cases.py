"""Tests how tools/cases.py compares what a program prints with what is stored."""
import contextlib
import io
import lzma
import pathlib
import tempfile
import unittest

import cases

# It says whether its output could be written.
TELLS = '#!/bin/sh\ntrap "" PIPE\necho "$@" 2>/dev/null || { echo "ufsim: output" >&2; exit 1; }\n'
# It says how far it is where standard error is a terminal.
SHOWS = ('#!/bin/sh\ntest -t 2 && printf "\\rcheck line 1 of 1 stops 72 bad 0\\r\\033[K" >&2\n'
         'echo "check stops 72 bad 0"\n')
PROGRAM = '#!/bin/sh\necho "$@"\ncat notes.txt 2>/dev/null\necho told >&2\nexit 3\n'


class Cases(unittest.TestCase):
    """A case passes only if both outputs and the status are as they are stored."""

    def setUp(self):
        place = tempfile.TemporaryDirectory(prefix="cases_test.")
        self.addCleanup(place.cleanup)
        self.folder = pathlib.Path(place.name)
        self.write("program", PROGRAM)
        (self.folder / "program").chmod(0o755)
        self.write("notes.txt", "a note\n")
        self.write("one.args", "show\nnotes.txt\n")
        self.write("one.stdout", "show notes.txt\na note\n")
        self.write("one.stderr", "told\n")
        self.write("one.status", "3\n")

    def write(self, name, text):
        (self.folder / name).write_text(text, encoding="utf-8")

    def passed(self):
        """How many cases of the folder come out right with its program, and what is said of them."""
        found = cases.cases_in(self.folder)
        with contextlib.redirect_stdout(io.StringIO()) as printed:
            count = cases.judged(found, cases.ran(str(self.folder / "program"), found))
        return count, printed.getvalue()

    def test_what_is_stored_passes(self):
        self.assertEqual((1, ""), self.passed())

    def test_a_packed_file_is_unpacked(self):
        (self.folder / "notes.txt").unlink()
        (self.folder / "notes.txt.xz").write_bytes(lzma.compress(b"a note\n"))
        self.assertEqual((1, ""), self.passed())

    def test_each_difference_fails(self):
        for suffix, text in (("stdout", "show notes.txt\nanother note\n"), ("stderr", ""), ("status", "")):
            with self.subTest(suffix):
                before = (self.folder / f"one.{suffix}").read_text(encoding="utf-8")
                self.write(f"one.{suffix}", text)
                count, printed = self.passed()
                self.assertEqual(0, count)
                self.assertIn("one: ", printed)
                self.write(f"one.{suffix}", before)

    def test_what_rt_try_tells_of_each_case(self):
        self.assertEqual({"a": "x\ny\n", "b": ""}, cases.outputs_of("== a\nx\ny\n== b\n"))
        told = "said\ncase=a run=ended status=2 proved=no\ncase=b run=no-answer proved=no\ncases=2 proved=no\n"
        self.assertEqual({"a": ("said\n", 2), "b": ("", -1)}, cases.endings_of(told))

    def test_a_case_that_did_not_run_fails(self):
        found = cases.cases_in(self.folder)
        with contextlib.redirect_stdout(io.StringIO()) as printed:
            self.assertEqual(0, cases.judged(found, {}, "src/main.rt:1:1: error"))
        self.assertIn("not run: one", printed.getvalue())

    def test_a_check_has_to_show_how_far_it_is(self):
        for text, is_right in ((SHOWS, True), (SHOWS.replace("test -t 2", "false"), False),
                               (SHOWS.replace("[K", ""), False), (SHOWS.replace('echo "', 'echo "so '), False)):
            self.write("program", text)
            with contextlib.redirect_stdout(io.StringIO()) as printed:
                is_told = cases.tells_how_far(str(self.folder / "program"), ("check", "stop_in_write.txt"), 72)
            self.assertEqual(is_right, is_told, printed.getvalue())
            self.assertEqual(is_right, printed.getvalue() == "")

    def told_of_output(self, text):
        """How often this program tells that its output cannot be written, and what is said of it."""
        self.write("program", text)
        with contextlib.redirect_stdout(io.StringIO()) as printed:
            return cases.told_of_output(str(self.folder / "program")), printed.getvalue()

    def test_output_that_cannot_be_written_has_to_be_told(self):
        count = len(cases.UNWRITABLE) * len(cases.UNWRITTEN)
        self.assertEqual((count, ""), self.told_of_output(TELLS))
        told, printed = self.told_of_output(TELLS.replace("exit 1", "exit 0"))
        self.assertEqual(0, told)
        self.assertEqual(count, printed.count("it ended with status 0"))
        self.assertEqual(0, self.told_of_output(TELLS.replace("ufsim: output", "memory"))[0])


if __name__ == "__main__":
    unittest.main()
