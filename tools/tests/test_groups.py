"""Tests how tools/test.py counts its groups and what it shows of them."""
import contextlib
import importlib.util
import io
import pathlib
import sys
import tempfile
import unittest

TOOL = pathlib.Path(__file__).resolve().parent.parent / "test.py"


def loaded():
    """The tool as a module: its name is that of one of Python's own packages."""
    spec = importlib.util.spec_from_file_location("groups_of_tests", TOOL)
    module = importlib.util.module_from_spec(spec)
    spec.loader.exec_module(module)
    return module


class Groups(unittest.TestCase):
    """A group passes only if it told its counts, ended well and has something that passed."""

    def setUp(self):
        self.tool = loaded()

    def run_groups(self, *texts):
        """Runs a group for each text: it prints it, and ends with status 1 if it says 'failing'."""
        with tempfile.TemporaryDirectory() as folder:
            groups = []
            for number, text in enumerate(texts):
                code = f"import sys; print({text!r}); sys.exit({'failing' in text:d})"
                words = (sys.executable, "-c", code)
                groups.append(self.tool.Group(f"group {number}", (words,), folder, number))
            printed = io.StringIO()
            with contextlib.redirect_stdout(printed):
                status = self.tool.run(groups, 2)
        return status, printed.getvalue()

    def test_counts_of_a_tool(self):
        self.assertEqual((5, 0), self.tool.counts_in("1 passed, 1 failed\nmore\n5 passed, 0 failed\n", 0))
        self.assertEqual((5, 2), self.tool.counts_in("5 passed, 2 failed\n", 1))

    def test_counts_of_tests_of_tools(self):
        self.assertEqual((7, 0), self.tool.counts_in("Ran 7 tests in 0.1s\n\nOK\n", 0))
        said = "Ran 7 tests in 0.1s\n\nFAILED (failures=2, errors=1)\n"
        self.assertEqual((4, 3), self.tool.counts_in(said, 1))

    def test_a_group_without_counts_failed(self):
        said = "src/lib.rt:3:1: error\nrun=none proved=no\n"
        self.assertEqual((0, 1), self.tool.counts_in(said, 1))
        self.assertEqual((0, 1), self.tool.counts_in("", 0))

    def test_a_group_of_nothing_failed(self):
        self.assertEqual((0, 1), self.tool.counts_in("0 passed, 0 failed\n", 0))

    def test_a_group_with_a_bad_status_failed(self):
        self.assertEqual((5, 1), self.tool.counts_in("5 passed, 0 failed\n", 6))

    def test_all_well(self):
        status, printed = self.run_groups("kept quiet\n2 passed, 0 failed", "3 passed, 0 failed")
        self.assertEqual(0, status)
        self.assertEqual("5 passed, 0 failed", printed.splitlines()[-1])
        self.assertNotIn("kept quiet", printed)

    def test_what_was_not_looked_at_is_shown(self):
        status, printed = self.run_groups("not looked at: a tool is not there\nkept quiet\n2 passed, 0 failed")
        self.assertEqual(0, status)
        self.assertIn("not looked at: a tool is not there\ngroup 0: 2 passed, 0 failed", printed)
        self.assertNotIn("kept quiet", printed)

    def test_what_failed_is_shown(self):
        status, printed = self.run_groups("2 passed, 0 failed", "failing here\n3 passed, 1 failed")
        self.assertEqual(1, status)
        self.assertEqual("5 passed, 1 failed", printed.splitlines()[-1])
        self.assertIn("failing here", printed)

    def test_a_group_has_the_counts_of_its_pieces(self):
        with tempfile.TemporaryDirectory() as folder:
            pieces = tuple((sys.executable, "-c", f"print('{it} passed, 0 failed')") for it in (2, 0, 5))
            with contextlib.redirect_stdout(io.StringIO()) as printed:
                status = self.tool.run([self.tool.Group("a group", pieces, folder, 1)], 2)
        self.assertEqual(1, status)
        self.assertIn("a group: 7 passed, 1 failed", printed.getvalue())

    def test_a_group_whose_program_is_not_built_failed(self):
        with tempfile.TemporaryDirectory() as folder:
            group = self.tool.Group("a group", (("true", self.tool.PROGRAM),), folder, 1, ("no_crate",))
            with contextlib.redirect_stdout(io.StringIO()) as printed:
                status = self.tool.run([group], 2)
        self.assertEqual(1, status)
        self.assertIn("a group: 0 passed, 1 failed", printed.getvalue())

    def test_a_group_that_does_not_start_failed(self):
        status, printed = self.run_groups("failing before it tells", "3 passed, 0 failed")
        self.assertEqual(1, status)
        self.assertEqual("3 passed, 1 failed", printed.splitlines()[-1])


if __name__ == "__main__":
    unittest.main()
