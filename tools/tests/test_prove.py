"""Tests what tools/prove.py tells of its steps."""
import contextlib
import io
import sys
import unittest

import prove


def step(code):
    """A step that runs this code."""
    with contextlib.redirect_stdout(io.StringIO()) as printed:
        counts = prove.told("a step", [sys.executable, "-c", code])
    return counts, printed.getvalue()


class Steps(unittest.TestCase):
    """Each step has to tell its counts and to end well."""

    def test_each_crate_has_its_place(self):
        lines = ["rt: low proved\n", "rt: low: its tests are proved\n", "== high\n", "rt: high NOT PROVED\n",
                 "rt: mid is kept: an earlier run on this machine proved the same files\n"]
        found = list(prove.with_place(lines, 3))
        placed = ["1 of 3 crates: rt: low proved\n", *lines[1:3], "2 of 3 crates: rt: high NOT PROVED\n"]
        self.assertEqual(placed, found[:4])
        self.assertTrue(found[4].startswith("3 of 3 crates: rt: mid is kept: "))

    def test_the_last_counts_count(self):
        counts, printed = step("print('1 passed, 0 failed'); print('more'); print('7 passed, 0 failed')")
        self.assertEqual((7, 0), counts)
        self.assertIn("more\n", printed)

    def test_a_step_without_counts_failed(self):
        self.assertEqual((0, 1), step("print('7 passed, 0 failed (low alone: not the gate)')")[0])

    def test_a_step_with_a_bad_status_failed(self):
        self.assertEqual((7, 1), step("import sys; print('7 passed, 0 failed'); sys.exit(2)")[0])
        self.assertEqual((7, 3), step("import sys; print('7 passed, 3 failed'); sys.exit(1)")[0])


if __name__ == "__main__":
    unittest.main()
