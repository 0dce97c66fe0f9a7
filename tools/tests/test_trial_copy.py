"""Tests what a trial copy takes out of a file of proofs."""
import unittest

from trial_copy import drops_where


class EmptiedBlocks(unittest.TestCase):
    """The head of a module without a line below it goes, and so does the `where` of a declaration."""

    def test_a_head_of_one_line_goes(self):
        self.assertEqual(drops_where("module _ (n : N) where\n\nlow : A\nlow = b\n"), "\nlow : A\nlow = b\n")

    def test_a_head_of_several_lines_goes_at_the_end_of_a_file(self):
        self.assertEqual(drops_where("low : A\nlow = b\n\nmodule _ (n : N)\n    (m : M) where\n"), "low : A\nlow = b\n\n")

    def test_what_has_a_line_below_it_stays(self):
        text = "module _ (n : N)\n    (m : M) where\n  low : A\n  low = by\n    where\n      by : A\n      by = b\n"
        self.assertEqual(drops_where(text), text)


if __name__ == "__main__":
    unittest.main()
