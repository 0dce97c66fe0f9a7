"""Tests which functions of a text tools/bodies.py finds, and which of them may stand there once more."""
import pathlib
import sys
import unittest

sys.path.insert(0, str(pathlib.Path(__file__).resolve().parent.parent))

from bodies import functions, moved_body  # noqa: E402

TEXT = """// A comment with a fn no_function() { 1 }.
#[tactic(auto,
    using(some_lemma))]
pub fn free(at: u8) -> u8
    ensures { result ≡ at }
{
    at
}

#[cycle(parity)]
fn even(of: u8) -> bool {
    of == 0
}

#[unsafe(no_mangle)]
pub extern "C" fn exported(at: u8) -> u8
    ensures { result ≡ at }
{
    at
}

impl Row {
    /// A method.
    fn of_type(&self) -> u8 {
        self.at
    }
}

impl Die for Row {
    fn of_trait(&self) -> u8 {
        0
    }
}

trait Die {
    fn of_trait_itself(&self) -> u8 {
        1
    }
}
"""


class Bodies(unittest.TestCase):
    """The functions of a text with all kinds of them."""

    def setUp(self):
        self.found = {it.name: it for it in functions("src/rows.rt", TEXT)}

    def test_a_function_is_found_with_its_attributes_its_name_and_its_body(self):
        free = self.found["free"]
        self.assertTrue(TEXT[free.head :].startswith("#[tactic(auto,\n"))
        self.assertTrue(TEXT[free.named :].startswith("free(at"))
        self.assertEqual("{\n    at\n}", TEXT[free.start : free.end])
        self.assertTrue(TEXT[self.found["of_type"].head :].startswith("    fn of_type"))

    def test_a_function_for_c_is_found(self):
        exported = self.found["exported"]
        self.assertTrue(TEXT[exported.head :].startswith("#[unsafe(no_mangle)]"))
        self.assertEqual("{\n    at\n}", TEXT[exported.start : exported.end])

    def test_functions_and_methods_of_types_may_be_copied_and_no_others(self):
        copied = {name for name, it in self.found.items() if it.may_be_copied}
        self.assertEqual({"free", "of_type"}, copied)
        self.assertEqual({"even", "exported", "of_trait", "of_trait_itself"}, set(self.found) - copied)

    def test_a_body_that_is_written_before_the_old_one_is_found(self):
        line = "    ensures { result ≡ at }"
        start = TEXT.index(line)
        place = ("src/rows.rt", start, start + len(line))
        moved = moved_body({"src/rows.rt": TEXT}, *place, line + " { 1 } fn other(at: u8) -> u8")
        self.assertEqual((self.found["free"], "{ 1 }"), moved)
        self.assertIsNone(moved_body({"src/rows.rt": TEXT}, *place, line + " { 1 }"))
        self.assertIsNone(moved_body({"src/rows.rt": TEXT}, *place, "    ensures { result ≡ 1 }"))


if __name__ == "__main__":
    unittest.main()
