"""Tests what check_sees.py takes as seen."""
import unittest
from unittest import mock

import check_sees


class CheckSees(unittest.TestCase):
    """Each body has its edit and its script, and a line of `ufsim check` is read as it is meant."""

    def test_each_body_has_an_edit_and_a_script(self):
        for name, crate in check_sees.BODIES.items():
            with self.subTest(name):
                self.assertTrue(check_sees.wrong_body(crate, name).pairs)
                self.assertTrue((check_sees.SCRIPTS / f"{name}.txt").is_file())

    def test_a_body_without_an_edit_is_told(self):
        with mock.patch.dict(check_sees.BODIES, none="recovery"):
            self.assertEqual(({}, "there is no wrong body recovery/none"), check_sees.printed_with("none", []))

    def test_a_wrong_body_is_seen_by_a_bad_stop(self):
        self.assertTrue(check_sees.is_seen("check stops 9 bad 1\n", True))
        for said in ("check stops 9 bad 0\n", "check stops 0 bad 0\n", "", "ufsim: line 3: word\n"):
            with self.subTest(said):
                self.assertFalse(check_sees.is_seen(said, True))

    def test_the_program_as_it_stands_has_stops_and_no_bad_one(self):
        self.assertTrue(check_sees.is_seen("check stops 9 bad 0\n", False))
        for said in ("check stops 9 bad 1\n", "check stops 0 bad 0\n", ""):
            with self.subTest(said):
                self.assertFalse(check_sees.is_seen(said, False))


if __name__ == "__main__":
    unittest.main()
