"""Tests the table of tools/peers.py, and that its runs leave nothing behind."""
import pathlib
import tempfile
import unittest

import peers

HASHES = "version openssl 3\nhash plain 20000 20000\nhash openssl 10000 20000\n"
STORE = "version {0} 1.2\n{0} one 30000 {1}\n{0} group 15000 {1}\n{0} read 5000 {1}\n"
WRITES_AND_ENDS = '#!/bin/sh\necho "version openssl 3"\necho bytes > "$1/block"\nexit {}\n'


def printed(unit):
    """What a run prints in which the unit takes so many nanoseconds beside each store."""
    return HASHES + "".join(STORE.format(name, unit) for name in peers.STORES)


class Tables(unittest.TestCase):
    """Medians, and ratios to the unit of the same run."""

    def test_the_median_has_the_least_and_the_greatest_beside_it(self):
        self.assertEqual("2.0 (1.0 to 9.0)", peers.spread([9, 1, 2], ".1f"))

    def test_a_ratio_is_to_the_unit_of_its_run(self):
        lines = list(peers.table(*peers.read_runs(printed(it) for it in (20000, 30000, 10000))))
        self.assertIn("| SQLite 1.2: a durable write of one block | 30.0 µs (30.0 to 30.0) | 1.50 (1.00 to 3.00) |",
                      lines)

    def test_each_store_has_three_rows_and_one_store_checks(self):
        lines = list(peers.table(*peers.read_runs([printed(20000)])))
        self.assertEqual(4 + 3 * len(peers.STORES), len(lines))
        self.assertEqual(1, sum("a read of one block, checked" in line for line in lines))


class Runs(unittest.TestCase):
    """The stores of a run are gone after it."""

    def setUp(self):
        place = tempfile.TemporaryDirectory(prefix="peers_test.")
        self.addCleanup(place.cleanup)
        self.folder = pathlib.Path(place.name)
        (self.folder / "stores").mkdir()

    def run_that_ends(self, status):
        program = self.folder / "program"
        program.write_text(WRITES_AND_ENDS.format(status), encoding="utf-8")
        program.chmod(0o755)
        return peers.run_once(program, self.folder / "stores")

    def left(self):
        return list((self.folder / "stores").iterdir())

    def test_a_run_gives_what_it_printed(self):
        self.assertEqual("version openssl 3\n", self.run_that_ends(0))
        self.assertEqual([], self.left())

    def test_a_run_that_fails_is_a_fault(self):
        with self.assertRaises(peers.Fault):
            self.run_that_ends(1)
        self.assertEqual([], self.left())


if __name__ == "__main__":
    unittest.main()
