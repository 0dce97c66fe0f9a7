"""Tests that tools/kept.py keeps what rt builds, and ends rt and its look for reserved names."""
import os
import pathlib
import subprocess
import sys
import tempfile
import unittest
from unittest import mock

sys.path.insert(0, str(pathlib.Path(__file__).resolve().parent.parent))

import crate_tests  # noqa: E402
import kept  # noqa: E402

# It looks for reserved names first, for ten seconds if nobody ends that. Then it builds a program below the folder for
# files that are soon gone, and runs it again and again.
BUILDS = """#!/bin/sh
trap 'rm -r "$TMPDIR/of_rt"; echo ended >> "$LOG"; exit 143' TERM
sh -c 'for it in $(seq 200); do sleep 0.05; done' sh 'no function' &
wait $!
test $? = 143 && echo names ended >> "$LOG"
mkdir -p "$TMPDIR/of_rt/run"
cp "$PROGRAM" "$TMPDIR/of_rt/run/program"
while :; do sh "$TMPDIR/of_rt/run/program"; done
"""
REFUSES = "#!/bin/sh\necho 'src/main.rt:1:1: error' >&2\nexit 1\n"
# A program of two tests, of which one fails.
PROGRAM = """case "$1" in
--list) printf 'a::good: test\\nb::bad: test\\ntests: 2\\n';;
a::good) exit 0;;
b::bad) echo 'what went wrong'; exit 101;;
*) sleep 0.3;;
esac
"""


class Kept(unittest.TestCase):
    """A program is kept while rt runs it, and runs by itself when rt has ended."""

    def setUp(self):
        place = tempfile.TemporaryDirectory(prefix="kept_test.")
        self.addCleanup(place.cleanup)
        self.folder = pathlib.Path(place.name)
        for name in ("crates/one", "bin", "place"):
            (self.folder / name).mkdir(parents=True)
        (self.folder / "program").write_text(PROGRAM, encoding="utf-8")

    def keep(self, rt):
        """What comes of a build by this rt."""
        file = self.folder / "bin" / "rt"
        file.write_text(rt, encoding="utf-8")
        file.chmod(0o755)
        settings = {"PATH": f"{file.parent}:{os.environ['PATH']}", "PROGRAM": str(self.folder / "program"),
                    "LOG": str(self.folder / "log")}
        with mock.patch.dict(os.environ, settings):
            return kept.keep("one", self.folder / "place", True, self.folder)

    def run_kept(self, *words):
        return subprocess.run([str(self.folder / "place" / "run"), *words], capture_output=True, encoding="utf-8",
                              env={}, check=False)

    def test_a_program_is_kept_and_rt_is_ended(self):
        self.assertEqual("", self.keep(BUILDS))
        self.assertEqual(101, self.run_kept("b::bad").returncode)
        self.assertEqual(["names ended", "ended"], (self.folder / "log").read_text(encoding="utf-8").splitlines())
        self.assertEqual({"program", "run", "said"}, {it.name for it in (self.folder / "place").iterdir()})

    def test_what_rt_says_is_given_where_it_builds_nothing(self):
        self.assertEqual("src/main.rt:1:1: error\n", self.keep(REFUSES))

    def test_tests_run_one_by_one_and_in_parts(self):
        self.keep(BUILDS)
        program = str(self.folder / "place" / "run")
        self.assertEqual(["a::good", "b::bad"], crate_tests.names(program))
        for part, end in {("0", "2"): "1 passed, 0 failed", ("1", "2"): "0 passed, 1 failed"}.items():
            words = [sys.executable, crate_tests.__file__, program, *part]
            done = subprocess.run(words, capture_output=True, encoding="utf-8", check=False)
            self.assertEqual(end, done.stdout.splitlines()[-1])
            self.assertEqual("what went wrong" in done.stdout, done.returncode != 0)


if __name__ == "__main__":
    unittest.main()
