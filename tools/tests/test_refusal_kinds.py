"""Tests which kinds of refusals tools/refusal_kinds.py tells apart, and what it prints of them."""
import os
import pathlib
import subprocess
import sys
import tempfile
import unittest

HERE = pathlib.Path(__file__).resolve().parent
TOOL = HERE.parent / "refusal_kinds.py"

sys.path[:0] = [str(HERE), str(HERE.parent)]

import refusal_kinds  # noqa: E402
from test_wrong_bodies import Repository  # noqa: E402

# What wrong_bodies.py says of a refused wrong body in brackets, and the kind of that.
WORDS = {
    "upper::ten: no proof of `returns-clause-least`": "contract",
    "upper::Ten::two: no proof of `returns-in_err-row`, `returns` and 2 more": "contract",
    "upper::ten: no proof of `overflow_add-x`": "contract",
    "upper::ten: no proof of `push-requires-clause-room`": "contract",
    "upper::ten: no proof of `invariant_of-self`": "contract",
    "upper::ten: no proof of `loop-i-preserved`, `returns-2`": "contract",
    "upper::ten: no proof of `returns-clause-smaller`": "contract",
    "upper::ten: no proof of `loop-i-preserved`": "loop",
    "upper::ten: no proof of `loop-i-init`, `loop-i-preserved-clause-few`": "loop",
    "alone: upper::ten: no proof of `rounds-smaller`": "loop",
    "upper::ten: its proof answers a goal that is gone": "gone",
    "alone: upper::ten: its proof answers a goal that is gone": "gone",
    "upper::ten: `returns-clause-least` does not fit": "misfit",
    "alone: proofs/Common.antt: `least` is not admitted": "elsewhere",
    "alone: logic=not-proved": "elsewhere",
}
PRINTED = """lower: a round of 2 is tried in two halves: the control is not proved
lower/control: proved, as it must be (the control)
lower/let_through: NOT REFUSED: lower is proved with it, so a contract lets it through: mend that
lower/one_more: refused, as it must be (lower::ten: no proof of `returns`)
lower/one_less: refused, as it must be (alone: lower::ten: its proof answers a goal that is gone)
lower/no_loop: refused, as it must be (lower::ten: no proof of `loop-i-preserved`)
lower/two_more: refused, as it must be (lower::Two::two: no proof of `returns-clause-least`)
lower: 5 wrong bodies in 4 checks, 1 not refused, 0 verdicts kept from earlier runs; 9 s of processor time
"""
TOLD = """loop: lower/no_loop (lower::ten: no proof of `loop-i-preserved`)
gone: lower/one_less (alone: lower::ten: its proof answers a goal that is gone)
4 refused: contract 2, loop 1, gone 1, misfit 0, elsewhere 0
"""


def told_of(text):
    """What the tool prints of a text, and its status."""
    done = subprocess.run([sys.executable, "-B", str(TOOL)], input=text, stdout=subprocess.PIPE,
                          stderr=subprocess.DEVNULL, encoding="utf-8", check=False)
    return done.stdout, done.returncode


def told_of_kept(repository):
    """What the tool prints in a repository of the verdicts that are kept, and its status."""
    path = f"{repository.folder / 'bin'}{os.pathsep}{os.environ['PATH']}"
    environment = {**os.environ, "PATH": path, "XDG_CACHE_HOME": str(repository.cache), "FAKE_KIT": repository.kit,
                   "FAKE_LOG": str(repository.log), "FAKE_UNKNOWN": repository.unknown}
    command = [sys.executable, "-B", str(repository.folder / "tools" / TOOL.name), "--kept"]
    done = subprocess.run(command, env=environment, stdout=subprocess.PIPE, stderr=subprocess.DEVNULL,
                          encoding="utf-8", check=False)
    return done.stdout, done.returncode


class RefusalKinds(unittest.TestCase):
    """The kind lies in the words alone."""

    def test_each_kind_has_its_words(self):
        for words, kind in WORDS.items():
            with self.subTest(words):
                self.assertEqual(kind, refusal_kinds.kind_of(words))

    def test_all_but_contracts_are_named(self):
        self.assertEqual((TOLD, 0), told_of(PRINTED))

    def test_without_a_refusal_nothing_is_said(self):
        self.assertEqual(("", 2), told_of("wrong bodies: 0 tried in this run, 5 kept from earlier runs\n"))

    def test_kept_verdicts_are_read(self):
        with tempfile.TemporaryDirectory(prefix="refusal_kinds_test.") as place:
            repository = Repository(pathlib.Path(place))
            repository.make()
            self.assertEqual(2, told_of_kept(repository)[1])
            repository.run()
            self.assertEqual(("2 refused: contract 2, loop 0, gone 0, misfit 0, elsewhere 0\n", 0),
                             told_of_kept(repository))


if __name__ == "__main__":
    unittest.main()
