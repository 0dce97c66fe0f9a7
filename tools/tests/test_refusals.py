"""Tests how the tools that refuse memory judge what came of it."""
import contextlib
import io
import pathlib
import subprocess
import sys
import tempfile
import time
import unittest

sys.path.insert(0, str(pathlib.Path(__file__).resolve().parent.parent))

import refuse_in_ufsim  # noqa: E402
import refuse_memory  # noqa: E402
import refusals  # noqa: E402
from cases import Output  # noqa: E402

# The first lines are 2 and 3, and the others 4 and 7.
SCRIPT = "# what it shows\nconfig 1\nunit 2\nturn\n\n# more\nreply\n"
PRINTED = Output("turn no\nreply none\n", "", 0)
SAID = """allocations: at least 0
left 7
case=one run=ended status=0 runners=1 races=unchecked proved=no
allocations: at least 0
ufsim: memory
case=two run=ended status=1 runners=1 races=unchecked proved=no
cases=2 proved=no
"""


def refused(stdout, where=""):
    """What is due where memory is refused there."""
    return Output(stdout, f"ufsim: {where}memory\n", 1)


def quietly(call, *words):
    """What a call answers, without what it prints."""
    with contextlib.redirect_stdout(io.StringIO()):
        return call(*words)


class InUfsim(unittest.TestCase):
    """A refusal has to be told where it was, and what was printed before has to be whole."""

    def setUp(self):
        self.played, self.check = (refuse_in_ufsim.Script(it, SCRIPT) for it in ("run", "check"))

    def test_a_refusal_is_told_at_the_line_that_prints_next(self):
        due = ((0, "", ""), (3, "", "line 3: "), (4, "", "line 4: "), (7, "turn no\n", "line 7: "))
        for place, stdout, where in due:
            self.assertEqual(place, self.played.place(PRINTED, refused(stdout, where)))

    def test_any_other_line_or_output_is_wrong(self):
        wrong = [refused("", "line 2: "), refused("", "line 7: "), refused("turn no\n", "line 4: "),
                 refused("turn no\n"), refused("turn no\nreply", "line 7: "), refused("turn yes\n", "line 7: "),
                 refused(PRINTED.stdout, "line 7: "), Output("", "ufsim: memory\n", 0), Output("", "", 1),
                 Output("", "ufsim: line 4: event\n", 1), Output("", "ufsim: memory\nufsim: memory\n", 1)]
        for found in wrong:
            self.assertIsNone(self.played.place(PRINTED, found), found)

    def test_a_check_prints_one_line_at_its_end(self):
        wanted = Output("check stops 3 bad 0\n", "", 0)
        for place, where in ((0, ""), (3, "line 3: "), (4, "line 4: "), (7, "line 7: ")):
            self.assertEqual(place, self.check.place(wanted, refused("", where)))
        self.assertIsNone(self.check.place(wanted, Output("check stops 3 bad 1\n", "", 1)))
        self.assertIsNone(self.check.place(wanted, refused("", "line 2: ")))

    def judge(self, *found):
        return quietly(refuse_in_ufsim.is_good, self.played, PRINTED, range(1, len(found) + 1), found)

    def test_later_refusals_name_no_earlier_line(self):
        early, late = refused("", "line 3: "), refused("turn no\n", "line 7: ")
        self.assertTrue(self.judge(refused(""), early, PRINTED, early, late))
        self.assertFalse(self.judge(early, late, early))

    def test_the_copy_of_the_program_takes_memory_and_tells_what_is_left(self):
        with tempfile.TemporaryDirectory(prefix="refusals_test.") as folder:
            refuse_in_ufsim.write_copy(pathlib.Path(folder))
            text = pathlib.Path(folder, "crates", "ufsim_main", "src", "main.rt").read_text(encoding="utf-8")
        self.assertEqual(2, text.count("tell_left(&rt, "))
        self.assertEqual(1, text.count("    take_memory(&rt);\n"))


class Calls(unittest.TestCase):
    """Each refusal comes before the call, or the call is right after it."""

    def test_what_rt_try_tells_of_each_case(self):
        cases = dict.fromkeys(("one", "two", "three"))
        runs = quietly(refusals.runs_of, cases, "== one\na line\n== two\n", refusals.OF_RT.sub("", SAID))
        self.assertEqual(refusals.Run(Output("a line\n", "", 0), 7), runs["one"])
        self.assertEqual(refusals.Run(Output("", "ufsim: memory\n", 1), None), runs["two"])
        self.assertEqual(-1, runs["three"].output.status)
        self.assertEqual(refusals.REFUSED - 8, runs["one"].count())
        for run in (runs["two"], runs["one"]._replace(left=refusals.REFUSED)):
            with self.assertRaises(refusals.Fault):
                run.count()
        with self.assertRaises(refusals.Fault):
            refusals.runs_of(cases, "", "src/main.rt:1:1: error")

    def test_a_call_is_right_wherever_it_is_refused_memory(self):
        words = ("refused", "scan")
        outputs = {"n": Output("", "no memory\n", 1), "r": Output("scan: right\n", "", 0),
                   "w": Output("scan: wrong: another\n", "", 0)}
        for told, is_good in {"nnrr": True, "nr": True, "nn": False, "rr": False, "nrn": False, "nrwr": False}.items():
            found = [outputs[it] for it in told]
            self.assertEqual(is_good, quietly(refuse_memory.is_good, words, found), told)

    def test_what_is_wrong_names_the_call_and_the_allocation(self):
        found = [Output("", "no memory\n", 1), Output("scan: right\n", "", 0), Output("", "a fault\n", -6)]
        with contextlib.redirect_stdout(io.StringIO()) as said:
            self.assertFalse(refuse_memory.is_good(("refused", "scan"), found))
        self.assertIn("scan: with its allocation 3 refused it ended with status -6", said.getvalue())

    def test_the_row_makes_no_allocation_once_its_device_is_open(self):
        row, opened = refuse_memory.ROW, refuse_memory.OPENED
        self.assertTrue(quietly(refuse_memory.is_row_good, {row: 9, opened: 9}))
        self.assertFalse(quietly(refuse_memory.is_row_good, {row: 10, opened: 9}))


class ByItself(unittest.TestCase):
    """A program is kept while rt runs it, and has to do by itself what it did there."""

    def test_what_is_kept_is_run_in_the_cases_of_each_group(self):
        with tempfile.TemporaryDirectory(prefix="refusals_test.") as name:
            folder, there = pathlib.Path(name), pathlib.Path(name, "below", "of_rt", "run", "program")
            there.parent.mkdir(parents=True)
            there.write_text('cat\necho $1\necho "left $2" >&2\nexit $3\n', encoding="utf-8")
            program = refusals.Program(folder)
            with subprocess.Popen(["sh", str(there)], stdin=subprocess.PIPE, stdout=subprocess.DEVNULL,
                                  stderr=subprocess.DEVNULL):
                # What a process was called with can be read only a little later than it began.
                end = time.monotonic() + 10
                while not program.is_kept() and time.monotonic() < end:
                    program.look(folder / "below")
            there.unlink()
            one, two = refusals.Case(("one", "7", "0")), refusals.Case(("two", "8", "1"), "given ")
            program.seen = {one: refusals.Run(Output("one\n", "", 0), 7)}
            found = list(program.refused({"first": [one, two], "last": [one]}, 2))
            program.seen[two] = program.seen[one]
            with self.assertRaises(refusals.Fault):
                list(program.refused({"first": [one]}, 2))
        of_one, of_two = Output("one\n", "", 0), Output("given two\n", "", 1)
        self.assertEqual([("first", [of_one, of_two]), ("last", [of_one])], found)
