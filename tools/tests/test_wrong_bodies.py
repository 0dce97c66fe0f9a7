"""Tests which wrong bodies tools/wrong_bodies.py tries again, over a small repository and with a
command rt that proves nothing."""
import os
import pathlib
import re
import shutil
import subprocess
import sys
import tempfile
import unittest

HERE = pathlib.Path(__file__).resolve().parent
BODY = "pub fn {name}() -> u8 {{\n    {number}\n}}\n"
EDIT = "name: {name}\nfile: src/lib.rt\nold: {old}\nnew: {new}\n"
EDITS = {"ten_is_eleven": ("10", "11"), "twenty_is_one_more": ("20", "20 + 1"), "control": ("30", "10 + 20")}
# The file of the edits.
FILE = "wrong_bodies/upper.edits"
NUMBERS = {"ten": 10, "twenty": 20, "thirty": 30, "forty": 40}
COUNTS = re.compile(r"^wrong bodies: (\d+) tried in this run, (\d+) kept from earlier runs", re.M)
# The check of all edits and the control, each in a copy of its function.
ROUND = "upper ten_ten_is_eleven thirty_control twenty_twenty_is_one_more"
# A file that proves a function.
PROOF = "use Rattle.upper.proofs.ten.Goals as goal\n"
# What a whole run has to try: two wrong bodies and the control.
ALL = 3


class Repository:
    """A repository of two crates: upper, with wrong bodies, stands on lower, which has none."""

    def __init__(self, folder):
        self.folder = folder / "repository"
        self.log = folder / "log"
        self.cache = folder / "cache"
        self.kit = "kit-1"
        self.unknown = ""

    def make(self):
        """Writes the files of the repository."""
        left_out = shutil.ignore_patterns("tests", "__pycache__")
        shutil.copytree(HERE.parent, self.folder / "tools", ignore=left_out)
        self.write("crates.txt", "# Two crates.\nlower:\nupper: lower\n")
        self.write("crates/lower/src/lib.rt", BODY.format(name="forty", number=40))
        bodies = [BODY.format(name=name, number=number) for name, number in NUMBERS.items()]
        self.write("crates/upper/src/lib.rt", "\n".join(bodies))
        self.write_edits(EDITS)
        self.write("bin/rt", (HERE / "fake_rt.py").read_text(encoding="utf-8"))
        (self.folder / "bin" / "rt").chmod(0o755)

    def write(self, path, text):
        file = self.folder / path
        file.parent.mkdir(parents=True, exist_ok=True)
        file.write_text(text, encoding="utf-8")

    def write_edits(self, edits):
        """Writes edits, each an old text and a new one by a name."""
        texts = [EDIT.format(name=name, old=old, new=new) for name, (old, new) in sorted(edits.items())]
        self.write(FILE, "\n".join(texts))

    def forget_libraries(self):
        """Removes what was built."""
        for folder in self.folder.glob("crates/*/out"):
            shutil.rmtree(folder)

    def change(self, path, old, new):
        text = (self.folder / path).read_text(encoding="utf-8")
        assert text.count(old) == 1, f"{old!r} does not stand once in {path}"
        self.write(path, text.replace(old, new))

    def files(self):
        """The files of the repository, without what Python keeps of the tools."""
        found = {path for path in self.folder.rglob("*") if path.is_file()}
        return {path for path in found if not {"__pycache__", "out"} & set(path.parts)}

    def run(self, *words):
        """Tries the wrong bodies: how many were tried and kept, what was said, and the status."""
        self.log.write_text("", encoding="utf-8")
        path = f"{self.folder / 'bin'}{os.pathsep}{os.environ['PATH']}"
        environment = {**os.environ, "PATH": path, "XDG_CACHE_HOME": str(self.cache),
                       "FAKE_LOG": str(self.log), "FAKE_KIT": self.kit, "FAKE_UNKNOWN": self.unknown}
        command = [sys.executable, "-B", str(self.folder / "tools" / "wrong_bodies.py"), *words]
        done = subprocess.run(command, env=environment, stdout=subprocess.PIPE, stderr=subprocess.STDOUT,
                              encoding="utf-8", check=False)
        counts = COUNTS.search(done.stdout)
        tried, kept = map(int, counts.groups()) if counts else (-1, -1)
        return tried, kept, done.stdout, done.returncode

    def checks(self):
        """The checks of the last run: of each the crate, and the functions that were to be checked."""
        return self.log.read_text(encoding="utf-8").splitlines()


class WrongBodies(unittest.TestCase):
    """A first run tries all. What a second run tries depends on what was changed between them."""

    place: tempfile.TemporaryDirectory

    @classmethod
    def setUpClass(cls):
        cls.place = tempfile.TemporaryDirectory(prefix="wrong_bodies_test.")
        cls.addClassCleanup(cls.place.cleanup)
        first = Repository(pathlib.Path(cls.place.name, "first"))
        first.make()
        found = first.run()
        assert found[:2] == (ALL, 0), found

    def setUp(self):
        folder = pathlib.Path(self.place.name, self.id())
        shutil.copytree(pathlib.Path(self.place.name, "first"), folder)
        self.repository = Repository(folder)

    def sees(self, tried, kept, *words, passed=ALL, failed=0):
        """Runs the tool, and looks at its counts."""
        found = self.repository.run(*words)
        said = found[2]
        self.assertEqual((tried, kept), found[:2], said)
        self.assertEqual(f"{passed} passed, {failed} failed", said.splitlines()[-1], said)
        self.assertEqual(1 if failed else 0, found[3], said)
        checks = self.repository.checks()
        self.assertTrue(checks if tried else set(checks) <= {"upper lib"}, said)

    def test_nothing_is_tried_where_nothing_changed(self):
        before = self.repository.files()
        self.sees(tried=0, kept=ALL)
        self.assertEqual(before, self.repository.files(), "verdicts lie in the cache alone")

    def test_a_changed_edit_is_tried_again(self):
        self.repository.change(FILE, "new: 11", "new: 12")
        self.sees(tried=1, kept=ALL - 1)

    def test_a_new_edit_alone_is_tried_where_it_moves_the_lines_of_the_others(self):
        self.repository.write_edits({**EDITS, "forty_is_less": ("40", "39")})
        self.sees(tried=1, kept=ALL, passed=ALL + 1)

    def test_all_edits_are_tried_again_where_the_control_changed(self):
        self.repository.change(FILE, "10 + 20", "15 + 15")
        self.sees(tried=ALL, kept=0)

    def test_all_edits_are_tried_again_where_a_line_outside_of_bodies_changed(self):
        self.repository.change("crates/upper/src/lib.rt", "pub fn forty", "/// Forty.\npub fn forty")
        self.sees(tried=ALL, kept=0)

    def test_the_edits_of_a_function_are_tried_again_where_a_line_of_its_body_changed(self):
        self.repository.change("crates/upper/src/lib.rt", "20", "20 + 0")
        self.sees(tried=1, kept=ALL - 1)

    def test_no_edit_is_tried_again_where_only_the_body_of_another_function_changed(self):
        self.repository.change("crates/upper/src/lib.rt", "40", "39 + 1")
        self.repository.write("crates/upper/proofs/forty/Answers.antt", PROOF.replace("ten", "forty"))
        self.sees(tried=0, kept=ALL)
        self.repository.change("crates/upper/src/lib.rt", "39 + 1", "38 + 2")
        self.repository.write("crates/upper/proofs/twenty/Answers.antt", PROOF.replace("ten", "twenty"))
        self.sees(tried=1, kept=ALL - 1)

    def test_all_edits_are_tried_again_where_a_proof_or_a_definition_changed(self):
        self.repository.write("crates/upper/proofs/Lib.antt", "-- a line\n")
        self.sees(tried=ALL, kept=0)
        self.repository.write("crates/upper/specs/Lib.antt", "-- a line\n")
        self.sees(tried=ALL, kept=0)

    def test_all_edits_are_tried_again_where_a_lower_crate_states_something_else(self):
        self.repository.change("crates/lower/src/lib.rt", "pub fn forty", "/// Twice twenty.\npub fn forty")
        self.sees(tried=ALL, kept=0)

    def test_no_edit_is_tried_again_where_only_a_body_below_changed(self):
        self.repository.change("crates/lower/src/lib.rt", "40", "20 + 20")
        self.sees(tried=0, kept=ALL)
        self.repository.forget_libraries()
        self.sees(tried=0, kept=ALL)

    def test_all_edits_are_tried_again_where_crates_txt_says_more_of_the_crate(self):
        self.repository.change("crates.txt", "upper: lower", "upper may_wait=1: lower")
        self.sees(tried=ALL, kept=0)

    def test_all_edits_are_tried_again_with_another_kit(self):
        self.repository.kit = "kit-2"
        self.sees(tried=ALL, kept=0)
        self.repository.kit = "kit-1"
        self.sees(tried=0, kept=ALL)

    def test_all_edits_are_tried_again_where_the_tool_changed(self):
        self.repository.change("tools/bodies.py", '"""Finds the', '"""It finds the')
        self.sees(tried=ALL, kept=0)

    def test_all_edits_are_tried_again_if_one_asks_for_it(self):
        self.sees(ALL, 0, "--anew")

    def test_a_round_checks_only_what_is_touched(self):
        self.sees(ALL, 0, "--anew")
        self.assertEqual(["upper lib", ROUND], self.repository.checks())

    def test_what_the_gate_proved_is_not_proved_again(self):
        for part in ("lower/out/rlib/lower", "upper/out/rlib/upper"):
            self.repository.write(f"crates/{part}.rlib/lang/lib.rt", "")
        self.sees(ALL, 0, "--anew", "--after-gate")
        self.assertEqual([ROUND], self.repository.checks())

    def test_what_the_gate_did_not_prove_keeps_nothing(self):
        self.repository.write("crates/lower/out/rlib/lower.rlib/lang/lib.rt", "")
        found = self.repository.run("--anew", "--after-gate")
        self.assertEqual((ALL, 0, 1), (*found[:2], found[3]), found[2])
        self.assertIn("the gate did not prove it", found[2])
        self.assertEqual([], self.repository.checks())

    def test_a_static_library_is_proved_after_the_gate_which_leaves_no_file_of_it(self):
        self.repository.change("crates.txt", "upper: lower", "upper staticlib: lower")
        self.repository.write("crates/lower/out/rlib/lower.rlib/lang/lib.rt", "")
        self.sees(ALL, 0, "--anew", "--after-gate")
        self.assertEqual(["upper all", ROUND], self.repository.checks())
        self.repository.change("crates/upper/src/lib.rt", "40", "41")
        self.sees(ALL, 0, "--anew", "--after-gate", passed=0, failed=ALL)
        self.assertEqual(["upper all"], self.repository.checks())

    def test_two_wrong_bodies_of_one_function_are_tried_in_one_check(self):
        self.repository.write_edits({**EDITS, "ten_is_twelve": ("10", "12")})
        self.sees(ALL + 1, 0, "--anew", passed=ALL + 1)
        self.assertEqual(["upper lib", ROUND.replace("thirty", "ten_ten_is_twelve thirty")], self.repository.checks())

    def test_a_function_that_files_prove_is_copied_with_them_and_with_its_own_body(self):
        self.repository.write("crates/upper/proofs/ten/Answers.antt", PROOF)
        self.sees(ALL, 0, "--anew")
        self.assertEqual(["upper lib", ROUND.replace(" ten", " ten_as_it_stands ten")], self.repository.checks())

    def test_a_wrong_body_is_tried_in_place_where_its_function_is_not_proved_under_another_name(self):
        self.repository.write("crates/upper/proofs/ten/Answers.antt", PROOF + "-- only here\n")
        self.sees(ALL, 0, "--anew")
        checks = ["upper lib", ROUND.replace(" ten", " ten_as_it_stands ten"), "upper ten"]
        self.assertEqual(checks, self.repository.checks())

    def test_a_round_checks_all_where_a_name_fits_several_functions(self):
        self.repository.unknown = "twenty_twenty_is_one_more"
        self.sees(ALL, 0, "--anew")
        self.assertEqual(["upper lib", ROUND, "upper all"], self.repository.checks())

    def test_an_edit_that_its_round_does_not_refuse_is_tried_over_the_whole_crate(self):
        self.repository.change(FILE, "new: 11", "new: 5 + 5")
        self.sees(ALL, 0, "--anew", passed=ALL - 1, failed=1)
        self.assertEqual(["upper lib", ROUND, "upper all"], self.repository.checks())

    def test_an_edit_that_does_not_compile_is_found_by_the_front_end(self):
        self.repository.change(FILE, "new: 11", "new: oops")
        self.sees(ALL, 0, "--anew", passed=ALL - 1, failed=1)
        without = ROUND.replace(" ten_ten_is_eleven", "")
        checks = [ROUND, "upper all", *["upper nothing"] * 3, "upper ten", "upper all", without]
        self.assertEqual(["upper lib", *checks], self.repository.checks())

    def test_whether_all_edits_compile_is_seen_without_a_proof(self):
        self.assertEqual(0, self.repository.run("--compile")[3])
        self.assertEqual(["upper nothing"], self.repository.checks())
        self.repository.change(FILE, "new: 11", "new: oops")
        *_, said, status = self.repository.run("--compile")
        self.assertEqual(1, status, said)
        self.assertIn("upper/ten_is_eleven: does not compile: src/lib.rt: nothing has the name `oops`", said)
        self.assertEqual("1 passed, 1 failed", said.splitlines()[-1])

    def test_what_is_not_refused_is_not_kept(self):
        self.repository.change(FILE, "new: 11", "new: 5 + 5")
        self.sees(tried=1, kept=ALL - 1, passed=ALL - 1, failed=1)
        self.sees(tried=1, kept=ALL - 1, passed=ALL - 1, failed=1)

    def test_a_fault_of_the_file_is_told_with_its_line_and_nothing_is_tried(self):
        self.repository.change(FILE, "name: ten_is_eleven", "name: control")
        self.repository.change(FILE, "new: 20 + 1\n", "")
        for words in ("", "--texts", "upper ten_is_eleven"):
            *_, said, status = self.repository.run(*words.split())
            self.assertEqual(1, status, said)
            self.assertIn(f"{FILE}:6: a second edit has the name control: the first is in line 1\n", said)
            self.assertIn(f"{FILE}:13: no line 'new:' follows it\n", said)
            self.assertEqual("0 passed, 2 failed", said.splitlines()[-1])
            self.assertEqual([], self.repository.checks())

    def test_a_text_that_does_not_stand_once_is_told_with_the_line_of_its_edit(self):
        self.repository.change(FILE, "old: 10", "old: 0")
        *_, said, status = self.repository.run("--texts")
        cause = "this text stands 4 times in crates/upper/src/lib.rt, and not once: 0"
        self.assertEqual((1, f"{FILE}:6, ten_is_eleven: {cause}"), (status, said.splitlines()[0]))
        self.assertEqual(f"{ALL - 1} passed, 1 failed", said.splitlines()[-1])

    def test_a_crate_without_a_control_is_told(self):
        self.repository.write_edits({name: texts for name, texts in EDITS.items() if name != "control"})
        *_, said, status = self.repository.run()
        self.assertEqual((2, f"wrong_bodies: there is no control: {FILE} has no edit of this name\n"), (status, said))

    def test_a_crate_that_is_not_proved_keeps_nothing(self):
        self.repository.change("crates/upper/src/lib.rt", "40", "41")
        self.sees(tried=ALL, kept=0, passed=0, failed=ALL)
        self.sees(tried=ALL, kept=0, passed=0, failed=ALL)

    def test_an_entry_that_is_not_whole_counts_for_nothing(self):
        for entry in (self.repository.cache / "butcherford" / "wrong_bodies").iterdir():
            entry.write_text("{", encoding="utf-8")
        self.sees(tried=ALL, kept=0)
        self.sees(tried=0, kept=ALL)


if __name__ == "__main__":
    unittest.main()
