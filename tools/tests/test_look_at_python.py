"""Tests that tools/look_at_python.py tells what a run would trip over, and says where nobody looked."""
import contextlib
import io
import pathlib
import shutil
import sys
import tempfile
import unittest
from unittest import mock

import look_at_python

THERE, GONE = ("/usr/bin/it", None)


def main_with(found, program):
    """The status and the output of the tool, which looks at five files, where this is what is there of a program."""
    patches = (mock.patch.object(sys, "argv", ["look_at_python.py", "--no-install"]),
               mock.patch.object(shutil, "which", lambda _: program),
               mock.patch.object(look_at_python, "looked", lambda _: (found, 5)))
    with contextlib.ExitStack() as all_patches, contextlib.redirect_stdout(io.StringIO()) as printed:
        for patch in patches:
            all_patches.enter_context(patch)
        return look_at_python.main(), printed.getvalue().splitlines()


class LookAtPython(unittest.TestCase):
    """A file with a fault failed."""

    def test_a_file_counts_once(self):
        found = ["tools/a.py:1: error: one  [x]", "tools/a.py:9: error: two  [x]", "tools/b.py:2:1 undefined name 'c'"]
        self.assertEqual((1, [*found, "3 passed, 2 failed"]), main_with(found, THERE))
        self.assertEqual((0, ["5 passed, 0 failed"]), main_with([], THERE))

    def test_what_is_missing_is_told_and_counts_no_failure(self):
        status, lines = main_with([], GONE)
        self.assertEqual((0, "5 passed, 0 failed"), (status, lines[-1]))
        self.assertEqual(["not looked at: mypy", "not looked at: pyflakes3"], [it.split(" is")[0] for it in lines[:-1]])

    def test_notes_are_no_faults(self):
        fault = "tools/a.py:2: error: Module has no attribute \"b\"  [attr-defined]"
        text = f"{fault}\ntools/a.py:2: note: see more\nSuccess: no issues found\n"
        self.assertEqual([fault], look_at_python.faults_in(text))

    def test_a_program_that_fails_and_tells_nothing_is_a_fault(self):
        words = [sys.executable, "-c", "import sys; sys.exit('it broke')"]
        self.assertEqual([f"{sys.executable}: it broke\n"], look_at_python.ran(words, pathlib.Path("/")))

    def test_each_file_is_in_a_part(self):
        folders = {folder for part in look_at_python.PARTS for folder in part.folders}
        self.assertEqual(folders, set(look_at_python.files()))

    def test_a_name_that_a_module_does_not_have_is_found(self):
        if look_at_python.missing():
            print("not looked at: whether mypy and pyflakes3 find a name that a module does not have")
            return
        with tempfile.TemporaryDirectory(prefix="look_at_python_test.") as folder:
            tools = pathlib.Path(folder, "tools")
            tools.mkdir()
            shutil.copy(look_at_python.ROOT / look_at_python.SETTINGS, tools)
            (tools / "one.py").write_text("def there():\n    return 1\n", encoding="utf-8")
            (tools / "two.py").write_text("import one\n\n\ndef use():\n    one.gone()\n    return other\n", encoding="utf-8")
            found, count = look_at_python.looked(pathlib.Path(folder, "kept"), pathlib.Path(folder))
        self.assertEqual(2, count)
        self.assertEqual(["tools/two.py:6:12: undefined name 'other'",
                          'tools/two.py:5: error: Module has no attribute "gone"  [attr-defined]',
                          'tools/two.py:6: error: Name "other" is not defined  [name-defined]'], found)


if __name__ == "__main__":
    unittest.main()
