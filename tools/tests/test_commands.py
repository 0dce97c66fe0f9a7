"""Tests that each command of `make help` begins: its programs are there, are imported, and take the words that the
Makefile gives them. What they do then is not run, since it takes from minutes to hours."""
import os
import pathlib
import re
import shlex
import subprocess
import sys
import tempfile
import unittest

from crates import ROOT, lines_of

MAKEFILE = (ROOT / "Makefile").read_text(encoding="utf-8").replace("\\\n", " ")
TESTING = (ROOT / "docs" / "TESTING.md").read_text(encoding="utf-8")
# These need no kit.
WITHOUT_KIT = {"help", "peers", "stress", "uninstall"}
# Imports a program with its words, and ends it once it has read them.
READS_WORDS = """
import argparse, os, runpy, sys
def ended(*_):
    read(*_)
    os._exit(0)
read, argparse.ArgumentParser.parse_args = argparse.ArgumentParser.parse_args, ended
sys.path.insert(0, os.path.dirname(sys.argv[1]))
sys.argv = sys.argv[1:]
runpy.run_path(sys.argv[0], run_name=IT)
"""
TOOL = re.compile(r"^\s*(?:@)?python3 (?:-B )?(tools/\w+\.py.*)$", re.MULTILINE)
CRATE = re.compile(r"^\s*cd crates/(\w+) && rt run(?: -- (.*))?$", re.MULTILINE)


def targets():
    """The targets that are no files."""
    return set(re.search(r"^\.PHONY:(.*)$", MAKEFILE, re.MULTILINE)[1].split())


def commands(target):
    """What make would run for a target, where there is a kit."""
    with tempfile.TemporaryDirectory(prefix="commands_test.") as folder:
        kit = pathlib.Path(folder, "rt")
        kit.write_text("#!/bin/sh\n", encoding="ascii")
        kit.chmod(0o755)
        path = f"{folder}{os.pathsep}{os.environ['PATH']}"
        clean = {name: value for name, value in os.environ.items() if not name.startswith("MAKE")}
        done = subprocess.run(["make", "--no-print-directory", "-n", target], cwd=ROOT, env={**clean, "PATH": path},
                              capture_output=True, encoding="utf-8", check=True)
    return done.stdout


def begun(words):
    """How a program of tools/ begins with these words: its status, and what it said. One that reads its words by
    itself is only imported."""
    is_parsed = "argparse" in (ROOT / words[0]).read_text(encoding="utf-8")
    code = READS_WORDS.replace("IT", repr("__main__" if is_parsed else "imported"))
    done = subprocess.run([sys.executable, "-B", "-c", code, *words], cwd=ROOT, stdin=subprocess.DEVNULL,
                          capture_output=True, encoding="utf-8", check=False)
    return done.returncode, done.stderr


class Commands(unittest.TestCase):
    """The Makefile names what there is."""

    def test_help_has_each_target_and_no_other(self):
        self.assertEqual(targets(), {"help", *re.findall(r"^make ([\w-]+)", commands("help").replace("echo '", ""),
                                                         re.MULTILINE)})
        self.assertEqual(targets(), set(re.findall(r"^([\w-]+):(?!=)", MAKEFILE, re.MULTILINE)))

    def test_a_target_that_needs_the_kit_says_so(self):
        named = set(re.search(r"ifneq \(\$\(filter (.*),\$\(MAKECMDGOALS\)\)", MAKEFILE)[1].split())
        self.assertEqual(targets() - WITHOUT_KIT, named)

    def test_each_program_of_tools_begins(self):
        for target in sorted(targets()):
            for line in TOOL.findall(commands(target)):
                with self.subTest(target=target, line=line):
                    self.assertEqual((0, ""), begun(shlex.split(line)))

    def test_a_wrong_word_or_a_missing_program_is_seen(self):
        self.assertNotEqual(0, begun(["tools/clients.py", "tests"])[0])
        self.assertNotEqual(0, begun(["tools/fuzz.py", "--bites"])[0])

    def test_words_of_programs_that_read_them_by_themselves(self):
        """They are files, or stand in the line that tells how the program is used."""
        for target in sorted(targets()):
            for tool, *words in map(shlex.split, TOOL.findall(commands(target))):
                text = (ROOT / tool).read_text(encoding="utf-8")
                usage = re.search(r"^usage: (.*)$", text, re.MULTILINE)
                for word in words if "argparse" not in text else ():
                    with self.subTest(target=target, tool=tool, word=word):
                        self.assertTrue((ROOT / word).is_file() or usage and word in usage[1].split())

    def test_each_crate_that_is_run_is_there_and_knows_its_word(self):
        for target in sorted(targets()):
            for crate, words in CRATE.findall(commands(target)):
                with self.subTest(target=target, crate=crate):
                    self.assertIn(crate, lines_of())
                    main = (ROOT / "crates" / crate / "src" / "main.rt").read_text(encoding="utf-8")
                    for word in words.split():
                        self.assertIn(f'"{word}"', main)

    def test_what_the_list_of_commands_names_is_there(self):
        """docs/TESTING.md says what each command reads that no gate runs: files, of tools/ without a folder, and
        crates."""
        part = TESTING.partition("\n## Commands that no gate runs\n")[2].partition("\n## ")[0]
        rows = re.findall(r"^\| `make ([\w-]+)` \| (.*) \|$", part, re.MULTILINE)
        listed = {target for target, _ in rows}
        self.assertEqual({"help", "test", "prove", "wrong-bodies", "format", "uninstall"}, targets() - listed)
        for target, text in rows:
            for name in re.findall("`([^`]+)`", text):
                with self.subTest(target=target, name=name):
                    is_there = any((ROOT / folder / name).exists() for folder in ("", "tools", "crates"))
                    self.assertTrue(is_there or name == "ufsim")

    def test_each_target_runs_something_that_was_looked_at(self):
        for target in sorted(targets() - {"help"}):
            with self.subTest(target):
                self.assertTrue(TOOL.search(commands(target)) or CRATE.search(commands(target)))


if __name__ == "__main__":
    unittest.main()
