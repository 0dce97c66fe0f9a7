#!/usr/bin/env python3
"""Proves everything, and says how far it is: the gate `rt ci`, then the wrong bodies, then the proved programs.

usage: prove.py

`rt ci` proves every crate and its tests, tries the must-fail edits, and runs programs and tests;
each crate has a line that tells its place among all. Then tools/wrong_bodies.py tries the wrong
bodies that have no kept verdict. Then tools/cases.py runs the proved programs on their stored
cases, both as LLVM and as Rattle's own compiler built them. What was proved, and which wrong bodies
were refused, is kept on this machine: a later run does only what changed.

The last line is 'N passed, M failed'. The status is 0 only if nothing failed and each step told its
counts.
"""
import os
import re
import shutil
import subprocess
import sys
import time
from typing import Any, Dict

from crates import ROOT, lines_of
from verdicts import texts_sum

PYTHON = sys.executable or "python3"
COUNTS = re.compile(r"^(\d+) passed, (\d+) failed$")
# What rt ci says of a crate once it is proved or not, or was proved by an earlier run.
ENDED = re.compile(r"^rt: (\w+) (?:proved$|NOT PROVED|is kept: )")


def say(text):
    print(text, flush=True)


def with_place(lines, count):
    """The lines of rt ci, with the place of each crate that ended."""
    ended = set()
    for line in lines:
        crate = ENDED.match(line)
        if crate:
            ended.add(crate[1])
        yield f"{len(ended)} of {count} crates: {line}" if crate else line


def told(name, words, count=None):
    """Runs a step whose last line tells its counts, shows what it says, and gives the counts."""
    began, counts = time.monotonic(), None
    say(f"== {name}")
    how: Dict[str, Any] = {"stdin": subprocess.DEVNULL, "stdout": subprocess.PIPE, "stderr": subprocess.STDOUT,
                           "encoding": "utf-8", "errors": "replace", "env": {**os.environ, "PYTHONUNBUFFERED": "1"}}
    with subprocess.Popen(words, cwd=ROOT, **how) as ran:
        try:
            for line in with_place(ran.stdout, count) if count else ran.stdout:
                print(line, end="", flush=True)
                counts = COUNTS.match(line) or counts
        except KeyboardInterrupt:
            ran.terminate()
            raise
    passed, failed = map(int, counts.groups()) if counts else (0, 1)
    if not counts:
        say(f"{name}: no counts were told")
    elif ran.returncode and not failed:
        say(f"{name}: it ended with status {ran.returncode}")
        failed = 1
    say(f"{name}: {passed} passed, {failed} failed, {(time.monotonic() - began) / 60:.1f} minutes")
    return passed, failed


def libraries():
    """The crates whose libraries are built, each with the number of the folder that it lies in."""
    folders = {crate: ROOT / "crates" / crate / "out" / "rlib" for crate in lines_of()}
    return {crate: folder.stat().st_ino for crate, folder in folders.items() if folder.is_dir()}


def texts():
    return [texts_sum(ROOT, crate) for crate in lines_of()]


def drop_libraries():
    """Removes the libraries that the gate built. Without a stamp no other command takes them, and the
    gate would put them back in the place of those that its next run builds."""
    for crate in libraries():
        folder = ROOT / "crates" / crate / "out" / "rlib"
        if not (folder / "stamp").exists():
            shutil.rmtree(folder, ignore_errors=True)


def main():
    if shutil.which("rt") is None:
        print("prove: the kit's command rt is not on the PATH; it is needed to prove", file=sys.stderr)
        return 2
    say("butcherford: proving everything; from nothing it takes an hour or more, later runs do only what changed")
    before, was_there = texts(), libraries()
    counts = [told("the gate, rt ci", ["rt", "ci"], len(lines_of()))]
    # Only what the gate built just now, of the texts that are here, serves the wrong bodies.
    is_of_gate = texts() == before and not set(libraries().items()) & set(was_there.items())
    wrong_bodies = [PYTHON, "tools/wrong_bodies.py", *(["--after-gate"] if is_of_gate else [])]
    counts.append(told("wrong bodies", wrong_bodies))
    for program in ("ufsim", "ufstool"):
        words = [PYTHON, "tools/cases.py", "--proved", program]
        counts.append(told(f"the proved {program}", words))
    drop_libraries()
    passed, failed = (sum(it) for it in zip(*counts))
    say(f"{passed} passed, {failed} failed")
    return 1 if failed else 0


if __name__ == "__main__":
    try:
        sys.exit(main())
    except KeyboardInterrupt:
        sys.exit(130)
