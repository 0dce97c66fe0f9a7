#!/usr/bin/env python3
"""Runs the tests of a crate, each in a process of its own, by the program that tools/kept.py keeps of them.

usage: crate_tests.py PROGRAM [PART PARTS]

With PART and PARTS it runs only each test whose place, counted by PARTS, is PART: of 0, 1, 2, 3, 4 with 1 and 3
it is 1 and 4. So several processes share the tests. A test passes if it ends with status 0. Of one that does not
all that it said is shown. The last line is 'N passed, M failed', and the status is 0 only if none failed and
there is one.
"""
import argparse
import re
import subprocess
import sys
import time
from typing import Any, Dict

# A single test has so many seconds: it runs with checks, and beside others.
SECONDS = 300
HOW: Dict[str, Any] = {"stdin": subprocess.DEVNULL, "stdout": subprocess.PIPE, "stderr": subprocess.STDOUT,
                       "encoding": "utf-8", "errors": "replace", "check": False}
NAME = re.compile(r"^(\S+): test$", re.MULTILINE)


def names(program):
    """The names of all tests."""
    return NAME.findall(subprocess.run([program, "--list"], timeout=SECONDS, **HOW).stdout)


def is_good(program, name):
    """Whether a test passes. It says so, and what a test said that does not."""
    began = time.monotonic()
    try:
        done = subprocess.run([program, name], timeout=SECONDS, **HOW)
        status, said = done.returncode, done.stdout
    except subprocess.TimeoutExpired as fault:
        status, said = -1, f"{fault}\n"
    if status != 0:
        print(f"{said}test {name} ended with status {status}", flush=True)
        return False
    print(f"test {name} passed, {time.monotonic() - began:.1f} s", flush=True)
    return True


def main():
    parser = argparse.ArgumentParser(description="Runs the tests of a crate by the program that was built of them.")
    parser.add_argument("program")
    parser.add_argument("part", nargs="?", type=int, default=0)
    parser.add_argument("parts", nargs="?", type=int, default=1)
    asked = parser.parse_args()
    good = [is_good(asked.program, name) for name in names(asked.program)[asked.part :: asked.parts]]
    print(f"{good.count(True)} passed, {good.count(False)} failed")
    return 0 if good and all(good) else 1


if __name__ == "__main__":
    sys.exit(main())
