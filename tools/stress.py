#!/usr/bin/env python3
"""Runs `ufsim stress` again and again, with each number of dies and of hosts from 1 to 8 in turn.

usage: stress.py [--runs N] [PROGRAM]

PROGRAM is ufsim; without it, the one that `make install` or `rt ci` has built here. A run has to print
that no write was bad, nothing else, and to end with status 0. What a run prints that does not is shown.
The last line is 'N passed, M failed', and the status is 0 only if no run failed.
"""
import argparse
import itertools
import pathlib
import subprocess
import sys

from crates import ROOT

PROGRAM = ROOT / "crates" / "ufsim_main" / "out" / "ufsim_main"
RUNS = 1000
MOST = 8
# Each host writes so many blocks.
WRITES = 256
# A run takes a few seconds. It ends by itself where the device comes to a stand, after about ten.
SECONDS = 300


def wanted(dies, hosts):
    """What a run has to print."""
    return f"stress dies {dies} hosts {hosts} writes {WRITES * hosts} bad 0\n"


def is_good(program, dies, hosts):
    """Whether a run printed what it has to print. It shows what one printed that did not."""
    words = [str(program), "stress", "--dies", str(dies), "--hosts", str(hosts)]
    try:
        done = subprocess.run(words, stdin=subprocess.DEVNULL, capture_output=True, encoding="utf-8",
                              errors="replace", timeout=SECONDS, check=False)
        told = (done.stdout, done.stderr, done.returncode)
    except (OSError, subprocess.TimeoutExpired) as fault:
        told = ("", f"{fault}\n", -1)
    if told == (wanted(dies, hosts), "", 0):
        return True
    print(f"dies {dies} hosts {hosts}: status {told[2]}\n{told[0]}{told[1]}", end="", flush=True)
    return False


def main():
    parser = argparse.ArgumentParser(description="Runs ufsim stress with each number of dies and hosts.")
    parser.add_argument("--runs", type=int, default=RUNS, help=f"how many runs there are ({RUNS})")
    parser.add_argument("program", nargs="?", type=pathlib.Path, default=PROGRAM, help="ufsim")
    asked = parser.parse_args()
    if not asked.program.is_file():
        print(f"there is no {asked.program}: run `make install` or `rt ci` first", file=sys.stderr)
        return 1
    shapes = itertools.cycle(itertools.product(range(1, MOST + 1), repeat=2))
    passed = sum(is_good(asked.program, *shape) for shape in itertools.islice(shapes, asked.runs))
    print(f"{passed} passed, {asked.runs - passed} failed")
    return 0 if passed == asked.runs else 1


if __name__ == "__main__":
    sys.exit(main())
