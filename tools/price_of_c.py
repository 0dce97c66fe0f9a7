#!/usr/bin/env python3
"""Times a durable write of one block through the library for C beside the same write in Rattle.

usage: price_of_c.py [--no-build] [--runs N] [--library FILE] [--bench FILE]

A write is a WRITE(10) of one block with FUA, from its COMMAND to its RESPONSE, over dies in memory.
tools/price_of_c.c makes 8,192 of them through libufs.a, and crates/bench makes the same ones through the five
calls of `Device`. Each has a run in turn, 21 of them without --runs, since the speed of a machine changes: so
look at the ratio, which is that of two runs one behind the other. The medians are printed, with the least and
the greatest in brackets.

First both are proved and built, unless --no-build is given: it takes those that are there. CC names the
compiler. The times decide nothing: the status is 0 where each run was made.
"""
import argparse
import os
import re
import statistics
import subprocess
import sys
import tempfile
from pathlib import Path
from typing import Any, Dict

from crates import ROOT
from libufs import ARCHIVE, INCLUDE, WARNINGS, build

SOURCE = ROOT / "tools" / "price_of_c.c"
BENCH = ROOT / "crates" / "bench"
PROGRAM = BENCH / "out" / "bench"
RUNS = 21
TIME = re.compile(r"a FUA write of one block: (\d+) ns")
# What crates/bench says to a word that it does not know: then it was proved and built.
BUILT = "usage: bench"


class Fault(Exception):
    """What keeps the writes from being timed."""


def build_bench():
    """Proves and builds crates/bench. rt builds a program by running it, here with a word that it refuses."""
    done = subprocess.run(["rt", "run", "--", "nothing"], cwd=BENCH, stdout=subprocess.PIPE,
                          stderr=subprocess.STDOUT, encoding="utf-8", check=False)
    if BUILT not in done.stdout:
        raise Fault(f"crates/bench was not built:\n{done.stdout}")


def compiled(library, folder):
    """The program in C, with the library."""
    program = Path(folder) / "price_of_c"
    words = [os.environ.get("CC", "cc"), "-std=c99", "-O2", *WARNINGS, f"-I{INCLUDE}", SOURCE, library,
             "-o", program]
    if subprocess.run(words, check=False).returncode != 0:
        raise Fault(f"{SOURCE} was not compiled with {library}")
    return program


def timed(program):
    """What a write takes in a run of the program, in ns. It is ended then, since crates/bench times more."""
    how: Dict[str, Any] = {"stdout": subprocess.PIPE, "stderr": subprocess.STDOUT, "encoding": "utf-8"}
    with subprocess.Popen([program], **how) as ran:
        assert ran.stdout is not None
        told = next((found for found in map(TIME.match, ran.stdout) if found), None)
        ran.terminate()
    if told is None:
        raise Fault(f"{program} told no time")
    return int(told[1])


def timed_both(in_c, in_rattle, number):
    """One run of each, of which every other time the other one comes first."""
    order = (in_c, in_rattle) if number % 2 == 0 else (in_rattle, in_c)
    times = {program: timed(program) for program in order}
    return times[in_c], times[in_rattle]


def spread(numbers, form):
    """The median, with the least and the greatest."""
    found = statistics.median(numbers), min(numbers), max(numbers)
    median, least, greatest = (format(it, form) for it in found)
    return f"{median} ({least} to {greatest})"


def compare(asked):
    """Times both, and prints what came."""
    with tempfile.TemporaryDirectory() as folder:
        in_c = compiled(asked.library, folder)
        pairs = [timed_both(in_c, asked.bench, number) for number in range(asked.runs)]
    print(f"a durable write of one block, {asked.runs} runs of each by turns")
    print(f"through the library for C: {spread([c for c, _ in pairs], '.0f')} ns")
    print(f"in Rattle: {spread([rattle for _, rattle in pairs], '.0f')} ns")
    print(f"C to Rattle, run by run: {spread([c / rattle for c, rattle in pairs], '.3f')}")


def main():
    layout = argparse.RawDescriptionHelpFormatter
    parser = argparse.ArgumentParser(description=__doc__, formatter_class=layout)
    parser.add_argument("--no-build", action="store_true", help="takes what is there")
    parser.add_argument("--runs", type=int, default=RUNS, metavar="N", help="so many runs of each")
    for name, place in (("--library", ARCHIVE), ("--bench", PROGRAM)):
        parser.add_argument(name, type=Path, default=place, metavar="FILE", help="takes this one")
    asked = parser.parse_args()
    try:
        if not asked.no_build:
            build()
            build_bench()
        compare(asked)
        return 0
    except (Fault, OSError) as fault:
        print(f"price_of_c: {fault}", file=sys.stderr)
        return 1


if __name__ == "__main__":
    sys.exit(main())
