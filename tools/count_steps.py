#!/usr/bin/env python3
"""Counts the instructions of each of the five calls on a small device and on a large one, by valgrind's callgrind.

usage: count_steps.py [--no-build] [--library FILE] [SCENE..]

tools/count_steps.c makes the calls through the library for C, in the states that the word `sizes` of crates/bench
times: with one task open (alone), beside 31 READs (beside), while pages wait (waiting), and behind one in flight
(behind). The table has the mean for each call on both devices and by how many instructions they differ: that is
what grows with a device. No cache and no other work changes such a count. A `take` of a program and a `done` of a
read have a SHA-256 of a page in them, and each call what the library for C copies.

First the library is proved and built, unless --no-build is given: it takes the one that is there. CC names the
compiler. The counts decide nothing: the status is 0 where each scene was counted.
"""
import argparse
import os
import re
import subprocess
import sys
import tempfile
from pathlib import Path

from crates import ROOT
from libufs import ARCHIVE, INCLUDE, WARNINGS, build

SOURCE = ROOT / "tools" / "count_steps.c"
SCENES = ("alone", "beside", "waiting", "behind")
CALLS = {"HOST_READ": "host, a READ of one block", "REPLY_BLOCK": "reply, a block", "REPLY_NOTHING": "reply, nothing",
         "TAKE_READ": "take, a read", "TAKE_PROGRAM": "take, a program",
         "TAKE_OPENING": "take, the erase or first page of a block", "TAKE_NOTHING": "take, nothing",
         "DONE_PROGRAM": "done, a program", "DONE_READ": "done, a read", "DONE_ERASE": "done, an erase",
         "TURN_NO": "turn, no", "TURN_BEGINS": "turn, a collection begins"}
# A call of a counted function in callgrind's file: who is called, how often, and in the next line what it cost.
CALLED = re.compile(r"^cfn=((?:small|large)_[A-Z_]+)\ncalls=(\d+) .*\n\S+ (\d+)$", re.MULTILINE)


class Fault(Exception):
    """What keeps the calls from being counted."""


def compiled(library, folder):
    """The program, with the library. Functions that do the same stay apart, so that each has its name."""
    program = Path(folder) / "count_steps"
    words = [os.environ.get("CC", "cc"), "-std=c99", "-O1", "-g", "-fno-ipa-icf", *WARNINGS, f"-I{INCLUDE}", SOURCE,
             library, "-o", program]
    if subprocess.run(words, check=False).returncode != 0:
        raise Fault(f"{SOURCE} was not compiled with {library}")
    return program


def counts_in(text):
    """The mean of the instructions of each call on each device, by the name of the function that made it."""
    calls, cost = {}, {}
    for name, count, spent in CALLED.findall(text):
        calls[name] = calls.get(name, 0) + int(count)
        cost[name] = cost.get(name, 0) + int(spent)
    return {name: cost[name] / calls[name] for name in calls}


def counted(program, scene, folder):
    """What callgrind counts in a scene."""
    told = Path(folder) / scene
    words = ["valgrind", "--tool=callgrind", "-q", "--instr-atstart=no", "--compress-strings=no", "--compress-pos=no",
             f"--callgrind-out-file={told}", program, scene]
    done = subprocess.run(words, check=False)
    if done.returncode != 0:
        raise Fault(f"{scene}: the program ended with status {done.returncode}")
    return counts_in(told.read_text(encoding="utf-8", errors="replace"))


def rows(found):
    """A row of the table for each call: on the small device, on the large one, and the difference."""
    for name, words in CALLS.items():
        small, large = found.get(f"small_{name}"), found.get(f"large_{name}")
        if small is not None and large is not None:
            yield f"  {words}: {small:,.0f}; {large:,.0f}; {large - small:+,.0f}"


def main():
    parser = argparse.ArgumentParser(description="Counts the instructions of calls on a small and a large device.")
    parser.add_argument("scenes", nargs="*", choices=[*SCENES, []], metavar="SCENE", help=" or ".join(SCENES))
    parser.add_argument("--no-build", action="store_true", help="take the library that is there")
    parser.add_argument("--library", type=Path, default=ARCHIVE, metavar="FILE", help="libufs.a")
    asked = parser.parse_args()
    if not asked.no_build:
        build()
    try:
        with tempfile.TemporaryDirectory() as folder:
            program = compiled(asked.library, folder)
            for scene in asked.scenes or SCENES:
                print(f"{scene}, in instructions on the small device; on the large one; more than on the small:")
                print("\n".join(rows(counted(program, scene, folder))), flush=True)
    except (Fault, OSError) as fault:
        print(f"count_steps: {fault}", file=sys.stderr)
        return 1
    return 0


if __name__ == "__main__":
    sys.exit(main())
