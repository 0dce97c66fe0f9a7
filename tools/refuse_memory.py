#!/usr/bin/env python3
"""Refuses each allocation in turn that the calls of a device make, by the program memory_refused.

usage: refuse_memory.py [--row] [--jobs N]

The program is built once, without a proof. It opens a device, and then plays a write and a read by the
device's five calls: the row. It has to make no more allocations until its end than until the device is open,
so that the five calls make none. With --row nothing else is done.

Then the program makes each call that takes memory. It runs once for each allocation that it was seen to make,
in which this one is refused. Where memory is refused to a call, the call has to say so, and the same call has
to be right after that; the program prints that it is. A call may also do without the memory, and be right at
once. Where it is refused before the call, nothing is printed, and the status is 1. As many of these cases run
side by side as there are processors, or N, if that is less.

Each call has a line as its last case ends. The last line is 'N passed, M failed', one for the row and one for
each call; the status is 0 only if none failed.
"""
import argparse
import pathlib
import re
import signal
import sys
import tempfile

from crates import ROOT
from refusals import REFUSED, Case, Fault, built, jobs_here, say

CRATE = ROOT / "crates" / "memory_refused"
ROW, OPENED = ("row",), ("opened",)
CALLS = tuple(("refused", it) for it in (
    "MemDie::new", "scan", "scan_parallel", "Device::from_found", "Device::open", "open_parallel", "Shared::new",
    "World::new", "World::step", "run", "Handle::stop"))
HEAD = ("butcherford: each allocation of the calls is refused in a run of its own; "
        "about 6 minutes on four processors, 12 on two")
ROW_HEAD = "butcherford: the allocations of a row are counted; about a minute"
# So many wrong cases of a call are told.
MOST_SHOWN = 10


def case(words, number):
    """The case in which the program's allocation of this number is refused; none, if the number is REFUSED."""
    return Case((*words, str(REFUSED - number)))


def printed_by(words):
    """What the program prints where it is right."""
    return f"{words[-1]}: right\n" if words in CALLS else (CRATE / "stdout").read_text(encoding="utf-8")


def counted(program, all_words):
    """How many allocations the program makes by each of these words, until it tells what is left."""
    runs = {words: program.seen[case(words, REFUSED)] for words in all_words}
    for words, run in runs.items():
        if run.output.status != 0 or run.output.stdout != printed_by(words):
            raise Fault(f"{words[-1]}: with memory it ended otherwise than it has to: {run.output}")
    return {words: run.count() for words, run in runs.items()}


def is_row_good(counts):
    """Whether the five calls make no allocation."""
    before, later = counts[OPENED], counts[ROW] - counts[OPENED]
    say(f"row: {before} allocations until the device is open, and {later} later")
    return later == 0


def wrong_at(words, number, output):
    """What is wrong with the run to which the allocation of this number was refused."""
    tried = " ".join(case(words, number).words)
    return (f"{words[-1]}: with its allocation {number} refused it ended with status {output.status}, printed "
            f"{output.stdout[-200:]!r}, and said {output.stderr[:400]!r}; in {CRATE.relative_to(ROOT)} "
            f"`rt try --fail-alloc {REFUSED} -- {tried}` tells more")


def is_good(words, found):
    """Whether the program was right in each of these runs, or was refused memory before the call. The call begins
    behind the last run of that kind; what comes before it may do without memory too. It says what it saw."""
    letters = {("", 1): "n", (printed_by(words), 0): "r"}
    told = "".join(letters.get((it.stdout, it.status), "?") for it in found)
    in_call = len(told) - told.rfind("n") - 1
    if re.fullmatch("[nr]*nr+", told) is not None:
        say(f"{words[-1]}: each of {in_call} allocations was refused, and it was right then")
        return True
    wrong = [wrong_at(words, number, it) for number, it in enumerate(found, 1) if told[number - 1] == "?"]
    for line in wrong[:MOST_SHOWN]:
        say(line)
    say(f"{words[-1]}: of {len(found)} runs {told.count('n')} were refused memory before the call, "
        f"{told.count('r')} were right, and {told.count('?')} neither")
    return False


def judged(folder, is_row_alone, jobs):
    """Whether the row is good, and each call, as soon as it is known."""
    calls = () if is_row_alone else CALLS
    all_words = [OPENED, ROW, *calls]
    program = built(CRATE, [case(words, REFUSED) for words in all_words], folder)
    counts = counted(program, all_words)
    yield is_row_good(counts)
    groups = {words: [case(words, number) for number in range(1, counts[words] + 1)] for words in calls}
    for words, found in program.refused(groups, jobs) if groups else ():
        yield is_good(words, found)


def main():
    parser = argparse.ArgumentParser(description="Refuses each allocation of a device and of its calls.")
    parser.add_argument("--row", action="store_true", help="count only those of the row, whose five calls make none")
    parser.add_argument("--jobs", type=int, default=0, metavar="N", help="run at most so many cases at once")
    asked = parser.parse_args()
    say(ROW_HEAD if asked.row else HEAD)
    good = []
    with tempfile.TemporaryDirectory(prefix="refuse_memory.") as folder:
        try:
            for it in judged(pathlib.Path(folder), asked.row, jobs_here(asked.jobs)):
                good.append(it)
        except Fault as fault:
            say(fault)
    count = 1 if asked.row else 1 + len(CALLS)
    say(f"{good.count(True)} passed, {count - good.count(True)} failed")
    return 0 if good.count(True) == count else 1


if __name__ == "__main__":
    # So that what it made goes also if it is stopped.
    signal.signal(signal.SIGTERM, lambda number, frame: sys.exit(128 + number))
    sys.exit(main())
