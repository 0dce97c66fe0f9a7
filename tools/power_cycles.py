#!/usr/bin/env python3
"""Plays short rows of lives one after another by the program power_cycles, built without a proof.

usage: power_cycles.py [--built RUN] [PLAN..]

The program is built once, with checks that stop it at a fault, so it is slow: the rows are short ones of one die, and
`make power-cycles` plays all rows by the proved program. With --built RUN is run, as tools/kept.py keeps it. With
plans only their rows are played. A row is right if the program says that it played all its
lives, and that the device got stuck in none and lost no block. Its line is shown. The last line is 'N passed, M
failed', and the status is 0 only if none failed.
"""
import argparse
import re
import signal
import subprocess
import sys
from typing import Any, Dict, NamedTuple

from kept import kept

# One die, whose 31 blocks are used up by as many lives where none of them is gained again.
DIES = 1
# A row has so many seconds.
SECONDS = 900
HOW: Dict[str, Any] = {"stdin": subprocess.DEVNULL, "capture_output": True, "text": True, "check": False}


class Row(NamedTuple):
    """What happens in each life, as the program names it, how many lives there are, and how many spare blocks."""

    plan: str
    lives: int
    spare: int

    def is_right(self, printed, status):
        """Whether the program ended well, and played all lives. Where blocks are spare jobs failed."""
        failed = "0 devices 1" if self.spare == 0 else r"[1-9]\d* devices \d+"
        wanted = rf"{self.plan}: dies {DIES} spare {self.spare} lives {self.lives} jobs \d+ failed {failed} " \
            r"rounds \d+ stuck 0 lost 0\n"
        return status == 0 and re.fullmatch(wanted, printed) is not None


ROWS = (
    Row("no-write", 36, 0),
    Row("one-write", 36, 0),
    Row("each-job", 12, 0),
    Row("one-fails", 6, 4),
    Row("many-fail", 4, 4),
    Row("erases-fail", 3, 4),
    Row("pages-fail", 3, 4),
)


def played(program, row):
    """What the program printed of a row, and its status."""
    words = [program, row.plan, str(DIES), str(row.lives), str(row.spare)]
    try:
        done = subprocess.run(words, timeout=SECONDS, **HOW)
    except subprocess.TimeoutExpired as fault:
        return str(fault), -1
    return done.stdout, done.returncode


def is_good(row, printed, status):
    """Whether the row is right. It shows its line, or what came in its place."""
    is_right = row.is_right(printed, status)
    print(printed.strip() if is_right else f"{row.plan}: it ended with status {status}, and printed: {printed[:400]!r}")
    return is_right


def judged(program, rows):
    """Plays these rows, tells how many are right, and gives the status."""
    good = [is_good(row, *played(program, row)) for row in rows]
    print(f"{good.count(True)} passed, {good.count(False)} failed")
    return 0 if good and all(good) else 1


def main():
    parser = argparse.ArgumentParser(description="Plays short rows of lives one after another.")
    parser.add_argument("plans", nargs="*", metavar="PLAN", help="only the rows of these plans")
    parser.add_argument("--built", metavar="RUN", help="run this program, which was built without a proof")
    asked = parser.parse_args()
    rows = [row for row in ROWS if not asked.plans or row.plan in asked.plans]
    if asked.built:
        return judged(asked.built, rows)
    with kept("power_cycles") as (program, said):
        if program is None:
            print(f"{said[-4000:]}power_cycles: rt built no program", file=sys.stderr)
            return 1
        return judged(program, rows)


if __name__ == "__main__":
    # So that what it made goes also if it is stopped.
    signal.signal(signal.SIGTERM, lambda number, frame: sys.exit(128 + number))
    sys.exit(main())
