#!/usr/bin/env python3
"""Builds the program ufsim without proving it, runs scripts by it, and shows each line with what it printed.

usage: demo.py SCRIPT..

Comments are shown as they stand. An output stands below its line, behind an arrow. Of long rows of
bytes the first 32 are shown. The build leaves nothing behind. The status is 0 where each script ran to
its end, and else 1.
"""
import pathlib
import re
import signal
import subprocess
import sys
import time
from typing import Any, Dict

from kept import kept

# Two hexadecimal digits a byte.
SHOWN = 2 * 32
WHOLE = 2 * 64
# What is left out is told in a line of its own, so that each line fits a narrow terminal.
BELOW = "\n       "
DIGITS = re.compile(r"\b[0-9a-fA-F]{%d,}\b" % (WHOLE + 2))


def shortened(found):
    """The first bytes of a long row of them, and how many more there are."""
    digits = found[0]
    rest = digits[SHOWN:]
    count = len(rest) // 2
    alike = rest == rest[:2] * count
    return f"{digits[:SHOWN]}{BELOW}and {count} bytes more" + (f", each {rest[:2]}" if alike else "")


def gives_output(line):
    """Whether a line of a script has a line of output."""
    words = line.split()
    return line != "" and not line.startswith("#") and words[:1] not in (["config"], ["unit"])


def ran(program, script):
    """What the program printed of a script, what it said, and its status."""
    how: Dict[str, Any] = {"stdin": subprocess.DEVNULL, "capture_output": True, "encoding": "utf-8",
                           "errors": "replace"}
    done = subprocess.run([program, "run", script], check=False, **how)
    return done.stdout.splitlines(), done.stderr, done.returncode


def show(script, printed):
    """Shows each line of a script with its output, and returns whether there is one output for each."""
    print(f"\n== {script}\n")
    outputs = iter(printed)
    for line in script.read_text(encoding="ascii", errors="replace").splitlines():
        print(DIGITS.sub(shortened, line))
        if gives_output(line):
            output = next(outputs, None)
            if output is None:
                return False
            print("    ->", DIGITS.sub(shortened, output))
    return next(outputs, None) is None


def shown(scripts, runs):
    """Shows each script with its run. It gives the status: 1 at the first that did not run to its end."""
    for script, (printed, said, status) in zip(scripts, runs):
        if not (show(script, printed) and status == 0):
            sys.stdout.flush()
            print(said[-4000:], file=sys.stderr)
            print(f"butcherford: {script} did not run to its end, for what the lines above say", file=sys.stderr)
            return 1
    return 0


def main(scripts):
    print("butcherford: building the program without proving it; this takes about two minutes", flush=True)
    began = time.monotonic()
    with kept("ufsim_main") as (program, said):
        runs = [ran(program, script) for script in scripts] if program else []
    if not runs:
        print(said[-4000:], file=sys.stderr)
        print("butcherford: the program was not built, for what the lines above say", file=sys.stderr)
        return 1
    took = round(time.monotonic() - began)
    print(f"butcherford: built without proving, in {took} s; `make prove` proves it, and takes an hour or more "
          "the first time")
    return shown(scripts, runs)


if __name__ == "__main__":
    # So that neither a closed pipe nor Ctrl-C is told as a fault of this tool, and that what it made goes if it is
    # stopped.
    signal.signal(signal.SIGPIPE, signal.SIG_DFL)
    signal.signal(signal.SIGTERM, lambda number, frame: sys.exit(128 + number))
    if len(sys.argv) < 2:
        print("usage: demo.py SCRIPT..", file=sys.stderr)
        sys.exit(2)
    try:
        sys.exit(main([pathlib.Path(it) for it in sys.argv[1:]]))
    except KeyboardInterrupt:
        sys.exit(130)
