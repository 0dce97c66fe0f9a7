#!/usr/bin/env python3
"""Proves the programs ufsim and ufstool with each crate below them, and builds them.

usage: build_programs.py

It goes from the lowest crate up, and says after each how far it is. A crate that was proved before
and has not changed takes a second or so. Of a crate that takes minutes a line is printed each
minute. What rt says is shown only where a crate is not proved. The programs are
crates/ufsim_main/out/ufsim_main and crates/ufstool_main/out/ufstool_main then, and need the C
library alone. The status is 0 where all are proved and built, and else 1.
"""
import subprocess
import sys
import tempfile
import time

from crates import ROOT, lowest_first, uses

# Each program with words for a run: rt builds a program by running it, and what this run prints is not needed.
PROGRAMS = {"ufsim_main": "run", "ufstool_main": "explain"}
SCRIPT = ROOT / "examples" / "write_read.txt"
MINUTE = 60
# So many of the last lines of what rt said are shown of a crate that is not proved.
SHOWN = 40


def command(crate):
    """How rt proves a crate: a program so that it is built, a library so that those above find it."""
    return ["rt", "run", "--", PROGRAMS[crate], str(SCRIPT)] if crate in PROGRAMS else ["rt", "lib"]


def lasted(seconds):
    return f"{seconds:.0f} s" if seconds < MINUTE else f"{seconds / MINUTE:.0f} min"


def say(text):
    print(text, flush=True)


def run(words, folder, said, tell):
    """Runs a command whose words go to a file, calls tell each minute, and returns its status."""
    how = {"cwd": folder, "stdin": subprocess.DEVNULL, "stdout": said, "stderr": subprocess.STDOUT}
    with subprocess.Popen(words, **how) as ran:
        while True:
            try:
                return ran.wait(timeout=MINUTE)
            except subprocess.TimeoutExpired:
                tell()
            except KeyboardInterrupt:
                ran.terminate()
                raise


def prove(crate, words, place):
    """Proves one crate, and returns whether it is proved."""
    began = time.monotonic()

    def tell(word, more=""):
        say(f"{word} {place}: {crate}, {lasted(time.monotonic() - began)}{more}")

    with tempfile.TemporaryFile("w+", errors="replace") as said:
        status = run(words, ROOT / "crates" / crate, said, lambda: tell("proving", " so far"))
        if status == 0:
            tell("proved")
            return True
        said.seek(0)
        sys.stderr.writelines(said.readlines()[-SHOWN:])
    print(
        f"butcherford: {crate} is not proved, for what the lines above say; "
        f"`{' '.join(words)}` in crates/{crate} says all of it (it ended with status {status})",
        file=sys.stderr,
    )
    return False


def main():
    order = lowest_first(PROGRAMS, uses())
    say(f"butcherford: proving {len(order)} crates, lowest first; at first it takes tens of minutes")
    began = time.monotonic()
    for number, crate in enumerate(order, 1):
        if not prove(crate, command(crate), f"{number} of {len(order)}"):
            return 1
    for program in PROGRAMS:
        folder = ROOT / "crates" / program / "out"
        if not (folder / program).is_file():
            print(f"butcherford: rt left no {folder / program}; remove {folder} and try again", file=sys.stderr)
            return 1
    say(f"butcherford: all {len(order)} crates are proved, {lasted(time.monotonic() - began)}")
    return 0


if __name__ == "__main__":
    try:
        sys.exit(main())
    except KeyboardInterrupt:
        sys.exit(130)
