#!/usr/bin/env python3
"""Builds a program, or the tests of a crate, by `rt try`, and keeps what was built.

usage: kept.py [--test] CRATE FOLDER

`rt try` proves nothing, and builds a program that stops at a fault. It builds anew each time, runs one case
after another, and removes what it built. For each case it also prepares a run by an interpreter, which can run
no program that reads its words, nor tests; that takes seconds. So rt only builds here, and is stopped once its
program runs. Beside the build rt looks for reserved names, which takes half as long again and only gives a
hint: `rt ci` refuses them. So that is ended at once. FOLDER gets the program, and a script `run` that loads it
as rt does, without an environment: `run WORD..` runs the program with these words, `run --list` tells the names
of tests, and `run NAME` runs one.

The status is 0 if FOLDER has the program. Else rt's own words are shown.
"""
import argparse
import contextlib
import os
import pathlib
import shlex
import signal
import subprocess
import sys
import tempfile
import time
from typing import Any, Dict

from crates import ROOT

# So often it is looked whether rt runs the program, which may take some hundredths of a second.
LOOK_SECONDS = 0.02
# What rt gives a single run.
RUN_SECONDS = "300"
# How often rt runs a program, so that one run that nobody saw costs only the seconds until the next.
RUNS = 20
# What stands in the words of the process that looks for reserved names.
NAMES_CHECK = "no function"


def loader_of(file):
    """The words before this program in those of the process that runs it; None, if there is none."""
    for place in pathlib.Path("/proc").glob("[0-9]*/cmdline"):
        with contextlib.suppress(OSError):
            words = place.read_bytes().decode("utf-8", "replace").split("\0")
            if str(file) in words:
                return words[: words.index(str(file))]
    return None


def look(below, place):
    """Keeps the program as this file, if rt has it just now below this folder. It gives what loads it, if it runs."""
    loader = None
    # A folder may go while it is looked at.
    with contextlib.suppress(OSError):
        for file in below.glob("*/*/program"):
            # This name stays when rt removes its own, and what is still being written is whole by then.
            with contextlib.suppress(FileExistsError):
                os.link(file, place)
            loader = loader_of(file) or loader
    return loader


def end_names_check(rt):
    """Ends the process that looks for reserved names for this rt, and says whether it has it now."""
    with contextlib.suppress(OSError):
        for child in pathlib.Path(f"/proc/{rt.pid}/task/{rt.pid}/children").read_text(encoding="ascii").split():
            if NAMES_CHECK in pathlib.Path(f"/proc/{child}/cmdline").read_text(encoding="utf-8").split("\0"):
                os.kill(int(child), signal.SIGTERM)
                return True
    return False


def looked_for(rt, below, place):
    """What loads the program of this rt, which is kept as this file: None, if rt ended before it ran."""
    is_ended = False
    while rt.poll() is None:
        is_ended = is_ended or end_names_check(rt)
        loader = look(below, place)
        if loader is not None and place.is_file():
            return loader
        time.sleep(LOOK_SECONDS)
    return None


def keep(crate, folder, is_test, root=ROOT):
    """Builds the crate's program, or its tests, and keeps it in the folder. It gives what rt said if it cannot."""
    program, script, said = folder / "program", folder / "run", folder / "said"
    with tempfile.TemporaryDirectory(prefix="below.", dir=folder) as below, \
            tempfile.TemporaryDirectory(prefix="cases.", dir=folder) as cases, open(said, "wb") as out:
        for number in range(RUNS):
            pathlib.Path(cases, str(number)).write_bytes(b"")
        words = ["rt", "try", "--steps", "1", "--seconds", RUN_SECONDS]
        words += ["--test"] if is_test else ["--cases", cases]
        how: Dict[str, Any] = {"stdin": subprocess.DEVNULL, "stdout": out, "stderr": out,
                               "env": {**os.environ, "TMPDIR": below}}
        with subprocess.Popen(words, cwd=root / "crates" / crate, **how) as rt:
            try:
                loader = looked_for(rt, pathlib.Path(below), program)
            finally:
                rt.terminate()
    if loader is None:
        return said.read_text(encoding="utf-8", errors="replace") or "rt said nothing\n"
    loaded = shlex.join(["env", "-i", *loader, str(program)])
    script.write_text(f'#!/bin/sh\nexec {loaded} "$@"\n', encoding="utf-8")
    script.chmod(0o755)
    return ""


@contextlib.contextmanager
def kept(crate, is_test=False, root=ROOT):
    """The program of a crate, kept in a folder of its own for a while, and what rt said if there is none."""
    with tempfile.TemporaryDirectory(prefix="kept.") as folder:
        said = keep(crate, pathlib.Path(folder), is_test, root)
        yield None if said else str(pathlib.Path(folder, "run")), said


def main():
    parser = argparse.ArgumentParser(description="Builds a program by rt try, and keeps it.")
    parser.add_argument("--test", action="store_true", help="build the tests of the crate")
    parser.add_argument("crate")
    parser.add_argument("folder", type=pathlib.Path)
    asked = parser.parse_args()
    said = keep(asked.crate, asked.folder.absolute(), asked.test)
    print(said, end="")
    return 1 if said else 0


if __name__ == "__main__":
    # So that rt ends too, and what it made goes, if this is stopped.
    signal.signal(signal.SIGTERM, lambda number, frame: sys.exit(128 + number))
    sys.exit(main())
