#!/usr/bin/env python3
"""Runs every test, example, stored case and wrong word without a proof, in groups side by side.

usage: test.py [--list] [--jobs N] [GROUP..]

`rt try` builds each crate of tests and each program, with checks that stop it at a fault, and
tools/kept.py keeps what it built: once, for all groups that need it. No proof is made: `make prove`
does that. A crate of tests is one of crates.txt with a function under #[test]. One whose name begins
with test_long is left out and named: `rt ci` runs it. A long group is cut into pieces. As many builds
and pieces run side by side as there are processors, and as memory allows: the builds come first.

Each group has a line as it ends, with the seconds of its pieces. Of one that failed all that it said
is shown; of any other what it did not look at. The last line is 'N passed, M failed'. The status is 0 only if nothing failed and each piece
told its counts. With names only these groups run.
"""
import argparse
import concurrent.futures
import contextlib
import os
import pathlib
import re
import shutil
import signal
import subprocess
import sys
import tempfile
import threading
import time
from typing import Any, Dict, NamedTuple, Tuple

import look_at_python
from crates import ROOT, lines_of
from power_cycles import ROWS

HEAD = ("butcherford: this proves nothing, `make prove` does; "
        "it takes about 5 minutes on four processors")
LONG = "test_long"
# These need mypy and pyflakes, and neither may install them beside the other.
USE_MYPY = {"Python by mypy and pyflakes", "tests of the tools"}
# What a build takes of memory at most, with the check for reserved names that begins beside it.
GROUP_BYTES = 2_500_000_000
# What stands for the program in the words of a piece.
PROGRAM = "{program}"
# So many tests are in a piece, and so many scripts.
TESTS_IN_PIECE, SCRIPTS_IN_PIECE = 3, 10
PYTHON = sys.executable or "python3"
# How tools tell their counts in the last line, and how Python's unittest does.
COUNTS = re.compile(r"^(\d+) passed, (\d+) failed$", re.MULTILINE)
UNITTEST = re.compile(r"^Ran (\d+) tests? in .*\n\n(?:OK|FAILED)(?: \((.*)\))?$", re.MULTILINE)
NOT_GOOD = re.compile(r"(?:failures|errors|unexpected successes|skipped)=(\d+)")
# How tools tell what they left out.
LEFT_OUT = re.compile(r"^not looked at: .*$", re.MULTILINE)


class Group(NamedTuple):
    """A group: its name, the words of its pieces, the folder that they run in, and its seconds, about; and the words
    that tools/kept.py needs to build its program: none, if it has none, or builds it by itself."""

    name: str
    pieces: Tuple[Tuple[str, ...], ...]
    folder: str
    seconds: int
    needs: Tuple[str, ...] = ()


class Told(NamedTuple):
    """What came of a group: its counts, if it told them, how long it took, and all that it said."""

    passed: int
    failed: int
    seconds: float
    text: str


def tests_in(crate):
    """How many tests a crate has."""
    files = (ROOT / "crates" / crate / "src").rglob("*.rt")
    texts = [file.read_text(encoding="utf-8") for file in files]
    return sum(len(re.findall(r"^\s*#\[test\]", text, re.MULTILINE)) for text in texts)


def fuzz_pieces(scripts):
    """The words of the pieces of so many random scripts, and of some long ones and some over old dies."""
    words = (PYTHON, "-B", "fuzz.py", "--program", PROGRAM)
    firsts = range(1, scripts + 1, SCRIPTS_IN_PIECE)
    plain = [(*words, "--first", str(it), "--scripts", str(SCRIPTS_IN_PIECE)) for it in firsts]
    return *plain, (*words, "--long", "3"), (*words, "--over", "3")


def parts(words, count):
    """The words of so many pieces, each with the number of its part and their count."""
    return tuple((*words, str(part), str(count)) for part in range(count))


def tool_groups():
    """The groups that are no crates of tests."""
    tools, ufsim, ufstool = str(ROOT / "tools"), ("ufsim_main",), ("ufstool_main",)
    cases = (PYTHON, "cases.py", "--built", PROGRAM)
    lives = [(PYTHON, "power_cycles.py", "--built", PROGRAM, row.plan) for row in ROWS]
    return [
        Group("ufsim: examples, old dies and wrong words", parts((*cases, "ufsim", "--part"), 6), tools, 200, ufsim),
        Group("ufstool: stored cases", parts((*cases, "ufstool", "--part"), 6), tools, 200, ufstool),
        Group("no memory after the opening", ((PYTHON, "refuse_memory.py", "--row"),), tools, 90),
        Group("lives one after another", tuple(lives), tools, 300, ("power_cycles",)),
        Group("fuzz: random scripts", fuzz_pieces(50), tools, 300, ufsim),
        Group("texts of the wrong bodies", ((PYTHON, "wrong_bodies.py", "--texts"),), tools, 2),
        Group("texts of the wrong rules", ((PYTHON, "turn_rules.py", "--texts"),), tools, 2),
        Group("Python by mypy and pyflakes", ((PYTHON, "-B", "look_at_python.py"),), tools, 40),
        Group("tests of the tools", ((PYTHON, "-B", "-m", "unittest", "discover", "tests"),), tools, 30),
    ]


def groups():
    """All groups."""
    found, words = tool_groups(), (PYTHON, "crate_tests.py", PROGRAM)
    for crate, count in {crate: tests_in(crate) for crate in lines_of()}.items():
        if count and not crate.startswith(LONG):
            pieces = parts(words, -(-count // TESTS_IN_PIECE))
            found.append(Group(f"tests of {crate}", pieces, str(ROOT / "tools"), 40 + 5 * count, ("--test", crate)))
    return found


def counts_in(text, status):
    """The counts that a group told. One that told none failed, as did one that ended badly though it
    told of no failure."""
    plain, unit = COUNTS.findall(text), UNITTEST.findall(text)
    if unit:
        failed = sum(map(int, NOT_GOOD.findall(unit[-1][1])))
        passed = int(unit[-1][0]) - failed
    elif plain:
        passed, failed = map(int, plain[-1])
    else:
        return 0, 1
    # A group of nothing shows nothing.
    is_bad = failed == 0 and (status != 0 or passed == 0)
    return passed, 1 if is_bad else failed


class Runner:
    """Builds programs and runs pieces, so many at a time, and can stop those that run."""

    def __init__(self, jobs, folder):
        self.slots, self.folder = threading.Semaphore(jobs), folder
        self.running, self.lock, self.is_stopped = set(), threading.Lock(), False

    def run(self, words, folder):
        """What a command printed, its status, and its seconds."""
        how: Dict[str, Any] = {"stdin": subprocess.DEVNULL, "stdout": subprocess.PIPE, "stderr": subprocess.STDOUT,
                               "encoding": "utf-8", "errors": "replace", "start_new_session": True}
        with self.slots:
            began = time.monotonic()
            with self.lock:
                if self.is_stopped:
                    return "stopped\n", 1, 0.0
                ran = subprocess.Popen(words, cwd=folder, **how)
                self.running.add(ran)
            text, _ = ran.communicate()
            with self.lock:
                self.running.discard(ran)
            return text, ran.returncode, time.monotonic() - began

    def place(self, needs):
        """The folder of the program that is built with these words."""
        return pathlib.Path(self.folder, needs[-1])

    def build(self, needs):
        """Builds a program. It gives what the builder said, and its status."""
        place = self.place(needs)
        place.mkdir()
        return self.run((PYTHON, "kept.py", *needs, str(place)), str(ROOT / "tools"))[:2]

    def piece(self, group, words):
        """What came of a piece of a group, whose program is built."""
        program = str(self.place(group.needs) / "run") if group.needs else ""
        text, status, seconds = self.run([program if it == PROGRAM else it for it in words], group.folder)
        passed, failed = counts_in(text, status)
        return Told(passed, failed, seconds, text)

    def group(self, group, build):
        """What came of a group, whose program is this build's."""
        said, status = build.result() if build else ("", 0)
        if status != 0:
            return Told(0, 1, 0.0, said)
        with concurrent.futures.ThreadPoolExecutor(len(group.pieces)) as pool:
            told = list(pool.map(lambda words: self.piece(group, words), group.pieces))
        passed, failed, seconds, texts = zip(*told)
        return Told(sum(passed), sum(failed), sum(seconds), "".join(texts))

    def stop(self, number, _):
        """Ends the groups that run, which remove what they made, and then this tool."""
        with self.lock:
            self.is_stopped = True
            for ran in self.running:
                with contextlib.suppress(ProcessLookupError):
                    os.killpg(ran.pid, signal.SIGTERM)
        sys.exit(128 + number)


def side_by_side(asked):
    """How many groups run at a time."""
    try:
        with open("/proc/meminfo", encoding="utf-8") as lines:
            words = next(line.split() for line in lines if line.startswith("MemAvailable:"))
        free = int(words[1]) * 1024
    except (OSError, StopIteration):
        free = GROUP_BYTES
    return asked or max(1, min(len(os.sched_getaffinity(0)), free // GROUP_BYTES))


def show(group, told):
    """Says how a group ended, and shows the whole of one that failed, and of any other what it left out."""
    if told.failed:
        print(f"== {group.name} said:\n{told.text.rstrip()}\n== the end of {group.name}")
    else:
        print("".join(f"{line}\n" for line in LEFT_OUT.findall(told.text)), end="")
    counts = f"{told.passed} passed, {told.failed} failed"
    print(f"{group.name}: {counts}, {told.seconds:.0f} s", flush=True)


def ends(runner, wanted):
    """Each group as it ends, with what came of it. What takes longest is begun first."""
    longest_first = sorted(wanted, key=lambda it: -it.seconds)
    needs = dict.fromkeys(it.needs for it in longest_first if it.needs)
    with concurrent.futures.ThreadPoolExecutor(len(needs) + len(wanted)) as pool:
        builds = {it: pool.submit(runner.build, it) for it in needs}
        begun = {pool.submit(runner.group, it, builds.get(it.needs)): it for it in longest_first}
        for end in concurrent.futures.as_completed(begun):
            yield begun[end], end.result()


def run(wanted, jobs):
    """Runs the groups, and counts."""
    passed, failed = 0, 0
    with tempfile.TemporaryDirectory(prefix="test.") as folder:
        runner = Runner(jobs, folder)
        signal.signal(signal.SIGTERM, runner.stop)
        signal.signal(signal.SIGINT, runner.stop)
        for group, told in ends(runner, wanted):
            show(group, told)
            passed, failed = passed + told.passed, failed + told.failed
    print(f"{passed} passed, {failed} failed", flush=True)
    return 0 if failed == 0 and passed else 1


def main():
    parser = argparse.ArgumentParser(description="Runs all tests and stored cases without a proof.")
    parser.add_argument("names", nargs="*", metavar="GROUP", help="parts of the names of groups; all, if none")
    parser.add_argument("--list", action="store_true", help="show the groups, and run none")
    parser.add_argument("--jobs", type=int, default=0, metavar="N", help="so many groups run at a time")
    asked = parser.parse_args()
    every = groups()
    missing = [name for name in asked.names if not any(name in group.name for group in every)]
    if missing:
        print(f"test: there is no group {missing[0]}: --list shows them", file=sys.stderr)
        return 2
    wanted = [it for it in every if not asked.names or any(name in it.name for name in asked.names)]
    if asked.list:
        print("\n".join(group.name for group in wanted))
        return 0
    print(HEAD, flush=True)
    if shutil.which("rt") is None:
        print("test: the kit's command rt is not on the PATH; it is needed to build", file=sys.stderr)
        return 2
    left_out = [crate for crate in lines_of() if crate.startswith(LONG)]
    if USE_MYPY & {it.name for it in wanted}:
        look_at_python.install()
    jobs = side_by_side(asked.jobs)
    left = ", ".join(left_out) or "no tests"
    print(f"{len(wanted)} groups, {jobs} at a time; left to `make prove`: {left}", flush=True)
    return run(wanted, jobs)


if __name__ == "__main__":
    sys.exit(main())
