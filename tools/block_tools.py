#!/usr/bin/env python3
"""Runs block tools, as Debian has them, on the device: iscsi-test-cu, fio, nbdcopy, and ext4 in power cuts.

usage: block_tools.py [--list | --rewrite]

Each result of iscsi-test-cu is compared with tools/iscsi_test_cu.txt, which names each of its tests, and
gives a reason for each that the device refuses or that skips. A test that is not as that list says, and one
that is missing, has failed. One that was refused as it says counts as passed, and one that was skipped as it
says is not counted. With --list the results are printed instead. --rewrite writes the file anew by them. The
reason of a test whose outcome is another one is what the test told, for somebody to put into words. It prints
each reason that stays beside what the test told, and how many tests of each suite passed, were skipped and
failed. The last line is 'N passed, M failed'.
"""
from __future__ import annotations

import argparse
import contextlib
import json
import os
import re
import signal
import subprocess
import sys
import tempfile
from collections import Counter
from pathlib import Path
from typing import Callable, Dict, Iterator, List, NamedTuple, Tuple

from crates import ROOT
from libufs import ARCHIVE

EXAMPLES = ROOT / "examples" / "block"
LIST = ROOT / "tools" / "iscsi_test_cu.txt"
# Names the shared library for the package.
LIBRARY = "BUTCHERFORD_LIBRARY"
# Debian's Python, for which its pytest is installed.
PYTHON = "/usr/bin/python3"
PACKAGES = {"iscsi-test-cu": "libiscsi-bin", "fio": "fio", "nbdfuse": "libnbd-bin", "nbdcopy": "libnbd-bin",
            "mkfs.ext4": "e2fsprogs", "e2fsck": "e2fsprogs"}
SECONDS = 900
MOST_TOLD = 2000
MOST_REASON = 200
FUSE = Path("/dev/fuse")
# What iscsi-test-cu prints of a test, up to its result, which begins a line or stands behind the dots.
RESULT = re.compile(r"^  Test: (\S+) \.\.\.(.*?)(?:(?<=\.\.\.)|(?<=\n))(passed|FAILED)",
                    re.DOTALL | re.MULTILINE)
# How a test says which command it found missing, and how the list says so.
NOT_THERE = re.compile(r"\[SKIPPED\] (\w[\w ]*?) is not implemented")
NO_COMMAND = re.compile(r"the device has no (.*): 5/20/00")
SUITE = re.compile(r"^Suite: (\S+)$", re.MULTILINE)
PASSED, SKIPPED, FAILED = "passed", "skipped", "failed"
# The whole suite once: the other families are parts of this one.
FAMILY = "ALL"
SPLIT = ("Read6", "Read10", "Verify10")
UNIT = ("--units", "8192", "--slots", "1024")
# Of the unit that a server has by itself.
UNIT_BYTES = 8192 * 4096
RUNS = {
    "random writes with a flush behind each 16th": ("--bsrange=4k-128k", "--iodepth=8", "--fsync=16"),
    "random writes with a flush behind each": ("--bs=4k", "--iodepth=1", "--fsync=1", "--io_size=4m"),
    "trims, each with a write behind it": ("--bs=16k", "--iodepth=4", "--rw=randtrimwrite"),
}


class Fault(Exception):
    """What keeps a tool from its work, or a server from its end."""


class Result(NamedTuple):
    """A test of iscsi-test-cu, and how it ended."""

    name: str
    outcome: str
    told: str = ""


class Server(NamedTuple):
    """A server, and where it is to be found."""

    address: str
    process: subprocess.Popen[str]


@contextlib.contextmanager
def served(program: str, *words: str) -> Iterator[Server]:
    """One of the two servers."""
    process = subprocess.Popen([PYTHON, "-B", str(EXAMPLES / program), *words], stdout=subprocess.PIPE,
                               encoding="utf-8")
    assert process.stdout is not None
    try:
        yield Server(process.stdout.readline().strip(), process)
    finally:
        process.terminate()
        process.communicate(timeout=SECONDS)
    if process.returncode:
        raise Fault(f"{program} ended with {process.returncode}")


def results(text: str) -> Iterator[Result]:
    """The tests of which iscsi-test-cu tells."""
    parts = SUITE.split(text)
    for suite, told in zip(parts[1::2], parts[2::2]):
        yield from (read_result(suite, *found) for found in RESULT.findall(told))


def read_result(suite: str, name: str, told: str, result: str) -> Result:
    """A test. CUnit counts one that skips as passed; what it prints says so."""
    outcome = FAILED if result == "FAILED" else SKIPPED if "[SKIPPED]" in told else PASSED
    return Result(f"{suite}.{name}", outcome, told)


def run_iscsi(tests: str = FAMILY, *more: str) -> List[Result]:
    """Runs tests of iscsi-test-cu, with those that destroy data. The target may have more words."""
    with served("iscsi_target.py", *UNIT, *more) as server:
        words = ["iscsi-test-cu", "-d", "-v", "-t", tests, server.address]
        done = subprocess.run(words, stdout=subprocess.PIPE, stderr=subprocess.STDOUT, encoding="utf-8",
                              errors="replace", timeout=SECONDS, check=False)
    return list(results(done.stdout))


def expected() -> Dict[str, str]:
    """The outcome of each test by the list."""
    lines = (it.split() for it in LIST.read_text().splitlines() if it and not it.startswith("#"))
    return {name: outcome for name, outcome, *_ in lines}


def command_names() -> Dict[str, str]:
    """The commands that the list names, by their bare names, in which a test names them."""
    return {bare(name): name for name in NO_COMMAND.findall(LIST.read_text())}


def bare(name: str) -> str:
    """A name without blanks, signs, and the word AND."""
    return re.sub(r"AND|\W|_", "", name)


def short(told: str) -> str:
    """What a test told, in one line."""
    return " ".join(told.split())[:MOST_REASON]


def rewrite(found: List[Result]) -> None:
    """Writes the list anew. A reason stays where its outcome does, unless the test says which command is missing."""
    lines = LIST.read_text().splitlines()
    before = {it.split()[0]: it for it in lines if not it.startswith("#")}
    names = command_names()
    anew = [it for it in lines if it.startswith("#")]
    for it in found:
        missing = NOT_THERE.search(it.told) if it.outcome == SKIPPED else None
        begin = f"{it.name} {it.outcome}"
        if it.outcome == PASSED:
            anew.append(begin)
        elif missing:
            anew.append(f"{begin} the device has no {names.get(bare(missing[1]), missing[1])}: 5/20/00")
        elif before.get(it.name, "").startswith(begin):
            anew.append(before[it.name])
            print(f"stays: {before[it.name]} | {short(it.told)}")
        else:
            anew.append(f"{begin} {short(it.told)}")
    LIST.write_text("".join(f"{it}\n" for it in anew))
    counted = Counter((it.name.partition(".")[0], it.outcome) for it in found)
    for suite in dict.fromkeys(suite for suite, _ in counted):
        print(f"| {suite} | " + " | ".join(str(counted[suite, it]) for it in (PASSED, SKIPPED, FAILED)) + " |")


def compare(found: List[Result]) -> Tuple[int, int]:
    """Compares the results with the list, and tells what is not as it says."""
    wanted = expected()
    wrong = [it for it in found if it.outcome != wanted.get(it.name)]
    missing = set(wanted) - {it.name for it in found}
    told = [f"{it.name} {it.outcome}, which the list does not say\n{it.told[:MOST_TOLD]}" for it in wrong]
    told += [f"{' '.join(sorted(missing))} did not run"] if missing else []
    print("".join(f"iscsi-test-cu: {it}\n" for it in told), end="")
    bad = {it.name for it in wrong}
    counted = Counter(it.outcome for it in found if it.name not in bad)
    print(f"iscsi-test-cu: {counted[PASSED]} passed, {counted[FAILED]} failed and {counted[SKIPPED]} skipped "
          f"as the list says, {len(wrong) + len(missing)} not as it says")
    return counted[PASSED] + counted[FAILED], len(wrong) + len(missing)


def run_split() -> Tuple[int, int]:
    """Suites that go beyond 128 blocks, against a target that splits commands. No test of them may fail."""
    found = [it for suite in SPLIT for it in run_iscsi(f"{FAMILY}.{suite}", "--split")]
    counted = Counter(it.outcome for it in found)
    print(f"iscsi-test-cu, commands split: {', '.join(SPLIT)}: {counted[PASSED]} passed, "
          f"{counted[FAILED]} failed, {counted[SKIPPED]} skipped")
    return counted[PASSED], counted[FAILED] + int(not found)


def run_fio(name: str, words: Tuple[str, ...], address: str) -> bool:
    """One run of fio, whose data are read back and compared by their CRC-32C."""
    with tempfile.TemporaryDirectory() as folder:
        report = Path(folder) / "report"
        asked = ["fio", "--name=blocks", "--ioengine=nbd", f"--uri={address}", "--rw=randwrite", "--size=24m",
                 "--verify=crc32c", "--verify_fatal=1", "--randseed=1", "--output-format=json",
                 f"--output={report}", *words]
        # It leaves a file in the folder that it runs in.
        done = subprocess.run(asked, stdout=subprocess.PIPE, stderr=subprocess.STDOUT, encoding="utf-8",
                              cwd=folder, timeout=SECONDS, check=False)
        told = report.read_text() if report.exists() else ""
    try:
        job = json.loads(told)["jobs"][0]
        wrote, read, trimmed = (job[it]["total_ios"] for it in ("write", "read", "trim"))
        is_good = done.returncode == 0 and job["error"] == 0 and 0 < wrote <= read
    except (ValueError, LookupError):
        print(f"fio: {name}: FAILED\n{(done.stdout + told)[:MOST_TOLD]}")
        return False
    print(f"fio: {name}: {'good' if is_good else 'FAILED'}, {wrote} writes, {trimmed} trims, "
          f"{read} reads compared")
    return is_good


def run_all_fio() -> Tuple[int, int]:
    """Runs of fio over NBD."""
    passed = 0
    for name, words in RUNS.items():
        with served("nbd_server.py") as server:
            passed += run_fio(name, words, server.address)
    return passed, len(RUNS) - passed


def run_ls() -> Tuple[int, int]:
    """iscsi-ls finds the target, and both units with their sizes."""
    with served("iscsi_target.py", "--units", "8192,1024") as server:
        words = ["iscsi-ls", "-s", server.address[:server.address.index("/iqn")]]
        done = subprocess.run(words, stdout=subprocess.PIPE, encoding="utf-8", timeout=SECONDS, check=False)
    units = re.findall(r"Lun:(\d+) +Type:DIRECT_ACCESS \(Size:(\w+)\)", done.stdout)
    is_good = units == [("0", "31M"), ("1", "3M")]
    print(f"iscsi-ls: {'found both units' if is_good else f'FAILED: {done.stdout}'}")
    return int(is_good), int(not is_good)


def run_copy() -> Tuple[int, int]:
    """nbdcopy fills a unit over several connections and flushes. Behind a power cut it reads the same."""
    with tempfile.TemporaryDirectory() as name, served("nbd_server.py", "--lazy") as server:
        source, copy = Path(name) / "source", Path(name) / "copy"
        source.write_bytes(os.urandom(UNIT_BYTES))
        subprocess.run(["nbdcopy", "--flush", str(source), server.address], timeout=SECONDS, check=True)
        server.process.send_signal(signal.SIGUSR1)
        subprocess.run(["nbdcopy", server.address, str(copy)], timeout=SECONDS, check=True)
        is_good = source.read_bytes() == copy.read_bytes()
    print(f"nbdcopy: {'the same bytes came back behind a power cut' if is_good else 'FAILED'}")
    return int(is_good), int(not is_good)


def run_ext4() -> Tuple[int, int]:
    """ext4 under power cuts, where there is what it needs."""
    if not FUSE.exists() or os.geteuid() != 0:
        print(f"ext4: left out, since it needs root and {FUSE}")
        return 0, 0
    done = subprocess.run([PYTHON, "-B", str(EXAMPLES / "ext4_power_cut.py")], stdout=subprocess.PIPE,
                          encoding="utf-8", timeout=SECONDS, check=False)
    lines = done.stdout.splitlines()
    print("\n".join(f"ext4: {it}" for it in lines))
    passed, failed = re.findall(r"\d+", lines[-1])[:2] if lines else (0, 1)
    return int(passed), int(failed)


def run_tools() -> Tuple[int, int]:
    """Runs all, and gives how many checks went well, and how many did not."""
    tools = (run_ls, lambda: compare(run_iscsi()), run_split, run_copy, run_all_fio, run_ext4)
    counts = [attempt(it) for it in tools]
    return sum(passed for passed, _ in counts), sum(failed for _, failed in counts)


def attempt(act: Callable[[], Tuple[int, int]]) -> Tuple[int, int]:
    """The counts of a tool. One that does not get to its end has failed."""
    try:
        return act()
    except (Fault, OSError, subprocess.SubprocessError) as fault:
        print(f"block tools: {fault}")
        return 0, 1


def main() -> int:
    parser = argparse.ArgumentParser(description=__doc__,
                                     formatter_class=argparse.RawDescriptionHelpFormatter)
    ways = parser.add_mutually_exclusive_group()
    ways.add_argument("--list", action="store_true", help="prints the results of iscsi-test-cu alone")
    ways.add_argument("--rewrite", action="store_true", help="writes their list anew")
    asked = parser.parse_args()
    os.environ["PYTHONPATH"] = os.environ.get("PYTHONPATH", str(ROOT / "python"))
    os.environ.setdefault(LIBRARY, str(ARCHIVE.with_suffix(".so")))
    if asked.list:
        for it in run_iscsi():
            print(it.name, it.outcome, short(it.told))
        return 0
    if asked.rewrite:
        rewrite(run_iscsi())
        return 0
    passed, failed = run_tools()
    print(f"{passed} passed, {failed} failed")
    return int(failed != 0)


if __name__ == "__main__":
    sys.exit(main())
