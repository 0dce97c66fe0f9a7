#!/usr/bin/env python3
"""Times durable writes of blocks, and reads of them, by SQLite, LMDB and RocksDB, beside one SHA-256 over a page.

usage: peers.py [--folder FOLDER] [--runs N] [--no-install]

It takes the stores from Debian: with apt-get, as root, it installs those of these packages that are missing: g++,
libsqlite3-dev, liblmdb-dev, librocksdb-dev and libssl-dev. With --no-install it installs nothing. It compiles
tools/peers.cpp and runs it N times (21), each time over new stores in a folder of its own under FOLDER, which it
removes. The folder /dev/shm, which is in memory, leaves the work of the processor; another one may lie on a disk,
which is then measured with it. The first line says which it is.

Each store gets 8,192 blocks of 4,096 bytes, none like another, in the order of their addresses: in durable
transactions of one block, and a new store in those of 32. SQLite keeps a WAL with synchronous=FULL, LMDB commits as
it does by default, and RocksDB writes with sync, without compression, and without a cache of blocks, so that it looks
at a checksum in each read. The blocks are read one by one at random once the store was closed and opened again, and
at last all are compared. The unit is a plain SHA-256 over the 4,160 bytes of a page of the device, without the
processor's instructions for it, timed right before and after what is compared with it. On standard output comes a
table in Markdown: medians of the runs, with the least and the greatest.
"""
import argparse
import os
import pathlib
import signal
import statistics
import subprocess
import sys
import tempfile

import packages

SOURCE = pathlib.Path(__file__).resolve().parent / "peers.cpp"
PACKAGES = ("g++", "libsqlite3-dev", "liblmdb-dev", "librocksdb-dev", "libssl-dev")
LIBRARIES = ("-lsqlite3", "-llmdb", "-lrocksdb", "-lcrypto")
FOLDER = pathlib.Path("/dev/shm")
RUNS = 21
# What lies in memory alone, as `stat` calls it.
IN_MEMORY = ("tmpfs", "ramfs")
STORES = {"sqlite": "SQLite", "lmdb": "LMDB", "rocksdb": "RocksDB"}
WORK = {"one": "a durable write of one block", "group": "a block of a durable write of 32",
        "read": "a read of one block"}
# RocksDB alone has a checksum of what it stores, and looks at it in each read.
CHECKED = {"sqlite": "not checked", "lmdb": "not checked", "rocksdb": "checked"}


class Fault(Exception):
    """What keeps the stores from being timed."""


def missing_packages():
    """Those of the packages that are not installed."""
    words = ["dpkg-query", "--show", "--showformat=${Package} ${db:Status-Status}\n", *PACKAGES]
    told = subprocess.run(words, capture_output=True, encoding="utf-8", check=False).stdout
    return [it for it in PACKAGES if f"{it} installed" not in told.splitlines()]


def install():
    """Installs what is missing. What apt-get says goes to standard error."""
    try:
        wanted = missing_packages()
        for words in packages.commands(wanted) if wanted else ():
            subprocess.run(words, stdout=sys.stderr, check=True)
    except (OSError, subprocess.CalledProcessError) as fault:
        raise Fault(f"{fault}\ninstall {' '.join(PACKAGES)} as root, and say --no-install") from fault


def compiled(folder):
    """The program, compiled into the folder: without vector instructions, which the device's hash has not either."""
    program = pathlib.Path(folder) / "peers"
    words = ["g++", "-std=c++17", "-O2", "-fno-tree-vectorize", "-o", str(program), str(SOURCE), *LIBRARIES]
    try:
        subprocess.run(words, check=True)
    except (OSError, subprocess.CalledProcessError) as fault:
        raise Fault(f"{fault}\ntools/peers.cpp needs {' '.join(PACKAGES)}") from fault
    return program


def run_once(program, folder):
    """What a run printed. Its stores lie in a folder of its own, which is gone after it, also if it fails."""
    try:
        with tempfile.TemporaryDirectory(prefix="peers.", dir=folder) as own:
            return subprocess.run([str(program), own], stdout=subprocess.PIPE, encoding="utf-8", check=True).stdout
    except (OSError, subprocess.CalledProcessError) as fault:
        raise Fault(str(fault)) from fault


def read_runs(texts):
    """The versions by name; and by what was timed, for each run nanoseconds and those of the unit beside it."""
    versions, times = {}, {}
    for line in "".join(texts).splitlines():
        one, other, *numbers = line.split()
        if one == "version":
            versions[other] = numbers[0]
        else:
            times.setdefault((one, other), []).append(tuple(int(it) for it in numbers))
    return versions, times


def spread(numbers, form):
    """The median, with the least and the greatest in brackets."""
    low, middle, high = (format(it, form) for it in (min(numbers), statistics.median(numbers), max(numbers)))
    return f"{middle} ({low} to {high})"


def row(what, pairs, ratio=None):
    """The line of the table for pairs of a time and the unit's, in nanoseconds."""
    median, _, rest = spread([each / 1000 for each, _ in pairs], ".1f").partition(" ")
    ratio = ratio or spread([each / unit for each, unit in pairs], ".2f")
    return f"| {what} | {median} µs {rest} | {ratio} |"


def table(versions, times):
    """The lines of the table."""
    yield "| What | Time | To one SHA-256 |"
    yield "|---|---|---|"
    yield row("one plain SHA-256 over 4,160 bytes", times["hash", "plain"], "1")
    yield row(f"the same by OpenSSL {versions['openssl']}", times["hash", "openssl"])
    for store, name in STORES.items():
        for work, what in WORK.items():
            checked = f", {CHECKED[store]}" if work == "read" else ""
            yield row(f"{name} {versions[store]}: {what}{checked}", times[store, work])


def place(folder):
    """A sentence that says whether the disk is measured."""
    words = ["stat", "--file-system", "--format=%T", str(folder)]
    kind = subprocess.run(words, capture_output=True, encoding="utf-8", check=False).stdout.strip()
    if kind in IN_MEMORY:
        return f"The folder lies in memory ({kind}): no disk is measured."
    return f"The folder lies on {kind or 'an unknown file system'}: its disk is measured too, in writes at least."


def instructions():
    """A sentence that says whether OpenSSL may use instructions made for SHA-256."""
    try:
        flags = pathlib.Path("/proc/cpuinfo").read_text(encoding="utf-8").split()
    except OSError:
        return "Whether the processor has instructions for SHA-256 is unknown."
    has = "sha_ni" in flags or "sha2" in flags
    return f"The processor has {'' if has else 'no '}instructions for SHA-256, which OpenSSL uses where it can."


def timed(asked):
    """Installs, compiles and runs; prints what comes of it."""
    if not asked.folder.is_dir():
        raise Fault(f"there is no folder {asked.folder}")
    if not asked.no_install:
        install()
    before = os.getloadavg()[0]
    with tempfile.TemporaryDirectory(prefix="peers.") as own:
        program = compiled(own)
        texts = [run_once(program, asked.folder) for _ in range(asked.runs)]
    print(f"{place(asked.folder)} {instructions()}")
    print(f"Runs: {asked.runs}. Processors: {os.cpu_count()}. "
          f"Load of the machine: {before:.1f} before, {os.getloadavg()[0]:.1f} after.\n")
    for line in table(*read_runs(texts)):
        print(line)


def main():
    parser = argparse.ArgumentParser(description=__doc__, formatter_class=argparse.RawDescriptionHelpFormatter)
    parser.add_argument("--folder", type=pathlib.Path, default=FOLDER, help=f"where the stores lie ({FOLDER})")
    parser.add_argument("--runs", type=int, default=RUNS, help=f"how many runs there are ({RUNS})")
    parser.add_argument("--no-install", action="store_true", help="installs no package")
    asked = parser.parse_args()
    if asked.runs < 1:
        parser.error("there has to be a run")
    # So that the stores are removed, too, if the program is told to end.
    signal.signal(signal.SIGTERM, lambda *_: sys.exit(1))
    try:
        timed(asked)
    except Fault as fault:
        print(f"peers: {fault}", file=sys.stderr)
        return 1
    return 0


if __name__ == "__main__":
    sys.exit(main())
