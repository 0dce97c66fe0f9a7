#!/usr/bin/env python3
"""Cuts the power of the device under a mounted ext4, at several moments, and looks for what was synced.

An `nbd_server.py` serves the device, `nbdfuse` makes a file of it, `mkfs.ext4` makes a file system in that
file, and Linux mounts it by a loop device. In each round files are written and each is synced (fsync of the
file and of its folder), until the power goes inside a program or an erase. Then, over the device as it was
opened again: `e2fsck -p` replays the journal, `e2fsck -fn` has to find nothing, and each synced file has to
have its bytes.

It needs root, /dev/fuse, and Debian's packages libnbd-bin and e2fsprogs. It prints a line for each round, and
`N passed, M failed` at the end; the status is 0 only if none failed.
"""
from __future__ import annotations

import argparse
import contextlib
import hashlib
import os
import shutil
import subprocess
import sys
import tempfile
import time
from pathlib import Path
from typing import Dict, Iterator, NamedTuple, Tuple

SERVER = Path(__file__).resolve().parent / "nbd_server.py"
DISK = "disk"
SECONDS = 120
# e2fsck: nothing was wrong, or it was put right (man e2fsck, "exit code").
CLEAN, CORRECTED = 0, 1
FILES, FILE_BYTES = 400, 24 * 1024


class Moment(NamedTuple):
    """When the power goes, and what it leaves: inside the program or erase of this number, counted from the
    first write of the round."""

    job: int
    left: str


MOMENTS = tuple(Moment(job, left) for job in (4, 15, 60, 250, 1000) for left in ("old", "new", "torn"))


class Fault(Exception):
    """What keeps the demonstration from going on."""


class Server:
    """The server of the device. Its standard input takes the power cuts."""

    def __init__(self) -> None:
        words = [sys.executable, "-B", str(SERVER), "--control", "--lazy", "--least-block", "1"]
        self._process = subprocess.Popen(words, stdin=subprocess.PIPE, stdout=subprocess.PIPE,
                                         encoding="utf-8")
        self.address = self.line()

    def line(self) -> str:
        """The next line that it prints."""
        assert self._process.stdout is not None
        line = self._process.stdout.readline()
        if not line:
            raise Fault("the server has ended")
        return line.strip()

    def say(self, line: str) -> None:
        """Gives it a line."""
        assert self._process.stdin is not None
        self._process.stdin.write(f"{line}\n")
        self._process.stdin.flush()

    def end(self) -> None:
        """Ends it."""
        self._process.terminate()
        self._process.communicate(timeout=SECONDS)


def run(*words: str, good: Tuple[int, ...] = (0,)) -> str:
    """Runs a program, and gives what it prints. It has to end with one of these."""
    done = subprocess.run(words, stdout=subprocess.PIPE, stderr=subprocess.STDOUT, encoding="utf-8",
                          timeout=SECONDS, check=False)
    if done.returncode not in good:
        raise Fault(f"{' '.join(words)} ended with {done.returncode}:\n{done.stdout}")
    return done.stdout


@contextlib.contextmanager
def as_file(address: str, folder: Path) -> Iterator[str]:
    """The device as a file."""
    place, file = folder / "fuse", folder / "fuse" / DISK
    place.mkdir(exist_ok=True)
    # It tells of each request that the power cut made fail.
    with subprocess.Popen(["nbdfuse", str(file), address], stderr=subprocess.DEVNULL) as process:
        try:
            wait_for(file, process)
            yield str(file)
        finally:
            run("umount", str(place))
            process.wait(SECONDS)


def wait_for(file: Path, process: subprocess.Popen[bytes]) -> None:
    """Waits until the file is there."""
    end = time.monotonic() + SECONDS
    while not file.exists():
        if process.poll() is not None or time.monotonic() > end:
            raise Fault(f"nbdfuse did not give {file}")
        time.sleep(0.02)


@contextlib.contextmanager
def mounted(file: str, folder: Path) -> Iterator[Path]:
    """The file system in that file."""
    place = folder / "mounted"
    place.mkdir(exist_ok=True)
    run("mount", "-t", "ext4", "-o", "loop", file, str(place))
    try:
        yield place
    finally:
        run("umount", str(place))


def content(name: str) -> bytes:
    """What is written to a file of this name."""
    return hashlib.shake_128(name.encode()).digest(FILE_BYTES)


def write_until_cut(place: Path, number: int) -> Dict[str, bytes]:
    """Writes files, each synced, until the power goes. It gives those whose syncs came back."""
    synced: Dict[str, bytes] = {}
    folder = place / f"round{number}"
    try:
        folder.mkdir()
        sync(place)
        for name in (f"round{number}/file{count}" for count in range(FILES)):
            with open(place / name, "wb") as file:
                file.write(content(name))
                file.flush()
                os.fsync(file.fileno())
            sync(folder)
            synced[name] = content(name)
    except OSError:
        pass
    return synced


def sync(folder: Path) -> None:
    """Makes a folder's entries durable."""
    handle = os.open(folder, os.O_RDONLY)
    try:
        os.fsync(handle)
    finally:
        os.close(handle)


def lost(place: Path, synced: Dict[str, bytes]) -> int:
    """How many of these files are not there with their bytes."""
    return sum(not (place / name).is_file() or (place / name).read_bytes() != data
               for name, data in synced.items())


def play_round(server: Server, folder: Path, number: int, moment: Moment) -> bool:
    """Writes, cuts, repairs and looks. It says whether all is as it has to be."""
    with as_file(server.address, folder) as file, mounted(file, folder) as place:
        for old in place.glob("round*"):
            shutil.rmtree(old)
        sync(place)
        server.say(f"cut {moment.left} {moment.job}")
        synced = write_until_cut(place, number)
        if len(synced) == FILES:
            raise Fault(f"the power did not go in {FILES} files")
    where = server.line()
    with as_file(server.address, folder) as file:
        replay = "recovering journal" in run("e2fsck", "-p", file, good=(CLEAN, CORRECTED))
        check = subprocess.run(["e2fsck", "-fn", file], capture_output=True, encoding="utf-8", check=False)
        with mounted(file, folder) as place:
            missing = lost(place, synced)
    is_good = check.returncode == CLEAN and missing == 0
    print(f"{where}; e2fsck -p {'replayed the journal' if replay else 'found no journal to replay'}; "
          f"e2fsck -fn ended with {check.returncode}; {len(synced)} files were synced, {missing} are missing",
          flush=True)
    if check.returncode != CLEAN:
        print(check.stdout, file=sys.stderr)
    return is_good


def main() -> int:
    """Plays all rounds."""
    parser = argparse.ArgumentParser(description=__doc__,
                                     formatter_class=argparse.RawDescriptionHelpFormatter)
    parser.parse_args()
    server = Server()
    passed = 0
    try:
        with tempfile.TemporaryDirectory() as name:
            folder = Path(name)
            with as_file(server.address, folder) as file:
                run("mkfs.ext4", "-q", "-b", "4096", file)
            for number, moment in enumerate(MOMENTS, 1):
                passed += play_round(server, folder, number, moment)
    except (Fault, OSError, subprocess.SubprocessError) as fault:
        print(f"ext4_power_cut: {fault}", file=sys.stderr)
    finally:
        server.end()
    print(f"{passed} passed, {len(MOMENTS) - passed} failed")
    return int(passed != len(MOMENTS))


if __name__ == "__main__":
    sys.exit(main())
