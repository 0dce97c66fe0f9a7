"""User-mode Linux over a device: it is booted with a test, and its console is read until it ends."""
from __future__ import annotations

import os
import selectors
import signal
import subprocess
import time
from dataclasses import dataclass, field
from pathlib import Path
from typing import List, NamedTuple, Optional

from butcherford import Device

from dies import Cut, PowerFailed
from server import Server

# The number by which user-mode Linux knows that a socket is a PCI function: see uml.config.
FUNCTION_NUMBER = 1234
# A test tells so what it did, which parts it from what the kernel says.
MARK = "@ "
CHUNK = 65536
STEP_SECONDS = 0.5
# Without the first word the first process of the guest ends by a fault: the restartable sequences of the C
# library of the kernel stay registered where it runs. And the memory of the guest is a file, which has to lie
# where files may be mapped executable.
ENVIRONMENT = {"GLIBC_TUNABLES": "glibc.pthread.rseq=0", "TMPDIR": "/dev/shm"}
MEMORY = "256M"


class Told(NamedTuple):
    """What a test told: a name and words, and how many programs and erases had begun when it was heard."""

    name: str
    words: str
    started: int


@dataclass
class Run:
    """What a run of the kernel told."""

    lines: List[str] = field(default_factory=list)
    told: List[Told] = field(default_factory=list)
    failed: Optional[PowerFailed] = None
    erases: List[int] = field(default_factory=list)
    """The numbers of the erases that began, among all programs and erases."""

    @property
    def console(self) -> str:
        """All that the kernel said."""
        return "\n".join(self.lines)

    def words(self, name: str) -> List[str]:
        """What the test told under this name, each time that it did."""
        return [it.words for it in self.told if it.name == name]

    def started_at(self, name: str) -> int:
        """How many programs and erases had begun when the test told this for the last time."""
        return max((it.started for it in self.told if it.name == name), default=0)


class Machine:
    """A kernel with its first files, and the device that it is to find. Use it in a `with`."""

    def __init__(self, kernel: Path, files: Path, folder: Path, device: Device, most_kept: int) -> None:
        self._kernel = kernel
        self._files = files
        self._folder = folder
        self._device = device
        self._socket = folder / "socket"
        self._server = Server(device, self._socket, most_kept)
        self._run = Run()
        self._rest = b""
        self._console = -1
        self._has_ended = False

    def __enter__(self) -> Machine:
        return self

    def __exit__(self, *_: object) -> None:
        self._server.close()

    def run(self, test: str, words: str, seconds: float, cut: Optional[Cut] = None) -> Run:
        """Boots the kernel with a test. It is killed at the cut, and where it does not end in time.

        The power is away behind each run: the device is opened again.
        """
        self._run, self._rest, self._has_ended = Run(), b"", False
        self._server.watch_dies(cut)
        kernel = self._start(test, words)
        try:
            self._serve(seconds)
        except PowerFailed as failed:
            self._run.failed = failed
        finally:
            self._kill(kernel)
        self._run.erases = self._server.dies.erases
        if self._run.failed is not None:
            self._server.drop_host()
            self._run.failed.cut(self._device)
        else:
            self._server.end_host()
        return self._run

    def _serve(self, seconds: float) -> None:
        end = time.monotonic() + seconds
        while not self._has_ended and time.monotonic() < end:
            self._server.step(STEP_SECONDS)
        if not self._has_ended:
            self._run.lines.append(f"the kernel did not end in {seconds:.0f} seconds, and was killed")

    def _start(self, test: str, words: str) -> "subprocess.Popen[bytes]":
        options = [f"mem={MEMORY}", f"initrd={self._files}", f"uml_dir={self._folder}", "rdinit=/init",
                   "loglevel=5", "con=null", "con0=null,fd:1",
                   f"virtio_uml.device={self._socket}:{FUNCTION_NUMBER}", f"test={test}", *words.split()]
        self._console, written = os.pipe()
        kernel = subprocess.Popen([str(self._kernel), *options], env={**os.environ, **ENVIRONMENT},
                                  stdin=subprocess.DEVNULL, stdout=written, stderr=subprocess.STDOUT,
                                  start_new_session=True)
        os.close(written)
        self._server.selector.register(self._console, selectors.EVENT_READ, self._read)
        return kernel

    def _read(self) -> None:
        """Reads of the console what is there. Once no process can write to it, the kernel has ended."""
        some = os.read(self._console, CHUNK)
        lines = (self._rest + some).split(b"\n")
        self._rest = lines.pop()
        for line in lines:
            self._hear(line.decode("utf-8", "replace").rstrip("\r"))
        if not some:
            self._has_ended = True
            self._server.selector.unregister(self._console)
            os.close(self._console)

    def _hear(self, line: str) -> None:
        """A whole line of the console."""
        self._run.lines.append(line)
        if line.startswith(MARK):
            name, _, words = line[len(MARK):].partition(" ")
            self._run.told.append(Told(name, words, self._server.dies.started))

    def _kill(self, kernel: "subprocess.Popen[bytes]") -> None:
        """Kills the kernel with the processes that it made, and reads the rest of its console."""
        try:
            os.killpg(kernel.pid, signal.SIGKILL)
        except ProcessLookupError:
            pass
        while not self._has_ended:
            self._read()
        kernel.wait()
