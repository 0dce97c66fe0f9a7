#!/usr/bin/env python3
"""A device as a PCI function with a UFS host controller, on a socket for user-mode Linux.

usage: server.py SOCKET [--dies N] [--blocks N] [--pages N] [--slots N] [--spare N] [--serial N]
                 [--unit BLOCKS ..]

The kernel finds it by the word virtio_uml.device=SOCKET:1234. When a kernel goes away, so does the power:
what it did not flush is lost, and the next kernel finds the rest. The device has profile 1, and tells the
serial number. It mends when a kernel comes, and its attentions are for the kernel. BUTCHERFORD_LIBRARY names
the library, and PYTHONPATH has the folder of the package `butcherford`.
"""
from __future__ import annotations

import argparse
import selectors
import signal
import socket
import sys
from pathlib import Path
from typing import Optional

from butcherford import Device, UfsError

from dies import Cut, Dies
from front import Front
from pci import Function
from ufshci import Controller
from vhost_user import Connection, GuestMemory, PeerFault

# A host that is so long quiet lets the device write what is in its cache.
QUIET_SECONDS = 0.05
# A kernel that is so long in the middle of a message is gone.
MESSAGE_SECONDS = 10
WAITING_KERNELS = 1
# Of the one unit that there is where the command line names none.
BLOCKS = 32768
# Of profile 0, which does not tell its geometry, Linux would find no disk.
PROFILE = 1


class Host:
    """A kernel at the socket, and all that it is shown, until the kernel goes away or the power does."""

    def __init__(self, peer: socket.socket, selector: selectors.BaseSelector, device: Device, dies: Dies,
                 most_kept: int) -> None:
        memory = GuestMemory()
        controller = Controller(memory, self._raise_line)
        self._function = Function(controller)
        self.front = Front(device, dies, controller, memory, most_kept)
        controller.port = self.front
        self.connection = Connection(peer, selector, memory, self._function.hear)
        self._function.queues = self.connection.queues

    def _raise_line(self) -> None:
        self._function.raise_line()

    def work(self) -> bool:
        """Hands on what the device answers. It says whether there is more to do."""
        has_more = self.front.work()
        self._function.interrupt()
        return has_more


class Server:
    """Serves a device to one kernel after another. `selector` may watch other files too.

    The device mends when a kernel comes, and keeps its attentions: each is for the kernel's first command to a
    LUN. So open it with `mend=False`, and let its power come back so.
    """

    def __init__(self, device: Device, path: Path, most_kept: int) -> None:
        self._device = device
        self._most_kept = most_kept
        self._path = path
        self.selector = selectors.DefaultSelector()
        self.dies = Dies(device)
        self._host: Optional[Host] = None
        self._has_more = False
        self._listener = socket.socket(socket.AF_UNIX)
        try:
            self._listener.bind(str(path))
        except OSError as fault:
            raise OSError(f"{path}: {fault.strerror}; remove the file, or name another one") from fault
        self._listener.listen(WAITING_KERNELS)
        self.selector.register(self._listener, selectors.EVENT_READ, self._accept)

    def close(self) -> None:
        """Ends the server. The device stays open."""
        self.drop_host()
        self.selector.close()
        self._listener.close()
        self._path.unlink()

    def _accept(self) -> None:
        peer, _ = self._listener.accept()
        peer.settimeout(MESSAGE_SECONDS)
        if self._host is not None:
            print("server: there is a kernel already, and another one is turned away", file=sys.stderr)
            peer.close()
            return
        self._device.mend()
        self._host = Host(peer, self.selector, self._device, self.dies, self._most_kept)

    def watch_dies(self, cut: Optional[Cut]) -> None:
        """Programs and erases are counted from now on. The power fails inside the one that is named."""
        self.dies = Dies(self._device, cut)

    def drop_host(self) -> None:
        """The connection ends, and what was open is forgotten."""
        if self._host is not None:
            self._host.connection.close()
            self._host = None
            self._has_more = False

    def step(self, longest: float) -> None:
        """Waits for the kernel, so long at most, and serves it. `PowerFailed` comes out of it."""
        wait = 0.0 if self._has_more else min(longest, QUIET_SECONDS)
        try:
            events = self.selector.select(wait)
            for key, _ in events:
                key.data()
            self._serve(is_quiet=not events)
        except (PeerFault, ConnectionError, socket.timeout) as fault:
            print(f"server: the connection is closed: {fault}", file=sys.stderr)
            self.end_host()

    def _serve(self, *, is_quiet: bool) -> None:
        if self._host is None:
            return
        if not self._host.connection.is_open:
            self.end_host()
            return
        has_work = self._has_more or not is_quiet or self._host.front.rest()
        self._has_more = has_work and self._host.work()

    def end_host(self) -> None:
        """The kernel is gone, and so is the power: the next one finds a device that was opened again."""
        if self._host is not None:
            self.drop_host()
            self._device.power_cut(mend=False)


def read_words() -> argparse.Namespace:
    """What the command line asks for."""
    parser = argparse.ArgumentParser(description=__doc__, formatter_class=argparse.RawTextHelpFormatter)
    parser.add_argument("socket", type=Path)
    numbers = {"dies": 4, "blocks": 256, "pages": 64, "slots": 256, "spare": 16, "serial": 1}
    for name, value in numbers.items():
        parser.add_argument(f"--{name}", type=int, default=value)
    parser.add_argument("--unit", type=int, action="append", help="blocks of a unit, once for each")
    return parser.parse_args()


def main() -> int:
    asked = read_words()
    units = asked.unit or [BLOCKS]
    try:
        with Device(asked.dies, asked.blocks, asked.pages, units, slots=asked.slots,
                    spare=asked.spare, profile=PROFILE, serial=asked.serial, mend=False) as device:
            serve(Server(device, asked.socket, asked.slots // 2))
    except (OSError, UfsError) as fault:
        print(f"server: {fault}", file=sys.stderr)
        return 1
    return 0


def serve(server: Server) -> None:
    """Serves until the keyboard's interrupt, or until the process is asked to end."""
    signal.signal(signal.SIGTERM, signal.default_int_handler)
    print("server: a kernel may come", flush=True)
    try:
        while True:
            server.step(QUIET_SECONDS)
    except KeyboardInterrupt:
        server.close()


if __name__ == "__main__":
    sys.exit(main())
