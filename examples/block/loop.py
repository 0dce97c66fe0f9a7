"""One loop for all connections, the device, signals and control lines."""
from __future__ import annotations

import argparse
import os
import selectors
import signal
import socket
import sys
from typing import Callable, Dict, List, Optional, Protocol

from butcherford import Device, UfsError
from machine import ADDRESS, Left, Machine, opened, save

READ_BYTES = 1 << 18
# A connection whose peer does not read is not read from, once so many bytes wait for it.
MOST_WAITING = 1 << 23
CUTS = {signal.SIGUSR1: Left.OLD, signal.SIGUSR2: Left.TORN}
ENDS = (signal.SIGTERM, signal.SIGINT)


class Malformed(Exception):
    """A peer sent what its protocol does not have: its connection is closed."""


class Peer(Protocol):
    """The protocol of a connection."""

    def on_bytes(self, waiting: bytearray) -> None:
        """Takes whole messages from the front of what came."""

    def on_close(self) -> None:
        """The connection is gone."""


class Connection:
    """A socket with what waits to be read by its protocol, and to be sent."""

    def __init__(self, loop: Loop, link: socket.socket) -> None:
        self._loop = loop
        self.link = link
        self.peer: Optional[Peer] = None
        self._came = bytearray()
        self._to_send = bytearray()
        self._is_ending = False
        self.is_open = True

    def send(self, data: bytes) -> None:
        """Sends these bytes, now or once there is room."""
        if self.is_open and not self._is_ending:
            self._to_send += data

    def end(self) -> None:
        """Closes the connection once all is sent. What comes until then is not read."""
        self._is_ending = True

    def flush(self) -> None:
        """Sends what there is room for, and says the loop what to wait for."""
        try:
            if self._to_send:
                del self._to_send[:self.link.send(self._to_send)]
        except BlockingIOError:
            pass
        except OSError:
            self.close()
        if self._is_ending and not self._to_send:
            self.close()
        if self.is_open:
            self._loop.watch(self, reads=not self._is_ending and len(self._to_send) < MOST_WAITING,
                             writes=bool(self._to_send))

    def read(self) -> None:
        """Reads what came, and gives it to the protocol."""
        try:
            came = self.link.recv(READ_BYTES)
        except BlockingIOError:
            return
        except OSError:
            came = b""
        if not came:
            self.close()
            return
        self._came += came
        try:
            if self.peer is not None:
                self.peer.on_bytes(self._came)
        except (Malformed, UfsError) as fault:
            print(f"connection closed: {fault}", file=sys.stderr, flush=True)
            self.end()

    def close(self) -> None:
        """Closes it at once."""
        if self.is_open:
            self.is_open = False
            self._loop.forget(self)
            self.link.close()
            if self.peer is not None:
                self.peer.on_close()


class Loop:
    """Takes connections, and lets the device work between their messages."""

    def __init__(self, machine: Machine, asked: argparse.Namespace,
                 make_peer: Callable[[Connection], Peer]) -> None:
        self._machine = machine
        self._asked = asked
        self._make_peer = make_peer
        self._selector = selectors.DefaultSelector()
        self._events: Dict[Connection, int] = {}
        self._is_ended = False
        self._lines = b""
        self._listener = socket.create_server((ADDRESS, asked.port), backlog=64)
        self._listener.setblocking(False)
        self._selector.register(self._listener, selectors.EVENT_READ, self._accept)
        self._wait_for_signals()
        if asked.control:
            self._selector.register(sys.stdin.fileno(), selectors.EVENT_READ, self._control)

    @property
    def port(self) -> int:
        """The port of the server."""
        return int(self._listener.getsockname()[1])

    # What connections ask for

    def watch(self, connection: Connection, reads: bool, writes: bool) -> None:
        """Waits for this of the connection."""
        events = (selectors.EVENT_READ if reads else 0) | (selectors.EVENT_WRITE if writes else 0)
        if self._events.get(connection) == events:
            return
        if self._events.get(connection):
            self._selector.unregister(connection.link)
        if events:
            self._selector.register(connection.link, events, connection.read)
        self._events[connection] = events

    def forget(self, connection: Connection) -> None:
        """Waits for nothing of it any more."""
        if self._events.pop(connection, 0):
            self._selector.unregister(connection.link)

    # The loop

    def run(self) -> None:
        """Goes on until a signal or a line ends it. Whatever ends it, the dies are saved."""
        is_due = True
        try:
            while not self._is_ended:
                self._take_events(0 if is_due else None)
                is_due = self._step()
        finally:
            self._close_all()
            self._listener.close()
            self._machine.finish()
            save(self._machine.device, self._asked.image)

    def _take_events(self, seconds: Optional[float]) -> None:
        for key, events in self._selector.select(seconds):
            if events & selectors.EVENT_READ:
                key.data()

    def _step(self) -> bool:
        """A step of the device, and what it has to say. A power cut in it closes all connections."""
        cuts = self._machine.cuts
        is_due = self._machine.step()
        if self._machine.cuts != cuts:
            self._close_all()
        for connection in tuple(self._events):
            connection.flush()
        return is_due

    def _close_all(self) -> None:
        for connection in tuple(self._events):
            connection.close()

    def _accept(self) -> None:
        try:
            link, _ = self._listener.accept()
        except OSError:
            return
        link.setblocking(False)
        link.setsockopt(socket.IPPROTO_TCP, socket.TCP_NODELAY, 1)
        connection = Connection(self, link)
        connection.peer = self._make_peer(connection)
        self.watch(connection, reads=True, writes=False)

    # Signals and lines

    def _wait_for_signals(self) -> None:
        """A signal writes its number to a socket, which wakes the loop."""
        self._woken, waker = socket.socketpair()
        self._woken.setblocking(False)
        waker.setblocking(False)
        self._waker = waker
        signal.set_wakeup_fd(waker.fileno())
        for number in (*CUTS, *ENDS):
            signal.signal(number, lambda *_: None)
        self._selector.register(self._woken, selectors.EVENT_READ, self._signals)

    def _signals(self) -> None:
        for number in self._woken.recv(64):
            if number in CUTS:
                self._cut(CUTS[signal.Signals(number)])
            elif number in ENDS:
                self._is_ended = True

    def _control(self) -> None:
        came = os.read(sys.stdin.fileno(), 4096)
        if not came:
            self._selector.unregister(sys.stdin.fileno())
        *lines, self._lines = (self._lines + came).split(b"\n")
        for line in lines:
            self._obey(line.decode("ascii", "replace").split())

    def _obey(self, words: List[str]) -> None:
        """`cut`, with what it leaves and the number of the job; `save`; `end`."""
        if words in (["save"], ["end"]):
            self._is_ended = words == ["end"]
            if not self._is_ended:
                save(self._machine.device, self._asked.image)
            return
        lefts = {it.value: it for it in Left}
        left = lefts.get(words[1], None) if len(words) > 1 else Left.OLD
        jobs = words[2] if len(words) > 2 else "0"
        if words[:1] != ["cut"] or left is None or not jobs.isdecimal() or len(words) > 3:
            print(f"no such line: {' '.join(words)}", file=sys.stderr, flush=True)
        elif int(jobs):
            self._machine.cut_in(left, int(jobs))
        else:
            self._cut(left)

    def _cut(self, left: Left) -> None:
        self._machine.cut(left)
        self._close_all()


def serve(asked: argparse.Namespace, make_peer: Callable[[Machine, Connection], Peer],
          where: Callable[[int], str]) -> int:
    """Opens the device, prints where it is to be found, and serves it until the end."""
    device: Device
    with opened(asked) as device:
        machine = Machine(device, asked.lazy)
        try:
            loop = Loop(machine, asked, lambda connection: make_peer(machine, connection))
        except OSError as fault:
            print(f"port {asked.port}: {fault}", file=sys.stderr)
            return 1
        print(where(loop.port), flush=True)
        try:
            loop.run()
        except OSError as fault:
            print(f"{asked.image or 'the loop'}: {fault}", file=sys.stderr)
            return 1
    return 0
