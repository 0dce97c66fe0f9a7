#!/usr/bin/env python3
"""An NBD server, whose exports are the units of a Universal Flash Storage device in software.

Unit N is the export `unitN`; unit 0 has the empty name too. Nobody is authenticated: it listens on 127.0.0.1
alone. SIGUSR1 cuts the power and leaves what dies program or erase at that moment as it was, SIGUSR2 leaves
it torn; all connections close then. SIGTERM and SIGINT end the server. docs/CLIENTS.md says more.
"""
from __future__ import annotations

import argparse
import functools
import sys
from typing import List, Optional

from butcherford.messages import BLOCK, big, number_at
from loop import Connection, Malformed, serve
from machine import ADDRESS, Machine, add_options
from nbd_export import Error, Export, Kind, Request
from nbd_handshake import MOST_REQUEST, Handshake

REQUEST_MAGIC, REPLY_MAGIC = 0x25609513, 0x67446698
REQUEST_HEADER = 28


class Client:
    """A connection, from its handshake to its last request."""

    def __init__(self, machine: Machine, connection: Connection, exports: List[Export]) -> None:
        self._machine = machine
        self._connection = connection
        self._handshake = Handshake(connection, exports)

    def on_bytes(self, waiting: bytearray) -> None:
        """Takes whole messages from the front of what came."""
        while self._connection.is_open and self._take(waiting):
            pass

    def on_close(self) -> None:
        """What is under way ends by itself, and is not answered."""

    def _take(self, came: bytearray) -> bool:
        export = self._handshake.export
        if export is None:
            return self._handshake.take(came)
        request = first_request(came)
        if request is None:
            return False
        if request.kind == Kind.DISCONNECT:
            self._connection.end()
            return False
        export.begin(request, functools.partial(self._answer, request))
        return True

    def _answer(self, request: Request, error: Error) -> None:
        """A simple reply; one to a read has what was read."""
        self._connection.send(big(REPLY_MAGIC, 4) + big(error, 4) + request.cookie)
        if request.kind == Kind.READ and error is Error.NONE:
            self._connection.send(bytes(request.data))


def first_request(came: bytearray) -> Optional[Request]:
    """Takes a request from the front of what came, if all of it is there."""
    if len(came) < REQUEST_HEADER:
        return None
    flags, kind = number_at(came, 4, 2), number_at(came, 6, 2)
    offset, length = number_at(came, 16, 8), number_at(came, 24, 4)
    if number_at(came, 0, 4) != REQUEST_MAGIC:
        raise Malformed("no request of the NBD protocol")
    if length > MOST_REQUEST and kind in (Kind.READ, Kind.WRITE):
        raise Malformed(f"a request of {length} bytes; the most is {MOST_REQUEST}")
    end = REQUEST_HEADER + (length if kind == Kind.WRITE else 0)
    if len(came) < end:
        return None
    request = Request(kind, flags, bytes(came[8:16]), offset, length, bytes(came[REQUEST_HEADER:end]))
    del came[:end]
    return request


def main() -> int:
    """Serves until a signal."""
    parser = argparse.ArgumentParser(description=__doc__,
                                     formatter_class=argparse.RawDescriptionHelpFormatter)
    add_options(parser)
    parser.add_argument("--least-block", type=int, choices=(1, BLOCK), default=BLOCK, help="the announced "
                        f"least length of a request: {BLOCK}, the default, refuses others; 1 reads a block, "
                        "changes a part of it and writes it back")
    asked = parser.parse_args()
    exports: List[Export] = []

    def make_peer(machine: Machine, connection: Connection) -> Client:
        if not exports:
            exports.extend(Export(machine, unit, asked.least_block) for unit in machine.device.units)
            machine.on_cut.extend(export.forget for export in exports)
        return Client(machine, connection, exports)

    return serve(asked, make_peer, lambda port: f"nbd://{ADDRESS}:{port}/unit0")


if __name__ == "__main__":
    sys.exit(main())
