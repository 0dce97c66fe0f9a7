"""A unit of the device as an export of NBD: reads, writes, flushes and trims as commands of the device."""
from __future__ import annotations

import enum
from collections import deque
from typing import Callable, Deque, Iterator, Optional, Tuple

from butcherford import Unit, messages
from butcherford.messages import BLOCK
from errand import Blocks, Command, Commands, Errand, expect
from machine import Machine

DATA_PROTECT, ILLEGAL_REQUEST = 7, 5
FUA = 1


class Kind(enum.IntEnum):
    """What a request asks for."""

    READ = 0
    WRITE = 1
    DISCONNECT = 2
    FLUSH = 3
    TRIM = 4


class Error(enum.IntEnum):
    """The errors of the protocol that are used here."""

    NONE = 0
    EPERM = 1
    EIO = 5
    EINVAL = 22
    ENOSPC = 28
    ENOTSUP = 95


class Request:
    """A request, and what it came to."""

    def __init__(self, kind: int, flags: int, cookie: bytes, offset: int, length: int,
                 data: bytes = b"") -> None:
        self.kind = kind
        self.flags = flags
        self.cookie = cookie
        self.offset = offset
        self.length = length
        self.data = bytearray(data)
        """What is to be written, or what was read."""

    @property
    def changes_blocks(self) -> bool:
        """Whether it is a write or a trim."""
        return self.kind in (Kind.WRITE, Kind.TRIM)


class Export:
    """A unit, for all connections.

    `least_block` is the announced least length, 4096 or 1. With 1 a write of a part of a block reads the
    block, and writes it back. So that no other write comes between, writes and trims go one by one then.
    """

    def __init__(self, machine: Machine, unit: Unit, least_block: int) -> None:
        self.name = f"unit{unit.number}"
        self.size = unit.blocks * BLOCK
        self.least_block = least_block
        self._machine = machine
        self._lun = unit.number
        self._most = machine.device.most_blocks
        self._waiting: Deque[Tuple[Request, Callable[[Error], None]]] = deque()
        self._is_writing = False

    def begin(self, request: Request, ended: Callable[[Error], None]) -> None:
        """Begins a request. `ended` hears how it ended."""
        fault = self._fault(request)
        if fault is not Error.NONE:
            ended(fault)
        elif self.least_block < BLOCK and request.changes_blocks:
            self._waiting.append((request, ended))
            self._next_write()
        else:
            self._run(request, ended)

    def forget(self) -> None:
        """The power went: nothing is under way."""
        self._waiting.clear()
        self._is_writing = False

    def _fault(self, request: Request) -> Error:
        """Why a request is refused before the device sees it."""
        if request.kind not in (Kind.READ, Kind.WRITE, Kind.FLUSH, Kind.TRIM) or request.flags & ~FUA:
            return Error.EINVAL
        if request.kind == Kind.FLUSH:
            return Error.NONE if not request.offset and not request.length else Error.EINVAL
        if not request.length or request.offset % self.least_block or request.length % self.least_block:
            return Error.EINVAL
        if request.offset + request.length > self.size:
            return Error.ENOSPC if request.kind == Kind.WRITE else Error.EINVAL
        return Error.NONE

    def _next_write(self) -> None:
        if self._waiting and not self._is_writing:
            self._is_writing = True
            request, ended = self._waiting.popleft()
            self._run(request, lambda error: self._write_ended(error, ended))

    def _write_ended(self, error: Error, ended: Callable[[Error], None]) -> None:
        self._is_writing = False
        ended(error)
        self._next_write()

    def _run(self, request: Request, ended: Callable[[Error], None]) -> None:
        commands = {Kind.READ: self._read, Kind.WRITE: self._write, Kind.FLUSH: self._flush,
                    Kind.TRIM: self._trim}
        row = commands[Kind(request.kind)](request)
        Errand(self._machine, row, lambda key: ended(error_of(key))).begin()

    # What the requests are for the device

    def _read(self, request: Request) -> Commands:
        first, end = request.offset // BLOCK, -(-(request.offset + request.length) // BLOCK)
        data = yield from self._read_blocks(first, end)
        start = request.offset % BLOCK
        request.data = data[start:start + request.length]

    def _read_blocks(self, first: int, end: int) -> Blocks:
        found = bytearray()
        for start, count in self._parts(first, end):
            cdb = messages.blocks_cdb(messages.READ_10, start, count)
            found += expect((yield Command(self._lun, cdb, receive=count * BLOCK)))
        return found

    def _write(self, request: Request) -> Commands:
        first, end = request.offset // BLOCK, -(-(request.offset + request.length) // BLOCK)
        data = request.data
        if request.offset % BLOCK or request.length % BLOCK:
            data = yield from self._filled(request, first, end)
        for start, count in self._parts(first, end):
            cdb = messages.blocks_cdb(messages.WRITE_10, start, count, fua=bool(request.flags & FUA))
            at = (start - first) * BLOCK
            expect((yield Command(self._lun, cdb, send=bytes(data[at:at + count * BLOCK]))))

    def _filled(self, request: Request, first: int, end: int) -> Blocks:
        """The blocks of a write whose first or last one is not whole."""
        head = yield from self._read_blocks(first, first + 1)
        tail = yield from self._read_blocks(end - 1, end)
        start, stop = request.offset % BLOCK, (request.offset + request.length) % BLOCK
        return head[:start] + request.data + (tail[stop:] if stop else b"")

    def _flush(self, _: Request) -> Commands:
        cdb = messages.blocks_cdb(messages.SYNCHRONIZE_CACHE_10, 0, 0)
        expect((yield Command(self._lun, cdb)))

    def _trim(self, request: Request) -> Commands:
        """The whole blocks of it become zeros. An UNMAP has no FUA, so a flush follows where that is asked
        for."""
        first, end = -(-request.offset // BLOCK), (request.offset + request.length) // BLOCK
        for start, count in self._parts(first, end):
            told = messages.unmap_list(start, count)
            expect((yield Command(self._lun, messages.unmap_cdb(len(told)), send=told)))
        if request.flags & FUA:
            yield from self._flush(request)

    def _parts(self, first: int, end: int) -> Iterator[Tuple[int, int]]:
        """Address and count of each command that so many blocks take."""
        for start in range(first, end, self._most):
            yield start, min(self._most, end - start)


def error_of(key: Optional[int]) -> Error:
    """The error for a sense key, or for None, which is success."""
    if key is None:
        return Error.NONE
    return {DATA_PROTECT: Error.EPERM, ILLEGAL_REQUEST: Error.EINVAL}.get(key, Error.EIO)
