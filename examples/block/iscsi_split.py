"""Long READs, WRITEs and VERIFYs as several commands of the device, for initiators that do not keep to its limit.

A command of the device has at most `Device.most_blocks` blocks, and it refuses a longer one. With this
between an initiator and the device the parts of a command follow one another. Each part is kept as a whole or
not at all, and the command is not.
"""
from __future__ import annotations

from dataclasses import replace
from typing import NamedTuple, Optional, Protocol

from butcherford import messages
from butcherford.messages import BLOCK, big, number_at
from errand import NO_TASK, STEPS_WHILE_BUSY
from machine import Machine, Task

READ_6, WRITE_6, READ_16, WRITE_16 = 0x08, 0x0A, 0x88, 0x8A
OF_TEN = (messages.READ_10, messages.WRITE_10, messages.VERIFY_10)
ADDRESS_6, ALL_OF_6 = 0x1FFFFF, 256
UNDERFLOW, OVERFLOW = 0x20, 0x40


class Port(Protocol):
    """Where a task hands over its command: the device, or what splits it before."""

    def start(self, task: Task, cdb: bytes, flags: int, expected: int) -> None:
        """Begins a command."""

    def send(self, task: Task, offset: int, data: bytes) -> None:
        """Hands over the data that were asked for."""

    def abort(self, task: Task) -> None:
        """Ends a task without a reply."""


class Span(NamedTuple):
    """Blocks from an address on."""

    address: int
    length: int


def blocks_of(cdb: bytes) -> Optional[Span]:
    """Address and count of a READ, a WRITE or a VERIFY (SBC-3)."""
    if cdb[0] in (READ_6, WRITE_6):
        return Span(number_at(cdb, 1, 3) & ADDRESS_6, cdb[4] or ALL_OF_6)
    if cdb[0] in OF_TEN:
        return Span(number_at(cdb, 2, 4), number_at(cdb, 7, 2))
    if cdb[0] in (READ_16, WRITE_16):
        return Span(number_at(cdb, 2, 8), number_at(cdb, 10, 4))
    return None


def part_of(cdb: bytes, address: int, length: int) -> bytes:
    """A part of a command in the form of the whole one, or in that of ten bytes where it has six."""
    if cdb[0] in (READ_16, WRITE_16):
        return cdb[:2] + big(address, 8) + big(length, 4) + cdb[14:]
    if cdb[0] in OF_TEN:
        return cdb[:2] + big(address, 4) + cdb[6:7] + big(length, 2) + cdb[9:]
    return messages.blocks_cdb(messages.READ_10 if cdb[0] == READ_6 else messages.WRITE_10, address, length)


def has_data(cdb: bytes) -> bool:
    """Whether the blocks come or go as data: those of a VERIFY come only if it compares them."""
    return cdb[0] != messages.VERIFY_10 or cdb[1] & messages.BYTCHK != 0


def port_for(machine: Machine, cdb: bytes, flags: int, expected: int) -> Port:
    """What takes this command. It is the device itself where the command is short enough, and where its data
    are too few: then the device refuses all of it."""
    blocks = blocks_of(cdb)
    if blocks is None or blocks.length <= machine.device.most_blocks:
        return machine
    if flags == messages.TO_DEVICE and expected < blocks.length * BLOCK:
        return machine
    return Parts(machine, blocks)


class Parts:
    """A long command. It is a task of the device for each of its parts, one after another."""

    def __init__(self, machine: Machine, blocks: Span) -> None:
        self.lun = 0
        self.tag = NO_TASK
        self._machine = machine
        self._blocks = blocks
        self._cdb = b""
        self._start = self._end_of_parts = 0
        self._tries = 0
        self._is_over = False

    def start(self, task: Task, cdb: bytes, flags: int, expected: int) -> None:
        """Begins the first part."""
        self._task, self.lun, self._flags, self._expected = task, task.lun, flags, expected
        self._cdb = cdb
        self._choose_parts()
        self._begin()

    def _choose_parts(self) -> None:
        """All parts, or of a command that goes past the end of its unit one part alone, which goes past it too:
        the device refuses that, and nothing is written."""
        address, length = self._blocks
        most, units = self._machine.device.most_blocks, self._machine.device.units
        end = units[self.lun].blocks if self.lun < len(units) else address + length
        self._end_of_parts = length
        if address + length > end:
            self._start = max(end - address, 0) // most * most
            self._end_of_parts = self._start + self._length

    @property
    def _length(self) -> int:
        """How many blocks the part that is open has."""
        return min(self._machine.device.most_blocks, self._blocks.length - self._start)

    @property
    def _base(self) -> int:
        """Where its bytes begin in the data of the command."""
        return self._start * BLOCK if has_data(self._cdb) else 0

    def _begin(self) -> None:
        if not self._is_over:
            cdb = part_of(self._cdb, self._blocks.address + self._start, self._length)
            self._machine.start(self, cdb, self._flags, self._expected_of_part())

    def _expected_of_part(self) -> int:
        """How many bytes the host sends or has room for in the part that is open."""
        return min(max(self._expected - self._base, 0), self._length * BLOCK)

    def send(self, _: Task, offset: int, data: bytes) -> None:
        """Hands over data of the part that is open."""
        self._machine.send(self, offset - self._base, data)

    def abort(self, _: Task) -> None:
        """Ends the part that is open, and begins no other one."""
        self._is_over = True
        self._machine.abort(self)

    def on_reply(self, message: bytes, reply: messages.Reply) -> None:
        """Hands on what concerns the whole command."""
        if reply.code != messages.Code.RESPONSE:
            self._task.on_reply(message, replace(reply, offset=reply.offset + self._base))
        elif reply.status in (messages.BUSY, messages.TASK_SET_FULL) and self._tries < STEPS_WHILE_BUSY:
            self._tries += 1
            self._machine.later(self._begin)
        elif reply.status == messages.GOOD and self._start + self._length < self._end_of_parts:
            self._tries = 0
            self._start += self._length
            self._begin()
        else:
            self._end(message, reply)

    def _end(self, message: bytes, reply: messages.Reply) -> None:
        """The RESPONSE, with the residual of all parts: a command that failed moved what they moved."""
        length = self._blocks.length * BLOCK if has_data(self._cdb) else 0
        if reply.status != messages.GOOD:
            length = self._base + self._expected_of_part() - reply.offset
        told = bytearray(message)
        told[1] = UNDERFLOW if length < self._expected else OVERFLOW if length > self._expected else 0
        self._task.on_reply(bytes(told), replace(reply, offset=abs(self._expected - length)))
