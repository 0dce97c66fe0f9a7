"""The lists in the guest's memory by which a UFS host controller is given its work.

They are "UTP Transfer Request Descriptor" (UTRD), "UTP Command Descriptor" with its "Physical Region
Description Table" (PRDT), and "UTP Task Management Request Descriptor" (UTMRD) of JESD223. Their numbers are
little-endian.
"""
from __future__ import annotations

import enum
import struct
from dataclasses import dataclass
from typing import Iterator, List, NamedTuple, Protocol, Sequence

from butcherford.messages import HEADER, number_at

# A UTRD has eight double words. Byte 8 is the overall command status; then come the address of the command
# descriptor, and length and offset of the response and of the PRDT. All but the PRDT's length, which counts
# entries, are in double words.
TRANSFER = struct.Struct("<8xB7xQHHHH")
STATUS_AT = 8
DOUBLE_WORD = 4
# An entry of the PRDT: address, reserved, and in bits 17..0 how many bytes there are, less one.
ENTRY = struct.Struct("<QII")
COUNT_MASK = (1 << 18) - 1
# A UTMRD: four double words of which byte 8 is the status, the request and the response.
MANAGEMENT_BYTES, MANAGEMENT_REQUEST_AT, MANAGEMENT_RESPONSE_AT = 80, 16, 48
SEGMENT_LENGTH_AT = 10


class Memory(Protocol):
    """The memory in which the lists stand."""

    def read(self, address: int, length: int) -> bytes:
        """The bytes that stand there."""

    def write(self, address: int, data: bytes) -> None:
        """Writes bytes there."""


class Status(enum.IntEnum):
    """The overall command status (OCS) of a descriptor."""

    SUCCESS = 0x0
    INVALID_COMMAND_TABLE = 0x1
    MISMATCHED_DATA_SIZE = 0x3
    ABORTED = 0x6
    FATAL_ERROR = 0x7


class TransferFault(Exception):
    """A transfer cannot be done as its descriptor says."""

    def __init__(self, status: Status, text: str) -> None:
        super().__init__(text)
        self.status = status


class Buffer(NamedTuple):
    """A part of the guest's memory that data go to or come from."""

    address: int
    length: int


@dataclass
class Transfer:
    """What a UTRD asks for. `request` is a whole message (UPIU)."""

    slot: int
    at: int
    request: bytes
    response_at: int
    response_room: int
    buffers: List[Buffer]

    @property
    def tag(self) -> int:
        """The task tag (JESD220, 10.6.2)."""
        return self.request[3]


def list_entry(base: int, slot: int) -> int:
    """Where the UTRD of a slot stands."""
    return base + TRANSFER.size * slot


def read_transfer(memory: Memory, base: int, slot: int) -> Transfer:
    """The transfer that a slot of the list at `base` asks for."""
    at = list_entry(base, slot)
    _, command_at, response_length, response_offset, entries, table_offset = \
        TRANSFER.unpack(memory.read(at, TRANSFER.size))
    header = memory.read(command_at, HEADER)
    segment = number_at(header, SEGMENT_LENGTH_AT, 2)
    # Double words from the request's first byte on up to the response are its room.
    if response_offset * DOUBLE_WORD < HEADER + segment:
        raise TransferFault(Status.INVALID_COMMAND_TABLE, "the response stands in the request")
    rest = memory.read(command_at + HEADER, segment + -segment % DOUBLE_WORD)
    table = memory.read(command_at + table_offset * DOUBLE_WORD, entries * ENTRY.size)
    return Transfer(slot, at, header + rest, command_at + response_offset * DOUBLE_WORD,
                    response_length * DOUBLE_WORD, read_table(table))


def read_table(table: bytes) -> List[Buffer]:
    """The buffers of a PRDT."""
    return [Buffer(address, (count & COUNT_MASK) + 1) for address, _, count in ENTRY.iter_unpack(table)]


def parts(buffers: Sequence[Buffer], offset: int, count: int) -> Iterator[Buffer]:
    """Where `count` bytes from `offset` on of the data of a transfer stand."""
    start, left = offset, count
    for buffer in buffers:
        some = min(left, buffer.length - start)
        if some > 0:
            yield Buffer(buffer.address + start, some)
            left -= some
        start = max(0, start - buffer.length)
    if left:
        raise TransferFault(Status.MISMATCHED_DATA_SIZE, f"the buffers lack {left} bytes")


def gather(memory: Memory, buffers: Sequence[Buffer], offset: int, count: int) -> bytes:
    """The data that the host sends."""
    return b"".join(memory.read(*part) for part in parts(buffers, offset, count))


def scatter(memory: Memory, buffers: Sequence[Buffer], offset: int, data: bytes) -> None:
    """Hands the host data."""
    done = 0
    for address, some in list(parts(buffers, offset, len(data))):
        memory.write(address, data[done:done + some])
        done += some


def finish(memory: Memory, transfer: Transfer, response: bytes, status: Status) -> None:
    """Writes the response of a transfer and its status."""
    if response:
        memory.write(transfer.response_at, response[:transfer.response_room])
    memory.write(transfer.at + STATUS_AT, bytes([status]))


def read_management(memory: Memory, base: int, slot: int) -> bytes:
    """The TASK MANAGEMENT REQUEST that a slot of the list at `base` holds."""
    return memory.read(base + MANAGEMENT_BYTES * slot + MANAGEMENT_REQUEST_AT, HEADER)


def finish_management(memory: Memory, base: int, slot: int, response: bytes, status: Status) -> None:
    """Writes the response of a task management request and its status."""
    at = base + MANAGEMENT_BYTES * slot
    if response:
        memory.write(at + MANAGEMENT_RESPONSE_AT, response[:HEADER])
    memory.write(at + STATUS_AT, bytes([status]))
