"""The protocol data units of iSCSI (RFC 7143, section 11): a header of 48 bytes, and data padded to four
bytes."""
from __future__ import annotations

import enum
from dataclasses import dataclass
from typing import Iterator, Optional

from butcherford.messages import big, number_at
from loop import Malformed

HEADER = 48
NO_TAG = 0xFFFFFFFF
# How many bytes of data a PDU to this target may have: what it declares as MaxRecvDataSegmentLength.
MOST_DATA = 1 << 18
IMMEDIATE, FINAL, OPCODE = 0x40, 0x80, 0x3F
SERIAL = 1 << 32


class Opcode(enum.IntEnum):
    """What a PDU is. Those from 20h on are the target's."""

    NOP_OUT = 0x00
    COMMAND = 0x01
    TASK_MANAGEMENT = 0x02
    LOGIN = 0x03
    TEXT = 0x04
    DATA_OUT = 0x05
    LOGOUT = 0x06
    SNACK = 0x10
    NOP_IN = 0x20
    RESPONSE = 0x21
    TASK_MANAGEMENT_RESPONSE = 0x22
    LOGIN_RESPONSE = 0x23
    TEXT_RESPONSE = 0x24
    DATA_IN = 0x25
    LOGOUT_RESPONSE = 0x26
    READY_TO_TRANSFER = 0x31
    REJECT = 0x3F


class Reason(enum.IntEnum):
    """Why a PDU is rejected (11.17.1)."""

    SNACK = 0x03
    PROTOCOL_ERROR = 0x04
    NOT_SUPPORTED = 0x05
    INVALID_FIELD = 0x09


@dataclass(frozen=True)
class Pdu:
    """A PDU of an initiator."""

    header: bytes
    extra: bytes
    data: bytes

    @property
    def opcode(self) -> int:
        """What it is."""
        return self.header[0] & OPCODE

    @property
    def is_immediate(self) -> bool:
        """Whether it is outside of the order of commands."""
        return bool(self.header[0] & IMMEDIATE)

    @property
    def flags(self) -> int:
        """Byte 1."""
        return self.header[1]

    @property
    def is_final(self) -> bool:
        """The F bit."""
        return bool(self.header[1] & FINAL)

    @property
    def lun(self) -> bytes:
        """The eight bytes of the LUN."""
        return self.header[8:16]

    @property
    def tag(self) -> int:
        """The Initiator Task Tag."""
        return self.word(16)

    def word(self, start: int) -> int:
        """The four bytes from here on, as a number."""
        return number_at(self.header, start, 4)


def whole_pdus(came: bytearray) -> Iterator[Pdu]:
    """Takes whole PDUs from the front of these bytes."""
    pdu = first_pdu(came)
    while pdu is not None:
        yield pdu
        pdu = first_pdu(came)


def first_pdu(came: bytearray) -> Optional[Pdu]:
    """Takes the first one, if all of it is there."""
    if len(came) < HEADER:
        return None
    extra, data = 4 * came[4], number_at(came, 5, 3)
    if data > MOST_DATA:
        raise Malformed(f"a PDU has {data} bytes of data; the most is {MOST_DATA}")
    start = HEADER + extra
    end = start + data
    if len(came) < end + -data % 4:
        return None
    pdu = Pdu(bytes(came[:HEADER]), bytes(came[HEADER:start]), bytes(came[start:end]))
    del came[:end + -data % 4]
    return pdu


class Fields:
    """The header of a PDU of the target, to be filled."""

    def __init__(self, opcode: Opcode, flags: int = FINAL, tag: int = NO_TAG) -> None:
        self.opcode = opcode
        self._bytes = bytearray(HEADER)
        self._bytes[0:2] = bytes([opcode, flags])
        self.put(16, tag)

    def put(self, start: int, number: int, width: int = 4) -> Fields:
        """Writes a number there."""
        self._bytes[start:start + width] = big(number % (1 << 8 * width), width)
        return self

    def copy(self, start: int, data: bytes) -> Fields:
        """Writes bytes there."""
        self._bytes[start:start + len(data)] = data
        return self

    def with_data(self, data: bytes = b"") -> bytes:
        """The whole PDU."""
        self.put(5, len(data), 3)
        return bytes(self._bytes) + data + bytes(-len(data) % 4)


def is_before(one: int, other: int) -> bool:
    """Whether a serial number is before another one (RFC 1982)."""
    return 0 < (other - one) % SERIAL < SERIAL // 2
