"""What a unit of a device of profile 1 tells of itself (SPC-4, SBC-3), read from the data of its commands."""
from __future__ import annotations

import enum
from typing import Iterator, NamedTuple, Optional, Tuple

from .messages import number_at

# REPORT SUPPORTED OPERATION CODES: the command is there, as the standard has it.
AS_STANDARD = 3


class Capacity(NamedTuple):
    """What READ CAPACITY(16) tells.

    `unmaps` says whether blocks may be unmapped (LBPME), and `unmapped_are_zeros` whether they are read as zeros then
    (LBPRZ).
    """

    last_address: int
    block_bytes: int
    unmaps: bool
    unmapped_are_zeros: bool


class VpdPage(enum.IntEnum):
    """The pages of vital product data of a unit."""

    SUPPORTED_PAGES = 0x00
    SERIAL_NUMBER = 0x80
    IDENTIFICATION = 0x83
    MODE_PAGE_POLICY = 0x87
    BLOCK_LIMITS = 0xB0
    BLOCK_CHARACTERISTICS = 0xB1
    PROVISIONING = 0xB2


class ModePage(enum.IntEnum):
    """The mode pages of a unit."""

    ERROR_RECOVERY = 0x01
    CACHING = 0x08
    CONTROL = 0x0A
    ALL = 0x3F


class ModeValues(enum.IntEnum):
    """Which values of a mode page are told. There are no saved ones."""

    CURRENT = 0
    CHANGEABLE = 1
    DEFAULT = 2
    SAVED = 3


class Modes(NamedTuple):
    """What MODE SENSE tells.

    `is_protected`: the unit is protected now, or the device takes no more writes (WP). `takes_fua`: READ and WRITE
    take DPO and FUA (DPOFUA). Each page begins with its code.
    """

    is_protected: bool
    takes_fua: bool
    pages: Tuple[bytes, ...]


class SupportedOperation(NamedTuple):
    """A command that a unit takes. Commands that share an operation code have a service action each."""

    code: int
    action: Optional[int]
    cdb_bytes: int


def capacity_in(told: bytes) -> Capacity:
    """The data of READ CAPACITY(16)."""
    return Capacity(number_at(told, 0, 8), number_at(told, 8, 4), bool(told[14] & 0x80), bool(told[14] & 0x40))


def modes_in(told: bytes, is_short: bool) -> Modes:
    """The data of MODE SENSE(6), whose header is the shorter one, or of MODE SENSE(10)."""
    parameter = told[2] if is_short else told[3]
    # The header ends with how many bytes of block descriptors follow it.
    start = 4 + told[3] if is_short else 8 + number_at(told, 6, 2)
    return Modes(bool(parameter & 0x80), bool(parameter & 0x10), tuple(pages_in(told[start:])))


def pages_in(told: bytes) -> Iterator[bytes]:
    """Mode pages that follow one another. Byte 1 of each counts those behind it."""
    start = 0
    while start < len(told):
        end = start + 2 + told[start + 1]
        yield told[start:end]
        start = end


def operations_in(told: bytes) -> Tuple[SupportedOperation, ...]:
    """The data of REPORT SUPPORTED OPERATION CODES of all commands: eight bytes for each, behind four."""
    entries = (told[start:start + 8] for start in range(4, 4 + number_at(told, 0, 4), 8))
    return tuple(SupportedOperation(it[0], number_at(it, 2, 2) if it[5] & 0x01 else None, number_at(it, 6, 2))
                 for it in entries)


def usage_in(told: bytes) -> Optional[bytes]:
    """The data of REPORT SUPPORTED OPERATION CODES of one command: which bits of its CDB are taken."""
    return told[4:4 + number_at(told, 2, 2)] if told[1] & 0x07 == AS_STANDARD else None
