"""The messages of a host and of the device (UPIUs), as docs/FORMATS.md has them."""
from __future__ import annotations

import enum
from dataclasses import dataclass

BLOCK = 4096
HEADER = 32
GOOD, CHECK_CONDITION, BUSY, TASK_SET_FULL = 0x00, 0x02, 0x08, 0x28
TO_DEVICE, TO_HOST = 0x20, 0x40
LUN_REPORT_LUNS, LUN_BOOT, LUN_RPMB, LUN_DEVICE = 0x81, 0xB0, 0xC4, 0xD0
WELL_KNOWN_LUNS = (LUN_REPORT_LUNS, LUN_BOOT, LUN_RPMB, LUN_DEVICE)
TEST_UNIT_READY = 0x00
READ_10, WRITE_10, VERIFY_10, PRE_FETCH_10, SYNCHRONIZE_CACHE_10, UNMAP = 0x28, 0x2A, 0x2F, 0x34, 0x35, 0x42
READ_16, WRITE_16, PRE_FETCH_16, SYNCHRONIZE_CACHE_16 = 0x88, 0x8A, 0x90, 0x91
INQUIRY, MODE_SENSE_6, SEND_DIAGNOSTIC, MODE_SENSE_10 = 0x12, 0x1A, 0x1D, 0x5A
SERVICE_ACTION_IN_16, READ_CAPACITY_16 = 0x9E, 0x10
MAINTENANCE_IN, REPORT_SUPPORTED_OPERATION_CODES = 0xA3, 0x0C
SECURITY_IN, SECURITY_OUT = 0xA2, 0xB5
FUA, BYTCHK, SELF_TEST, EVPD = 0x08, 0x02, 0x04, 0x01
READS, WRITES = 0x01, 0x81


class Code(enum.IntEnum):
    """The transaction codes that this package sends and hears."""

    NOP_OUT = 0x00
    COMMAND = 0x01
    DATA_OUT = 0x02
    QUERY_REQUEST = 0x16
    LINK_EVENT = 0x1F
    NOP_IN = 0x20
    RESPONSE = 0x21
    DATA_IN = 0x22
    TASK_RESPONSE = 0x24
    READY_TO_TRANSFER = 0x31
    QUERY_RESPONSE = 0x36


class Reset(enum.IntEnum):
    """The resets of which a LINK EVENT tells."""

    HARDWARE = 0x01
    LINK = 0x02


class Opcode(enum.IntEnum):
    """What a query asks for."""

    READ_DESCRIPTOR = 0x01
    READ_ATTRIBUTE = 0x03
    WRITE_ATTRIBUTE = 0x04
    READ_FLAG = 0x05
    SET_FLAG = 0x06
    CLEAR_FLAG = 0x07
    TOGGLE_FLAG = 0x08


WRITING = (Opcode.WRITE_ATTRIBUTE, Opcode.SET_FLAG, Opcode.CLEAR_FLAG, Opcode.TOGGLE_FLAG)


@dataclass(frozen=True)
class Reply:
    """The fields of a reply that this package looks at. `count` is bytes 16 to 19, or 20 to 23 of a query."""

    code: int
    tag: int
    response: int
    status: int
    offset: int
    count: int
    data: bytes


def big(number: int, width: int) -> bytes:
    """The number in so many bytes, the highest first."""
    return number.to_bytes(width, "big")


def number_at(data: bytes, start: int, width: int) -> int:
    """The number that stands there."""
    return int.from_bytes(data[start:start + width], "big")


def header(code: int, lun: int, tag: int, fields: bytes, *, flags: int = 0, function: int = 0,
           segment: int = 0) -> bytes:
    """A header of 32 bytes."""
    first = bytes([code, flags, lun, tag, 0, function, 0, 0, 0, 0])
    return first + big(segment, 2) + fields.ljust(20, b"\0")


def command(lun: int, tag: int, cdb: bytes, flags: int, expected: int) -> bytes:
    """A COMMAND."""
    return header(Code.COMMAND, lun, tag, big(expected, 4) + cdb.ljust(16, b"\0"), flags=flags)


def data_out(lun: int, tag: int, offset: int, data: bytes) -> bytes:
    """A DATA OUT."""
    fields = big(offset, 4) + big(len(data), 4)
    return header(Code.DATA_OUT, lun, tag, fields, segment=len(data)) + data + bytes(-len(data) % 4)


def query(tag: int, opcode: int, idn: int, *, index: int = 0, selector: int = 0, length: int = 0,
          value: int = 0) -> bytes:
    """A QUERY REQUEST."""
    fields = bytes([opcode, idn, index, selector, 0, 0]) + big(length, 2) + big(value, 4)
    function = WRITES if opcode in WRITING else READS
    return header(Code.QUERY_REQUEST, 0, tag, fields, function=function)


def link_event(reset: Reset) -> bytes:
    """A LINK EVENT, with which what stands between a host and a device of profile 1 tells of a reset."""
    return header(Code.LINK_EVENT, 0, 0, b"", function=Reset(reset))


def read_reply(message: bytes) -> Reply:
    """The fields of a reply."""
    at = 20 if message[0] == Code.QUERY_RESPONSE else 16
    segment = message[HEADER:HEADER + number_at(message, 10, 2)]
    return Reply(message[0], message[3], message[6], message[7], number_at(message, 12, 4),
                 number_at(message, at, 4), segment)


def is_long(operation: int) -> bool:
    """Whether a CDB with this operation code has sixteen bytes: its bits 7 to 5 say so (SPC-4)."""
    return operation >> 5 == 4


def blocks_cdb(operation: int, address: int, count: int, *, fua: bool = False, compare: bool = False) -> bytes:
    """The CDB of a READ, a WRITE, a SYNCHRONIZE CACHE or a PRE-FETCH, of ten bytes or of sixteen, or of a VERIFY of
    ten bytes, with BYTCHK 01 where it is to `compare`."""
    first = bytes([operation, (FUA if fua else 0) | (BYTCHK if compare else 0)])
    if is_long(operation):
        return first + big(address, 8) + big(count, 4) + bytes(2)
    return first + big(address, 4) + b"\0" + big(count, 2)


def diagnostic_cdb(self_test: bool) -> bytes:
    """The CDB of a SEND DIAGNOSTIC."""
    return bytes([SEND_DIAGNOSTIC, SELF_TEST if self_test else 0]) + bytes(4)


def capacity_cdb(allocation: int) -> bytes:
    """The CDB of a READ CAPACITY(16)."""
    return bytes([SERVICE_ACTION_IN_16, READ_CAPACITY_16]) + bytes(8) + big(allocation, 4) + bytes(2)


def page_cdb(page: int, allocation: int) -> bytes:
    """The CDB of an INQUIRY of a page of vital product data."""
    return bytes([INQUIRY, EVPD, page]) + big(allocation, 2) + b"\0"


def modes_cdb(operation: int, values: int, page: int, subpage: int, allocation: int) -> bytes:
    """The CDB of a MODE SENSE, of six bytes or of ten."""
    first = bytes([operation, 0, values << 6 | page, subpage])
    if operation == MODE_SENSE_6:
        return first + big(allocation, 1) + b"\0"
    return first + bytes(3) + big(allocation, 2) + b"\0"


def operations_cdb(option: int, code: int, action: int, allocation: int) -> bytes:
    """The CDB of a REPORT SUPPORTED OPERATION CODES with this reporting option."""
    first = bytes([MAINTENANCE_IN, REPORT_SUPPORTED_OPERATION_CODES, option, code])
    return first + big(action, 2) + big(allocation, 4) + bytes(2)


def unmap_cdb(length: int) -> bytes:
    """The CDB of an UNMAP whose list has so many bytes."""
    return bytes([UNMAP]) + bytes(6) + big(length, 2)


def unmap_list(address: int, count: int) -> bytes:
    """The list of an UNMAP: a header of 8 bytes, and one descriptor of 16."""
    return big(22, 2) + big(16, 2) + bytes(4) + big(address, 8) + big(count, 4) + bytes(4)


def security_cdb(operation: int, region: int, length: int) -> bytes:
    """The CDB of a SECURITY PROTOCOL IN or OUT."""
    return bytes([operation, 0xEC, region, 0x01, 0, 0]) + big(length, 4)
