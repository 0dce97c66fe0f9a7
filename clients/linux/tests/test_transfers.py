"""The lists of JESD223 in the guest's memory: their bytes are written out here as the standard has them."""
import pytest

from transfers import Buffer, Status, TransferFault, finish, gather, read_transfer, scatter

LIST, COMMAND = 0x10000, 0x11000
# DW0: command type 1, data from the device, interrupt. DW2: status 0Fh. DW4 and 5: 11000h. DW6: the response
# has 80h double words (512 bytes) from double word 80h on. DW7: 2 entries of the PRDT from 100h on.
UTRD = bytes.fromhex("00000015 00000000 0f000000 00000000 00100100 00000000 80008000 02000001")
# READ(10) of two blocks (JESD220, 10.7.1; SBC-3), with task tag 5 and unit 0.
READ = bytes.fromhex("01400005000000000000000000002000 28000000000700000200000000000000")
# PRDT: 4096 bytes at 14000h and 4096 at 18000h; bytes 12 to 15 are the count less one.
PRDT = bytes.fromhex("0040010000000000 00000000 ff0f0000 0080010000000000 00000000 ff0f0000")
TABLE = [Buffer(0x14000, 4096), Buffer(0x18000, 4096)]


def put(memory, slot=0, utrd=UTRD):
    memory.write(LIST + 32 * slot, utrd)
    memory.write(COMMAND, READ)
    memory.write(COMMAND + 0x400, PRDT)


def test_a_transfer_is_read(memory):
    put(memory, slot=3)
    found = read_transfer(memory, LIST, 3)
    assert (found.slot, found.at, found.tag, found.request) == (3, LIST + 96, 5, READ)
    assert (found.response_at, found.response_room) == (COMMAND + 0x200, 512)
    assert found.buffers == TABLE


def test_a_request_brings_its_data_segment(memory):
    """Bytes 10 and 11 are its length, which is padded to double words."""
    put(memory)
    memory.write(COMMAND + 10, bytes([0, 5]))
    memory.write(COMMAND + 32, b"12345")
    assert read_transfer(memory, LIST, 0).request[32:] == b"12345\0\0\0"


def test_a_response_inside_the_request_is_refused(memory):
    put(memory, utrd=UTRD[:26] + bytes([4, 0]) + UTRD[28:])
    with pytest.raises(TransferFault) as refused:
        read_transfer(memory, LIST, 0)
    assert refused.value.status == Status.INVALID_COMMAND_TABLE


def test_data_are_spread_over_the_buffers(memory):
    """From byte 4000 on, 200 bytes: 96 in the first buffer and 104 in the second."""
    scatter(memory, TABLE, 4000, b"a" * 96 + b"b" * 104)
    assert memory.read(0x14000 + 4000, 96) == b"a" * 96
    assert memory.read(0x18000, 105) == b"b" * 104 + b"\0"
    assert gather(memory, TABLE, 4095, 2) == b"ab"


def test_buffers_that_are_too_short_are_refused(memory):
    with pytest.raises(TransferFault) as refused:
        scatter(memory, TABLE, 8190, b"abc")
    assert refused.value.status == Status.MISMATCHED_DATA_SIZE


def test_a_response_and_its_status_are_written(memory):
    """No more of the response than there is room for; the status is byte 8 of the descriptor."""
    put(memory)
    transfer = read_transfer(memory, LIST, 0)
    finish(memory, transfer, b"r" * 600, Status.SUCCESS)
    assert memory.read(COMMAND + 0x200, 513) == b"r" * 512 + PRDT[:1]
    assert memory.read(LIST + 8, 1) == b"\0"
