"""The bytes of messages and frames: those that README, docs/GUIDE.md and docs/FORMATS.md spell out."""
import hashlib
import hmac

from butcherford import messages
from butcherford.messages import Code, Opcode
from butcherford.rpmb import Frame, mac_of


def test_write_of_readme():
    cdb = messages.blocks_cdb(messages.WRITE_10, 0, 1, fua=True)
    told = messages.command(0, 1, cdb, messages.TO_DEVICE, 4096)
    assert told.hex() == "012000010000000000000000000010002a080000000000000100000000000000"


def test_data_out_of_readme():
    told = messages.data_out(0, 1, 0, b"\x5a" * 4096)
    assert told[:32].hex() == "0200000100000000000010000000000000001000000000000000000000000000"
    assert told[32:] == b"\x5a" * 4096


def test_data_out_is_padded_to_four_bytes():
    assert messages.data_out(0, 1, 0, b"abcde")[32:] == b"abcde\0\0\0"


def test_read_of_readme():
    told = messages.command(0, 2, messages.blocks_cdb(messages.READ_10, 0, 1), messages.TO_HOST, 4096)
    assert told.hex() == "0140000200000000000000000000100028000000000000000100000000000000"


def test_unmap_of_guide():
    told = messages.command(0, 9, messages.unmap_cdb(24), messages.TO_DEVICE, 24)
    assert told.hex() == "0120000900000000000000000000001842000000000000001800000000000000"
    assert messages.unmap_list(5, 2).hex() == "001600100000000000000000000000050000000200000000"


def test_cdbs_of_profile_1():
    """Those of docs/PROFILE_1.md, and REPORT SUPPORTED OPERATION CODES of SPC-4."""
    told = [messages.blocks_cdb(messages.READ_16, 0x0102030405060708, 5),
            messages.blocks_cdb(messages.WRITE_16, 9, 128, fua=True),
            messages.blocks_cdb(messages.SYNCHRONIZE_CACHE_16, 0, 0),
            messages.blocks_cdb(messages.PRE_FETCH_16, 5, 512),
            messages.blocks_cdb(messages.PRE_FETCH_10, 5, 512),
            messages.blocks_cdb(messages.VERIFY_10, 5, 512),
            messages.blocks_cdb(messages.VERIFY_10, 0x01020304, 5, compare=True),
            messages.diagnostic_cdb(True), messages.capacity_cdb(32), messages.page_cdb(0xB0, 64),
            messages.modes_cdb(messages.MODE_SENSE_10, 0, 0x08, 0, 28),
            messages.modes_cdb(messages.MODE_SENSE_6, 1, 0x3F, 0xFF, 48),
            messages.operations_cdb(2, 0x9E, 0x10, 64)]
    assert [it.ljust(16, b"\0").hex() for it in told] == [
        "88000102030405060708000000050000", "8a080000000000000009000000800000", "91" + "00" * 15,
        "90000000000000000005000002000000", "34000000000500020000000000000000",
        "2f000000000500020000000000000000", "2f020102030400000500000000000000", "1d04" + "00" * 14,
        "9e100000000000000000000000200000", "1201b000400000000000000000000000", "5a000800000000001c00000000000000",
        "1a007fff300000000000000000000000", "a30c029e001000000040000000000000"]


def test_security_commands_of_guide():
    out = messages.command(0xC4, 0, messages.security_cdb(messages.SECURITY_OUT, 2, 512), messages.TO_DEVICE, 512)
    assert out.hex() == "0120c400000000000000000000000200b5ec0201000000000200000000000000"
    back = messages.command(0xC4, 0, messages.security_cdb(messages.SECURITY_IN, 2, 512), messages.TO_HOST, 512)
    assert back.hex() == "0140c400000000000000000000000200a2ec0201000000000200000000000000"


def test_queries():
    """Byte 5 is the function; 12 opcode, 13 IDN, 14 index, 15 selector; 18 and 19 length; 20 to 23 value."""
    read = messages.query(3, Opcode.READ_DESCRIPTOR, 2, index=1, length=35)
    assert read.hex() == "16000003" "00010000" "00000000" "01020100" "00000023" "00000000" "0000000000000000"
    write = messages.query(4, Opcode.WRITE_ATTRIBUTE, 0, value=2)
    assert write.hex() == "16000004" "00810000" "00000000" "04000000" "00000000" "00000002" "0000000000000000"
    context = messages.query(4, Opcode.WRITE_ATTRIBUTE, 0x10, index=1, selector=0x0F, value=2)
    assert context.hex() == "16000004" "00810000" "00000000" "0410010f" "00000000" "00000002" "0000000000000000"
    for opcode, function in ((Opcode.READ_FLAG, 0x01), (Opcode.SET_FLAG, 0x81), (Opcode.CLEAR_FLAG, 0x81),
                             (Opcode.TOGGLE_FLAG, 0x81)):
        told = messages.query(5, opcode, 3)
        assert (told[5], told[12], told[13]) == (function, opcode, 3)
    assert (Opcode.CLEAR_FLAG, Opcode.TOGGLE_FLAG) == (7, 8)


def test_reply_fields():
    ready = bytes.fromhex("31000001000000000000000000001000" "00000800") + bytes(12)
    assert messages.read_reply(ready) == messages.Reply(Code.READY_TO_TRANSFER, 1, 0, 0, 0x1000, 0x800, b"")
    told = messages.read_reply(bytes.fromhex("3600000700010000" "00000000" "03000000" "00000000" "00000002") + bytes(8))
    assert (told.code, told.tag, told.response, told.count) == (Code.QUERY_RESPONSE, 7, 0, 2)


def test_frame_and_its_mac():
    """Bytes 484 to 499 are the nonce; then come counter, address, count, result and type."""
    frame = Frame(3, result=5, count=1, address=0x0102, counter=0x01020304, nonce=b"n" * 16, data=b"d" * 256,
                  mac=b"m" * 32)
    told = frame.packed()
    assert told[:196] == bytes(196) and told[196:228] == b"m" * 32 and told[228:484] == b"d" * 256
    assert told[484:].hex() == (b"n" * 16).hex() + "01020304" "0102" "0001" "0005" "0003"
    assert Frame.read(told) == frame
    assert mac_of(b"k" * 32, [frame]) == hmac.new(b"k" * 32, told[228:], hashlib.sha256).digest()
