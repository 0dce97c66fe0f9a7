"""Tests of the plain model, with lines of scripts and what they print by docs/FORMATS.md and docs/PROFILE_1.md."""
import unittest

import plain_host
from every_command import big, header, response, transfer
from plain_host import MANY

CONFIG, UNITS, PROFILE = (1, 40, 16, 1, 64, 0), ((16, 0, 0),), (1, 1)
BLOCK = 4096
# The flags of a COMMAND whose data go to the device, and BYTCHK 01 in a CDB.
TO_DEVICE, COMPARED = 0x20, 0x02
GOOD, CHECK = 0x00, 0x02
MISCOMPARE, READ_ERROR, NO_FIELD, OUT_OF_RANGE = (0x0E, 0x1D, 0), (3, 0x11, 0), (5, 0x24, 0), (5, 0x21, 0)
ONES, TWOS, ZEROS = b"\1" * BLOCK, b"\2" * BLOCK, bytes(BLOCK)


def asked(code, tag, address, count, option=0, flags=TO_DEVICE, expected=None):
    """A COMMAND of ten bytes with blocks of unit 0."""
    cdb = bytes([code, option, *big(address, 4), 0, *big(count, 2)]).ljust(16, b"\0")
    return header(0x01, flags, 0, tag, fields=big(BLOCK * count if expected is None else expected, 4) + cdb)


class Compares(unittest.TestCase):
    """VERIFY with BYTCHK 01: block 0 has ones and block 1 twos, on the dies; the others were never written."""

    def setUp(self):
        self.model = plain_host.Model(CONFIG, UNITS, PROFILE)
        self.hear(f"settle {MANY}", f"settle {MANY}")
        self.host(header(0x01, tag=1))
        self.reply(response(0, 1, 0, 0, CHECK, (6, 0x29, 0)))
        self.write(0, ONES, TWOS)
        self.hear(f"settle {MANY}", f"settle {MANY}")
        self.hear("turn", "turn no")

    def hear(self, line, printed):
        """The model takes it that this is printed."""
        self.assertTrue(self.model.hear(plain_host.event_of(line), printed), f"{line}: {printed}")

    def host(self, message, fault=0):
        self.hear(f"host {message.hex()}", f"host fault {fault}" if fault else "host ok")

    def reply(self, message):
        """This reply alone may come."""
        self.assertEqual(f"reply {message.hex()}" if message else "reply none", self.model.wanted(("reply",)))
        self.hear("reply", f"reply {message.hex()}" if message else "reply none")

    def write(self, address, *blocks):
        self.host(asked(0x2A, 2, address, len(blocks)))
        for at, block in enumerate(blocks):
            self.bring(2, BLOCK * at, block)
        self.reply(response(0, 2, BLOCK * len(blocks), BLOCK * len(blocks)))

    def bring(self, tag, offset, block):
        self.reply(transfer(0x31, 0, tag, offset, count=BLOCK))
        self.host(transfer(0x02, 0, tag, offset, block))

    def verify(self, address, count, **others):
        self.host(asked(0x2F, 3, address, count, COMPARED, **others))

    def read(self, ending="ok"):
        """A die reads a block."""
        self.hear("take 0", "take 0 read 5 0")
        self.hear(f"done 0 {ending}", "done 0 yes")

    def test_each_block_is_asked_for_once_its_own_was_read(self):
        self.verify(0, 2, expected=2 * BLOCK + 1)
        for offset, block in ((0, ONES), (BLOCK, TWOS)):
            self.reply(b"")
            self.read()
            self.bring(3, offset, block)
        self.reply(response(0, 3, 2 * BLOCK + 1, 2 * BLOCK))

    def test_blocks_that_need_no_read_are_asked_for_at_once(self):
        self.write(2, TWOS)
        self.verify(2, 2)
        self.bring(3, 0, TWOS)
        self.bring(3, BLOCK, ZEROS)
        self.reply(response(0, 3, 2 * BLOCK, 2 * BLOCK))

    def test_a_block_that_differs_ends_it(self):
        for place in (0, BLOCK - 1):
            self.verify(4, 3)
            self.bring(3, 0, ZEROS)
            other = bytearray(ZEROS)
            other[place] = 0x80
            self.bring(3, BLOCK, bytes(other))
            self.reply(response(0, 3, 3 * BLOCK, 2 * BLOCK, CHECK, MISCOMPARE))

    def test_blocks_are_those_that_were_there_at_the_command(self):
        self.write(2, TWOS)
        self.verify(2, 1)
        self.reply(transfer(0x31, 0, 3, 0, count=BLOCK))
        self.write(2, ONES)
        self.host(transfer(0x02, 0, 3, 0, TWOS))
        self.reply(response(0, 3, BLOCK, BLOCK))

    def test_a_block_that_cannot_be_read_is_told_in_the_place_of_what_asks_for_it(self):
        self.verify(0, 2)
        self.read()
        self.bring(3, 0, ONES)
        self.read("fail")
        self.reply(response(0, 3, 2 * BLOCK, BLOCK, CHECK, READ_ERROR))

    def test_no_other_data_are_taken(self):
        self.verify(4, 2)
        self.host(transfer(0x02, 0, 3, 0, ZEROS), 8)
        self.reply(transfer(0x31, 0, 3, 0, count=BLOCK))
        for offset, count in ((BLOCK, BLOCK), (0, BLOCK // 2), (1, BLOCK)):
            self.host(transfer(0x02, 0, 3, offset, bytes(count)), 8)
        self.host(transfer(0x02, 0, 3, 0, ZEROS))
        self.host(transfer(0x02, 0, 3, 0, ZEROS), 8)
        self.bring(3, BLOCK, ZEROS)
        self.reply(response(0, 3, 2 * BLOCK, 2 * BLOCK))

    def test_it_is_refused_as_a_write_and_for_fewer_bytes_too(self):
        self.verify(0, 0, flags=0, expected=16)
        self.reply(response(0, 3, 16, 0))
        for others in ({"flags": 0}, {"flags": 0x40}, {"expected": 2 * BLOCK - 1}, {"expected": 0}):
            self.verify(0, 2, **others)
            self.reply(response(0, 3, others.get("expected", 2 * BLOCK), 0, CHECK, NO_FIELD))
        self.verify(0, 33)
        self.reply(response(0, 3, 33 * BLOCK, 0, CHECK, NO_FIELD))
        self.verify(15, 2)
        self.reply(response(0, 3, 2 * BLOCK, 0, CHECK, OUT_OF_RANGE))

    def test_an_abort_and_a_reset_end_it(self):
        self.verify(4, 1)
        self.reply(transfer(0x31, 0, 3, 0, count=BLOCK))
        self.host(header(0x04, tag=1, five=0x01, fields=bytes([0, 0, 0, 0, 0, 0, 0, 3])))
        self.host(transfer(0x02, 0, 3, 0, ZEROS), 8)
        self.reply(header(0x24, tag=1))
        self.verify(4, 1)
        self.host(header(plain_host.LINK_EVENT, five=0x02))
        self.reply(b"")
        self.host(transfer(0x02, 0, 3, 0, ZEROS), 8)


class Queries(unittest.TestCase):
    """Queries of profile 1, over a device that is mended and has nothing open."""

    def setUp(self):
        self.model = plain_host.Model(CONFIG, UNITS, PROFILE)
        self.hear(f"settle {MANY}", f"settle {MANY}")

    def hear(self, line, printed):
        self.assertTrue(self.model.hear(plain_host.event_of(line), printed), f"{line}: {printed}")

    def ask(self, opcode, idn, index=0, selector=0, length=0, value=0, function=None):
        """The answer to a query: its code, how many bytes and which value it tells, and the bytes."""
        function = function or (0x01 if opcode in (1, 3, 5) else 0x81)
        fields = bytes([opcode, idn, index, selector, 0, 0]) + big(length, 2) + big(value, 4)
        self.hear(f"host {header(0x16, tag=5, five=function, fields=fields).hex()}", "host ok")
        if self.model.wanted(("reply",)) == "reply none":
            self.hear(f"settle {MANY}", f"settle {MANY}")
        answer = bytes.fromhex(self.model.wanted(("reply",)).removeprefix("reply "))
        self.hear("reply", f"reply {answer.hex()}")
        self.assertEqual(fields[:4], answer[12:16])
        size = int.from_bytes(answer[18:20], "big")
        return answer[6], size, int.from_bytes(answer[20:24], "big"), answer[32:32 + size]

    def code(self, *words, **fields):
        return self.ask(*words, **fields)[0]

    def value(self, *words, **fields):
        code, size, value, _ = self.ask(*words, **fields)
        self.assertEqual((0, 0), (code, size))
        return value

    def reset(self, kind):
        self.hear(f"host {header(plain_host.LINK_EVENT, five=kind).hex()}", "host ok")

    def test_lines_of_the_table_in_their_order(self):
        # Each has a fault of the lines behind it, too.
        for code, fields in ((0xFE, (9, 0x01, 1, 1, 1)), (0x00, (0, 0x01, 1, 1, 1)), (0xFD, (3, 0x01, 1, 1, 1)),
                             (0xFD, (4, 0x05, 1, 1, 1, 9)), (0xFC, (4, 0x02, 1, 1, 1, 1)), (0xFC, (1, 0x05, 0, 1)),
                             (0xFC, (1, 0x02, 8, 1)), (0xFB, (4, 0x02, 0, 1, 1)), (0xFB, (4, 0x10, 0, 0, 1, 1)),
                             (0xFB, (3, 0x10, 0, 16, 1)), (0xF6, (3, 0x0F, 0, 0, 1)), (0xF6, (5, 0x06, 0, 0, 1)),
                             (0xF7, (4, 0x02, 0, 0, 1, 1)), (0xF7, (6, 0x05, 0, 0, 1)), (0xF7, (8, 0x08, 0, 0, 1)),
                             (0xF7, (7, 0x06, 0, 0, 1)), (0xF7, (2, 0x07, 0, 0, 1)), (0xF9, (4, 0x03, 0, 0, 1, 16)),
                             (0xF9, (1, 0x05, 1)), (0xFA, (4, 0x03, 0, 0, 0, 16)), (0xFA, (4, 0x07, 0, 0, 0, 7)),
                             (0xFA, (4, 0x0A, 0, 0, 0, 4)), (0xFA, (4, 0x03, 0, 0, 0, 0x100)),
                             (0xF8, (4, 0x0B, 0, 0, 0, 1)), (0xF8, (4, 0x0B, 0, 0, 0, 0xFFFFFFFF))):
            with self.subTest(f"{code:02x}", fields=fields):
                self.assertEqual((code, 0, 0, b""), self.ask(*fields))
        self.assertEqual(0xFE, self.code(3, 0x02, function=0x81))
        self.assertEqual(0xFE, self.code(4, 0x02, function=0x01))

    def test_attributes_tell_what_was_written(self):
        for idn, values, first in ((0x03, (15, 7), 0), (0x0A, (0, 3), 1), (0x00, (2, 1), 0)):
            self.assertEqual(first, self.value(3, idn, value=5))
            for value in values:
                self.assertEqual(value, self.value(4, idn, value=value))
                self.assertEqual(value, self.value(3, idn))
        for idn, value in ((0x02, 0x11), (0x06, 0), (0x07, 8), (0x08, 8), (0x0B, 1), (0x14, 0), (0x15, 0), (0x16, 0)):
            self.assertEqual(value, self.value(3, idn))
        self.assertEqual(0, self.value(4, 0x0F, value=0xFFFFFFFF))
        self.assertEqual(0, self.value(4, 0x10, 0, 15))

    def test_flags_are_set_cleared_and_toggled(self):
        told = [self.value(opcode, 0x04) for opcode in (5, 8, 5, 8, 7, 5, 8, 7, 6, 6, 8)]
        self.assertEqual([1, 0, 0, 1, 0, 0, 1, 0, 1, 1, 0], told)
        for idn in (0x05, 0x08):
            self.assertEqual(0, self.value(7, idn))
        for idn in (0x05, 0x08, 0x09, 0x0B):
            self.assertEqual(0, self.value(5, idn))

    def test_what_a_reset_and_a_stop_leave(self):
        for kind, clock in ((0x01, 3), (0x02, 3), (None, 1)):
            for opcode, idn, value in ((4, 0x03, 9), (4, 0x0A, 3), (7, 0x04, 0)):
                self.value(opcode, idn, value=value)
            if kind:
                self.reset(kind)
            else:
                self.hear("stop", "stop ok")
            self.assertEqual((0, clock, 1), (self.value(3, 0x03), self.value(3, 0x0A), self.value(5, 0x04)))

    def test_descriptors_are_told_whole_and_in_part(self):
        self.assertEqual((0, 6, 0, bytes.fromhex("060401600300")), self.ask(1, 0x04, length=0xFFFF))
        self.assertEqual((0, 3, 0, bytes.fromhex("060401")), self.ask(1, 0x04, length=3))
        self.assertEqual((0, 10, 0, bytes.fromhex("0a05 0030 0030 0030 0031")), self.ask(1, 0x05, 5, length=10))
        self.assertEqual(bytes.fromhex("230207"), self.ask(1, 0x02, 7, length=3)[3])
        self.assertEqual(bytes.fromhex("0200"), self.ask(1, 0x02, 0xC4, length=35)[3][17:19])

    def test_profile_0_has_none_of_it(self):
        self.model = plain_host.Model(CONFIG, UNITS)
        for fields in ((1, 0x01), (1, 0x04), (1, 0x05, 1), (1, 0x07), (1, 0x08), (3, 0x02), (4, 0x03), (3, 0x0B),
                       (5, 0x04), (8, 0x04), (5, 0x06)):
            self.assertEqual(0xFD, self.code(*fields))
        for index in (1, 7, 0xC4):
            self.assertEqual(0xFC, self.code(1, 0x02, index, length=35))


if __name__ == "__main__":
    unittest.main()
