"""Tests that the scripts of tools/every_command.py have each command, and printed what was foretold."""
import unittest

import every_command
import parameters

# Operation codes of commands in each profile, codes of messages that a host sends, functions of task management, and
# opcodes of queries.
OPERATIONS = {0x00, 0x03, 0x08, 0x0A, 0x12, 0x25, 0x28, 0x2A, 0x35, 0x42, 0xA0, 0xA2, 0xB5}
MORE_OPERATIONS = OPERATIONS | {0x1A, 0x1D, 0x2F, 0x34, 0x5A, 0x88, 0x8A, 0x90, 0x91, 0x9E, 0xA3}
MESSAGES = {0x00, 0x01, 0x02, 0x04, 0x16}
FUNCTIONS = {0x01, 0x02, 0x04, 0x08, 0x80, 0x81}
OPCODES = set(range(9))
# The descriptors of each profile, how long each of profile 1 is, and its attributes and flags; response codes.
DESCRIPTORS = ({0x00, 0x02}, {0x00, 0x01, 0x02, 0x04, 0x05, 0x07, 0x08})
LENGTHS = {0x00: {64}, 0x01: {144}, 0x02: {35}, 0x04: {6}, 0x05: {10, 18, 34}, 0x07: {72}, 0x08: {98}}
ATTRIBUTES = {0x00, 0x02, 0x03, 0x04, 0x06, 0x07, 0x08, 0x09, 0x0A, 0x0B, 0x0F, 0x10, 0x14, 0x15, 0x16}
FLAGS = {0x01, 0x02, 0x03, 0x04, 0x05, 0x06, 0x08, 0x09, 0x0B}
CODES = {0x00, *range(0xF6, 0x100)}
# The pages of vital product data and of modes in profile 1.
VITAL_PAGES = {0x00, 0x80, 0x83, 0x87, 0xB0, 0xB1, 0xB2}
MODE_PAGES = {0x01, 0x08, 0x0A, 0x3F}
LEAST = 1000


class EveryCommand(unittest.TestCase):
    """Each stored script is the one that is made, and the device printed what it had to print."""

    def setUp(self):
        self.scripts = [every_command.made(it) for it in (0, 1)]

    def heard(self, profile):
        """The messages of a script that have a whole header."""
        words = [line.split() for line in self.scripts[profile].lines]
        heard = [bytes.fromhex(it[1]) for it in words if it and it[0] in ("host", "fill")]
        return [it for it in heard if len(it) >= 32]

    def test_it_is_stored_as_it_is_made(self):
        for script, place in zip(self.scripts, every_command.SCRIPTS):
            with self.subTest(place.name):
                self.assertEqual(script.text(), place.read_text(encoding="ascii"))

    def test_the_device_printed_what_was_foretold(self):
        for script, place in zip(self.scripts, every_command.SCRIPTS):
            printed = place.with_name(f"{place.name}.stdout").read_text(encoding="ascii").splitlines()
            self.assertEqual(len(script.printed), len(printed))
            for number, (foretold, found) in enumerate(zip(script.printed, printed), 1):
                with self.subTest(place.name, line=number):
                    known, more, rest = foretold.partition(every_command.MORE)
                    self.assertEqual(known, found[:len(known)] if more else found)
                    self.assertEqual("", rest)

    def test_each_command_and_message_is_there(self):
        for profile, operations in enumerate((OPERATIONS, MORE_OPERATIONS)):
            script, heard = self.scripts[profile], self.heard(profile)
            self.assertLessEqual(LEAST, len(script.printed))
            self.assertLessEqual(MESSAGES, {it[0] for it in heard})
            self.assertLessEqual(operations, {it[16] for it in heard if it[0] == 0x01})
            self.assertLessEqual(FUNCTIONS, {it[5] for it in heard if it[0] == 0x04})
            self.assertLessEqual(OPCODES, {it[12] for it in heard if it[0] == 0x16})
            self.assertLessEqual(DESCRIPTORS[profile], {it[13] for it in heard if it[0] == 0x16 and it[12] == 1})
            words = [line.split() for line in script.lines]
            self.assertLessEqual({"reply", "settle", "stop", "take", "done"}, {it[0] for it in words if it})

    def test_each_page_of_profile_1_is_there(self):
        cdbs = [it[16:] for it in self.heard(1) if it[0] == 0x01]
        self.assertLessEqual(VITAL_PAGES, {it[2] for it in cdbs if it[:2] == b"\x12\x01"})
        for code in (0x1A, 0x5A):
            asked = {it[2] for it in cdbs if it[0] == code}
            self.assertLessEqual({values | page for values in (0x00, 0x40, 0x80) for page in MODE_PAGES}, asked)

    def told(self):
        """The messages that profile 1 foretells."""
        words = [line.split() for line in self.scripts[1].printed if every_command.MORE not in line]
        return [bytes.fromhex(it[1]) for it in words if it[0] == "reply" and it[1] != "none"]

    def test_each_attention_of_profile_1_is_there(self):
        luns, heard = set(every_command.LUNS), self.heard(1)
        everywhere = luns | set(every_command.ABSENT)
        asked = [(it[16], it[2]) for it in heard if it[0] == 0x01]
        for code in (0x00, 0x03, 0x12):
            self.assertLessEqual({(code, lun) for lun in everywhere}, set(asked))
        self.assertLessEqual(everywhere, {it[2] for it in heard if (it[0], it[5]) == (0x04, 0x08)})
        sense = bytes.fromhex("700006000000000a00000000290000000000")
        refused, sent = ({it[2] for it in self.told() if it[0] == code and it[at:at + 14] == sense[:14]}
                         for code, at in ((0x21, 34), (0x22, 32)))
        self.assertEqual((luns, luns), (refused, sent))

    def test_each_attribute_of_profile_1_is_there(self):
        self.assertLessEqual({0, 1, 2, 3, 4}, {it[1] & 0x07 for it in self.heard(1) if it[0] == 0x01})

    def test_each_bytchk_of_profile_1_is_there(self):
        verifies = [it for it in self.heard(1) if it[0] == 0x01 and it[16] == 0x2F]
        self.assertEqual({0x00, 0x02, 0x04, 0x06}, {it[17] & 0x06 for it in verifies})
        tags = {it[3] for it in verifies if it[17] & 0x02}
        answers = [it for it in self.told() if it[0] == 0x21 and it[3] in tags]
        sense = {(it[36], it[46], it[47]) for it in answers if it[7] == 0x02}
        self.assertLessEqual({(0x0E, 0x1D, 0x00), (0x05, 0x24, 0x00), (0x05, 0x21, 0x00)}, sense)
        self.assertIn(0x00, {it[7] for it in answers})

    def answers(self):
        """The QUERY RESPONSEs of profile 1."""
        return [it for it in self.told() if it[0] == 0x36]

    def test_each_query_of_profile_1_is_there_and_each_answer(self):
        asked = {(it[12], it[13]) for it in self.heard(1) if it[0] == 0x16}
        kinds = (((1, 2), DESCRIPTORS[1]), ((3, 4), ATTRIBUTES), ((5, 6, 7, 8), FLAGS))
        wanted = {(opcode, idn) for opcodes, idns in kinds for opcode in opcodes for idn in idns}
        self.assertLessEqual(wanted, asked)
        self.assertEqual(CODES, {it[6] for it in self.answers()})
        for code in CODES - {0x00, 0xF6, 0xF8, 0xFA, 0xFF}:
            opcodes = {it[12] for it in self.answers() if it[6] == code}
            self.assertLessEqual({2, 4, 6, 7, 8} if code == 0xF7 else {1, 3}, opcodes, f"{code:02x}")

    def test_each_descriptor_of_profile_1_is_told_whole_and_in_part(self):
        told = [it for it in self.answers() if it[12] == 1 and it[6] == 0]
        for idn, lengths in LENGTHS.items():
            with self.subTest(idn=idn):
                found = {it[32:32 + int.from_bytes(it[18:20], "big")] for it in told if it[13] == idn}
                whole = {it for it in found if len(it) == it[0]}
                self.assertEqual(lengths, {len(it) for it in whole})
                self.assertEqual({2}, {len(it) for it in found - whole} & {2})
        indexes = {(it[13], it[14]) for it in told}
        self.assertLessEqual({(2, it) for it in (*range(8), 0xC4)} | {(5, it) for it in range(1, 6)}, indexes)

    def test_each_value_of_profile_1_is_told(self):
        told = {(it[12], it[13], int.from_bytes(it[20:24], "big")) for it in self.answers() if it[6] == 0}
        values = {0x00: {0, 1, 2}, 0x02: {0x11}, 0x03: {0, 9, 15}, 0x07: {8}, 0x08: {8}, 0x0A: {0, 1, 2, 3}, 0x0B: {1}}
        for idn in ATTRIBUTES - {0x0F}:
            with self.subTest(idn=idn):
                found = {value for opcode, its, value in told if opcode in (3, 4) and its == idn}
                self.assertEqual(values.get(idn, {0}), found)
        self.assertLessEqual({(5, 4, 0), (5, 4, 1), (6, 4, 1), (7, 4, 0), (8, 4, 0), (8, 4, 1)}, told)
        for idn in (0x05, 0x08, 0x09, 0x0B):
            self.assertEqual({0}, {value for opcode, its, value in told if opcode in (5, 7) and its == idn})

    def test_a_reset_of_the_link_keeps_the_clock(self):
        self.assertEqual({0x01, 0x02}, {it[5] for it in self.heard(1) if it[0] == 0x1F})
        lines, heard = [it for it in self.scripts[1].lines if it and it[0] not in "#cup"], self.scripts[1].printed
        reset = next(at for at, line in enumerate(lines) if line.startswith("host 1f"))
        told = [bytes.fromhex(it.split()[1]) for it in heard[reset + 1:reset + 9] if it.startswith("reply")]
        self.assertEqual([(3, 0x03, 0), (3, 0x0A, 3), (5, 0x04, 1)], [(it[12], it[13], it[23]) for it in told[:3]])

    def test_the_table_has_what_is_asked_for(self):
        kinds = ((parameters.DESCRIPTOR, DESCRIPTORS[1]), (parameters.ATTRIBUTE, ATTRIBUTES), (parameters.FLAG, FLAGS))
        for kind, idns in kinds:
            self.assertEqual(idns, set(parameters.rows_of(1, kind)))

    def test_the_device_is_initialized_until_it_is_mended(self):
        values = {(it[12], it[23]) for it in self.answers() if it[12] in (5, 6) and it[6] == 0 and it[13] == 1}
        self.assertEqual({(5, 0), (5, 1), (6, 0), (6, 1)}, values)


if __name__ == "__main__":
    unittest.main()
