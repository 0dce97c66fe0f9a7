"""Tests of the table of parameters, with the bytes that docs/FORMATS.md and docs/PROFILE_1.md give."""
import unittest
from typing import Dict, Set

import parameters
from parameters import ATTRIBUTE, DESCRIPTOR, FLAG

# Three units, the second of which boots as A, and the third as B; and one that does not boot.
UNITS = ((256, 0, 0), (64, 1, 1), (16, 2, 2))
BOOTS = parameters.Device(1, 0x0123456789ABCDEF, UNITS, 2)
PLAIN = parameters.Device(1, 1, ((0x12345, 0, 2),), 1)
OLD = parameters.Device(0, 1, UNITS, 2)
# Of each class the IDNs of each profile, and the opcodes that each takes.
OF_PROFILE_0 = {DESCRIPTOR: {0x00, 0x02}, ATTRIBUTE: {0x00}, FLAG: {0x01, 0x02, 0x03}}
OPCODES: Dict[str, Dict[int, Set[int]]] = {
    DESCRIPTOR: dict.fromkeys((0x00, 0x01, 0x02, 0x04, 0x05, 0x07, 0x08), {1}),
    ATTRIBUTE: {**dict.fromkeys((0x00, 0x03, 0x04, 0x07, 0x08, 0x0A, 0x0B, 0x10), {3, 4}), 0x0F: {4},
                **dict.fromkeys((0x02, 0x06, 0x09, 0x14, 0x15, 0x16), {3})},
    FLAG: {**dict.fromkeys((0x01, 0x02, 0x03), {5, 6}), 0x04: {5, 6, 7, 8}, 0x05: {5, 7}, 0x06: set(), 0x08: {5, 7},
           0x09: {5}, 0x0B: {5}}}
# The values that an attribute takes: the least and the greatest, and one that is told of each.
VALUES = {0x00: (0, 2, 0), 0x03: (0, 0x0F, 0), 0x04: (0, 0, 0), 0x07: (8, 8, 8), 0x08: (8, 8, 8), 0x0A: (0, 3, 1),
          0x0B: (0, 0xFFFFFFFF, 1), 0x0F: (0, 0xFFFFFFFF, 0), 0x10: (0, 0, 0)}
# What else is told of one that cannot be written.
TOLD = {0x02: 0x11, 0x06: 0, 0x09: 0, 0x14: 0, 0x15: 0, 0x16: 0}


class Table(unittest.TestCase):
    """What there is, and what may be done with it."""

    def test_each_profile_has_its_own(self):
        for kind, idns in OF_PROFILE_0.items():
            self.assertEqual(idns, set(parameters.rows_of(0, kind)))
            self.assertEqual(set(OPCODES[kind]), set(parameters.rows_of(1, kind)))
        self.assertEqual(len(parameters.TABLE), sum(map(len, OPCODES.values())))

    def test_each_takes_its_opcodes(self):
        for kind, rows in OPCODES.items():
            for idn, opcodes in rows.items():
                with self.subTest(kind, idn=idn):
                    row = parameters.TABLE[kind, idn]
                    self.assertEqual(opcodes, set(row.opcodes))
                    for opcode in (it for it, its in parameters.CLASSES.items() if its == kind):
                        self.assertIs(row, parameters.row_of(1, opcode, idn))
        self.assertIsNone(parameters.row_of(1, 0, 0))
        self.assertIsNone(parameters.row_of(0, 1, 7))

    def test_values(self):
        for idn, row in parameters.rows_of(1, ATTRIBUTE).items():
            with self.subTest(idn=idn):
                self.assertEqual(VALUES.get(idn, (0, 0, TOLD.get(idn))), (row.least, row.greatest, row.told))

    def test_indexes_and_selectors(self):
        wanted = {(DESCRIPTOR, 0x02): [*range(8), 0xC4], (DESCRIPTOR, 0x05): [1, 2, 3, 4, 5], (ATTRIBUTE, 0x09): [0, 1],
                  (ATTRIBUTE, 0x10): [0, 1]}
        for place, row in parameters.TABLE.items():
            with self.subTest(place):
                self.assertEqual(wanted.get(place, [0]), parameters.indexes_of(row, 1, 2))
                selectors = [*range(1, 16)] if place == (ATTRIBUTE, 0x10) else [0]
                self.assertEqual(selectors, parameters.selectors_of(row))
        self.assertEqual([0, 1], parameters.indexes_of(parameters.TABLE[DESCRIPTOR, 0x02], 0, 2))


class Descriptors(unittest.TestCase):
    """Their bytes, all of them."""

    def told(self, digits, device, idn, index=0):
        self.assertEqual(digits.replace(" ", ""), parameters.descriptor(device, idn, index).hex())

    def test_device(self):
        self.told("40 00 00 00 00 00 03 04 01 01 00 00 00 01 00 00 0210" + 46 * "00", OLD, 0x00)
        self.told("40 00 00 00 00 00 03 04 01 01 01 7f 00 01 01 00 0210 1125 01 02 03 04 0000 10 10 20 0000 00 00 20"
                  "0001" + 6 * "00" + "05" + 21 * "00", BOOTS, 0x00)
        self.told("40 00 00 00 01 00 01 04 00 01 01 7f 00 01 01 00 0210 1125 01 02 03 04 0000 10 10 20 0000 00 00 20"
                  "0001" + 6 * "00" + "05" + 21 * "00", PLAIN, 0x00)

    def test_configuration(self):
        head = "90 01 00 {} 01 01 7f" + 9 * "00"
        self.told(head.format("01") + "01 00 00 00 00000100 01 0c 03" + 5 * "00" + "01 01 01 00 00000040 01 0c 03"
                  + 5 * "00" + "01 02 02 00 00000010 01 0c 03" + 5 * "00" + 80 * "00", BOOTS, 0x01)
        self.told(head.format("00") + "01 00 02 00 00012345 01 0c 03" + 5 * "00" + 112 * "00", PLAIN, 0x01)

    def test_units(self):
        for device in (OLD, BOOTS):
            self.told("23 02 01 01 01 01 00 00 00 01 0c 0000000000000040 00000001 03 0000000000000040 000000", device,
                      0x02, 1)
        self.told("23 02 00 01 00 02 00 00 00 01 0c 0000000000012345 00000001 03 0000000000012345 000000", PLAIN, 0x02)
        for index in (1, 7):
            self.told(f"23 02 {index:02x} 00 00 00 00 00 00 01 0c 0000000000000000 00000001 03 0000000000000000 000000",
                      PLAIN, 0x02, index)

    def test_unit_of_the_rpmb(self):
        for device, blocks in ((PLAIN, "0200"), (BOOTS, "0400")):
            self.told(f"23 02 c4 01 00 00 01 00 0f 00 08 000000000000{blocks} 00000000 00 000000000000{blocks} 000000",
                      device, 0x02, 0xC4)

    def test_interconnect_and_power(self):
        self.told("06 04 01 60 03 00", PLAIN, 0x04)
        self.told("62 08" + 96 * "00", PLAIN, 0x08)

    def test_strings(self):
        maker = "12 05 0050 0052 004f 0046 0049 004c 0045 0020"
        self.told(maker, BOOTS, 0x05, 1)
        product = "22 05 0055 0046 0053 0020 0050 0052 004f 0046 0049 004c 0045 0020 0032 002e 0031 0020"
        serial = "22 05 0030 0031 0032 0033 0034 0035 0036 0037 0038 0039 0061 0062 0063 0064 0065 0066"
        for index, digits in ((2, product), (3, serial)):
            self.told(digits, BOOTS, 0x05, index)
        self.told(maker, BOOTS, 0x05, 4)
        self.told("0a 05 0030 0030 0030 0031", BOOTS, 0x05, 5)

    def test_geometry(self):
        digits = "48 07 00 00 0000000000000a80 00 00000008 01 08 08 08 08 08 08 0000 05 0000 01 8001" + 40 * "00"
        self.told(digits, BOOTS, 0x07)


if __name__ == "__main__":
    unittest.main()
