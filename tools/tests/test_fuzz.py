"""Tests that fuzz.py makes the same scripts of a seed, and tells each line that is not as its model says."""
import random
import unittest
from unittest import mock

import fuzz
import parameters
import plain_host
from crates import ROOT

# What is wrong of profile 1 with each of these in a model: names of plain_host, or of its World.
WRONG_NAMES = {"PASSING": (plain_host.SENSE, plain_host.INQUIRY), "ANYWHERE": (plain_host.SENSE,), "ATTRIBUTE": 0x07,
               "PRIORITY": 0x00, "NOT_READY": plain_host.NO_SENSE, "ATTENTION": plain_host.NO_SENSE}
WRONG_RULES = {"has_attention": lambda world, lun: lun in world.attentions and lun != plain_host.DEVICE,
               "initializing": lambda world, is_set: 0, "has_lun": lambda world, lun: True}
# The same of VERIFY.
WRONG_NAMES_OF_VERIFY = {"MISCOMPARE": plain_host.READ_ERROR, "COMPARED": 0x00}
WRONG_RULES_OF_VERIFY = {"compare": lambda world, it, block: it.end()}
# The same of queries: a row in the place of another, or another rule.
WRONG_ROWS = {("attribute", 0x02): {"opcodes": (3, 4)}, ("attribute", 0x03): {"greatest": 16},
              ("attribute", 0x09): {"indexes": 0}, ("attribute", 0x0A): {"greatest": 2},
              ("attribute", 0x10): {"indexes": 1}, ("attribute", 0x0F): {"opcodes": (3, 4)},
              ("flag", 0x05): {"opcodes": (5, 6, 7)}, ("descriptor", 0x05): {"indexes": 0}}
WRONG_RULES_OF_QUERIES = {"changed_by": lambda world, opcode, idn, value: None,
                          "value_of": lambda world, opcode, idn: 0}
EXAMPLES = ("abort", "boot_setting", "every_command", "every_command_1", "failing_block", "flush", "gap",
            "link_event", "linux_host", "many_tasks", "profile_0", "profile_1", "read_before_write", "rpmb_counter",
            "stop_in_group", "stop_in_write", "unmap", "write_read")


def example(name):
    """The lines of a stored script, and what the device printed."""
    texts = [(ROOT / "examples" / f"{name}.txt{end}").read_text(encoding="ascii") for end in ("", ".stdout")]
    return texts[0].splitlines(), texts[1]


class Fuzz(unittest.TestCase):
    """The generator and the judge."""

    def test_a_seed_makes_the_same_scripts(self):
        first, again, other = (fuzz.Script(seed, 3).make() for seed in (7, 7, 8))
        self.assertEqual(first, again)
        self.assertNotEqual(first, other)

    def test_both_profiles_are_played(self):
        profiles = [fuzz.some_profile(random.Random(it)) for it in range(40)]
        self.assertEqual({0, 1}, {it for it, _ in profiles})
        self.assertLess(2, len({it for _, it in profiles}))

    def test_what_is_stored_fits_the_model(self):
        for name in EXAMPLES:
            with self.subTest(name):
                lines, text = example(name)
                self.assertIsNone(fuzz.judged(lines, text, "", 0))

    def test_a_changed_line_is_told(self):
        lines, text = example("write_read")
        at = text.index("reply 21")
        place, wanted, came = fuzz.judged(lines, text[:at] + text[at:].replace("0", "1", 1), "", 0)
        self.assertEqual("reply", lines[place - 1])
        self.assertNotEqual(wanted, came)

    def test_a_line_that_is_missing_or_one_more_is_told(self):
        lines, text = example("write_read")
        self.assertIsNotNone(fuzz.judged(lines, text[:text.rstrip().rindex("\n") + 1], "", 0))
        self.assertIsNotNone(fuzz.judged(lines, text + "turn no\n", "", 0))
        self.assertIsNotNone(fuzz.judged(lines, text, "", 1))

    def test_a_wrong_expectation_is_told(self):
        def wrong(it, *_):
            return bytes([0x21, 0, it.lun, it.tag, 0, 0, 1]) + bytes(25)
        with mock.patch.object(plain_host.Exchange, "response", wrong):
            lines, text = example("write_read")
            self.assertIsNotNone(fuzz.judged(lines, text, "", 0))

    def test_a_wrong_rule_of_profile_1_is_told(self):
        lines, text = example("profile_1")
        wrong = [(plain_host, *it) for it in WRONG_NAMES.items()]
        for place, name, value in [*wrong, *[(plain_host.World, *it) for it in WRONG_RULES.items()]]:
            with self.subTest(name), mock.patch.object(place, name, value):
                self.assertIsNotNone(fuzz.judged(lines, text, "", 0))

    def test_a_wrong_rule_of_verify_is_told(self):
        lines, text = example("every_command_1")
        wrong = [(plain_host, *it) for it in WRONG_NAMES_OF_VERIFY.items()]
        for place, name, value in [*wrong, *[(plain_host.World, *it) for it in WRONG_RULES_OF_VERIFY.items()]]:
            with self.subTest(name), mock.patch.object(place, name, value):
                self.assertIsNotNone(fuzz.judged(lines, text, "", 0))

    def test_a_wrong_rule_of_queries_is_told(self):
        lines, text = example("every_command_1")
        for name, rule in WRONG_RULES_OF_QUERIES.items():
            with self.subTest(name), mock.patch.object(plain_host.World, name, rule):
                self.assertIsNotNone(fuzz.judged(lines, text, "", 0))
        for place, changes in WRONG_ROWS.items():
            row = parameters.TABLE[place]._replace(**changes)
            with self.subTest(place), mock.patch.dict(parameters.TABLE, {place: row}):
                self.assertIsNotNone(fuzz.judged(lines, text, "", 0))

    def test_queries_of_each_row_are_made(self):
        script = fuzz.Script(3, 1)
        script.profile = (1, 1)
        made = {tuple(script.asked()[:2]) for _ in range(6000)}
        for kind, idn in parameters.TABLE:
            self.assertLessEqual({(opcode, idn) for opcode, its in parameters.CLASSES.items() if its == kind}, made)

    def test_most_lives_of_profile_1_begin_without_attentions(self):
        scripts = [fuzz.Script(5, it) for it in range(30)]
        for script in scripts:
            script.profile = (1, 1)
            script.model.become(script.profile)
            script.begin()
        left = [script for script in scripts if script.world.attentions]
        self.assertLess(0, len(left))
        self.assertLess(len(left), 15)

    def test_each_wrong_line_is_told(self):
        lines, text = example("write_read")
        for line in fuzz.WRONG_LINES:
            with self.subTest(line):
                _, (status, told), extra = fuzz.played([*lines, line, "reply"], text.splitlines())
                self.assertEqual((1, None), (status, extra))
                self.assertRegex(told, rf"^ufsim: line {len(lines) + 1}: (word|number|hex|event)\n$")

    def test_only_bits_that_have_to_be_zero_are_flipped(self):
        for place, lines in fuzz.bit_scripts():
            with self.subTest(script=place):
                heard = [plain_host.event_of(it)[1] for it in lines if it.startswith("host")]
                first, *wrong = [it for it in heard if it[3] == 2]
                changed = [sum((a ^ b).bit_count() for a, b in zip(first, it)) for it in wrong]
                self.assertLess(60, len(wrong))
                self.assertEqual({2}, set(changed))

    def test_the_attribute_of_a_command_has_to_be_zero_in_profile_0_alone(self):
        message = fuzz.right_command(plain_host.READY)
        flipped = [{bit for at, bit in fuzz.zero_bits(message, profile) if at == 1} for profile in (0, 1)]
        self.assertEqual([{1, 2, 4, 8, 16, 128}, {8, 16, 128}], flipped)


if __name__ == "__main__":
    unittest.main()
