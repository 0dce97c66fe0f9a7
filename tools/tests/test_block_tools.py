"""Tests how tools/block_tools.py reads what iscsi-test-cu tells, and writes the list of its tests anew."""
import contextlib
import io
import pathlib
import tempfile
import unittest
from unittest import mock

import block_tools

HEAD = "# The tests, and the reasons.\n"
LIST = f"""{HEAD}Write16.Simple skipped the device has no WRITE(16): 5/20/00
Write16.Dpo skipped the device has no MODE SENSE(6): 5/20/00
Verify16.Simple skipped the device has no WRITE AND VERIFY(16): 5/20/00
ReadOnly.Simple skipped the unit is not write-protected
Read6.Simple failed a command has at most 128 blocks
"""
# As iscsi-test-cu tells it with -v, where CUnit counts a test that skips as passed.
TOLD = """Suite: Write16
  Test: Simple ...
    Test WRITE16
passed
  Test: Dpo ...
    [SKIPPED] WRITEVERIFY16 is not implemented.
passed
Suite: ReadOnly
  Test: Simple ...
    [SKIPPED] Logical unit is not write-protected. Skipping test.
passed
Suite: Read6
  Test: Simple ...FAILED
    1. read6.c:40  - CU_ASSERT_EQUAL(ret,0)
Suite: Unmap
  Test: Simple ...
    [FAILED] UNMAP failed
FAILED
"""


class Rewrites(unittest.TestCase):
    """The list is written by the results."""

    def setUp(self):
        place = tempfile.TemporaryDirectory(prefix="block_tools_test.")
        self.addCleanup(place.cleanup)
        self.list = pathlib.Path(place.name) / "list"
        self.list.write_text(LIST)
        self.said = io.StringIO()
        with mock.patch.object(block_tools, "LIST", self.list), contextlib.redirect_stdout(self.said):
            block_tools.rewrite(list(block_tools.results(TOLD)))

    def test_each_result_has_its_line(self):
        self.assertEqual(HEAD + "Write16.Simple passed\n"
                         "Write16.Dpo skipped the device has no WRITE AND VERIFY(16): 5/20/00\n"
                         "ReadOnly.Simple skipped the unit is not write-protected\n"
                         "Read6.Simple failed a command has at most 128 blocks\n"
                         "Unmap.Simple failed [FAILED] UNMAP failed\n", self.list.read_text())

    def test_what_is_to_be_looked_at_is_told(self):
        said = self.said.getvalue()
        self.assertIn("stays: ReadOnly.Simple skipped the unit is not write-protected | [SKIPPED] Logical", said)
        self.assertIn("| Write16 | 1 | 1 | 0 |\n| ReadOnly | 0 | 1 | 0 |\n| Read6 | 0 | 0 | 1 |\n", said)


if __name__ == "__main__":
    unittest.main()
