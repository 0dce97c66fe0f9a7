"""Tests how tools/clients.py counts, copies and removes."""
import contextlib
import io
import pathlib
import tempfile
import types
import unittest
from unittest import mock

import clients


class Counts(unittest.TestCase):
    """What pytest's last line tells."""

    def test_a_run_that_was_to_fail_and_did_went_well(self):
        self.assertEqual((115, 0), clients.counts("..x\n112 passed, 3 xfailed in 3.14s\n"))

    def test_all_else_did_not(self):
        line = "2 failed, 7 passed, 1 skipped, 1 xpassed, 1 error in 0.10s"
        self.assertEqual((7, 5), clients.counts(line))
        self.assertEqual((0, 2), clients.counts("2 errors in 0.10s"))

    def test_no_counts_are_none(self):
        self.assertEqual((0, 0), clients.counts(""))
        self.assertEqual((0, 0), clients.counts("no tests ran in 0.01s"))


class Copies(unittest.TestCase):
    """The package is copied, and what was copied is removed."""

    def setUp(self):
        place = tempfile.TemporaryDirectory(prefix="clients_test.")
        self.addCleanup(place.cleanup)
        self.folder = pathlib.Path(place.name)
        shared = self.folder / "libufs.so"
        shared.write_bytes(b"library")
        with contextlib.ExitStack() as patches:
            patches.enter_context(mock.patch.object(clients, "SHARED", shared))
            patches.enter_context(mock.patch.object(clients, "make_library"))
            patches.enter_context(contextlib.redirect_stdout(io.StringIO()))
            self.addCleanup(patches.pop_all().close)
        self.asked = types.SimpleNamespace(folder=self.folder / "packages")

    def test_all_comes_and_goes(self):
        clients.install(self.asked)
        package = self.asked.folder / clients.PACKAGE
        self.assertEqual(b"library", (package / "libufs.so").read_bytes())
        self.assertTrue((package / "__init__.py").is_file() and (package / "py.typed").is_file())
        self.assertTrue((self.asked.folder / clients.TOLD / "entry_points.txt").is_file())
        clients.uninstall(self.asked)
        self.assertEqual([], list(self.asked.folder.iterdir()))

    def test_a_file_of_another_stays(self):
        clients.install(self.asked)
        other = self.asked.folder / clients.PACKAGE / "other"
        other.write_bytes(b"")
        clients.uninstall(self.asked)
        self.assertEqual([other], [it for it in self.asked.folder.rglob("*") if it.is_file()])
