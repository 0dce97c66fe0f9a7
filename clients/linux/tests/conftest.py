"""The modules under test and the package, where pytest is not told of them; and what the tests share."""
import sys
from pathlib import Path

import pytest

HERE = Path(__file__).resolve().parent
sys.path[:0] = [str(HERE.parent), str(HERE.parents[2] / "python")]


class PlainMemory:
    """A guest's memory of 64 KiB that begins at 10000h."""

    START = 0x10000

    def __init__(self):
        self._bytes = bytearray(1 << 16)

    def read(self, address, length):
        start = address - self.START
        assert 0 <= start <= start + length <= len(self._bytes)
        return bytes(self._bytes[start:start + length])

    def write(self, address, data):
        start = address - self.START
        assert 0 <= start <= start + len(data) <= len(self._bytes)
        self._bytes[start:start + len(data)] = data


@pytest.fixture
def memory():
    return PlainMemory()
