"""The handshake of NBD (the NBD protocol, "Fixed newstyle negotiation"): which export a client takes, and
how."""
from __future__ import annotations

import enum
from typing import Dict, List, Optional, Tuple

from butcherford.messages import BLOCK, big, number_at
from loop import Connection, Malformed
from nbd_export import Export

MAGIC, OPTION_MAGIC = b"NBDMAGIC", b"IHAVEOPT"
REPLY_MAGIC = 0x0003E889045565A9
FIXED_NEWSTYLE, NO_ZEROES = 1, 2
FLAGS, OPTION_HEADER, ZEROES = 4, 16, 124
MOST_OPTION = 1 << 16
# What a client may send or ask for at once: it is announced as the greatest block.
MOST_REQUEST = 1 << 25
HAS_FLAGS, SEND_FLUSH, SEND_FUA, SEND_TRIM, CAN_MULTI_CONNECTION = 1, 4, 8, 32, 256
# A flush covers all that was accepted before, of any connection.
TRANSMISSION_FLAGS = HAS_FLAGS | SEND_FLUSH | SEND_FUA | SEND_TRIM | CAN_MULTI_CONNECTION


class Option(enum.IntEnum):
    """What a client asks for."""

    EXPORT_NAME = 1
    ABORT = 2
    LIST = 3
    INFO = 6
    GO = 7


class Told(enum.IntEnum):
    """What it is answered."""

    ACK = 1
    SERVER = 2
    INFO = 3
    UNSUPPORTED = 0x80000001
    INVALID = 0x80000003
    UNKNOWN = 0x80000006


class Info(enum.IntEnum):
    """What is told of an export."""

    EXPORT = 0
    NAME = 1
    BLOCK_SIZE = 3


class Handshake:
    """Goes on until a client has taken an export, which is in `export` then, or has gone."""

    def __init__(self, connection: Connection, exports: List[Export]) -> None:
        self.export: Optional[Export] = None
        self._connection = connection
        self._by_name: Dict[bytes, Export] = {it.name.encode(): it for it in exports}
        self._by_name[b""] = exports[0]
        self._exports = exports
        self._flags: Optional[int] = None
        connection.send(MAGIC + OPTION_MAGIC + big(FIXED_NEWSTYLE | NO_ZEROES, 2))

    def take(self, came: bytearray) -> bool:
        """Takes the client's flags, or an option, from the front of what came, if all of it is there."""
        if self._flags is None:
            return self._take_flags(came)
        if len(came) < OPTION_HEADER:
            return False
        length = number_at(came, 12, 4)
        if came[:8] != OPTION_MAGIC or length > MOST_OPTION:
            raise Malformed("no option of the NBD protocol")
        if len(came) < OPTION_HEADER + length:
            return False
        option, data = number_at(came, 8, 4), bytes(came[OPTION_HEADER:OPTION_HEADER + length])
        del came[:OPTION_HEADER + length]
        self._answer(option, data)
        return True

    def _take_flags(self, came: bytearray) -> bool:
        if len(came) < FLAGS:
            return False
        self._flags = number_at(came, 0, FLAGS)
        del came[:FLAGS]
        if self._flags & ~(FIXED_NEWSTYLE | NO_ZEROES) or not self._flags & FIXED_NEWSTYLE:
            raise Malformed(f"client flags {self._flags:#x} are not those of the fixed newstyle")
        return True

    def _answer(self, option: int, data: bytes) -> None:
        if option == Option.EXPORT_NAME:
            self._export_name(data)
        elif option == Option.ABORT:
            self._tell(option, Told.ACK)
            self._connection.end()
        elif option == Option.LIST and not data:
            self._list()
        elif option in (Option.INFO, Option.GO):
            self._inform(option, data)
        else:
            self._tell(option, Told.INVALID if option == Option.LIST else Told.UNSUPPORTED)

    def _tell(self, option: int, told: Told, data: bytes = b"") -> None:
        header = big(REPLY_MAGIC, 8) + big(option, 4) + big(told, 4) + big(len(data), 4)
        self._connection.send(header + data)

    def _export_name(self, name: bytes) -> None:
        """The old way, in which there is no refusal but to close."""
        export = self._by_name.get(name)
        if export is None:
            raise Malformed(f"no export {name!r}")
        zeroes = b"" if (self._flags or 0) & NO_ZEROES else bytes(ZEROES)
        self._connection.send(size_and_flags(export) + zeroes)
        self.export = export

    def _list(self) -> None:
        for export in self._exports:
            name = export.name.encode()
            self._tell(Option.LIST, Told.SERVER, big(len(name), 4) + name)
        self._tell(Option.LIST, Told.ACK)

    def _inform(self, option: int, data: bytes) -> None:
        """INFO and GO: what the export is. Its sizes are told whether they were asked for or not."""
        name, wanted = read_inform(data)
        export = self._by_name.get(name) if name is not None else None
        if export is None:
            self._tell(option, Told.INVALID if name is None else Told.UNKNOWN)
            return
        self._tell(option, Told.INFO, big(Info.EXPORT, 2) + size_and_flags(export))
        sizes = big(export.least_block, 4) + big(BLOCK, 4) + big(MOST_REQUEST, 4)
        self._tell(option, Told.INFO, big(Info.BLOCK_SIZE, 2) + sizes)
        if Info.NAME in wanted:
            self._tell(option, Told.INFO, big(Info.NAME, 2) + export.name.encode())
        self._tell(option, Told.ACK)
        if option == Option.GO:
            self.export = export


def size_and_flags(export: Export) -> bytes:
    """An export's size, and what it takes."""
    return big(export.size, 8) + big(TRANSMISSION_FLAGS, 2)


def read_inform(data: bytes) -> Tuple[Optional[bytes], List[int]]:
    """The name of the export, which is None if the data are malformed, and what is to be told."""
    length = number_at(data, 0, 4)
    rest = data[4 + length:]
    if len(data) < 6 + length or len(rest) != 2 + 2 * number_at(rest, 0, 2):
        return None, []
    return data[4:4 + length], [number_at(rest, at, 2) for at in range(2, len(rest), 2)]
