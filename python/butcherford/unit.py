"""A unit of a device: its blocks are read, written and unmapped by whole commands, which tell of it too."""
from __future__ import annotations

from typing import TYPE_CHECKING, Iterator, Optional, Tuple

from . import messages, told
from .errors import Busy
from .messages import BLOCK
from .told import Capacity, ModePage, Modes, ModeValues, SupportedOperation

if TYPE_CHECKING:
    from .device import Device

# So many rounds free slots of the write cache, if anything does.
ROUNDS_WHILE_BUSY = 256
# For so many bytes a command has room that is to bring all there are; MODE SENSE(6) counts its own in one byte.
ROOM, ROOM_OF_SIX = 0xFFFF, 0xFF


class Unit:
    """A unit of the configuration. Addresses and counts are in blocks of 4096 bytes.

    The calls from `read_16` on need a device of profile 1: one of profile 0 refuses them.
    """

    def __init__(self, device: Device, number: int, blocks: int) -> None:
        self._device = device
        self.number = number
        """The LUN of the unit."""
        self.blocks = blocks
        """How many blocks it has."""

    def read(self, address: int, count: int = 1) -> bytes:
        """The blocks from this address on. A block that was never written is zeros."""
        return self._read(messages.READ_10, address, count)

    def write(self, address: int, data: bytes, fua: bool = False) -> None:
        """Writes blocks. With `fua` it returns once they are durable, and all that was written before them.

        A command of at most `Device.most_blocks` blocks is kept as a whole or not at all; longer data take several.
        """
        self._write(messages.WRITE_10, address, data, fua)

    def flush(self) -> None:
        """SYNCHRONIZE CACHE: it returns once all that the device accepted before, of any unit, is durable."""
        self._device.command(self.number, messages.blocks_cdb(messages.SYNCHRONIZE_CACHE_10, 0, 0))

    def unmap(self, address: int, count: int = 1) -> None:
        """Makes blocks zeros. It does not wait until that is durable: a `flush` does."""
        for start, some in self._parts(address, count):
            ranges = messages.unmap_list(start, some)
            self._send(messages.unmap_cdb(len(ranges)), ranges)

    def read_16(self, address: int, count: int = 1) -> bytes:
        """As `read`, by READ(16), which takes an address of 64 bits."""
        return self._read(messages.READ_16, address, count)

    def write_16(self, address: int, data: bytes, fua: bool = False) -> None:
        """As `write`, by WRITE(16), which takes an address of 64 bits."""
        self._write(messages.WRITE_16, address, data, fua)

    def flush_16(self) -> None:
        """As `flush`, by SYNCHRONIZE CACHE(16)."""
        self._device.command(self.number, messages.blocks_cdb(messages.SYNCHRONIZE_CACHE_16, 0, 0))

    def prefetch(self, address: int = 0, count: int = 0) -> None:
        """Tells the unit that these blocks may be read soon; 0 are all up to its end. It is a PRE-FETCH(10), or a
        PRE-FETCH(16) where that has no room for the numbers."""
        if not (0 <= address < 1 << 64 and 0 <= count < 1 << 32):
            raise ValueError(f"no command has room for these numbers: {address}, {count}")
        is_short = address < 1 << 32 and count < 1 << 16
        operation = messages.PRE_FETCH_10 if is_short else messages.PRE_FETCH_16
        self._device.command(self.number, messages.blocks_cdb(operation, address, count))

    def verify(self, address: int, count: int = 1) -> None:
        """VERIFY(10) with BYTCHK 00: the unit reads these blocks, and sends none. It is 3/11/00 where one cannot be
        read."""
        for start, some in self._parts(address, count):
            self._device.command(self.number, messages.blocks_cdb(messages.VERIFY_10, start, some))

    def compare(self, address: int, data: bytes) -> None:
        """VERIFY(10) with BYTCHK 01: the unit compares its blocks from this address on with these, and writes nothing.
        It is E/1D/00 (MISCOMPARE) where one is another. Data of more than `Device.most_blocks` blocks take several
        commands, each of which compares with what is there as it comes."""
        for start, some, part in self._parts_of(address, data, is_long=False):
            cdb = messages.blocks_cdb(messages.VERIFY_10, start, some, compare=True)
            self._device.command(self.number, cdb, send=part)

    def send_diagnostic(self, self_test: bool = False) -> None:
        """Asks whether the unit is in order, which a self-test looks for: 4/3E/03 if the device takes no more
        writes."""
        self._device.command(self.number, messages.diagnostic_cdb(self_test))

    def capacity_16(self) -> Capacity:
        """The last address, the size of a block, and whether blocks may be unmapped."""
        return told.capacity_in(self._device.command(self.number, messages.capacity_cdb(32), receive=32))

    def inquiry_page(self, page: int) -> bytes:
        """A page of vital product data (`VpdPage`), behind its header."""
        return self._device.command(self.number, messages.page_cdb(page, ROOM), receive=ROOM)[4:]

    def mode_sense(self, page: ModePage = ModePage.ALL, values: ModeValues = ModeValues.CURRENT,
                   subpage: int = 0) -> Modes:
        """A mode page, or all of them, by MODE SENSE(10). The subpage FFh of all stands for all subpages."""
        cdb = messages.modes_cdb(messages.MODE_SENSE_10, values, page, subpage, ROOM)
        return told.modes_in(self._device.command(self.number, cdb, receive=ROOM), is_short=False)

    def mode_sense_6(self, page: ModePage = ModePage.ALL, values: ModeValues = ModeValues.CURRENT,
                     subpage: int = 0) -> Modes:
        """The same by MODE SENSE(6)."""
        cdb = messages.modes_cdb(messages.MODE_SENSE_6, values, page, subpage, ROOM_OF_SIX)
        return told.modes_in(self._device.command(self.number, cdb, receive=ROOM_OF_SIX), is_short=True)

    def supported_operations(self) -> Tuple[SupportedOperation, ...]:
        """The commands that the unit takes."""
        return told.operations_in(self._report(0, 0, 0))

    def supported_operation(self, code: int, action: Optional[int] = None) -> Optional[bytes]:
        """The bits that the unit takes of the CDB with this operation code, and with this service action where
        commands share the code; None if it does not take the command."""
        return told.usage_in(self._report(1 if action is None else 2, code, action or 0))

    def _report(self, option: int, code: int, action: int) -> bytes:
        cdb = messages.operations_cdb(option, code, action, ROOM)
        return self._device.command(self.number, cdb, receive=ROOM)

    def _read(self, operation: int, address: int, count: int) -> bytes:
        found = bytearray()
        for start, some in self._parts(address, count, messages.is_long(operation)):
            cdb = messages.blocks_cdb(operation, start, some)
            found += self._device.command(self.number, cdb, receive=some * BLOCK)
        return bytes(found)

    def _write(self, operation: int, address: int, data: bytes, fua: bool) -> None:
        for start, some, part in self._parts_of(address, data, messages.is_long(operation)):
            self._send(messages.blocks_cdb(operation, start, some, fua=fua), part)

    def _parts_of(self, address: int, data: bytes, is_long: bool) -> Iterator[Tuple[int, int, bytes]]:
        """Address, count and data of each command that these blocks take."""
        if len(data) % BLOCK:
            raise ValueError(f"the data are no whole blocks of {BLOCK} bytes")
        for start, some in self._parts(address, len(data) // BLOCK, is_long):
            first = (start - address) * BLOCK
            yield start, some, data[first:first + some * BLOCK]

    def _parts(self, address: int, count: int, is_long: bool = False) -> Iterator[Tuple[int, int]]:
        """Address and count of each command that so many blocks take."""
        if address < 0 or count < 0 or address + count > 1 << (64 if is_long else 32):
            raise ValueError(f"no address has so many blocks: {address}, {count}")
        most = self._device.most_blocks
        for start in range(address, address + count, most):
            yield start, min(most, address + count - start)

    def _send(self, cdb: bytes, data: bytes) -> None:
        """A command with data. While the device is BUSY the dies work, and the command is tried again."""
        for _ in range(ROUNDS_WHILE_BUSY):
            try:
                self._device.command(self.number, cdb, send=data)
                return
            except Busy:
                self._device.settle()
        raise Busy()
