"""A PCI function, which user-mode Linux reaches by messages in two queues.

The messages are those of the kernel's include/uapi/linux/virtio_pcidev.h: the guest's reads and writes come
in the first queue, and interrupts go to it in the second. The one memory region, BAR 0, has the registers.
"""
from __future__ import annotations

import enum
import struct
import sys
from typing import List

from ufshci import REGISTER_BYTES, Controller
from vhost_user import PeerFault, Virtqueue

MESSAGE = struct.Struct("<BBHIQ")
COMMANDS, INTERRUPTS = 0, 1
PIN_A = 1
MOST_BYTES = 4096

# The configuration space (PCI Local Bus Specification 3.0, "Configuration Space").
SPACE_BYTES = 4096
IDENTITY = struct.Struct("<HHHHBBBBBBBB")
VENDOR, DEVICE = 0x144D, 0xC00C
HAS_NO_CAPABILITIES = 0
REVISION = 1
# A mass storage controller, of UFS, by UFSHCI.
BASE_CLASS, SUBCLASS, INTERFACE = 0x01, 0x09, 0x01
COMMAND_AT, CACHE_LINE_AT, BAR_0_AT, BAR_1_AT, LINE_AT, PIN_AT = 0x04, 0x0C, 0x10, 0x14, 0x3C, 0x3D
WRITABLE = (COMMAND_AT, COMMAND_AT + 1, CACHE_LINE_AT, LINE_AT)
# So many bytes of registers: a host finds this by the address bits that stay zero.
BAR_BYTES = 4096
ADDRESS_MASK = (-BAR_BYTES & 0xFFFFFFFF).to_bytes(4, "little")


class Operation(enum.IntEnum):
    """What a message of the guest asks, or tells it."""

    READ_CONFIGURATION = 1
    WRITE_CONFIGURATION = 2
    READ_MEMORY = 3
    WRITE_MEMORY = 4
    INTERRUPT = 6


class ConfigurationSpace:
    """The bytes by which a host finds the function and what it needs."""

    def __init__(self) -> None:
        self._bytes = bytearray(SPACE_BYTES)
        IDENTITY.pack_into(self._bytes, 0, VENDOR, DEVICE, 0, HAS_NO_CAPABILITIES, REVISION, INTERFACE,
                           SUBCLASS, BASE_CLASS, 0, 0, 0, 0)
        self._bytes[PIN_AT] = PIN_A

    def read(self, offset: int, length: int) -> bytes:
        """The bytes that stand there."""
        return bytes(self._bytes[offset:offset + length]).ljust(length, b"\xff")

    def write(self, offset: int, data: bytes) -> None:
        """Changes those of the bytes that a host may change."""
        for place, value in enumerate(data, offset):
            if place in WRITABLE:
                self._bytes[place] = value
            elif BAR_0_AT <= place < BAR_1_AT:
                self._bytes[place] = value & ADDRESS_MASK[place - BAR_0_AT]


class Function:
    """The function over the two queues of a connection."""

    def __init__(self, controller: Controller) -> None:
        self._space = ConfigurationSpace()
        self._controller = controller
        self._is_raised = False
        self.queues: List[Virtqueue] = []

    def hear(self, index: int) -> None:
        """The guest put something into a queue."""
        if index == COMMANDS:
            while self._answer_one():
                pass
        self.interrupt()

    def raise_line(self) -> None:
        """The line of the interrupt is to be raised: `interrupt` does so."""
        self._is_raised = True

    def interrupt(self) -> None:
        """Tells the guest of an interrupt that waits, if its queue has room."""
        chain = self.queues[INTERRUPTS].take() if self._is_raised and self.queues else None
        if chain is None:
            return
        self._is_raised = False
        self.queues[INTERRUPTS].give(chain, MESSAGE.pack(Operation.INTERRUPT, 0, 0, 0, PIN_A))
        self.queues[INTERRUPTS].notify()

    def _answer_one(self) -> bool:
        """Does what a message asks, and says whether there was one. The guest polls for the answer."""
        queue = self.queues[COMMANDS]
        chain = queue.take()
        if chain is None:
            return False
        message = queue.read(chain)
        if len(message) < MESSAGE.size:
            raise PeerFault(f"a message to the function has {len(message)} bytes")
        operation, _, _, length, offset = MESSAGE.unpack_from(message)
        if length > MOST_BYTES:
            raise PeerFault(f"a message to the function asks for {length} bytes")
        # A write is done before its message is given back, so that a guest that looks finds what it did.
        queue.give(chain, self._do(operation, offset, length, message[MESSAGE.size:MESSAGE.size + length]))
        return True

    def _do(self, operation: int, offset: int, length: int, data: bytes) -> bytes:
        if operation == Operation.READ_CONFIGURATION:
            return self._space.read(offset, length)
        if operation == Operation.WRITE_CONFIGURATION:
            self._space.write(offset, data)
        elif operation == Operation.READ_MEMORY:
            return self._read_registers(offset, length)
        elif operation == Operation.WRITE_MEMORY:
            self._controller.write(offset, int.from_bytes(data[:REGISTER_BYTES], "little"))
        else:
            print(f"pci: operation {operation} is not known, and is left out", file=sys.stderr)
        return b""

    def _read_registers(self, offset: int, length: int) -> bytes:
        places = range(offset, offset + length, REGISTER_BYTES)
        values = (self._controller.read(place).to_bytes(REGISTER_BYTES, "little") for place in places)
        return b"".join(values)[:length]
