"""The registers of a UFS host controller (JESD223, version 2.1), and the link that it says it has.

Offsets and bits are those of JESD223's clauses on registers, which name them as here. There is no link: each
UIC command succeeds at once. What the host asks of the device goes to a `Port` as whole messages.
"""
from __future__ import annotations

import enum
import sys
from typing import Callable, Dict, Iterator, Protocol

from transfers import (Memory, Status, Transfer, TransferFault, finish, finish_management, list_entry,
                       read_management, read_transfer, STATUS_AT)
from vhost_user import PeerFault

REGISTER_BYTES = 4
ALL_ONES = (1 << 32) - 1
SLOTS, MANAGEMENT_SLOTS = 32, 8
ADDRESSES_OF_64_BITS = 1 << 24
CAPABILITIES = ADDRESSES_OF_64_BITS | (MANAGEMENT_SLOTS - 1) << 16 | SLOTS - 1
VERSION_2_1 = 0x0210
ENABLED = 1
UPPER = 32
ATTRIBUTE_AT = 16


class Register(enum.IntEnum):
    """The offsets of the registers that are more than a memory of what was written."""

    CAP = 0x00
    VER = 0x08
    IS = 0x20
    IE = 0x24
    HCS = 0x30
    HCE = 0x34
    UTRLBA = 0x50
    UTRLBAU = 0x54
    UTRLDBR = 0x58
    UTRLCLR = 0x5C
    UTMRLBA = 0x70
    UTMRLBAU = 0x74
    UTMRLDBR = 0x78
    UTMRLCLR = 0x7C
    UICCMD = 0x90
    UCMDARG1 = 0x94
    UCMDARG2 = 0x98
    UCMDARG3 = 0x9C


READ_ONLY = (Register.CAP, Register.VER, Register.HCS)


class Interrupt(enum.IntFlag):
    """The bits of IS and IE that this controller sets."""

    TRANSFER_COMPLETE = 1 << 0
    POWER_MODE = 1 << 4
    HIBERNATE_EXIT = 1 << 5
    HIBERNATE_ENTER = 1 << 6
    MANAGEMENT_COMPLETE = 1 << 9
    UIC_COMPLETE = 1 << 10


class State(enum.IntFlag):
    """The bits of HCS. The last one is the value 'PWR_LOCAL' of the field UPMCRS."""

    DEVICE_PRESENT = 1 << 0
    TRANSFER_LIST_READY = 1 << 1
    MANAGEMENT_LIST_READY = 1 << 2
    UIC_READY = 1 << 3
    POWER_MODE_CHANGED = 1 << 8


LINK_IS_UP = State.DEVICE_PRESENT | State.TRANSFER_LIST_READY | State.MANAGEMENT_LIST_READY | State.UIC_READY


class Uic(enum.IntEnum):
    """The commands of UICCMD that change something here."""

    DME_GET = 0x01
    DME_SET = 0x02
    DME_PEER_GET = 0x03
    DME_PEER_SET = 0x04
    DME_ENDPOINT_RESET = 0x15
    DME_LINK_STARTUP = 0x16
    DME_HIBERNATE_ENTER = 0x17
    DME_HIBERNATE_EXIT = 0x18


class Attribute(enum.IntEnum):
    """Attributes of the link (MIPI UniPro, PHY adapter layer) that a host has to find, and the power mode."""

    CONNECTED_TX_LANES = 0x1561
    POWER_MODE = 0x1571
    CONNECTED_RX_LANES = 0x1581
    MOST_RX_PWM_GEAR = 0x1586
    MOST_RX_HS_GEAR = 0x1587


LINK: Dict[int, int] = {Attribute.CONNECTED_TX_LANES: 1, Attribute.CONNECTED_RX_LANES: 1,
                        Attribute.MOST_RX_PWM_GEAR: 1, Attribute.MOST_RX_HS_GEAR: 3}
# What each of these tells by an interrupt once the link has changed.
HIBERNATIONS = {Uic.DME_HIBERNATE_ENTER: Interrupt.HIBERNATE_ENTER,
                Uic.DME_HIBERNATE_EXIT: Interrupt.HIBERNATE_EXIT}


class Port(Protocol):
    """Where messages of the host go to."""

    def begin(self, transfer: Transfer) -> None:
        """A transfer begins. `Controller.finish` ends it."""

    def manage(self, slot: int, request: bytes) -> None:
        """A task management request. `Controller.finish_management` ends it."""

    def drop(self, slot: int) -> None:
        """The host wants no end of the transfer in this slot."""

    def reset(self) -> None:
        """The link or the controller was reset: the host wants no end of anything."""


class Controller:
    """The registers. `interrupt` is called when the line of the interrupt is to be raised."""

    def __init__(self, memory: Memory, interrupt: Callable[[], None]) -> None:
        self._memory = memory
        self._interrupt = interrupt
        self.port: Port
        self._values: Dict[int, int] = {}
        self._local: Dict[int, int] = {}
        self._peer: Dict[int, int] = {}
        self._clear()

    def _clear(self) -> None:
        """Each register has the value of a reset, and the link is down."""
        self._values = {Register.CAP: CAPABILITIES, Register.VER: VERSION_2_1}
        self._local, self._peer = dict(LINK), dict(LINK)

    def read(self, offset: int) -> int:
        """The value of a register."""
        return self._values.get(offset, 0)

    def write(self, offset: int, value: int) -> None:
        """The host writes a register."""
        if offset == Register.IS:
            # A bit is cleared by a one.
            self._set(Register.IS, self.read(Register.IS) & ~value)
            self._raise()
        elif offset == Register.IE:
            self._set(Register.IE, value)
            self._raise()
        elif offset == Register.HCE:
            self._enable(value)
        elif offset == Register.UTRLDBR:
            self._start_transfers(value)
        elif offset == Register.UTMRLDBR:
            self._start_management(value)
        elif offset in (Register.UTRLCLR, Register.UTMRLCLR):
            self._drop(offset, value)
        elif offset == Register.UICCMD:
            self._uic(value)
        elif offset not in READ_ONLY:
            self._set(offset, value)

    def _set(self, offset: int, value: int) -> None:
        self._values[offset] = value & ALL_ONES

    def _raise(self, bits: int = 0) -> None:
        """Sets bits of IS, and raises the line if one is set that IE lets through."""
        self._set(Register.IS, self.read(Register.IS) | bits)
        if self.read(Register.IS) & self.read(Register.IE):
            self._interrupt()

    def _enable(self, value: int) -> None:
        """HCE: a zero resets the controller, a one enables it. A host then starts the link."""
        if not value & ENABLED:
            self._clear()
            self.port.reset()
        elif not self.read(Register.HCE) & ENABLED:
            self._set(Register.HCE, ENABLED)
            self._set(Register.HCS, State.UIC_READY)

    # The link

    def _uic(self, command: int) -> None:
        """Does a UIC command at once. UCMDARG2 tells the result in bits 7..0, where zero is success."""
        told = Interrupt.UIC_COMPLETE
        attribute = self.read(Register.UCMDARG1) >> ATTRIBUTE_AT
        side = self._local if command in (Uic.DME_GET, Uic.DME_SET) else self._peer
        if command in (Uic.DME_GET, Uic.DME_PEER_GET):
            self._set(Register.UCMDARG3, side.get(attribute, 0))
        elif command in (Uic.DME_SET, Uic.DME_PEER_SET):
            side[attribute] = self.read(Register.UCMDARG3)
            if command == Uic.DME_SET and attribute == Attribute.POWER_MODE:
                told |= self._changed(Interrupt.POWER_MODE)
        elif command == Uic.DME_ENDPOINT_RESET:
            self.port.reset()
        elif command == Uic.DME_LINK_STARTUP:
            self._set(Register.HCS, self.read(Register.HCS) | LINK_IS_UP)
        elif command in (Uic.DME_HIBERNATE_ENTER, Uic.DME_HIBERNATE_EXIT):
            told |= self._changed(HIBERNATIONS[Uic(command)])
        self._set(Register.UCMDARG2, self.read(Register.UCMDARG2) & ~0xFF)
        self._raise(told)

    def _changed(self, told: Interrupt) -> Interrupt:
        """The power mode of the link changed, which the field UPMCRS of HCS tells, and an interrupt."""
        self._set(Register.HCS, self.read(Register.HCS) | State.POWER_MODE_CHANGED)
        return told

    # The lists

    def _base(self, low: Register, high: Register) -> int:
        return self.read(low) | self.read(high) << UPPER

    def _started(self, doorbell: Register, value: int, slots: int) -> Iterator[int]:
        """The slots that a write to a doorbell starts. Their bits are set then; zeros change nothing."""
        fresh = value & ~self.read(doorbell)
        self._set(doorbell, self.read(doorbell) | fresh & ((1 << slots) - 1))
        return (slot for slot in range(slots) if fresh >> slot & 1)

    def _start_transfers(self, value: int) -> None:
        base = self._base(Register.UTRLBA, Register.UTRLBAU)
        for slot in self._started(Register.UTRLDBR, value, SLOTS):
            try:
                self.port.begin(read_transfer(self._memory, base, slot))
            except TransferFault as fault:
                self._refuse(slot, base, fault.status, fault)
            except PeerFault as fault:
                self._refuse(slot, base, Status.FATAL_ERROR, fault)

    def _refuse(self, slot: int, base: int, status: Status, fault: Exception) -> None:
        """Ends a transfer that cannot begin."""
        print(f"ufshci: slot {slot}: {fault}", file=sys.stderr)
        self._memory.write(list_entry(base, slot) + STATUS_AT, bytes([status]))
        self._ended(Register.UTRLDBR, slot, Interrupt.TRANSFER_COMPLETE)

    def _start_management(self, value: int) -> None:
        base = self._base(Register.UTMRLBA, Register.UTMRLBAU)
        for slot in self._started(Register.UTMRLDBR, value, MANAGEMENT_SLOTS):
            self.port.manage(slot, read_management(self._memory, base, slot))

    def _drop(self, offset: int, value: int) -> None:
        """UTRLCLR and UTMRLCLR: a zero clears the slot."""
        doorbell = Register.UTRLDBR if offset == Register.UTRLCLR else Register.UTMRLDBR
        if doorbell == Register.UTRLDBR:
            for slot in (it for it in range(SLOTS) if not value >> it & 1):
                self.port.drop(slot)
        self._set(doorbell, self.read(doorbell) & value)

    def finish(self, transfer: Transfer, response: bytes, status: Status = Status.SUCCESS) -> None:
        """Ends a transfer."""
        finish(self._memory, transfer, response, status)
        self._ended(Register.UTRLDBR, transfer.slot, Interrupt.TRANSFER_COMPLETE)

    def finish_management(self, slot: int, response: bytes, status: Status = Status.SUCCESS) -> None:
        """Ends a task management request."""
        base = self._base(Register.UTMRLBA, Register.UTMRLBAU)
        finish_management(self._memory, base, slot, response, status)
        self._ended(Register.UTMRLDBR, slot, Interrupt.MANAGEMENT_COMPLETE)

    def _ended(self, doorbell: Register, slot: int, told: Interrupt) -> None:
        self._set(doorbell, self.read(doorbell) & ~(1 << slot))
        self._raise(told)
