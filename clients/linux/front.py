"""The front: it hands the messages of a UFS host controller to the device, and the answers to the controller.

A message goes to the device as it is, and its answer comes back as it is, attentions of a LUN too. The device has
profile 1, where task management has tags of its own, as it has in Linux. A reset of the controller goes to the device
as a LINK EVENT, which no host sends.

The dies work when a command waits for them, when much is only in the write cache, and when the host is quiet.
So what was not flushed is lost in a power cut, as with a device that has a write cache.
"""
from __future__ import annotations

import itertools
import sys
import time
from typing import Dict, Iterator

from butcherford import Device, MessageFault
from butcherford.messages import BUSY, UNMAP, Code, big, data_out, header, number_at, read_reply

from dies import Dies
from transfers import Memory, Status, Transfer, TransferFault, gather, scatter
from ufshci import SLOTS, Controller
from vhost_user import PeerFault

TAG_AT, LUN_AT, CDB_AT = 3, 2, 16
# How many blocks the one descriptor in the list of an UNMAP names (SBC-3, "UNMAP command").
UNMAPPED_AT = 16
# VERIFY(10), whose data are compared and not written (SBC-3).
VERIFY = 0x2F
ABORT_TASK = 0x01
TASK_MANAGEMENT_REQUEST = 0x04
# What a host sends in its list of transfers.
HANDED_ON = (Code.NOP_OUT, Code.COMMAND, Code.QUERY_REQUEST)
# The tags of the host's commands, and those of the front's own requests of task management. The package `butcherford`
# uses 80h and above.
HOST_TAGS = range(SLOTS)
OWN_TAGS = range(0x60, 0x80)
# So long the dies work before the host's reads of registers are looked at again.
WORK_SECONDS = 0.002


class Front:
    """Stands between a controller and a device. `most_kept` blocks may be in the write cache alone."""

    def __init__(self, device: Device, dies: Dies, controller: Controller, memory: Memory,
                 most_kept: int) -> None:
        self._device = device
        self._dies = dies
        self._controller = controller
        self._memory = memory
        self._most_kept = most_kept
        self._open: Dict[int, Transfer] = {}
        # The slots of the requests of task management, by their tags.
        self._managed: Dict[int, int] = {}
        self._own_tags: Iterator[int] = itertools.cycle(OWN_TAGS)
        self._kept = 0
        self._is_draining = False

    # What the controller asks

    def begin(self, transfer: Transfer) -> None:
        """A transfer begins: it goes to the device."""
        code = transfer.request[0]
        if code not in HANDED_ON:
            raise TransferFault(Status.INVALID_COMMAND_TABLE, f"no transfer has the transaction code {code:02X}h")
        if transfer.tag not in HOST_TAGS:
            text = f"the task tag is {transfer.tag}, and has to be below {SLOTS}"
            raise TransferFault(Status.INVALID_COMMAND_TABLE, text)
        try:
            self._device.host(transfer.request)
        except MessageFault as fault:
            text = f"the device takes no such message: {fault}"
            raise TransferFault(Status.INVALID_COMMAND_TABLE, text) from fault
        self._open[transfer.tag] = transfer

    def manage(self, slot: int, request: bytes) -> None:
        """A task management request (JESD220, 10.7.6) goes to the device."""
        tag = request[TAG_AT]
        try:
            if request[0] != TASK_MANAGEMENT_REQUEST or tag in OWN_TAGS:
                raise TransferFault(Status.INVALID_COMMAND_TABLE, f"code {request[0]:02X}h, tag {tag:02X}h")
            self._device.host(request)
        except (MessageFault, TransferFault) as fault:
            print(f"front: the device takes no such task management request: {fault}", file=sys.stderr)
            self._controller.finish_management(slot, b"", Status.INVALID_COMMAND_TABLE)
            return
        self._managed[tag] = slot

    def drop(self, slot: int) -> None:
        """The host wants no end of the transfer in this slot: the device aborts it, if it still has it."""
        for transfer in [it for it in self._open.values() if it.slot == slot]:
            self._abort(transfer)

    def reset(self) -> None:
        """The controller or the link was reset: all that is open ends in the device, and no answer is handed on."""
        self._open.clear()
        self._managed.clear()
        self._device.link_event()

    def _abort(self, transfer: Transfer) -> None:
        self._open.pop(transfer.tag, None)
        lun = transfer.request[LUN_AT]
        fields = big(lun, 4) + big(transfer.tag, 4)
        tag = next(self._own_tags)
        self._device.host(header(TASK_MANAGEMENT_REQUEST, lun, tag, fields, function=ABORT_TASK))

    # What the device answers

    def work(self) -> bool:
        """Hands on what the device answers, and lets the dies work. Says whether there is more to do."""
        end = time.monotonic() + WORK_SECONDS
        while time.monotonic() < end:
            self._hear_all()
            if not (self._open or self._is_draining):
                return False
            if not self._dies.round():
                self._kept, self._is_draining = 0, False
                return False
        return True

    def rest(self) -> bool:
        """The host is quiet: what is in the write cache goes to the dies. Says whether there is any."""
        self._is_draining = self._is_draining or self._kept > 0
        return self._is_draining

    def _hear_all(self) -> None:
        reply = self._device.reply()
        while reply is not None:
            self._hear(reply)
            reply = self._device.reply()

    def _hear(self, reply: bytes) -> None:
        """Hands on a reply. That of a transfer that was given up, or of a request of the front, ends here."""
        tag = reply[TAG_AT]
        if reply[0] == Code.TASK_RESPONSE:
            if tag in self._managed:
                self._controller.finish_management(self._managed.pop(tag), reply)
        elif tag in self._open:
            self._hand_on(self._open[tag], reply)

    def _hand_on(self, transfer: Transfer, reply: bytes) -> None:
        try:
            self._carry(transfer, reply)
        except (TransferFault, PeerFault) as fault:
            print(f"front: slot {transfer.slot}: {fault}", file=sys.stderr)
            status = fault.status if isinstance(fault, TransferFault) else Status.FATAL_ERROR
            self._abort(transfer)
            self._controller.finish(transfer, b"", status)

    def _carry(self, transfer: Transfer, reply: bytes) -> None:
        told = read_reply(reply)
        if told.code == Code.DATA_IN:
            scatter(self._memory, transfer.buffers, told.offset, told.data)
        elif told.code == Code.READY_TO_TRANSFER:
            data = gather(self._memory, transfer.buffers, told.offset, told.count)
            self._device.host(data_out(transfer.request[LUN_AT], transfer.tag, told.offset, data))
            self._kept += kept_by(transfer.request, data)
            self._is_draining = self._is_draining or self._kept > self._most_kept
        else:
            # Without room in the write cache the host tries again: so the dies make room.
            self._is_draining = self._is_draining or (told.code == Code.RESPONSE and told.status == BUSY)
            self._controller.finish(transfer, reply)
            del self._open[transfer.tag]


def kept_by(request: bytes, data: bytes) -> int:
    """How many blocks the write cache has by data that came: one of a WRITE, all that an UNMAP names, or none of a
    VERIFY."""
    return number_at(data, UNMAPPED_AT, 4) if request[CDB_AT] == UNMAP else int(request[CDB_AT] != VERIFY)

