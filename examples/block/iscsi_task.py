"""A SCSI command of an initiator, as a task of the device (RFC 7143, 11.3 to 11.8; JESD220, 10.7.1 to
10.7.5)."""
from __future__ import annotations

from typing import Optional, Protocol, Tuple

from butcherford import messages
from iscsi_keys import Parameters
from iscsi_pdu import FINAL, NO_TAG, Fields, Opcode, Pdu
from iscsi_split import Port, port_for
from machine import Machine

READ, WRITE = 0x40, 0x20
UNDERFLOW, OVERFLOW = 0x02, 0x04
DEVICE_UNDERFLOW, DEVICE_OVERFLOW = 0x20, 0x40
CHECK_CONDITION, TASK_ABORTED = 0x02, 0x40
# A unit that no configuration has: the device itself answers so.
NO_UNIT = 0x7F
WELL_KNOWN, WELL_KNOWN_LUN = 0xC1, 0x80
SENSE_KEY = 0x0F
UNIT_ATTENTION, ABORTED_COMMAND = 0x06, 0x0B
UNEXPECTED_UNSOLICITED_DATA, INCORRECT_AMOUNT_OF_DATA = (0x0C, 0x0C), (0x0C, 0x0D)
# Power on, reset, or bus device reset occurred.
RESET_OCCURRED = (0x29, 0x00)
# These commands meet no attention, and REQUEST SENSE tells it as its data (SAM-5, 5.14; SPC-4).
INQUIRY, REPORT_LUNS, REQUEST_SENSE = 0x12, 0xA0, 0x03


def lun_of(field: bytes) -> int:
    """The LUN byte of a UPIU for the eight bytes of SCSI (JESD220, 10.8.5): `00 LL` is a unit, `C1 WW` a
    well-known one, and any other one none of the device."""
    if any(field[2:]) or field[1] >= WELL_KNOWN_LUN or field[0] not in (0, WELL_KNOWN):
        return NO_UNIT
    return field[1] if field[0] == 0 else WELL_KNOWN_LUN | field[1]


def sense(key: int, code: Tuple[int, int]) -> bytes:
    """Sense data of this target's own, in the fixed format, with their length before them (11.4.7.2)."""
    return bytes([0, 18, 0x70, 0, key, 0, 0, 0, 0, 10, 0, 0, 0, 0, *code, 0, 0, 0, 0])


def residual_of(expected: int, length: int) -> Tuple[int, int]:
    """The flag and the residual of a command of this length, where so many bytes were expected (11.4.5)."""
    flag = UNDERFLOW if length < expected else OVERFLOW if length > expected else 0
    return flag, abs(expected - length)


class Owner(Protocol):
    """What a task needs of its session."""

    machine: Machine
    parameters: Parameters
    splits: bool

    def send(self, fields: Fields, data: bytes = b"", *, has_status: bool = True) -> None:
        """Sends a PDU with the session's numbers."""

    def is_done(self, task: CommandTask) -> None:
        """The task has ended."""

    def takes_attention(self, lun: int) -> bool:
        """Whether the initiator has to be told now, and not by the device, that the unit was reset."""

    def has_attention_told(self, lun: int) -> None:
        """The device has told the initiator that the unit was reset."""


class CommandTask:
    """A task of the device, and what an initiator sent for it."""

    def __init__(self, owner: Owner, pdu: Pdu) -> None:
        self._owner = owner
        self._port: Port = owner.machine
        self.lun = lun_of(pdu.lun)
        self.tag = NO_TAG
        self.initiator_tag = pdu.tag
        self.lun_field = pdu.lun
        self._cdb = pdu.header[32:48]
        self._flags = pdu.flags & (READ | WRITE)
        self._expected = pdu.word(20)
        self._data = bytearray(pdu.data)
        self._asked: Optional[Tuple[int, int]] = None
        self._transfer = NO_TAG
        self._transfers = 0
        self._transfer_end = 0
        self._next_out = 0
        self._sent = 0
        self._ended: Optional[Tuple[bytes, messages.Reply]] = None
        self._held: Optional[Tuple[int, bytes]] = None

    def begin(self) -> None:
        """Hands the command to the device, unless it meets an attention that the device has told another
        session."""
        if self._cdb[0] not in (INQUIRY, REPORT_LUNS) and self._owner.takes_attention(self.lun):
            self._tell_attention()
            return
        if self._owner.splits:
            self._port = port_for(self._owner.machine, self._cdb, self._flags, self._expected)
        self._port.start(self, self._cdb, self._flags, self._expected)

    # What the device says

    def on_reply(self, message: bytes, reply: messages.Reply) -> None:
        """Says it to the initiator."""
        if reply.code == messages.Code.READY_TO_TRANSFER:
            self._asked = (reply.offset, reply.count)
            self._supply()
        elif reply.code == messages.Code.DATA_IN:
            self._send_held(is_last=False)
            self._held = (reply.offset, reply.data)
        else:
            if self._tells_attention(reply):
                self._owner.has_attention_told(self.lun)
            self._ended = (message, reply)
            self._end()

    def _tells_attention(self, reply: messages.Reply) -> bool:
        """Whether the device has told its attention by this RESPONSE, or by the data before it."""
        if reply.status == messages.CHECK_CONDITION:
            return reply.data[4] & SENSE_KEY == UNIT_ATTENTION
        return self._cdb[0] == REQUEST_SENSE and reply.status == messages.GOOD

    def _end(self) -> None:
        """Hands on the RESPONSE, once all data are there that the initiator was asked for."""
        if self._ended is None or self._transfer != NO_TAG:
            return
        message, reply = self._ended
        self._send_held(is_last=True)
        overflow = OVERFLOW if message[1] & DEVICE_OVERFLOW else 0
        underflow = UNDERFLOW if message[1] & DEVICE_UNDERFLOW else 0
        self.respond(reply.status, reply.data, overflow | underflow, residual=reply.offset)

    def respond(self, status: int, sense_data: bytes = b"", residuals: int = 0, residual: int = 0) -> None:
        """A SCSI Response: the task has ended."""
        fields = Fields(Opcode.RESPONSE, FINAL | residuals, self.initiator_tag)
        fields.put(3, status, 1).put(36, self._sent).put(44, residual)
        self._owner.is_done(self)
        self._owner.send(fields, sense_data)

    def _tell_attention(self) -> None:
        """What the device would say if the unit had an attention."""
        told = sense(UNIT_ATTENTION, RESET_OCCURRED)
        if self._cdb[0] != REQUEST_SENSE:
            self.respond(CHECK_CONDITION, told, *residual_of(self._expected, 0))
            return
        data = told[2:][:self._cdb[4]]
        self._held = (0, data[:self._expected])
        self._send_held(is_last=True)
        self.respond(messages.GOOD, b"", *residual_of(self._expected, len(data)))

    def _send_held(self, is_last: bool) -> None:
        """Sends the data that came last, in PDUs that the initiator has room for, in sequences of
        MaxBurstLength."""
        if self._held is None:
            return
        offset, data = self._held
        self._held = None
        parameters = self._owner.parameters
        while data:
            room = parameters.most_burst - offset % parameters.most_burst
            most = min(room, parameters.data_of_initiator)
            part, data = data[:most], data[most:]
            ends = (is_last and not data) or len(part) == room
            fields = Fields(Opcode.DATA_IN, FINAL if ends else 0, self.initiator_tag)
            fields.put(20, NO_TAG).put(36, self._sent).put(40, offset)
            self._owner.send(fields, part, has_status=False)
            self._sent += 1
            offset += len(part)

    # What the initiator sends

    def _supply(self) -> None:
        """Hands the device what it asked for, or asks the initiator for what is missing of it."""
        if self._asked is None:
            return
        offset, count = self._asked
        if len(self._data) >= offset + count:
            self._asked = None
            self._port.send(self, offset, bytes(self._data[offset:offset + count]))
        elif self._transfer == NO_TAG:
            self._ask()

    def _ask(self) -> None:
        """A Ready To Transfer (R2T) for the data that are left, at most a burst. How many the command takes
        is in its CDB, where this target does not look: what the device does not ask for is dropped."""
        start = len(self._data)
        end = min(self._expected, start + self._owner.parameters.most_burst)
        self._transfer, self._transfer_end, self._next_out = self._transfers, end, 0
        fields = Fields(Opcode.READY_TO_TRANSFER, FINAL, self.initiator_tag).copy(8, self.lun_field)
        fields.put(20, self._transfer).put(36, self._sent).put(40, start).put(44, end - start)
        self._owner.send(fields, has_status=False)
        self._transfers += 1
        self._sent += 1

    def take(self, pdu: Pdu) -> bool:
        """Takes a Data-Out. It says whether tag, number, offset and length are those that were asked for."""
        wanted = (self._transfer, self._next_out, len(self._data))
        end = len(self._data) + len(pdu.data)
        if self._transfer == NO_TAG or (pdu.word(20), pdu.word(36), pdu.word(40)) != wanted:
            return False
        if end > self._transfer_end or (pdu.is_final and end != self._transfer_end):
            return False
        self._data += pdu.data
        self._next_out += 1
        if end == self._transfer_end:
            self._transfer = NO_TAG
        self._supply()
        self._end()
        return True

    def fail(self, code: Tuple[int, int]) -> None:
        """Ends it in the device, and tells the initiator what was wrong with its data."""
        self._port.abort(self)
        self.respond(CHECK_CONDITION, sense(ABORTED_COMMAND, code))

    def abort(self, is_told: bool = False) -> None:
        """Ends it in the device. Another initiator's task is told so by the status TASK ABORTED (SAM-5,
        5.3.1)."""
        self._port.abort(self)
        if is_told:
            self.respond(TASK_ABORTED)
        else:
            self._owner.is_done(self)
