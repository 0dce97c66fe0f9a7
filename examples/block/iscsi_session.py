"""A session of iSCSI: the login, the order of commands, and what an initiator may ask for (RFC 7143)."""
from __future__ import annotations

from typing import Callable, Dict, Optional, Tuple

from iscsi_attentions import Attentions
from iscsi_keys import NOT_UNDERSTOOD, PORTAL_GROUP, TARGET_NAME, Pairs, Text, write_keys
from iscsi_login import Login, Status
from iscsi_management import manage
from iscsi_pdu import FINAL, NO_TAG, SERIAL, Fields, Opcode, Pdu, Reason, is_before, whole_pdus
from iscsi_task import INCORRECT_AMOUNT_OF_DATA, READ, UNEXPECTED_UNSOLICITED_DATA, WRITE, CommandTask
from loop import Connection, Malformed
from machine import Machine

# As many commands of a session may be open as the device has tasks.
WINDOW = 32
# What a logout asks for, and how it is answered, where the connection is to be recovered (11.14, 11.15).
REASON, RECOVERY, NO_RECOVERY = 0x7F, 2, 2


class Sessions:
    """The sessions of a target, by the name of the initiator and its part of their identifier (ISID)."""

    def __init__(self) -> None:
        self.all: Dict[Tuple[str, bytes], Session] = {}
        self.attentions = Attentions()
        self._last = 0

    def add(self, session: Session, name: str, identifier: bytes) -> int:
        """Takes in a session, and gives its handle. An old one of the same name is reinstated: it is closed
        (6.3.5)."""
        old = self.all.pop((name, identifier), None)
        if old is not None:
            old.connection.close()
        self.all[(name, identifier)] = session
        self._last = self._last % 0xFFFF + 1
        return self._last

    def end_all(self) -> None:
        """Ends all connections, once what waits for them is sent."""
        for session in tuple(self.all.values()):
            session.connection.end()

    def remove(self, session: Session) -> None:
        """Forgets a session."""
        for key in [key for key, it in self.all.items() if it is session]:
            del self.all[key]
        self.attentions.forget(session)


class Session:
    """A session with its one connection."""

    def __init__(self, machine: Machine, connection: Connection, sessions: Sessions, splits: bool) -> None:
        self.machine = machine
        self.splits = splits
        """Whether commands that are too long for the device are split."""
        self.connection = connection
        self.sessions = sessions
        self._login = Login()
        self.parameters = self._login.parameters
        self.tasks: Dict[int, CommandTask] = {}
        """The open tasks by the initiator's tag."""
        self.expected = 0
        """The number of the command that is to come next (ExpCmdSN)."""
        self._is_full_feature = False
        self._status = 0
        self._last_allowed: Optional[int] = None
        self._early: Dict[int, Optional[Pdu]] = {}
        self._text = Text()
        self._acts: Dict[int, Callable[[Pdu], None]] = {
            Opcode.NOP_OUT: self._nop, Opcode.COMMAND: self._command, Opcode.TASK_MANAGEMENT: self._manage,
            Opcode.TEXT: self._text_request, Opcode.LOGOUT: self._logout}

    # PDUs

    def on_bytes(self, waiting: bytearray) -> None:
        """Takes whole PDUs from the front of what came."""
        for pdu in whole_pdus(waiting):
            if not self.connection.is_open:
                return
            self._take(pdu)

    def on_close(self) -> None:
        """Tasks end with the nexus."""
        for task in tuple(self.tasks.values()):
            task.abort()
        self.sessions.remove(self)

    def send(self, fields: Fields, data: bytes = b"", *, has_status: bool = True) -> None:
        """Sends a PDU with StatSN, ExpCmdSN and MaxCmdSN. One with a status uses up its StatSN."""
        if fields.opcode != Opcode.DATA_IN:
            fields.put(24, self._status)
        fields.put(28, self.expected).put(32, self.last_allowed)
        self._status += has_status
        self.connection.send(fields.with_data(data))

    @property
    def last_allowed(self) -> int:
        """MaxCmdSN, which never goes back."""
        asked = self.expected + WINDOW - 1 - len(self.tasks)
        if self._last_allowed is None or is_before(self._last_allowed, asked):
            self._last_allowed = asked
        return self._last_allowed

    def reject(self, pdu: Pdu, reason: Reason) -> None:
        """A Reject, with the header of what is rejected."""
        self.send(Fields(Opcode.REJECT).put(2, reason, 1), pdu.header)

    def _take(self, pdu: Pdu) -> None:
        if pdu.opcode == Opcode.LOGIN and not self._is_full_feature:
            self._log_in(pdu)
        elif not self._is_full_feature:
            raise Malformed(f"opcode {pdu.opcode:02X}h before the login")
        elif pdu.opcode == Opcode.DATA_OUT:
            self._data_out(pdu)
        elif pdu.opcode in self._acts:
            self._in_order(pdu)
        else:
            self.reject(pdu, Reason.SNACK if pdu.opcode == Opcode.SNACK else Reason.NOT_SUPPORTED)

    def _in_order(self, pdu: Pdu) -> None:
        """Commands go in the order of their numbers; what is outside of the window is ignored (4.2.2.1)."""
        number = pdu.word(24)
        if pdu.is_immediate:
            self._acts[pdu.opcode](pdu)
            return
        if is_before(number, self.expected) or is_before(self.last_allowed, number):
            return
        self._early.setdefault(number, pdu)
        while self.expected in self._early:
            due = self._early.pop(self.expected)
            self.expected = (self.expected + 1) % SERIAL
            if due is not None:
                self._acts[due.opcode](due)

    def take_as_received(self, number: int) -> bool:
        """A command of this number that has not come counts as received, if it is in the window (11.6.1)."""
        if is_before(number, self.expected) or is_before(self.last_allowed, number):
            return False
        self._early.setdefault(number, None)
        return True

    # Commands

    def _command(self, pdu: Pdu) -> None:
        both = READ | WRITE
        if pdu.extra or pdu.flags & both == both:
            self.reject(pdu, Reason.NOT_SUPPORTED)
        elif self.parameters.is_discovery or not pdu.is_final:
            self.reject(pdu, Reason.PROTOCOL_ERROR)
        elif pdu.tag in self.tasks or pdu.tag == NO_TAG:
            self.reject(pdu, Reason.INVALID_FIELD)
        else:
            task = self.tasks[pdu.tag] = CommandTask(self, pdu)
            self._begin(task, pdu)

    def _begin(self, task: CommandTask, pdu: Pdu) -> None:
        """Immediate data have to be negotiated, and not too many."""
        if pdu.data and not (self.parameters.immediate and pdu.flags & WRITE):
            task.fail(UNEXPECTED_UNSOLICITED_DATA)
        elif len(pdu.data) > min(self.parameters.first_burst, pdu.word(20)):
            task.fail(INCORRECT_AMOUNT_OF_DATA)
        else:
            task.begin()

    def is_done(self, task: CommandTask) -> None:
        """The task has ended."""
        if self.tasks.get(task.initiator_tag) is task:
            del self.tasks[task.initiator_tag]

    def takes_attention(self, lun: int) -> bool:
        """Whether the initiator has to be told now, and not by the device, that the unit was reset."""
        return self.sessions.attentions.take(lun, self)

    def has_attention_told(self, lun: int) -> None:
        """The device has told the initiator that the unit was reset."""
        self.sessions.attentions.told(lun, self)

    def _data_out(self, pdu: Pdu) -> None:
        """Data of a task that is gone are dropped. What was not asked for ends its task (11.4.7.2)."""
        task = self.tasks.get(pdu.tag)
        if task is not None and not task.take(pdu):
            is_unsolicited = pdu.word(20) == NO_TAG
            self.reject(pdu, Reason.PROTOCOL_ERROR)
            task.fail(UNEXPECTED_UNSOLICITED_DATA if is_unsolicited else INCORRECT_AMOUNT_OF_DATA)

    def _manage(self, pdu: Pdu) -> None:
        fields = Fields(Opcode.TASK_MANAGEMENT_RESPONSE, FINAL, pdu.tag)
        self.send(fields.put(2, manage(self, pdu), 1))

    # What needs no device

    def _nop(self, pdu: Pdu) -> None:
        """A ping is answered with its data (11.18)."""
        if pdu.tag != NO_TAG:
            fields = Fields(Opcode.NOP_IN, FINAL, pdu.tag).copy(8, pdu.lun).put(20, NO_TAG)
            self.send(fields, pdu.data[:self.parameters.data_of_initiator])

    def _logout(self, pdu: Pdu) -> None:
        """The session ends with its one connection (11.14)."""
        fields = Fields(Opcode.LOGOUT_RESPONSE, FINAL, pdu.tag)
        self.send(fields.put(2, NO_RECOVERY if pdu.flags & REASON == RECOVERY else 0, 1))
        self.connection.end()

    def _text_request(self, pdu: Pdu) -> None:
        """SendTargets is all that is answered (11.10, appendix C)."""
        pairs = self._text.take(pdu)
        fields = Fields(Opcode.TEXT_RESPONSE, 0 if pairs is None else FINAL, pdu.tag)
        fields.put(20, 0 if pairs is None else NO_TAG)
        self.send(fields, write_keys([answer for pair in pairs or () for answer in self._found(*pair)]))

    def _found(self, key: str, value: str) -> Pairs:
        """The answers to a key of a text request."""
        if key != "SendTargets":
            return [(key, NOT_UNDERSTOOD)]
        if value not in ("All", TARGET_NAME) and (value or self.parameters.is_discovery):
            return []
        host, port = self.connection.link.getsockname()[:2]
        return [("TargetName", TARGET_NAME), ("TargetAddress", f"{host}:{port},{PORTAL_GROUP}")]

    # The login

    def _log_in(self, pdu: Pdu) -> None:
        """A step of the login."""
        if self._last_allowed is None:
            self.expected, self._status = pdu.word(24), pdu.word(28)
        answer = self._login.take(pdu)
        handle = 0
        if answer.is_last:
            self._is_full_feature = True
            handle = self.sessions.add(self, self.parameters.initiator, pdu.header[8:14])
        fields = Fields(Opcode.LOGIN_RESPONSE, answer.flags, pdu.tag).copy(8, pdu.header[8:14])
        self.send(fields.put(14, handle, 2).put(36, answer.status, 2), write_keys(answer.pairs))
        if answer.status is not Status.SUCCESS:
            self.connection.end()
