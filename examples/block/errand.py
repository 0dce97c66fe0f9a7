"""Commands that follow one another, each begun when the one before it has ended, beside other tasks of the
device."""
from __future__ import annotations

from typing import Callable, Generator, NamedTuple, Optional

from butcherford import messages
from machine import Machine

# So many steps free slots of the write cache, if anything does.
STEPS_WHILE_BUSY = 4096
NO_TASK = 0xFF


class Command(NamedTuple):
    """A command: what it sends, or how many bytes it receives."""

    lun: int
    cdb: bytes
    send: bytes = b""
    receive: int = 0


class Outcome(NamedTuple):
    """How it ended: its status, the sense key of CHECK CONDITION, and what came."""

    status: int
    key: int
    data: bytes


Commands = Generator[Command, Outcome, None]
Blocks = Generator[Command, Outcome, bytearray]


class Failed(Exception):
    """A command did not end with GOOD. `key` is the sense key; it is 0 where there is none."""

    def __init__(self, key: int) -> None:
        super().__init__(key)
        self.key = key


def expect(outcome: Outcome) -> bytes:
    """What came with GOOD."""
    if outcome.status != messages.GOOD:
        raise Failed(outcome.key)
    return outcome.data


class Errand:
    """A row of commands. `ended` hears of its end: of the sense key where it failed, else of None."""

    def __init__(self, machine: Machine, commands: Commands, ended: Callable[[Optional[int]], None]) -> None:
        self._machine = machine
        self._commands = commands
        self._ended = ended
        self._came = bytearray()
        self._tries = 0
        self.lun = 0
        self.tag = NO_TASK
        self._command = Command(0, b"")

    def begin(self) -> None:
        """Begins the first command."""
        self._go_on(lambda: next(self._commands))

    def _go_on(self, step: Callable[[], Command]) -> None:
        try:
            self._command = step()
        except StopIteration:
            self._ended(None)
        except Failed as fault:
            self._ended(fault.key)
        else:
            self._tries = 0
            self._start()

    def _start(self) -> None:
        """Hands over the command, or has it wait behind those that were BUSY. So an UNMAP, which needs many
        free slots, gets them, and what follows a write does not come before it."""
        self.lun, cdb, send, receive = self._command
        if send and self._machine.is_crowded:
            self._machine.later(self._start)
            return
        self._came.clear()
        flags = messages.TO_DEVICE if send else messages.TO_HOST if receive else 0
        self._machine.start(self, cdb, flags, len(send) or receive)

    def on_reply(self, message: bytes, reply: messages.Reply) -> None:
        """Sends what is asked for, keeps what comes, and goes on behind the RESPONSE."""
        if reply.code == messages.Code.READY_TO_TRANSFER:
            asked = self._command.send[reply.offset:reply.offset + reply.count]
            self._machine.send(self, reply.offset, asked)
        elif reply.code == messages.Code.DATA_IN:
            self._came += reply.data
        elif reply.status in (messages.BUSY, messages.TASK_SET_FULL) and self._tries < STEPS_WHILE_BUSY:
            self._tries += 1
            self._machine.later(self._start, is_first=True)
        else:
            key = reply.data[4] & 0x0F if reply.status == messages.CHECK_CONDITION else 0
            outcome = Outcome(reply.status, key, bytes(self._came))
            self._go_on(lambda: self._commands.send(outcome))
