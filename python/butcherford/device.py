"""A device: its calls, its dies, its settings, and the power."""
from __future__ import annotations

import ctypes
import enum
import threading
import warnings
from collections import deque
from types import TracebackType
from typing import Callable, Deque, Iterable, NamedTuple, Optional, Sequence, Tuple, Type, Union

from . import library as lib
from . import messages
from .errors import Busy, CheckCondition, NoAnswer, PowerCut, QueryError, TaskSetFull, UfsError
from .messages import Code, Opcode, Reply
from .queries import Attributes, Descriptors, Flags
from .rpmb import Rpmb
from .unit import Unit

# So many rounds bring an answer that comes at all, also while the device mends or collects.
MOST_ROUNDS = 4096
# This package's own exchanges have the task tags from here to FFh.
FIRST_TAG, TAGS = 0x80, 0x80
BECOMING_READY, UNIT_ATTENTION = (2, 0x04, 1), (6, 0x29, 0)
OUT_OF_RANGE, BAD_NUMBER = 4, 12
LEFT_OLD, LEFT_NEW, LEFT_TORN = range(3)
# The fault of a call to which memory was refused (ufs.h).
NO_MEMORY = 3


class UnitNumbers(NamedTuple):
    """The numbers of a unit in a configuration.

    `blocks` of 4096 bytes; `boot` is 0 (none), 1 (A) or 2 (B); `protect` is 0 (never), 1 (by fPowerOnWPEn) or 2
    (by fPermanentWPEn).
    """

    blocks: int
    boot: int = 0
    protect: int = 0


class JobKind(enum.IntEnum):
    """What a die is to do."""

    READ = 1
    PROGRAM = 2
    ERASE = 3


class Job(NamedTuple):
    """A job of a die. `page` is 0 for an erase; `body` and `spare` are what a program writes, and else empty."""

    kind: JobKind
    die: int
    block: int
    page: int
    body: bytes
    spare: bytes


class Attribute(enum.IntEnum):
    """The attributes of the profile."""

    BOOT_LUN_EN = 0x00


class Flag(enum.IntEnum):
    """The flags of the profile."""

    DEVICE_INIT = 0x01
    """A host sets it, and a device of profile 1 clears it once it has mended. Of profile 0 it is always 0."""
    PERMANENT_WRITE_PROTECT = 0x02
    POWER_ON_WRITE_PROTECT = 0x03


class Descriptor(enum.IntEnum):
    """The descriptors of the profile."""

    DEVICE = 0x00
    UNIT = 0x02
    GEOMETRY = 0x07
    """Of profile 1 alone."""


UnitLike = Union[int, Tuple[int, int, int], UnitNumbers]


def checked(number: int, most: int) -> int:
    """The number, if a field of the library has room for it."""
    if not 0 <= number <= most:
        raise lib.fault(OUT_OF_RANGE)
    return number


class Device:
    """A device with its dies in memory.

    All calls come from the thread that opened it, else they raise `RuntimeError`. Close it, or use it in a `with`. The
    package's own exchanges have the task tags 80h to FFh: for messages of your own use those below.
    """

    def __init__(self, dies: int = 2, blocks: int = 24, pages: int = 16, units: Sequence[UnitLike] = (64,),
                 rpmb: Sequence[int] = (1, 0, 0, 0), slots: int = 64, spare: int = 4, *,
                 profile: int = 1, serial: int = 1, image: Optional[bytes] = None, mend: bool = True) -> None:
        """Opens a device over new dies, or over those of an image.

        `units` has for each unit its blocks, or its `UnitNumbers`; `rpmb` the area of each region in steps of 128
        KiB. `profile` is 1 for a device that tells more of itself, also its `serial` number, and that has
        attentions; 0 is the device of a few commands. docs/FORMATS.md, "Configuration", has the range of each
        number. With `mend` the device is made ready (`make_ready`).
        """
        self._handle = lib.Handle(None, False)
        self._thread = threading.get_ident()
        self._calls = lib.library()
        self._is_off = False
        self._kept: Deque[bytes] = deque()
        self._next_tag = 0
        self.on_job: Optional[Callable[[Job], None]] = None
        """Is called with each job that a die takes. What it raises comes out of the call in which that was."""
        self.dies = checked(dies, 0xFF)
        self.profile = profile
        """The profile of the configuration."""
        self.most_blocks = 128 if slots >= 256 else 32
        """How many blocks one command may have."""
        rows = [UnitNumbers(it) if isinstance(it, int) else UnitNumbers(*it) for it in units]
        self.units: Tuple[Unit, ...] = tuple(Unit(self, number, row.blocks) for number, row in enumerate(rows))
        """The units of the configuration, in their order."""
        self.attributes = Attributes(self)
        """The attributes, by their names."""
        self.flags = Flags(self)
        """The flags, by their names."""
        self.descriptors = Descriptors(self)
        """The descriptors, by their names."""
        self._open(config_row(dies, blocks, pages, rpmb, slots, spare, profile, serial), rows, image)
        if mend:
            self._make_ready_or_close()

    @classmethod
    def from_image(cls, image: bytes, dies: int = 2, blocks: int = 24, pages: int = 16,
                   units: Sequence[UnitLike] = (64,), rpmb: Sequence[int] = (1, 0, 0, 0), slots: int = 64,
                   spare: int = 4, *, profile: int = 1, serial: int = 1, mend: bool = True) -> Device:
        """A device over the dies of an image, which `image` or `ufsim image save` made, in the same numbers. Its
        profile and its serial number may be others: they stand on no die."""
        return cls(dies, blocks, pages, units, rpmb, slots, spare, profile=profile, serial=serial, image=image,
                   mend=mend)

    def _open(self, config: lib.ConfigRow, rows: Sequence[UnitNumbers], image: Optional[bytes]) -> None:
        table = (lib.UnitRow * max(1, len(rows)))()
        for place, row in zip(table, rows):
            place.blocks = checked(row.blocks, 0xFFFFFFFF)
            place.boot = checked(row.boot, 0xFF)
            place.protect = checked(row.protect, 0xFF)
        words = (ctypes.byref(self._handle), ctypes.byref(config), table, len(rows))
        if image is None:
            self._expect(self._calls.ufs_open(*words))
        else:
            self._expect(self._calls.ufs_open_image(*words, bytes(image), len(image)))

    def _make_ready_or_close(self) -> None:
        try:
            self.make_ready()
        except BaseException:
            self.close()
            raise

    @staticmethod
    def _expect(number: int) -> None:
        if number:
            raise lib.fault(number)

    def _at(self) -> object:
        """The handle, for a call: while the power is away there is none."""
        if self._is_off:
            raise PowerCut("the power is away")
        return self._pointer()

    def _pointer(self) -> object:
        """The handle, which the library lets one thread use."""
        if threading.get_ident() != self._thread:
            raise RuntimeError("a device is used by the thread that opened it, and by no other")
        return ctypes.byref(self._handle)

    def _did(self, number: int, not_due: int) -> bool:
        """Whether a call did something. `not_due` is the fault that says that there was nothing to do."""
        if number == not_due:
            return False
        self._expect(number)
        return True

    # The handle

    def close(self) -> None:
        """Closes the device, and gives up its dies. Closing it again does nothing."""
        if self._handle.is_open:
            self._expect(self._calls.ufs_close(self._pointer()))

    def __enter__(self) -> Device:
        return self

    def __exit__(self, kind: Optional[Type[BaseException]], fault: Optional[BaseException],
                 trace: Optional[TracebackType]) -> None:
        self.close()

    def __del__(self) -> None:
        if getattr(self, "_handle", None) is not None and self._handle.is_open:
            warnings.warn("a butcherford.Device was not closed", ResourceWarning, source=self)

    def image(self) -> bytes:
        """The dies as an image (docs/FORMATS.md, "Scripts"). A job in flight has done nothing yet."""
        length = ctypes.c_uint64()
        self._expect(self._calls.ufs_image_length(self._at(), ctypes.byref(length)))
        room = (ctypes.c_uint8 * length.value)()
        self._expect(self._calls.ufs_save(self._at(), room, length.value))
        return bytes(room)

    # Messages, jobs and turns

    def host(self, message: bytes) -> None:
        """Hands the device a message of a host. A message that it does not take raises `MessageFault`."""
        self._expect(self._calls.ufs_host(self._at(), bytes(message), len(message)))

    def reply(self) -> Optional[bytes]:
        """Takes a reply that is due, or gives None."""
        return self._kept.popleft() if self._kept and not self._is_off else self._reply()

    def _reply(self) -> Optional[bytes]:
        room = (ctypes.c_uint8 * lib.REPLY_BYTES)()
        length = ctypes.c_size_t()
        number = self._calls.ufs_reply(self._at(), room, lib.REPLY_BYTES, ctypes.byref(length))
        return bytes(room[:length.value]) if self._did(number, lib.NOTHING) else None

    def turn(self) -> bool:
        """Takes one step of the device's own, of mending or of a collection, and says whether one was due."""
        return self._did(self._calls.ufs_turn(self._at()), lib.NOTHING)

    def take(self, die: int) -> Optional[Job]:
        """Gives the die its next job, which is in flight from then on. None: it is owed none, or has one."""
        row = lib.JobRow()
        number = self._calls.ufs_take(self._at(), self._die(die), ctypes.byref(row))
        if not self._did(number, lib.NOTHING):
            return None
        job = read_job(row)
        if self.on_job:
            self.on_job(job)
        return job

    def work(self, die: int) -> bool:
        """The die does its job in flight, and the device is told. It says whether the die had one."""
        return self._did(self._calls.ufs_work(self._at(), self._die(die)), lib.NO_JOB)

    def settle(self, rounds: int = 1) -> None:
        """Rounds of a turn and of one job of each die: it is taken, where the die has none in flight, and done."""
        for _ in range(rounds):
            self.turn()
            for die in range(self.dies):
                self.take(die)
                self.work(die)

    def _die(self, die: int) -> int:
        if not 0 <= die < self.dies:
            raise lib.fault(BAD_NUMBER)
        return die

    def link_event(self, reset: messages.Reset = messages.Reset.LINK) -> None:
        """Tells a device of profile 1 of a reset: its tasks and exchanges end, and each LUN has an attention.

        A device of profile 0 has no such message, and raises `MessageFault`.
        """
        self.host(messages.link_event(reset))
        self._kept.clear()

    # Whole exchanges

    def make_ready(self) -> None:
        """Lets the dies work until the device has mended and takes READs and WRITEs, and ends its attentions.

        It is `mend` and then `end_attentions`: whoever wants to meet the attentions calls `mend` alone.
        """
        self.mend()
        self.end_attentions()

    def mend(self) -> None:
        """Lets the dies work until the device has mended. On a device of profile 1 it ends no attention."""
        if self.profile:
            self.set_flag(Flag.DEVICE_INIT)
        for _ in range(MOST_ROUNDS):
            if self._has_mended():
                return
            self.settle()
        raise NoAnswer("the device does not become ready")

    def _has_mended(self) -> bool:
        """Profile 1 tells it by fDeviceInit, which was set before; profile 0 by TEST UNIT READY alone."""
        if self.profile:
            return not self.read_flag(Flag.DEVICE_INIT)
        return self._is_ready(messages.LUN_DEVICE, BECOMING_READY)

    def end_attentions(self) -> None:
        """Ends the attention of each LUN, well-known ones too: a TEST UNIT READY meets it, where there is one.

        On a device of profile 1 each LUN has an attention after each opening, after a `link_event`, and after a logical
        unit reset of it, which a caller may ask for by `host`. The first command to the LUN is refused by 6/29/00 then,
        but for INQUIRY, REPORT LUNS and REQUEST SENSE. The device has to have mended.
        """
        if self.profile:
            for lun in (*range(len(self.units)), *messages.WELL_KNOWN_LUNS):
                self._is_ready(lun, UNIT_ATTENTION)

    def _is_ready(self, lun: int, refused: Tuple[int, int, int]) -> bool:
        """Whether a TEST UNIT READY is answered GOOD, and not refused with this sense."""
        try:
            self.command(lun, bytes([messages.TEST_UNIT_READY]))
            return True
        except CheckCondition as refusal:
            if refusal.sense != refused:
                raise
        return False

    def command(self, lun: int, cdb: bytes, send: bytes = b"", receive: int = 0) -> bytes:
        """A whole command: it sends these bytes, or receives up to so many, and lets the dies work until it ends.

        A status that is not GOOD raises `CheckCondition`, `Busy` or `TaskSetFull`. BUSY is raised at once.
        """
        tag = self._tag()
        flags = messages.TO_DEVICE if send else messages.TO_HOST if receive else 0
        self.host(messages.command(lun, tag, cdb, flags, len(send) or receive))
        received = bytearray()
        while True:
            reply = self._hear(tag)
            if reply.code == Code.RESPONSE:
                expect_good(reply)
                return bytes(received)
            if reply.code == Code.DATA_IN:
                received += reply.data
            else:
                asked = send[reply.offset:reply.offset + reply.count]
                self.host(messages.data_out(lun, tag, reply.offset, asked))

    def _tag(self) -> int:
        self._next_tag = (self._next_tag + 1) % TAGS
        return FIRST_TAG + self._next_tag

    def _hear(self, tag: int) -> Reply:
        """The next reply with this tag. The dies work until it is due; other replies are kept.

        Task management has tags of its own, so that its answers are none of these.
        """
        for _ in range(MOST_ROUNDS):
            message = self._reply()
            while message is not None:
                if message[3] == tag and message[0] != messages.Code.TASK_RESPONSE:
                    return messages.read_reply(message)
                self._kept.append(message)
                message = self._reply()
            self.settle()
        raise NoAnswer(f"no answer came in {MOST_ROUNDS} rounds")

    def rpmb(self, region: int, key: bytes) -> Rpmb:
        """An RPMB region, 0 to 3, for a host that has this key of 32 bytes."""
        return Rpmb(self, region, key)

    # Settings

    def read_attribute(self, attribute: int, index: int = 0, selector: int = 0) -> int:
        """The value of an attribute. Of one that each unit has, the index is the unit's number."""
        reply = self._query(Opcode.READ_ATTRIBUTE, attribute, index=index, selector=selector)
        return reply.count

    def write_attribute(self, attribute: int, value: int, index: int = 0,
                        selector: int = 0) -> None:
        """Writes an attribute. bBootLunEn is durable then."""
        self._query(Opcode.WRITE_ATTRIBUTE, attribute, index=index, selector=selector, value=value)

    def read_flag(self, flag: int) -> bool:
        """Whether a flag is set."""
        return self._query(Opcode.READ_FLAG, flag).count != 0

    def set_flag(self, flag: int) -> None:
        """Sets a flag. fPermanentWPEn is durable then, and stays set for ever."""
        self._query(Opcode.SET_FLAG, flag)

    def clear_flag(self, flag: int) -> None:
        """Clears a flag."""
        self._query(Opcode.CLEAR_FLAG, flag)

    def toggle_flag(self, flag: int) -> bool:
        """Turns a flag over, and says whether it is set then."""
        return self._query(Opcode.TOGGLE_FLAG, flag).count != 0

    def read_descriptor(self, descriptor: int, index: int = 0, length: int = 0xFF) -> bytes:
        """A descriptor, or its first bytes."""
        return self._query(Opcode.READ_DESCRIPTOR, descriptor, index=index, length=length).data

    def _query(self, opcode: int, idn: int, *, index: int = 0, selector: int = 0, length: int = 0,
               value: int = 0) -> Reply:
        tag = self._tag()
        self.host(messages.query(tag, opcode, idn, index=index, selector=selector, length=length,
                                 value=value))
        reply = self._hear(tag)
        if reply.response:
            raise QueryError(reply.response)
        return reply

    # The power

    def power_cut(self, *, new: Iterable[int] = (), torn: Iterable[int] = (), mend: bool = True) -> None:
        """The power goes and comes back, and the device is opened again.

        Tasks, replies and the write cache are gone. A program or an erase that is in flight leaves what it was to
        make on the dies `new`, a torn page or block on the dies `torn`, and on any other what was there before.
        """
        self.power_off(new=new, torn=torn)
        self.power_on(mend=mend)

    def power_off(self, *, new: Iterable[int] = (), torn: Iterable[int] = ()) -> None:
        """The first half of a `power_cut`: from now on each call raises `PowerCut`.

        It raises `UfsError` where memory was refused: the power stays off then, and the dies are kept. `image`
        gives them, a further `power_off` may open the device, and each other call raises `DeviceClosed`.
        """
        lefts = (ctypes.c_uint8 * max(1, self.dies))()
        for dies, left in ((new, LEFT_NEW), (torn, LEFT_TORN)):
            for die in dies:
                lefts[self._die(die)] = left
        number = self._calls.ufs_stop(self._at(), lefts, self.dies)
        if number in (0, NO_MEMORY):
            self._kept.clear()
        self._expect(number)
        self._is_off = True

    def power_on(self, *, mend: bool = True) -> None:
        """The second half of a `power_cut`. With `mend` the device is made ready (`make_ready`)."""
        self._is_off = False
        if mend:
            self.make_ready()

    @property
    def is_on(self) -> bool:
        """Whether the power is there."""
        return not self._is_off


def config_row(dies: int, blocks: int, pages: int, rpmb: Sequence[int], slots: int, spare: int, profile: int,
               serial: int) -> lib.ConfigRow:
    """The numbers of a configuration as the library takes them."""
    regions = [checked(it, 0xFF) for it in rpmb]
    if len(regions) != 4:
        raise ValueError("rpmb has one number for each of the regions 0 to 3")
    return lib.ConfigRow(checked(dies, 0xFF), checked(blocks, 0xFFFF),
                         checked(pages, 0xFFFF), (ctypes.c_uint8 * 4)(*regions),
                         checked(slots, 0xFFFF), checked(spare, 0xFFFF),
                         checked(profile, 0xFF), checked(serial, 0xFFFFFFFFFFFFFFFF))


def read_job(row: lib.JobRow) -> Job:
    """The job that the library told."""
    is_program = row.kind == JobKind.PROGRAM
    return Job(JobKind(row.kind), row.die, row.block, row.page, bytes(row.body) if is_program else b"",
               bytes(row.spare) if is_program else b"")


def expect_good(reply: Reply) -> None:
    """Raises what the status of a RESPONSE says."""
    if reply.status == messages.GOOD:
        return
    if reply.status == messages.BUSY:
        raise Busy()
    if reply.status == messages.TASK_SET_FULL:
        raise TaskSetFull()
    if reply.status == messages.CHECK_CONDITION:
        sense = reply.data[2:]
        raise CheckCondition(sense[2] & 0x0F, sense[12], sense[13])
    raise UfsError(0, f"status {reply.status:02X}h")
