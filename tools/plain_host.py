"""What a host of the device can see, as a plain model: arrays of blocks, open tasks, registers.

It is written from docs/FORMATS.md, docs/PROFILE_1.md and docs/GUIDE.md, not from the code. Where the device is free,
as in when a die does a job, the model keeps each World that fits what was seen so far; an answer that fits none is a
difference.
"""
import copy
import hashlib
import hmac
import re
from typing import Any, Callable, Dict, List, NamedTuple, Optional, Tuple

import parameters
from every_command import big, fixed_sense, frame, header, transfer

BLOCK, ZEROS = 4096, bytes(4096)
# So many rounds of `settle` see everything done that is due, also what is to be mended; fewer, so many and a few for
# each page that waits, see to the rest.
MANY, FEW, PER_PAGE = 400, 40, 8
# Whether a reply is due.
NO, MAY, SURE = range(3)
TO_DEVICE, TO_HOST = 0x20, 0x40
LIST, BOOT, RPMB, DEVICE = WELL_KNOWN = (0x81, 0xB0, 0xC4, 0xD0)
GOOD, CHECK, BUSY, FULL = 0x00, 0x02, 0x08, 0x28
WRITE_ERROR, READ_ERROR, MISCOMPARE = (3, 0x0C, 0), (3, 0x11, 0), (0x0E, 0x1D, 0)
NO_FIELD, NO_LIST_FIELD, NO_SEQUENCE, OUT_OF_RANGE = (5, 0x24, 0), (5, 0x26, 0), (5, 0x2C, 0), (5, 0x21, 0)
NO_OPERATION, NOTHING_SAVED, TEST_FAILED = (5, 0x20, 0), (5, 0x39, 0), (4, 0x3E, 3)
NO_SENSE, NO_UNIT, NOT_READY = (0, 0, 0), (5, 0x25, 0), (2, 0x04, 1)
ATTENTION, NOT_SIMPLE = (6, 0x29, 0), (0x0B, 0x49, 0)
# Of byte 1 of a COMMAND, in profile 1: the priority, and the task attribute, which is 0 where it is SIMPLE.
PRIORITY, ATTRIBUTE = 0x04, 0x03
# Profile and serial number of a device, if its script says nothing of them.
PLAIN_PROFILE = (0, 1)


class Row(NamedTuple):
    """A command: its name; the bits of bytes 1 to 15 of its CDB that need not be zero, in profile 0 (None: it is not
    there) and in profile 1; the well-known units that take it; where its CDB has the address and the count of blocks,
    or a length, each with its width, and the group; and its service action."""

    name: str
    bits: Tuple[Optional[str], str]
    known: Tuple[int, ...] = ()
    address: Tuple[int, int] = (0, 0)
    size: Tuple[int, int] = (0, 0)
    group: int = 0
    action: Optional[int] = None


READY, SENSE, READ6, WRITE6, INQUIRY, CAPACITY = 0x00, 0x03, 0x08, 0x0A, 0x12, 0x25
READ, WRITE, FLUSH, UNMAP, LUNS, SECURITY_IN, SECURITY_OUT = 0x28, 0x2A, 0x35, 0x42, 0xA0, 0xA2, 0xB5
READ16, WRITE16, FLUSH16, FETCH, FETCH16, CAPACITY16 = 0x88, 0x8A, 0x91, 0x34, 0x90, 0x9E
MODES6, MODES, DIAGNOSE, OPERATIONS, VERIFY = 0x1A, 0x5A, 0x1D, 0xA3, 0x2F
# Of byte 1 of a VERIFY: its blocks are compared with those that its host sends.
COMPARED = 0x02
SIX, TEN, LONG = ((1, 3), (4, 1), 0), ((2, 4), (7, 2), 6), ((2, 8), (10, 4), 14)
WIDE = 12 * "ff" + "1f"
ROWS = {
    READY: Row("TEST UNIT READY", ("", ""), WELL_KNOWN),
    SENSE: Row("REQUEST SENSE", ("000000ff",) * 2, WELL_KNOWN, size=(4, 1)),
    READ6: Row("READ(6)", ("1fffffff",) * 2, (BOOT,), *SIX),
    WRITE6: Row("WRITE(6)", ("1fffffff",) * 2, (), *SIX),
    INQUIRY: Row("INQUIRY", ("0000ffff", "01ffffff"), WELL_KNOWN, size=(3, 2)),
    MODES6: Row("MODE SENSE(6)", (None, "18ffffff"), size=(4, 1)),
    DIAGNOSE: Row("SEND DIAGNOSTIC", (None, "14"), (DEVICE,)),
    CAPACITY: Row("READ CAPACITY(10)", ("", ""), (BOOT,)),
    READ: Row("READ(10)", ("08ffffffff00ffff", "18ffffffff1fffff"), (BOOT,), *TEN),
    WRITE: Row("WRITE(10)", ("08ffffffff00ffff", "18ffffffff1fffff"), (), *TEN),
    VERIFY: Row("VERIFY(10)", (None, "12ffffffff1fffff"), (), *TEN),
    FETCH: Row("PRE-FETCH(10)", (None, "02ffffffff1fffff"), (), *TEN),
    FLUSH: Row("SYNCHRONIZE CACHE(10)", ("02ffffffff00ffff", "02ffffffff1fffff"), (DEVICE,), *TEN),
    UNMAP: Row("UNMAP", ("000000000000ffff",) * 2, size=(7, 2)),
    MODES: Row("MODE SENSE(10)", (None, "18ffff000000ffff"), size=(7, 2)),
    READ16: Row("READ(16)", (None, "18" + WIDE), (BOOT,), *LONG),
    WRITE16: Row("WRITE(16)", (None, "18" + WIDE), (), *LONG),
    FETCH16: Row("PRE-FETCH(16)", (None, "02" + WIDE), (), *LONG),
    FLUSH16: Row("SYNCHRONIZE CACHE(16)", (None, "02" + WIDE), (DEVICE,), *LONG),
    CAPACITY16: Row("READ CAPACITY(16)", (None, "100000000000000000ffffffff"), (BOOT,), size=(10, 4), action=0x10),
    LUNS: Row("REPORT LUNS", ("00ff000000ffffffff",) * 2, (LIST,), size=(6, 4)),
    SECURITY_IN: Row("SECURITY PROTOCOL IN", ("ffffff0000ffffffff",) * 2, (RPMB,), size=(6, 4)),
    OPERATIONS: Row("REPORT SUPPORTED OPERATION CODES", (None, "0c87ffffffffffffff"), size=(6, 4), action=0x0C),
    SECURITY_OUT: Row("SECURITY PROTOCOL OUT", ("ffffff0000ffffffff",) * 2, (RPMB,), size=(6, 4))}
READS, WRITES, FLUSHES, FETCHES = (READ6, READ, READ16), (WRITE6, WRITE, WRITE16), (FLUSH, FLUSH16), (FETCH, FETCH16)
CAPACITIES, SENSES, SECURITY = (CAPACITY, CAPACITY16), (MODES6, MODES), (SECURITY_IN, SECURITY_OUT)
# What tells something that is known at once, and what needs no mended device.
TELLS = (SENSE, INQUIRY, *CAPACITIES, LUNS, *SENSES, OPERATIONS)
# What is answered in profile 1 though its LUN has an attention, and what is answered though there is no such LUN.
PASSING, ANYWHERE = (SENSE, INQUIRY, LUNS), (SENSE, INQUIRY)
# The length of a CDB by the highest three bits of its operation code.
CDB_LENGTHS = (6, 10, 10, 0, 16, 12)
# Of each mode page the current values, which are the default ones too, and the changeable ones.
MODE_PAGES = {0x01: ("010a80" + 9 * "00", "010a" + 10 * "00"), 0x08: ("081204" + 17 * "00", "0812" + 18 * "00"),
              0x0A: ("0a0a001000000000ffff0000", "0a0a" + 10 * "00")}
ALL_PAGES = 0x3F
# The command timeouts descriptor of SPC-4, which tells no time.
TIMES = b"\0\x0a" + bytes(10)
# Of each kind of message the bytes of its header that have to be zero, but for byte 8.
ZERO_BYTES = {0x00: (1, 2, 4, 5, 6, 7, 9, *range(12, 32)), 0x01: (4, 5, 6, 7, 9),
              0x02: (1, 4, 5, 6, 7, 9, *range(20, 32)), 0x16: (1, 2, 4, 6, 7, 9, 16, 17, *range(24, 32)),
              0x04: (1, 4, 6, 7, 9, 12, 13, 14, 16, 17, 18, *range(20, 32)),
              0x1F: (1, 2, 3, 4, 6, 7, 9, 10, 11, *range(12, 32))}
LINK_EVENT, HARDWARE = 0x1F, 0x01
# bActiveICCLevel, bRefClkFreq and fBackgroundOpsEn, as a life begins.
LEVEL, CLOCK, BACKGROUND = (parameters.TABLE[it].told for it in (
    (parameters.ATTRIBUTE, 0x03), (parameters.ATTRIBUTE, 0x0A), (parameters.FLAG, 0x04)))


def bits_of(code, profile):
    """The bits of bytes 1 to 15 of a CDB that need not be zero; None, if the profile has no such command."""
    digits = ROWS[code].bits[profile] if code in ROWS else None
    return None if digits is None else bytes.fromhex(digits).ljust(15, b"\0")


def is_taken(code, lun, profile):
    """Whether the units of the configuration, or this well-known unit, take a command in this profile."""
    is_there = bits_of(code, profile) is not None
    return is_there and (lun in ROWS[code].known if lun in WELL_KNOWN else code not in SECURITY)


def operation(code, is_timed):
    """The entry of a command in the list of all: SPC-4, REPORT SUPPORTED OPERATION CODES."""
    action, length = ROWS[code].action, CDB_LENGTHS[code >> 5]
    flags = 2 * is_timed + (action is not None)
    return bytes([code, 0]) + big(action or 0, 2) + bytes([0, flags]) + big(length, 2) + TIMES * is_timed


def most_blocks(config):
    """How many blocks a command may have in a configuration: 128 with 256 slots or more, else 32."""
    return 128 if config[4] >= 256 else 32


def number(data, start, width):
    return int.from_bytes(data[start:start + width], "big")


def fault_of(message):
    """The lowest of the faults 1 to 6 that the message has in profile 1, or 0."""
    if len(message) < 32:
        return 1
    code, segment = message[0] & 0x3F, number(message, 10, 2)
    may = {0x02: segment == number(message, 16, 4) != 0, 0x21: segment == (20 if message[7] == CHECK else 0),
           0x16: not segment or message[12] == 2, 0x36: not segment or (message[12] == 1 and message[6] == 0)}
    may[0x22] = may[0x02]
    may.update((it, not segment) for it in (0x00, 0x01, 0x04, 0x20, 0x24, 0x31))
    if segment > BLOCK or not may.get(code, True) or len(message) != 32 + segment + -segment % 4:
        return 2
    if message[0] != code:
        return 3
    if message[8]:
        return 4
    if code not in ZERO_BYTES:
        return 5
    flags = message[1] & ~(PRIORITY | ATTRIBUTE)
    is_wrong = {0x01: flags not in (0, TO_DEVICE, TO_HOST), 0x04: message[15] != message[2],
                0x16: message[5] not in (0x01, 0x81), LINK_EVENT: message[5] not in (0x01, 0x02)}
    reserved = any(message[it] for it in ZERO_BYTES[code]) or any(message[32 + segment:])
    return 6 if reserved or is_wrong.get(code) else 0


def number_of(message):
    """By what an exchange is found: its tag, and 256 more if it is of task management."""
    return message[3] + 256 * (message[0] in (0x04, 0x24))


def by_table(lines):
    """What the first line of a table that applies says, or 0."""
    return next((said for is_so, said in lines if is_so), 0)


class Fork(Exception):
    """What the device does depends on what the model does not know: each of its ways fixes that in a world."""


def sets(**values):
    """A way that fixes these."""
    return lambda world: world.__dict__.update(values)


class Plain:
    """What the accepted commands make of a device."""

    def __init__(self, config, units):
        self.cells = [[ZEROS] * unit[0] for unit in units]
        self.area = [bytes(256)] * (512 * config[3])
        self.boot = self.permanent = self.counter = 0
        self.key = None

    def copy(self):
        found = copy.copy(self)
        found.cells, found.area = [it[:] for it in self.cells], self.area[:]
        return found

    def apply(self, change):
        what, *rest = change
        if what == "blocks":
            unit, address, contents = rest
            self.cells[unit][address:address + len(contents)] = contents
        elif what == "area":
            address, contents = rest
            self.area[address:address + len(contents)] = contents
            self.counter += 1
        else:
            setattr(self, what, rest[0])


def keys_of(change):
    """The pieces of what the device holds that a change replaces, but for the settings."""
    what, *rest = change
    if what == "blocks":
        return [(rest[0], rest[1] + it) for it in range(len(rest[2]))]
    if what == "area":
        return [("area", it) for it in range(rest[0] // 16, (rest[0] + len(rest[1]) - 1) // 16 + 1)]
    return []


class Exchange:
    """A task or a short exchange: what is still to be handed out, and what is asked for."""

    def __init__(self, tag, lun=0, is_task=False, expected=0, code=None):
        self.tag, self.lun, self.is_task, self.expected, self.code = tag, lun, is_task, expected, code
        # By what it is found.
        self.number = tag
        self.length = self.sent = self.claim = self.address = self.unit = 0
        # Replies are a message, the group that it waits for, the group that it acknowledges.
        self.replies: Tuple[Any, ...] = ()
        # Of the blocks of a VERIFY the groups that wrote them; of those that it compares their contents too.
        self.blocks, self.wants, self.pages, self.checks, self.compares = (), (), (), (), ()
        self.asked, self.data, self.read, self.frames = None, b"", NO, ()
        self.is_durable = self.passed = self.is_late = self.had_slot = False

    def response(self, status=GOOD, sense=None, length=None):
        """A RESPONSE, with the residual of a command that carried so many bytes."""
        length = (self.length if status == GOOD else 0) if length is None else length
        flags = 0x20 if length < self.expected else 0x40 if length > self.expected else 0
        data = b"\0\x12" + fixed_sense(sense) if sense else b""
        fields = big(abs(self.expected - length), 4)
        return header(0x21, flags, self.lun, self.tag, 0, int(status != GOOD), status, len(data), fields) + data

    def end(self, status=GOOD, sense=None, length=None):
        """The command is answered at once."""
        self.blocks = self.wants = self.pages = self.checks = self.compares = ()
        self.claim = 0
        self.replies = ((self.response(status, sense, length), 0, 0),)


class World:
    """One thing that the device may be, after what was seen of it."""

    def __init__(self, config, units, profile=PLAIN_PROFILE):
        self.config, self.units = config, units
        self.profile, self.serial = profile
        self.plain = Plain(config, units)
        self.base, self.log = self.plain.copy(), []
        # Which group each key was written by; -1: perhaps the mending wrote it.
        self.since, self.base_since = {}, {}
        # Groups that were accepted; the frontier is one from low to high; which were acknowledged.
        self.total = self.low = self.high = self.held = self.first = 0
        self.pages = {}
        # mended is None if it may be so or not.
        self.mended: Any = False
        # fPowerOnWPEn; whether fDeviceInit was set; the LUNs with an attention that no host was told of.
        self.power_on, self.is_asked = 0, False
        self.level, self.clock, self.background = LEVEL, CLOCK, BACKGROUND
        self.attentions = {*range(len(units)), *WELL_KNOWN}
        self.bad, self.flight, self.rows = set(), {}, {}
        self.open, self.result = {}, None
        self.response: Any = None
        # The pages that wait, if the model knows, and how many pages of a group are not programmed.
        self.queue, self.left, self.is_calm = None, {}, False

    def copy(self):
        found = copy.copy(self)
        for name, value in vars(self).items():
            if isinstance(value, (dict, set, list)) and name not in ("units", "base_since"):
                setattr(found, name, value.copy())
        found.plain = self.plain.copy()
        found.open = {tag: copy.copy(it) for tag, it in self.open.items()}
        return found

    def locked(self):
        return len(self.bad) > self.config[5]

    def has_lun(self, lun):
        return lun < len(self.units) or lun in WELL_KNOWN

    def has_attention(self, lun):
        """Whether a LUN has an attention, which profile 0 never tells."""
        return self.profile == 1 and lun in self.attentions

    def tasks(self):
        return [it for it in self.open.values() if it.is_task]

    # Slots

    def free(self, frontier):
        """How many slots are free, if the frontier is that one."""
        pending = sum(pages for group, pages in self.pages.items() if group > frontier)
        return self.config[4] - pending - sum(it.claim for it in self.open.values())

    def has_slots(self, count):
        if count <= self.free(self.low):
            return True
        if count > self.free(self.high):
            return False
        least = next(it for it in range(self.low, self.high + 1) if count <= self.free(it))
        raise Fork(sets(low=least), sets(high=least - 1))

    def is_pending(self):
        if self.low < self.total <= self.high:
            raise Fork(sets(low=self.total), sets(high=self.total - 1))
        return self.low < self.total

    def accept(self, change, pages):
        """A command is accepted: its group has the next number, which it answers."""
        self.total += 1
        self.plain.apply(change)
        self.log.append((self.total, change))
        self.since.update((key, self.total) for key in keys_of(change))
        self.pages[self.total] = self.left[self.total] = pages
        if change[0] == "area":
            self.queue = None
        if self.queue is not None:
            self.queue += [(self.total, it) for it in range(pages)]
        return self.total

    # Messages of the host

    def fault(self, message):
        """The fault that `host` tells, or 0."""
        found = fault_of(message)
        if found in (0, 6) and message[0] == LINK_EVENT and not self.profile:
            return 5
        if found or message[0] == LINK_EVENT:
            return found
        code, lun, tag = message[0], message[2], message[3]
        if code == 0x01 and not self.profile and message[1] & (PRIORITY | ATTRIBUTE):
            return 6
        it = self.open.get(tag)
        if code == 0x02:
            here = (lun, number(message, 12, 4), number(message, 16, 4))
            return 0 if it and it.asked and here == (it.lun, *it.asked) else 8
        own = number_of(message)
        if own in self.open or (not self.profile and own ^ 256 in self.open):
            return 7
        tasks = len(self.tasks())
        is_short = code != 0x01 or tasks == 32
        return 9 if is_short and len(self.open) - tasks == 32 else 0

    def heard(self, message):
        """The worlds after a message without a fault."""
        self.is_calm = False
        act = {0x00: self.nop, 0x01: self.command, 0x02: self.data, 0x04: self.manage, 0x16: self.query,
               LINK_EVENT: self.reset}[message[0]]
        try:
            act(message)
            return [self]
        except Fork as fork:
            # Nothing was changed before the fork.
            worlds = [(self.copy(), way) for way in fork.args]
            return [last for world, way in worlds for last in (way(world), world.heard(message))[1]]

    def short(self, message, reply, group=0, held=0):
        it = Exchange(message[3])
        it.number = number_of(message)
        it.replies = ((reply, group, held),)
        self.open[it.number] = it
        return it

    def nop(self, message):
        self.short(message, header(0x20, tag=message[3]))

    def reset(self, message):
        """All that is open ends without an answer, and each LUN has an attention. The clock stays as it is."""
        self.open.clear()
        self.result = self.response = None
        self.is_asked, self.level, self.background = False, LEVEL, BACKGROUND
        self.attentions = {*range(len(self.units)), *WELL_KNOWN}
        if message[5] == HARDWARE:
            self.power_on = 0

    def manage(self, message):
        function, lun, tag, meant = message[5], message[2], message[3], message[19]
        of_unit = [it for it in self.tasks() if it.lun == lun]
        named = [it for it in of_unit if it.tag == meant]
        answer = 0x04
        if not self.has_lun(lun):
            answer = 0x09
        elif function in (0x80, 0x81):
            answer = 0x08 if (named if function == 0x80 else of_unit) else 0x00
        elif function in (0x01, 0x02, 0x04, 0x08):
            answer = 0x00
            for it in named if function == 0x01 else of_unit:
                if it.passed:
                    self.result = self.response = None
                del self.open[it.number]
            self.attentions |= {lun} if function == 0x08 else set()
        self.short(message, header(0x24, lun=lun, tag=tag, fields=bytes([0, 0, 0, answer])))

    def query(self, message):
        opcode, idn, index = message[12:15]
        asked, value = number(message, 18, 2), number(message, 20, 4)
        data, group, told = b"", 0, 0
        answer = self.refused_query(message)
        is_passed = answer == 0 and opcode != 0
        if is_passed and self.is_setting(message):
            group = self.accept(("boot", value) if opcode == 4 else ("permanent", 1), 1)
        elif is_passed:
            self.changed_by(opcode, idn, value)
        if is_passed and opcode == 1:
            device = parameters.Device(self.profile, self.serial, self.units, self.config[3])
            data = parameters.descriptor(device, idn, index)[:asked]
        elif is_passed:
            told = self.value_of(opcode, idn)
        fields = message[12:16] + bytes(2) + big(len(data), 2) + big(told, 4)
        reply = header(0x36, tag=message[3], five=message[5], six=answer, segment=len(data), fields=fields)
        it = self.short(message, reply + data + bytes(-len(data) % 4), group, group)
        # What it is answered if the device locks before.
        it.frames = header(0x36, tag=message[3], five=message[5], six=0xFF, fields=message[12:16])

    def changed_by(self, opcode, idn, value):
        """What a query that is no setting makes of what lasts until the next power cycle."""
        if (opcode, idn) == (4, 0x03):
            self.level = value
        elif (opcode, idn) == (4, 0x0A):
            self.clock = value
        elif (opcode, idn) == (6, 0x03):
            self.power_on = 1
        elif opcode > 5 and idn == 0x04:
            self.background = {6: 1, 7: 0, 8: 1 - self.background}[opcode]
        elif (opcode, idn) == (6, 0x01):
            self.initializing(True)

    def value_of(self, opcode, idn):
        """What an attribute or a flag tells now."""
        row, kind = parameters.row_of(self.profile, opcode, idn), parameters.CLASSES[opcode]
        if kind == parameters.ATTRIBUTE:
            return {0x00: self.plain.boot, 0x03: self.level, 0x0A: self.clock}.get(idn, row.told)
        if idn == 0x01:
            return self.initializing(False)
        return {0x02: self.plain.permanent, 0x03: self.power_on, 0x04: self.background}.get(idn, row.told)

    def initializing(self, is_set):
        """What fDeviceInit reads, once it is set if it is: 1 in profile 1 from then on until the device is mended."""
        if not self.profile or not (self.is_asked or is_set):
            return 0
        self.knows_mended()
        self.is_asked = True
        return int(not self.mended)

    @staticmethod
    def is_setting(message):
        return tuple(message[12:14]) in parameters.SETTINGS

    def refused_query(self, message):
        """The response of a QUERY REQUEST, by the first line of the table that applies."""
        opcode, idn, index, selector = message[12:16]
        is_read, value = opcode in parameters.READS, number(message, 20, 4)
        if opcode > 8 or (opcode and message[5] != (0x01 if is_read else 0x81)):
            return 0xFE
        row = parameters.row_of(self.profile, opcode, idn)
        if row is None:
            return 0xFD if opcode else 0
        lines = ((index not in parameters.indexes_of(row, self.profile, len(self.units)), 0xFC),
                 (selector not in parameters.selectors_of(row), 0xFB),
                 (opcode not in row.opcodes, 0xF6 if is_read else 0xF7),
                 ((number(message, 18, 2) == 0) == (opcode == 1), 0xF9),
                 (opcode == 4 and not row.least <= value <= row.greatest, 0xFA),
                 ((opcode, idn) == parameters.PERMANENT_SET and self.plain.permanent, 0xF8),
                 ((opcode, idn) == parameters.LOCK_WRITTEN, 0xF8))
        return by_table(lines) or (0xFF if self.is_setting(message) and not self.takes_setting() else 0)

    def takes_setting(self):
        self.knows_mended()
        return self.mended and not self.locked() and self.has_slots(1)

    def knows_mended(self):
        if self.mended is None:
            raise Fork(sets(mended=True), sets(mended=False))

    # Commands

    def command(self, message):
        lun, tag, flags, cdb = message[2], message[3], message[1], message[16:32]
        is_full = len(self.tasks()) == 32
        it = Exchange(tag, lun, not is_full, number(message, 12, 4), cdb[0])
        if is_full:
            it.end(FULL)
        else:
            status, sense = self.refusal(it, flags, cdb)
            if status != GOOD:
                it.end(status, sense)
            else:
                self.begin(it, cdb)
        self.open[tag] = it

    def refusal(self, it, flags, cdb):
        """How a COMMAND is refused, by the first line of the table that applies; or GOOD."""
        code, lun = cdb[0], it.lun
        bits = bits_of(code, self.profile)
        is_there = bits is not None and ROWS[code].action in (None, cdb[1] & 0x1F)
        it.unit = lun
        if lun == BOOT and is_there and code in (*READS, *CAPACITIES):
            boot = self.plain.boot
            it.unit = next((at for at, unit in enumerate(self.units) if boot and unit[1] == boot), -1)
        if it.unit == -1 or not self.has_lun(lun) and not (self.profile and code in ANYWHERE):
            return CHECK, NO_UNIT
        if self.has_attention(lun) and code not in PASSING:
            self.attentions.remove(lun)
            return CHECK, ATTENTION
        if flags & ATTRIBUTE:
            return CHECK, NOT_SIMPLE
        if not is_there or not is_taken(code, lun, self.profile):
            return CHECK, NO_OPERATION
        if any(byte & ~bit for byte, bit in zip(cdb[1:], bits)) or self.is_wrong_field(lun, cdb):
            return CHECK, NO_FIELD
        if code in SENSES and cdb[2] >> 6 == 3:
            return CHECK, NOTHING_SAVED
        row, is_short = ROWS[code], code in (READ6, WRITE6)
        it.address = number(cdb, *row.address) & (0x1FFFFF if is_short else -1)
        count = number(cdb, *row.size) or 256 * is_short
        it.length = self.length(it, cdb, count)
        return self.refusal_by_size(it, flags, count) or self.refusal_by_state(it, count, cdb)

    def is_wrong_field(self, lun, cdb):
        """Whether a field of a CDB has a value that it may not have."""
        code, row, page = cdb[0], ROWS[cdb[0]], cdb[2]
        if code == INQUIRY:
            return not self.has_lun(lun) or page not in self.vital_pages(lun) if cdb[1] else page
        if code in SENSES:
            page &= 0x3F
            return page not in (*MODE_PAGES, ALL_PAGES) or cdb[3] not in ((0, 0xFF) if page == ALL_PAGES else (0,))
        if code == OPERATIONS:
            asked = ROWS.get(cdb[3])
            return page & 7 > 2 or page & 7 and (page & 7 == 2) != (asked is not None and asked.action is not None)
        return code == LUNS and page > 2 or code in SECURITY and tuple(cdb[1:4]) != (0xEC, 0, 1) or \
            row.group and cdb[row.group] & 0x1F > 0x10

    def refusal_by_size(self, it, flags, count):
        """How a COMMAND is refused by how much it asks for, if it is."""
        code, moves = it.code, it.code in (*READS, *WRITES, VERIFY)
        if moves and count > most_blocks(self.config) or code in SECURITY and it.length not in range(512, 4097, 512):
            return CHECK, NO_FIELD
        if code == UNMAP and it.length not in (0, 8, 24):
            return CHECK, (5, 0x1A, 0)
        sends, flags = code in (*WRITES, VERIFY, UNMAP, SECURITY_OUT), flags & ~(PRIORITY | ATTRIBUTE)
        is_cut = self.profile and code in WRITES
        if it.length and (flags != (TO_DEVICE if sends else TO_HOST) or
                          sends and not is_cut and it.expected < it.length):
            return CHECK, NO_FIELD
        if (moves or code in FETCHES) and it.address + count > self.units[it.unit][0]:
            return CHECK, OUT_OF_RANGE
        return None

    def refusal_by_state(self, it, count, cdb):
        """How a COMMAND is refused by what the device is and holds; or GOOD."""
        code = it.code
        if code == READY or code not in TELLS and not self.locked():
            self.knows_mended()
            if not self.mended:
                return CHECK, NOT_READY
        if self.is_refused_write(it, code) or code in FLUSHES and self.locked() and self.is_pending():
            return CHECK, (7, 0x27, 0)
        if code == DIAGNOSE and cdb[1] & 4 and self.locked():
            return CHECK, TEST_FAILED
        return self.refusal_by_room(it, code, count)

    def length(self, it, cdb, count):
        if it.code in TELLS:
            size = len(self.told(it, cdb))
            return size if it.code == CAPACITY else min(count, size)
        moves = it.code in READS + WRITES or it.code == VERIFY and cdb[1] & COMPARED
        return BLOCK * count if moves else count if it.code in (UNMAP, *SECURITY) else 0

    def is_refused_write(self, it, code):
        if not it.length or code not in (*WRITES, UNMAP) or code == UNMAP and it.length != 24:
            return False
        return self.is_protected(it.unit)

    def is_protected(self, unit):
        """Whether no block of a unit may be written now."""
        protect = self.units[unit][2]
        return self.locked() or protect == 1 and self.power_on or protect == 2 and self.plain.permanent

    def refusal_by_room(self, it, code, count):
        if code == SECURITY_IN:
            reading = [at for at in self.open.values() if at.pages]
            how = self.due(reading[0])[1] if reading else NO
            if how != NO and not reading[0].is_late:
                tag = reading[0].tag
                raise Fork(lambda world: world.end_request(world.open[tag]),
                           *[lambda world: vars(world.open[tag]).update(is_late=True)] * (how == MAY))
            if not self.response:
                return CHECK, NO_SEQUENCE
            if 512 * len(self.response) != it.length:
                return CHECK, NO_FIELD
        if code == SECURITY_OUT and any(at.passed for at in self.open.values()):
            return BUSY, None
        listed = most_blocks(self.config) if it.length == 24 else 0
        come = min(count, it.expected // BLOCK)
        claim = come if code in WRITES else {UNMAP: listed, SECURITY_OUT: 3}.get(code, 0)
        if not self.has_slots(claim) if claim else False:
            return BUSY, None
        it.claim = claim
        return GOOD, None

    def begin(self, it, cdb):
        """A command that is not refused."""
        code = it.code
        it.is_durable = code in (WRITE, WRITE16) and bool(cdb[1] & 8)
        if code in WRITES and it.expected < it.length:
            it.expected -= it.expected % BLOCK
        size = min(it.length, it.expected)
        if code in READS and size:
            it.blocks = self.there(it, (size + BLOCK - 1) // BLOCK)
        elif code in WRITES and size:
            it.wants = tuple((at, BLOCK) for at in range(0, size, BLOCK))
        elif code == VERIFY and it.length:
            it.compares = self.there(it, it.length // BLOCK)
        elif code == VERIFY and number(cdb, *ROWS[code].size):
            it.checks = tuple(group for _, group in self.there(it, number(cdb, *ROWS[code].size)))
        elif code in (UNMAP, SECURITY_OUT) and it.length:
            it.wants = ((0, it.length),)
            it.passed = code == SECURITY_OUT
        elif code in FLUSHES and not cdb[1] & 2:
            it.replies = ((it.response(), self.total, self.total),)
        elif code in (*TELLS, SECURITY_IN) and size:
            data = (self.told(it, cdb) if code in TELLS else b"".join(self.response))[:size]
            it.replies = ((transfer(0x22, it.lun, it.tag, 0, data), 0, 0), (it.response(), 0, 0))
        else:
            it.end()
        if code == SECURITY_IN:
            self.response = None
        if code == SENSE:
            self.attentions.discard(it.lun)

    def there(self, it, count):
        """The first blocks of a command as they are now, and the groups that wrote them."""
        return tuple((self.plain.cells[it.unit][at], self.since.get((it.unit, at), 0))
                     for at in range(it.address, it.address + count))

    def told(self, it, cdb):
        """All that a command has to tell, whatever its allocation length."""
        if it.code in CAPACITIES:
            last, is_long = self.units[it.unit][0] - 1, it.code == CAPACITY16
            return big(last, 8 if is_long else 4) + big(BLOCK, 4) + (b"\0\0\xc0" + bytes(17)) * is_long
        if it.code == INQUIRY:
            return self.vital_page(it.lun, cdb[2]) if cdb[1] else self.identity(it.lun)
        if it.code in SENSES:
            return self.modes(it, cdb)
        if it.code == OPERATIONS:
            return self.operations(cdb)
        if it.code == LUNS:
            found = [bytes([0, at]) for at in range(len(self.units))] if cdb[2] != 1 else []
            found += [bytes([0xC1, at & 0x7F]) for at in WELL_KNOWN] if cdb[2] != 0 else []
            return big(8 * len(found), 4) + bytes(4) + b"".join(entry + bytes(6) for entry in found)
        return fixed_sense(self.sense(it.lun))

    def sense(self, lun):
        """What REQUEST SENSE tells at a LUN: the first that applies."""
        if not self.profile:
            return NO_SENSE
        if not self.has_lun(lun):
            return NO_UNIT
        if self.has_attention(lun):
            return ATTENTION
        self.knows_mended()
        return NO_SENSE if self.mended else NOT_READY

    def identity(self, lun):
        """Standard INQUIRY data."""
        kind = 0x1E if lun in WELL_KNOWN else 0x00 if self.has_lun(lun) else 0x7F
        return bytes([kind, 0, 6, 2, 0x1F, 0, 0, 2]) + b"PROFILE UFS PROFILE 2.1 0001"

    def vital_pages(self, lun):
        """The pages of vital product data that a unit has, without their headers."""
        most = big(most_blocks(self.config), 4)
        limits = bytes([0, 0, 0, 1]) + most + most + bytes(4) + most + 2 * big(1, 4) + b"\x80" + bytes(31)
        found = {0x80: f"{self.serial:016x}".encode("ascii"),
                 0x83: bytes.fromhex("01030008304653") + big(self.serial & 0xFFFFFFFF, 4) + bytes([lun]),
                 0x87: b"\x3f\xff\0\0"}
        if lun not in WELL_KNOWN:
            found.update({0xB0: limits, 0xB1: b"\0\1" + bytes(58), 0xB2: b"\0\x84\2\0"})
        return {0x00: bytes([0, *found]), **found}

    def vital_page(self, lun, code):
        """A page of vital product data."""
        body = self.vital_pages(lun)[code]
        return bytes([self.identity(lun)[0], code]) + big(len(body), 2) + body

    def modes(self, it, cdb):
        """A header and mode pages."""
        asked, values = cdb[2] & 0x3F, int(cdb[2] >> 6 == 1)
        pages = b"".join(bytes.fromhex(MODE_PAGES[page][values]) for page in MODE_PAGES if asked in (page, ALL_PAGES))
        state = 0x90 if self.is_protected(it.unit) else 0x10
        if it.code == MODES6:
            return bytes([3 + len(pages), 0, state, 0]) + pages
        return big(6 + len(pages), 2) + bytes([0, state]) + bytes(4) + pages

    def operations(self, cdb):
        """What REPORT SUPPORTED OPERATION CODES tells: of all commands that a unit takes, or of one (SPC-4)."""
        is_timed, option, code = cdb[2] >> 7, cdb[2] & 7, cdb[3]
        if option == 0:
            entries = b"".join(operation(it, is_timed) for it in ROWS if is_taken(it, 0, self.profile))
            return big(len(entries), 4) + entries
        is_there = is_taken(code, 0, self.profile) and (option == 1 or number(cdb, 4, 2) == ROWS[code].action)
        usage = (bytes([code]) + bits_of(code, self.profile))[:CDB_LENGTHS[code >> 5]] if is_there else b""
        return bytes([0, 0x80 * is_timed + (3 if is_there else 1)]) + big(len(usage), 2) + usage + TIMES * is_timed

    def data(self, message):
        """A DATA OUT that was asked for."""
        it = self.open[message[3]]
        it.asked = None
        came = message[32:32 + number(message, 10, 2)]
        if it.compares:
            self.compare(it, came)
            return
        it.data += came
        if it.wants:
            return
        it.claim = 0
        if it.code == UNMAP:
            self.unmap(it)
        elif it.code == SECURITY_OUT:
            self.request(it)
        elif self.locked():
            it.end(CHECK, WRITE_ERROR, it.length)
        else:
            contents = [it.data[at:at + BLOCK] for at in range(0, len(it.data), BLOCK)]
            group = self.accept(("blocks", it.unit, it.address, contents), len(contents))
            it.end()
            if it.is_durable:
                it.replies = ((it.response(), group, group),)

    def compare(self, it, block):
        """The next block of a VERIFY came."""
        (content, _), *rest = it.compares
        it.compares, it.read, it.sent = tuple(rest), NO, it.sent + BLOCK
        # Of what a die still reads nobody needs to know.
        self.flight = {die: (kind, at, None if owner == it.tag else owner)
                       for die, (kind, at, owner) in self.flight.items()}
        if block != content:
            it.end(CHECK, MISCOMPARE, it.sent)
        elif not rest:
            it.end()

    def unmap(self, it):
        """The list of an UNMAP came."""
        size, address, count = it.length, number(it.data, 8, 8), number(it.data, 16, 4)
        lengths = (number(it.data, 0, 2), number(it.data, 2, 2), number(it.data, 4, 4))
        sense = by_table(((lengths != (size - 2, size - 8, 0), NO_LIST_FIELD), (size == 8, None),
                          (count > most_blocks(self.config) or any(it.data[20:24]), NO_LIST_FIELD),
                          (address + count > self.units[it.unit][0], OUT_OF_RANGE),
                          (count and self.locked(), WRITE_ERROR)))
        it.end(CHECK if sense else GOOD, sense, size)
        if count and not sense:
            self.accept(("blocks", it.unit, address, [ZEROS] * count), count)

    # RPMB

    def signed(self, frames):
        if self.plain.key is None:
            return frames
        mac = hmac.new(self.plain.key, b"".join(it[228:] for it in frames), hashlib.sha256).digest()
        return [*frames[:-1], frames[-1][:196] + mac + frames[-1][228:]]

    def request(self, it):
        """The frames of SECURITY PROTOCOL OUT came."""
        frames = [it.data[at:at + 512] for at in range(0, it.length, 512)]
        first, kind, count = frames[0], number(frames[0], 510, 2), number(frames[0], 506, 2)
        is_alike = all(at[500:508] + at[510:] == first[500:508] + first[510:] for at in frames)
        if kind not in range(1, 6) or kind != 3 and len(frames) > 1 or kind == 4 and count not in range(1, 9) or \
                kind == 3 and not (is_alike and count == len(frames)):
            it.end(CHECK, NO_LIST_FIELD, it.length)
        elif kind == 5:
            if self.result is None:
                it.end(CHECK, NO_SEQUENCE, it.length)
            else:
                self.response = self.result
                it.end()
        else:
            self.response = None
            {1: self.program_key, 2: self.tell_counter, 3: self.write_area, 4: self.read_area}[kind](it, frames)

    def end_request(self, it):
        """The GOOD of a request is due."""
        if it.frames:
            self.response = list(it.frames)
        it.end()

    def program_key(self, it, frames):
        self.result = None
        result = 1 if self.plain.key is not None else 5 if self.locked() else 0
        told = [frame(0x0100, result)]
        it.end()
        if result:
            self.result = told
        else:
            group = self.accept(("key", frames[0][196:228]), 1)
            it.replies, it.frames = ((it.response(), group, group),), told

    def tell_counter(self, it, frames):
        result = 7 if self.plain.key is None else 0
        it.frames = self.signed([frame(0x0200, result, counter=self.plain.counter, nonce=frames[0][484:500])])
        self.end_request(it)

    def is_past_area(self, address, count):
        return address + count > len(self.plain.area)

    def write_area(self, it, frames):
        self.result = None
        plain, first = self.plain, frames[0]
        address, count = number(first, 504, 2), number(first, 506, 2)
        mac = frames[-1][196:228]
        result = by_table(((plain.key is None, 7), (self.is_past_area(address, count), 4),
                           (self.signed(frames)[-1][196:228] != mac, 2),
                           (number(first, 500, 4) != plain.counter, 3), (self.locked(), 5)))
        it.end()
        group = 0
        if not result:
            change = ("area", address, [at[228:484] for at in frames])
            group = self.accept(change, len(keys_of(change)) + 1)
        told = self.signed([frame(0x0300, result, address=address, counter=plain.counter)])
        if result:
            self.result = told
        else:
            it.replies, it.frames = ((it.response(), group, group),), told

    def read_area(self, it, frames):
        first, plain = frames[0], self.plain
        address, count, nonce = number(first, 504, 2), number(first, 506, 2), first[484:500]
        result = 7 if plain.key is None else 4 if self.is_past_area(address, count) else 0
        it.code = ("area", address, count, nonce)
        it.frames = self.area_frames(it, result)
        touched = range(address // 16, (address + count - 1) // 16 + 1)
        groups = tuple(self.since.get(("area", at), 0) for at in touched)
        if result or not any(groups):
            self.end_request(it)
        else:
            it.pages, it.read = groups, NO

    def area_frames(self, it, result):
        _, address, count, nonce = it.code
        data = [bytes(256)] if result else self.plain.area[address:address + count]
        return self.signed([frame(0x0400, result, count, address, 0, nonce, at) for at in data])

    # Replies

    def due(self, it):
        """The next reply of an exchange, and whether it is due."""
        if it.replies:
            message, group, _ = it.replies[0]
            return message, SURE if group <= self.low else MAY if group <= self.high else NO
        if it.pages:
            is_on_dies = all(0 <= group <= self.low for group in it.pages)
            return it.response(), it.read or (NO if is_on_dies else MAY)
        if it.checks:
            return it.response(), min(self.reading(it, group) for group in it.checks)
        if it.blocks:
            content, group = it.blocks[0]
            data = content[:it.expected - it.sent]
            return transfer(0x22, it.lun, it.tag, it.sent, data), self.reading(it, group)
        if it.compares and not it.asked:
            _, group = it.compares[0]
            return transfer(0x31, it.lun, it.tag, it.sent, count=BLOCK), self.reading(it, group)
        if it.wants and not it.asked:
            offset, count = it.wants[0]
            return transfer(0x31, it.lun, it.tag, offset, count=count), SURE
        return b"", NO

    def reading(self, it, group):
        if group == 0 or group > self.high:
            return SURE
        return it.read or (NO if 0 < group <= self.low else MAY)

    def hand_out(self, it):
        """The next reply of the exchange is handed out."""
        if it.replies:
            (_, group, held), it.replies = it.replies[0], it.replies[1:]
            self.low, self.high = max(self.low, group), max(self.high, group)
            self.held = max(self.held, held)
            if held and it.passed:
                self.result = list(it.frames)
        elif it.pages:
            self.end_request(it)
            it.replies = ()
        elif it.checks:
            it.checks = ()
        elif it.blocks:
            it.sent += min(BLOCK, it.expected - it.sent)
            it.blocks, it.read = it.blocks[1:], NO
            if not it.blocks:
                it.replies = ((it.response(), 0, 0),)
        elif it.compares:
            it.asked, it.had_slot = (it.sent, BLOCK), not 0 <= it.compares[0][1] <= self.low
        else:
            it.asked, it.wants = it.wants[0], it.wants[1:]
        if not (it.replies or it.blocks or it.wants or it.asked):
            del self.open[it.number]

    def heard_nothing(self):
        """No reply was due."""
        for it in self.open.values():
            if self.due(it)[1] == MAY and it.replies:
                self.high = min(self.high, it.replies[0][1] - 1)
            it.read = NO if it.read == MAY else it.read

    # Dies

    def readers(self):
        """The tasks for whose next reply a die may read."""
        return [it for it in self.open.values() if it.pages
                or (it.blocks or it.checks or it.compares and not it.asked) and self.due(it)[1] != SURE]

    def late(self):
        """The groups of blocks that a die may read for a VERIFY which does not wait for them any more: they were in
        slots when the host was asked for its own."""
        return [it.compares[0][1] for it in self.open.values() if it.compares and it.asked and it.had_slot]

    def take(self, die, told):
        """A die asked for a job, and was told this."""
        self.is_calm = False
        words = told.split()
        if words == ["none"]:
            return None
        if die >= self.config[0] or die in self.flight or len(words) != 3 - (words[0] == "erase"):
            return []
        block, page = int(words[1]), int(words[2]) if len(words) > 2 else -1
        if block >= self.config[1] or page >= self.config[2]:
            return []
        owner = None
        if words[0] == "read":
            owners = self.readers()
            if self.queue is not None and len(owners) == 1 and not self.late():
                owner = owners[0].tag
            elif not owners:
                self.queue = None
        elif (die, block) in self.bad or page != -1 and self.rows.get((die, block), page - 1) != page - 1:
            return []
        else:
            self.rows[die, block] = page
            if words[0] == "program" and self.queue:
                owner = self.queue.pop(0)
            elif words[0] == "program":
                self.queue = None
        self.flight[die] = (words[0], block, owner)

    def done(self, die, is_good):
        """The job of a die ended."""
        self.is_calm = False
        kind, block, owner = self.flight.pop(die)
        if kind == "read":
            return self.was_read(owner) if is_good else self.was_not_read(owner)
        if not is_good:
            was_locked = self.locked()
            self.bad.add((die, block))
            if owner and self.queue is not None:
                self.queue = sorted([owner, *self.queue])
            return self.lock() if self.locked() and not was_locked else None
        if kind == "program":
            self.mended = self.mended or None
            if self.queue is None or owner is None:
                self.high = self.total
            else:
                self.left[owner[0]] -= 1
                while self.low < self.total and not self.left[self.low + 1]:
                    self.low += 1
                self.high = self.low

    def was_read(self, tag):
        for it in self.readers():
            is_its = it.tag == tag and not it.pages and not it.checks
            it.read = SURE if is_its else max(it.read, MAY)

    def was_not_read(self, tag):
        """A read failed: that of one of the tasks, or of a step of the device's own."""
        found = [] if any(it.tag == tag for it in self.readers()) else [self.copy()]
        for owner in self.readers():
            if tag in (None, owner.tag):
                world = self.copy()
                it = world.open[owner.tag]
                if it.pages:
                    it.frames, it.read = world.area_frames(it, 6), MAY
                else:
                    it.end(CHECK, READ_ERROR, it.sent)
                found.append(world)
        return found

    def lock(self):
        """More blocks are bad than are spare: what waits for the dies ends, in each way that may be."""
        waits = sorted({it.replies[0][1] for it in self.open.values() if it.replies and it.replies[0][1] > self.low})
        cuts = [self.low] + [group for group in waits if group <= self.high]
        found = []
        for at, cut in enumerate(cuts):
            world = self.copy()
            world.low, world.high = cut, cuts[at + 1] - 1 if at + 1 < len(cuts) else self.high
            for it in world.open.values():
                if it.replies and it.replies[0][1] > cut:
                    if it.is_task:
                        it.end(CHECK, WRITE_ERROR, it.length)
                        it.frames = ()
                    else:
                        it.replies = ((it.frames, 0, 0),)
            found.append(world)
        return found

    def rounds(self):
        """So many rounds see everything done that is due."""
        pending = sum(pages for group, pages in self.pages.items() if group > self.low)
        return min(MANY, FEW + PER_PAGE * pending) if self.mended else MANY

    def settle(self, rounds):
        if not rounds:
            return None
        self.queue, self.rows = None, {}
        is_whole = rounds >= self.rounds() and not self.flight
        self.is_calm = is_whole and rounds >= MANY
        self.high = self.total
        self.mended = True if is_whole else self.mended or None
        self.low = self.total if is_whole else self.low
        for it in self.open.values():
            it.read = SURE if is_whole else max(it.read, MAY)

    def turn(self, told):
        if told == "yes":
            self.queue = None
        elif self.is_calm:
            self.queue = []

    def kept(self, leftovers):
        """How many of the accepted commands a stop may leave, at the least and at the most."""
        least = max(self.held, self.low)
        if self.queue is None:
            return least, self.total
        left = dict(self.left)
        for die, how in leftovers:
            owner = self.flight[die][2]
            if owner and how == "new":
                left[owner[0]] -= 1
        while least < self.total and not left[least + 1]:
            least += 1
        return least, least

    def stop(self, leftovers):
        """The power fails. The worlds after it, one for each state that may be left."""
        least, most = self.kept(leftovers)
        plain, states = self.base.copy(), []
        for group, change in [(self.first, None), *self.log]:
            if change:
                plain.apply(change)
            if least <= group <= most and not any(vars(it) == vars(plain) for it in states):
                states.append(plain.copy())
        return [self.reopened(state, least) for state in states]

    def reopened(self, plain, least):
        world = World(self.config, self.units, (self.profile, self.serial))
        world.plain, world.base, world.bad = plain, plain.copy(), set(self.bad)
        world.total = world.low = world.high = world.held = world.first = self.total
        world.mended = True if self.mended and least == self.total else None
        world.since = {key: group if group <= least or self.base_since.get(key, -1) > 0 else -1
                       for key, group in self.since.items()}
        world.base_since = dict(world.since)
        return world


def event_of(line):
    """What a line of a script asks for, or the name of its fault."""
    first, *rest = [it for it in line.split(" ") if it and line.isascii()] or [""]
    shapes = {"host": "x", "fill": "xbn", "reply": "", "take": "n", "done": "nw", "turn": "", "settle": "n"}
    if first == "stop":
        named = [it.split(":") for it in rest]
        if any(len(it) != 2 or it[1] not in ("old", "new", "torn") for it in named):
            return "word"
        numbers = [whole(it[0]) for it in named]
        return "number" if None in numbers else ("stop", [(die, how) for die, (_, how) in zip(numbers, named)])
    if first not in shapes or len(rest) != len(shapes[first]) or first == "done" and rest[1] not in ("ok", "fail"):
        return "word"
    found = []
    for shape, word in zip(shapes[first], rest):
        found.append(WORDS[shape](word))
        if found[-1] is None or shape == "b" and len(found[-1]) != 1:
            return "number" if shape == "n" else "hex"
    if first == "fill":
        return "host", found[0] + found[1] * found[2]
    return (first, *found)


def whole(word):
    return int(word) if re.fullmatch("[0-9]+", word) and int(word) < 1 << 32 else None


def hexed(word):
    return bytes.fromhex(word) if re.fullmatch("([0-9a-fA-F]{2})+", word) else None


# What the words of a script's line are read as, by their letters in `event_of`.
WORDS: Dict[str, Callable[[str], Any]] = {"x": hexed, "b": hexed, "n": whole, "w": str}


def device_of(lines):
    """The configuration, the units, and the profile with the serial number that the first lines of a script give."""
    found: Dict[str, List[Any]] = {"config": [], "unit": [], "profile": [PLAIN_PROFILE]}
    for word, *numbers in map(str.split, lines):
        found[word].append(tuple(map(int, numbers)))
    return found["config"][0], found["unit"], found["profile"][-1]


def merged(worlds):
    """The worlds right after a stop, of which no two hold the same."""
    found = []
    for world in worlds:
        same = next((it for it in found if vars(it.plain) == vars(world.plain)), None)
        if same is None:
            found.append(world)
        else:
            same.mended = same.mended and world.mended
            same.since = {key: group if world.since.get(key) == group else -1 for key, group in same.since.items()}
            same.base_since = dict(same.since)
    return found


class Model:
    """The worlds that fit what was seen so far."""

    def __init__(self, config, units, profile=PLAIN_PROFILE):
        self.worlds = [World(config, units, profile)]
        self.config = config

    def become(self, profile):
        """A device with this profile and serial number has the dies now."""
        for world in self.worlds:
            world.profile, world.serial = profile

    def options(self, world, event, printed):
        """What the device may print, each with what then becomes of the world."""
        kind, *rest = event
        if kind == "host":
            fault = world.fault(rest[0])
            return [(f"host fault {fault}", lambda it: None)] if fault else [("host ok", lambda it: it.heard(rest[0]))]
        if kind == "reply":
            dues = [(tag, *world.due(it)) for tag, it in world.open.items()]
            is_sure = any(how == SURE for _, _, how in dues)
            found: List[Tuple[str, Callable[..., Any]]] = []
            if not is_sure:
                found.append(("reply none", lambda it: it.heard_nothing()))
            for tag, message, how in dues:
                if how != NO:
                    found.append((f"reply {message.hex()}", lambda it, tag=tag: it.hand_out(it.open[tag])))
            return found
        if kind == "take":
            told = (printed or self.guess(world, rest[0])).removeprefix(f"take {rest[0]} ")
            is_job = re.fullmatch(r"none|(read|program) \d+ \d+|erase \d+", told)
            return [(f"take {rest[0]} {told}", lambda it: it.take(rest[0], told) if is_job else [])]
        if kind == "done":
            return [(f"done {rest[0]} yes", lambda it: it.done(rest[0], rest[1] == "ok"))]
        if kind == "turn":
            return [(f"turn {told}", lambda it, told=told: it.turn(told)) for told in ("no", "yes")]
        if kind == "settle":
            return [(f"settle {rest[0]}", lambda it: it.settle(rest[0]))]
        return [("stop ok", lambda it: it.stop(rest[0]))]

    @staticmethod
    def guess(world, die):
        """What a die is told, as it seems."""
        if die >= world.config[0] or die in world.flight:
            return "none"
        if any(not it.read for it in world.readers()) or any(0 < group <= world.low for group in world.late()):
            return "read 0 0"
        waits = world.queue if world.queue is not None else world.low < world.total
        block = next(it for it in range(world.config[1])
                     if (die, it) not in world.bad and world.rows.get((die, it), 0) < world.config[2] - 1)
        return f"program {block} {world.rows.get((die, block), -1) + 1}" if waits else "none"

    def is_event(self, event):
        """Whether the dies have the jobs that the line speaks of."""
        flight = self.worlds[0].flight
        if event[0] == "done":
            return event[1] in flight
        dies = [die for die, _ in event[1]] if event[0] == "stop" else []
        return len(dies) == len(set(dies)) and all(flight.get(die, ("read",))[0] != "read" for die in dies)

    def hear(self, event, printed=None):
        """Whether it may be that this was printed for the event; without it, what seems likely."""
        found = []
        for world in self.worlds:
            options = self.options(world, event, printed)
            ways = [way for text, way in options if text == printed] if printed else [options[0][1]]
            for at, way in enumerate(ways):
                one = world.copy() if at + 1 < len(ways) else world
                last = way(one)
                found += [one] if last is None else last
            if printed is None:
                printed = options[0][0]
        self.worlds = merged(found) if event[0] == "stop" else found
        return bool(found)

    def wanted(self, event):
        """What may be printed, in words."""
        texts = {text: None for world in self.worlds for text, _ in self.options(world, event, None)}
        return " or ".join(texts) or "nothing"
