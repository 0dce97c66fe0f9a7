#!/usr/bin/env python3
"""Writes scripts of ufsim with each command, each message of a host, each query and each function of
task management, among failing jobs and stops: examples/every_command.txt, and examples/every_command_1.txt
for a device of profile 1.

usage: every_command.py

What they have to print is foretold: the answers are worked out here from the standards and from
docs/FORMATS.md, by a plain list of blocks, and not taken from the device. tools/tests compares them with
what is stored beside them, which the device printed. Which job a die is given is not foretold: such a line
ends with MORE.
"""
import hashlib
import hmac
import random

import parameters
from crates import ROOT

# The script of each profile, and its rounds.
SCRIPTS = [ROOT / "examples" / f"every_command{it}.txt" for it in ("", "_1")]
ROUNDS = (4, 2)
# What stands in a foretold line for what is not.
MORE = "..."
BLOCK = 4096
# The configuration: dies, blocks, pages, RPMB, slots, spare; and of each unit its blocks, its boot number
# and its protection.
CONFIG = (2, 24, 16, 1, 64, 4)
UNITS = ((48, 0, 0), (16, 1, 1), (16, 2, 2))
SERIAL = 0xFEDCBA9876543210
KEY = bytes([0x0B]) * 32
# LUN bytes of well-known units, all that are there, and some that are not.
LIST, BOOT, RPMB, DEVICE = 0x81, 0xB0, 0xC4, 0xD0
LUNS = (*range(len(UNITS)), LIST, BOOT, RPMB, DEVICE)
ABSENT = (3, 7, 0x50, 0xFF)
TO_DEVICE, TO_HOST = 0x20, 0x40
# Statuses, and sense keys with their codes and qualifiers.
GOOD, CHECK = 0x00, 0x02
NOT_READY, WRITE_ERROR, READ_ERROR = (2, 0x04, 1), (3, 0x0C, 0), (3, 0x11, 0)
LIST_LENGTH, NO_OPERATION, OUT_OF_RANGE = (5, 0x1A, 0), (5, 0x20, 0), (5, 0x21, 0)
NO_FIELD, NO_UNIT, NO_LIST_FIELD = (5, 0x24, 0), (5, 0x25, 0), (5, 0x26, 0)
SEQUENCE, PROTECTED, MISCOMPARE = (5, 0x2C, 0), (7, 0x27, 0), (0x0E, 0x1D, 0)
NOTHING_SAVED, TEST_FAILED = (5, 0x39, 0), (4, 0x3E, 3)
NO_SENSE, ATTENTION, NOT_SIMPLE = (0, 0, 0), (6, 0x29, 0), (0x0B, 0x49, 0)
# Of byte 1 of a COMMAND of profile 1: the priority, and the task attributes ORDERED, HEAD OF QUEUE and ACA.
PRIORITY, ATTRIBUTES = 0x04, (1, 2, 3)
# The CDBs of REQUEST SENSE and INQUIRY with the allocation length of all that they tell, and of TEST UNIT READY.
SENSE, IDENTITY, READY = [0x03, 0, 0, 0, 18], [0x12, 0, 0, 0, 36], [0x00]
# READ and WRITE by the length of their CDB.
FORMS = {6: (0x08, 0x0A), 10: (0x28, 0x2A), 16: (0x88, 0x8A)}
DPO, FUA, LAST_GROUP = 0x10, 0x08, 0x10
# BYTCHK of a VERIFY: 01, and those that no device here takes, 10 and 11.
COMPARED, UNKNOWN_CHECKS = 0x02, (0x04, 0x06)
# Of profile 1 the pages of vital product data: how many bytes follow, and these. Of page 83h comes the LUN last.
PAGES = {0x80: "0010" + f"{SERIAL:016x}".encode("ascii").hex(), 0x83: "000c01030008304653" + "76543210",
         0x87: "00043fff0000"}
UNIT_PAGES = {0xB0: "003c" + "00000001" + "00000020" * 2 + "00000000" + "00000020" + "00000001" * 2 + "80" + 31 * "00",
              0xB1: "003c0001" + 58 * "00", 0xB2: "000400840200"}
# Each mode page with its current values, which are the default ones too, and its changeable ones.
MODE_PAGES = {0x01: ("010a80" + 9 * "00", "010a" + 10 * "00"), 0x08: ("081204" + 17 * "00", "0812" + 18 * "00"),
              0x0A: ("0a0a001000000000ffff0000", "0a0a" + 10 * "00")}
# Each command that a unit takes, by the bits of its CDB that it looks at; service actions stand in byte 1.
USAGES = ("000000000000", "03000000ff00", "081fffffff00", "0a1fffffff00", "1201ffffff00", "1a18ffffff00",
          "1d1400000000", "25" + 9 * "00", "2818ffffffff1fffff00", "2a18ffffffff1fffff00", "2f12ffffffff1fffff00",
          "3402ffffffff1fffff00", "3502ffffffff1fffff00", "42000000000000ffff00", "5a18ffff000000ffff00",
          "8818" + 12 * "ff" + "1f00", "8a18" + 12 * "ff" + "1f00", "9002" + 12 * "ff" + "1f00",
          "9102" + 12 * "ff" + "1f00", "9e10" + 8 * "00" + 4 * "ff" + "0000", "a000ff000000ffffffff0000",
          "a30c87ffffffffffffff0000")
ACTIONS = {0x9E: 0x10, 0xA3: 0x0C}
# bActiveICCLevel and bRefClkFreq, as a life begins.
AS_IT_BEGINS = {idn: parameters.TABLE[parameters.ATTRIBUTE, idn].told for idn in (0x03, 0x0A)}
# Faults of messages.
SHORT, LENGTH, DIGEST, EHS, CODE, RESERVED, TAG_IN_USE, NOT_ASKED_FOR = 1, 2, 3, 4, 5, 6, 7, 8


def big(number, width):
    return number.to_bytes(width, "big")


def header(code, flags=0, lun=0, tag=0, five=0, six=0, status=0, segment=0, fields=b""):
    """A header of 32 bytes."""
    first = bytes([code, flags, lun, tag, 0, five, six, status, 0, 0])
    return first + big(segment, 2) + fields.ljust(20, b"\0")


def transfer(code, lun, tag, offset, data=b"", count=None):
    """DATA OUT, DATA IN, and READY TO TRANSFER, which has a count and no data."""
    count = len(data) if count is None else count
    fields = big(offset, 4) + big(count, 4)
    return header(code, 0, lun, tag, segment=len(data), fields=fields) + data + bytes(-len(data) % 4)


def fixed_sense(sense):
    """Sense data of 18 bytes, in the fixed format of SPC-4."""
    return bytes([0x70, 0, sense[0], 0, 0, 0, 0, 10, 0, 0, 0, 0, sense[1], sense[2], 0, 0, 0, 0])


def response(lun, tag, expected, length, status=GOOD, sense=None):
    """A RESPONSE to a command that expected so many bytes, and has or carried so many."""
    flags = 0x20 if length < expected else 0x40 if length > expected else 0
    data = big(18, 2) + fixed_sense(sense) if sense else b""
    fields = big(abs(expected - length), 4)
    return header(0x21, flags, lun, tag, 0, int(status != GOOD), status, len(data), fields) + data


def frame(kind, result=0, count=0, address=0, counter=0, nonce=bytes(16), data=bytes(256), mac=bytes(32)):
    """A frame of 512 bytes."""
    numbers = big(counter, 4) + big(address, 2) + big(count, 2) + big(result, 2) + big(kind, 2)
    return bytes(196) + mac + data + nonce + numbers


def signed(frames):
    """The frames with their MAC in the last one."""
    mac = hmac.new(KEY, b"".join(it[228:] for it in frames), hashlib.sha256).digest()
    return frames[:-1] + [frames[-1][:196] + mac + frames[-1][228:]]


def moving(is_write, form, address, count, option=0, group=0):
    """The CDB of a READ or a WRITE, of so many bytes."""
    code = FORMS[form][is_write]
    if form == 6:
        return [code, *big(address, 3), count]
    if form == 10:
        return [code, option, *big(address, 4), group, *big(count, 2)]
    return [code, option, *big(address, 8), *big(count, 4), group]


def verifying(address, count, option=0, group=0):
    """The CDB of a VERIFY."""
    return [0x2F, option, *big(address, 4), group, *big(count, 2)]


class Script:
    """The lines of the script, with what they have to print, and what the device holds then."""

    def __init__(self, profile):
        self.lines = ["# Each command, each message of a host, each query and each function of task management, among",
                      "# jobs that fail and stops. tools/every_command.py writes it, and foretells its answers.",
                      "config " + " ".join(map(str, CONFIG))]
        self.lines += ["unit " + " ".join(map(str, unit)) for unit in UNITS]
        self.lines += [f"profile {profile} {SERIAL}"] * profile
        self.profile = profile
        self.printed = []
        self.blocks = [[0] * unit[0] for unit in UNITS]
        self.boot = self.permanent = self.power_on = 0
        self.device = parameters.Device(profile, SERIAL, UNITS, CONFIG[3])
        # What is written of attributes, and fBackgroundOpsEn, which last until the next power cycle.
        self.attributes, self.background = dict(AS_IT_BEGINS), 1
        # The LUNs with an attention.
        self.attentions = set(LUNS) if profile else set()
        self.key = False
        self.counter = 0
        self.area = [0] * 512
        self.tag = 0
        self.random = random.Random(1)

    # Lines

    def text(self):
        return "\n".join(self.lines) + "\n"

    def line(self, line, printed):
        self.lines.append(line)
        self.printed.append(printed)

    def note(self, text):
        self.lines += ["", f"# {text}"]

    def host(self, message, fault=0):
        self.line(f"host {message.hex()}", f"host fault {fault}" if fault else "host ok")

    def fill(self, message, byte, count, fault=0):
        """A message that ends with so many equal bytes."""
        words = f"fill {message[:len(message) - count].hex()} {byte:02x} {count}"
        self.line(words, f"host fault {fault}" if fault else "host ok")

    def reply(self, message):
        self.line("reply", f"reply {message.hex()}" if message else "reply none")

    def settle(self, rounds):
        self.line(f"settle {rounds}", f"settle {rounds}")

    def take(self, die):
        self.line(f"take {die}", f"take {die} {MORE}")

    def done(self, die, how="ok"):
        self.line(f"done {die} {how}", f"done {die} yes")

    def next_tag(self):
        self.tag = (self.tag + 1) % 200
        return self.tag

    # Commands

    def command(self, lun, cdb, flags=0, expected=0, tag=None):
        tag = self.next_tag() if tag is None else tag
        self.host(header(0x01, flags, lun, tag, fields=big(expected, 4) + bytes(cdb).ljust(16, b"\0")))
        return tag

    def refused(self, sense, lun, cdb, flags=0, expected=0):
        """A command that ends with this sense before any data."""
        tag = self.command(lun, cdb, flags, expected)
        self.reply(response(lun, tag, expected, 0, CHECK, sense))

    def told(self, lun, cdb, data, expected, option=0):
        """A command that tells these data, with this option beside its direction."""
        tag = self.command(lun, cdb, (TO_HOST if data else 0) + option, expected)
        if min(expected, len(data)):
            self.reply(transfer(0x22, lun, tag, 0, data[:expected]))
        self.reply(response(lun, tag, expected, len(data)))

    def begin_write(self, unit, address, count, forced=False, form=10, group=0):
        """A WRITE up to its data: its tag."""
        cdb = moving(True, form, address, count, FUA if forced else 0, group)
        return self.command(unit, cdb, TO_DEVICE, BLOCK * count)

    def send_blocks(self, unit, tag, first, count):
        """The blocks of a WRITE, each once it is asked for."""
        for index in range(count):
            self.reply(transfer(0x31, unit, tag, BLOCK * index, count=BLOCK))
            byte = first + index & 255
            self.fill(transfer(0x02, unit, tag, BLOCK * index, bytes([byte]) * BLOCK), byte, BLOCK)

    def hold(self, unit, address, first, count):
        """The unit has these blocks from now on."""
        for index in range(count):
            self.blocks[unit][address + index] = first + index & 255

    def write(self, unit, address, count, forced=False, form=10, group=0):
        """A WRITE of blocks, each of its own byte, that is answered GOOD."""
        first = self.random.randrange(1, 200)
        tag = self.begin_write(unit, address, count, forced, form, group)
        self.send_blocks(unit, tag, first, count)
        if forced:
            self.settle(16)
        self.reply(response(unit, tag, BLOCK * count, BLOCK * count))
        self.hold(unit, address, first, count)

    def read(self, lun, unit, address, count=1, expected=16, form=10, option=0, group=0):
        """A READ of which the first bytes come."""
        tag = self.command(lun, moving(False, form, address, count, option, group), TO_HOST, expected)
        for index in range(-(-expected // BLOCK)):
            # A block that lay in the cache may be programmed meanwhile, and then it is read.
            self.settle(2 if index else 8)
            data = bytes([self.blocks[unit][address + index]]) * min(BLOCK, expected - BLOCK * index)
            self.reply(transfer(0x22, lun, tag, BLOCK * index, data))
        self.reply(response(lun, tag, expected, BLOCK * count))

    def compare(self, unit, address, count, other=None, more=0, option=0, group=0):
        """A VERIFY that compares blocks with those of the host, which are the same but this one of them; the host
        expects so many bytes more than they have."""
        expected = BLOCK * count + more
        tag = self.command(unit, verifying(address, count, COMPARED | option, group), TO_DEVICE, expected)
        for index in range(count):
            self.settle(8)
            self.reply(transfer(0x31, unit, tag, BLOCK * index, count=BLOCK))
            byte = self.blocks[unit][address + index] ^ (index == other)
            self.fill(transfer(0x02, unit, tag, BLOCK * index, bytes([byte]) * BLOCK), byte, BLOCK)
            if index == other:
                self.reply(response(unit, tag, expected, BLOCK * (index + 1), CHECK, MISCOMPARE))
                return
        self.reply(response(unit, tag, expected, BLOCK * count))

    def flush(self, lun, at_once=False, form=10, group=0):
        wide = bytes(4 if form == 10 else 12)
        tag = self.command(lun, [0x35 if form == 10 else 0x91, 2 if at_once else 0, *wide, group])
        if not at_once:
            self.settle(24)
        self.reply(response(lun, tag, 0, 0))

    def unmap(self, unit, address, count):
        """An UNMAP of a descriptor, that is answered GOOD."""
        data = self.begin_unmap(unit, bytes([0, 22, 0, 16, 0, 0, 0, 0]) + big(address, 8) + big(count, 4) + bytes(4))
        self.reply(response(unit, data, 24, 24))
        self.blocks[unit][address:address + count] = [0] * count

    def begin_unmap(self, unit, data):
        """An UNMAP with this list: its tag."""
        tag = self.command(unit, [0x42, 0, 0, 0, 0, 0, 0, *big(len(data), 2)], TO_DEVICE, len(data))
        if data:
            self.reply(transfer(0x31, unit, tag, 0, count=len(data)))
            self.host(transfer(0x02, unit, tag, 0, data))
        return tag

    def unmap_refused(self, sense, unit, data):
        """An UNMAP that ends with this sense behind its list."""
        tag = self.begin_unmap(unit, data)
        self.reply(response(unit, tag, len(data), len(data), CHECK, sense))

    # The replay protected memory block

    def security(self, operation, count):
        return [operation, 0xEC, 0, 1, 0, 0, *big(512 * count, 4)]

    def begin_frames(self, frames):
        """SECURITY PROTOCOL OUT with its frames: its tag."""
        size = 512 * len(frames)
        tag = self.command(RPMB, self.security(0xB5, len(frames)), TO_DEVICE, size)
        self.reply(transfer(0x31, RPMB, tag, 0, count=size))
        self.host(transfer(0x02, RPMB, tag, 0, b"".join(frames)))
        return tag

    def bring(self, frames):
        """A request that is answered GOOD."""
        tag = self.begin_frames(frames)
        self.settle(16)
        self.reply(response(RPMB, tag, 512 * len(frames), 512 * len(frames)))

    def fetch(self, frames):
        """SECURITY PROTOCOL IN, which gives these frames."""
        size = 512 * len(frames)
        tag = self.command(RPMB, self.security(0xA2, len(frames)), TO_HOST, size)
        self.reply(transfer(0x22, RPMB, tag, 0, b"".join(frames)))
        self.reply(response(RPMB, tag, size, size))

    def fetch_result(self, wanted):
        """A result read, which gives this frame."""
        self.bring([frame(5)])
        self.fetch([wanted])

    def program_key(self):
        self.bring([frame(1, mac=KEY)])
        self.fetch_result(frame(0x100, 1 if self.key else 0))
        self.key = True

    def read_counter(self):
        nonce = bytes(self.random.randrange(256) for _ in range(16))
        self.bring([frame(2, nonce=nonce)])
        answer = frame(0x200, 0 if self.key else 7, counter=self.counter, nonce=nonce)
        self.fetch(signed([answer]) if self.key else [answer])

    def write_area(self, address, count, result=0, counter=None):
        """A write of blocks of the area, each of its own byte, that has this result."""
        first = self.random.randrange(1, 200)
        counter = self.counter if counter is None else counter
        frames = [frame(3, 0, count, address, counter, data=bytes([first + it & 255]) * 256) for it in range(count)]
        frames = signed(frames)
        if result == 2:
            frames[-1] = frames[-1][:196] + bytes(32) + frames[-1][228:]
        self.bring(frames)
        if result == 0:
            self.counter += 1
            self.area[address:address + count] = [first + it & 255 for it in range(count)]
        answer = frame(0x300, result, 0, address, self.counter)
        self.fetch_result(signed([answer])[0] if self.key else answer)

    def read_area(self, address, count):
        nonce = bytes(self.random.randrange(256) for _ in range(16))
        self.bring([frame(4, 0, count, address, nonce=nonce)])
        data = [bytes([self.area[address + it]]) * 256 for it in range(count)]
        self.fetch(signed([frame(0x400, 0, count, address, nonce=nonce, data=it) for it in data]))

    # Queries

    def query(self, function, opcode, idn=0, index=0, selector=0, length=0, value=0, code=0, told=0, data=b""):
        """A query that is answered so."""
        tag = self.next_tag()
        asked = bytes([opcode, idn, index, selector])
        self.host(header(0x16, tag=tag, five=function, fields=asked + bytes(2) + big(length, 2) + big(value, 4)))
        return tag, header(0x36, tag=tag, five=function, six=code, segment=len(data),
                           fields=asked + bytes(2) + big(len(data), 2) + big(told, 4)) + data + bytes(-len(data) % 4)

    def asks(self, *words, **fields):
        self.reply(self.query(*words, **fields)[1])

    def sets(self, *words, **fields):
        """A setting, which is answered once it is durable."""
        answer = self.query(*words, **fields)[1]
        self.settle(16)
        self.reply(answer)

    def set_boot(self, boot):
        self.sets(0x81, 4, 0, value=boot, told=boot)
        self.boot = boot

    def write_attribute(self, idn, value, index=0, selector=0):
        """An attribute that is no setting is written, and tells the value from then on, if it keeps it."""
        if idn in self.attributes:
            self.attributes[idn] = value
        row = parameters.TABLE[parameters.ATTRIBUTE, idn]
        self.asks(0x81, 4, idn, index, selector, value=value, told=self.attributes.get(idn, row.told))

    # Task management, and other messages

    def manage(self, function, lun, meant, service):
        tag = self.next_tag()
        self.host(header(0x04, 0, lun, tag, function, fields=bytes([0, 0, 0, lun, 0, 0, 0, meant])))
        self.reply(header(0x24, 0, lun, tag, fields=bytes([0, 0, 0, service])))
        if self.profile and function == 0x08 and lun in LUNS:
            self.attentions.add(lun)

    def reset(self, kind):
        """A LINK EVENT: each LUN has an attention after it, and the clock alone is as it was, with the protection that
        the first kind ends."""
        self.host(header(0x1F, five=kind))
        self.attentions = set(LUNS)
        self.attributes[0x03], self.background = AS_IT_BEGINS[0x03], 1
        self.power_on = self.power_on if kind == 0x02 else 0

    def nop(self):
        tag = self.next_tag()
        self.host(header(0x00, tag=tag))
        self.reply(header(0x20, tag=tag))

    def stop(self, words="", rounds=24, is_mended=True):
        """A stop, and the mending after it, if anything is lost: what does not outlast it is gone."""
        self.line(f"stop {words}".strip(), "stop ok")
        self.power_on = 0
        self.attributes, self.background = dict(AS_IT_BEGINS), 1
        self.attentions = set(LUNS) if self.profile else set()
        self.mend(rounds, is_mended)
        self.ready(0)

    def mend(self, rounds, is_mended=False):
        """So many rounds, behind which the device is mended, if it is not so before. Profile 1 tells which it is, once
        each attention has ended."""
        if self.profile:
            self.asks(0x01, 5, 1)
            self.asks(0x81, 6, 1, told=int(not is_mended))
            self.greet()
            self.told(0, SENSE, fixed_sense(NO_SENSE if is_mended else NOT_READY), 18)
            self.asks(0x01, 5, 1, told=int(not is_mended))
        self.settle(rounds)
        if self.profile:
            self.told(0, SENSE, fixed_sense(NO_SENSE), 18)
            self.asks(0x01, 5, 1)

    def ready(self, lun):
        tag = self.command(lun, READY)
        self.reply(response(lun, tag, 0, 0))

    def greet(self):
        """A TEST UNIT READY to each LUN that has an attention, which ends by it."""
        for lun in LUNS:
            if lun in self.attentions:
                self.attention(lun, READY)

    def attention(self, lun, cdb, flags=0, expected=0):
        """A command that is refused for an attention, which ends by it."""
        self.refused(ATTENTION, lun, cdb, flags, expected)
        self.attentions.remove(lun)


def inquiry(first):
    return bytes([first, 0, 6, 2, 31, 0, 0, 2]) + b"PROFILE UFS PROFILE 2.1 0001"


def ask_of_units(script):
    """Commands that tell of the device and its units."""
    for lun in LUNS:
        script.told(lun, IDENTITY, inquiry(0x00 if lun < 8 else 0x1E), 36)
    for lun in (0, RPMB, DEVICE):
        script.ready(lun)
    script.told(0, [0x12, 0, 0, 0, 8], inquiry(0)[:8], 8)
    script.told(1, SENSE, fixed_sense(NO_SENSE), 18)
    for unit, numbers in enumerate(UNITS):
        script.told(unit, [0x25], big(numbers[0] - 1, 4) + big(BLOCK, 4), 8)
    ordinary = [bytes([0, it]) + bytes(6) for it in range(len(UNITS))]
    known = [bytes([0xC1, it]) + bytes(6) for it in (0x01, 0x30, 0x44, 0x50)]
    for select, units in ((0, ordinary), (1, known), (2, ordinary + known)):
        data = b"".join(units)
        data = big(len(data), 4) + bytes(4) + data
        script.told(LIST, [0xA0, 0, select, 0, 0, 0, 0, 0, 0, 64], data, 64)


def ask_in_vain(script):
    """Commands that are refused, and messages that are not taken."""
    script.refused(NO_UNIT, 5, READY if script.profile else IDENTITY, TO_HOST, 36)
    script.refused(NO_OPERATION, 0, [0x9E, 0x12] if script.profile else [0x88], TO_HOST, 36)
    script.refused(NO_OPERATION, RPMB, [0x28], TO_HOST, BLOCK)
    script.refused(NO_FIELD, 0, [0x28, 0, 0, 0, 0, 0, 0, 0, 33], TO_HOST, 33 * BLOCK)
    script.refused(NO_FIELD, 0, [0x08, 0, 0, 0, 0], TO_HOST, 16)
    script.refused(NO_FIELD, 0, [0x00, 1])
    script.refused(NO_FIELD, 0, [0x28, 0, 0, 0, 0, 0, 0, 0, 1], 0, BLOCK)
    script.refused(OUT_OF_RANGE, 0, [0x28, 0, 0, 0, 0, 47, 0, 0, 2], TO_HOST, 2 * BLOCK)
    script.refused(LIST_LENGTH, 0, [0x42, 0, 0, 0, 0, 0, 0, 0, 16], TO_DEVICE, 16)
    if not script.boot:
        script.refused(NO_UNIT, BOOT, [0x28, 0, 0, 0, 0, 0, 0, 0, 1], TO_HOST, BLOCK)
    script.refused(SEQUENCE, RPMB, script.security(0xA2, 1), TO_HOST, 512)
    script.refused(NO_FIELD, RPMB, [0xB5, 0xEC, 0, 1, 0, 0, 0, 0, 2, 1], TO_DEVICE, 513)
    nop = header(0x00, tag=201)
    script.host(nop[:31], SHORT)
    script.host(nop + b"\0", LENGTH)
    script.host(b"\x80" + nop[1:], DIGEST)
    script.host(nop[:8] + b"\1" + nop[9:], EHS)
    script.host(header(0x20, tag=201), CODE)
    script.host(header(0x3F, tag=201), CODE)
    script.host(nop[:31] + b"\1", RESERVED)
    script.host(transfer(0x02, 0, 201, 0, bytes(4)), NOT_ASKED_FOR)


def ask_by_queries(script):
    """Each query of profile 0 that changes nothing, or is refused."""
    script.asks(0x01, 0)
    data = parameters.device_descriptor(script.device)
    script.asks(0x01, 1, 0, length=64, data=data)
    script.asks(0x01, 1, 0, length=8, data=data[:8])
    for unit in range(len(UNITS)):
        script.asks(0x01, 1, 2, unit, length=0x23, data=parameters.unit_descriptor(script.device, unit))
    script.asks(0x01, 3, 0, told=script.boot)
    for flag, value in ((1, 0), (2, script.permanent), (3, script.power_on)):
        script.asks(0x01, 5, flag, told=value)
    script.asks(0x81, 6, 1)
    script.asks(0x81, 7, 1, code=0xF7)
    script.asks(0x81, 8, 2, code=0xF7)
    script.asks(0x81, 2, 0, code=0xF7)
    script.asks(0x01, 1, 0, code=0xF9)
    script.asks(0x81, 4, 0, value=3, code=0xFA)
    script.asks(0x01, 3, 0, 0, 1, code=0xFB)
    script.asks(0x01, 1, 2, 8 if script.profile else 5, length=0x23, code=0xFC)
    script.asks(0x01, 1, 9, length=0x23, code=0xFD)
    script.asks(0x01, 9, code=0xFE)
    script.asks(0x81, 1, 0, length=64, code=0xFE)


def ask_in_no_place(script, function, opcode, idn, row):
    """A query with an index, and with a selector, that names nothing; the selector is looked at last."""
    indexes, selectors = parameters.indexes_of(row, 1, len(UNITS)), parameters.selectors_of(row)
    others = {indexes[-1] + 1, max(it for it in indexes if it < parameters.RPMB) + 1, 255}
    others |= {indexes[0] - 1} if indexes[0] else set()
    for index in sorted(others):
        script.asks(function, opcode, idn, index, 255, code=0xFC)
    for selector in {selectors[-1] + 1, *([selectors[0] - 1] if selectors[0] else [])}:
        script.asks(function, opcode, idn, indexes[0], selector, code=0xFB)
    return indexes, selectors


def ask_of_descriptors(script):
    """Each descriptor whole and in part, written, and where there is none."""
    for idn, row in parameters.rows_of(1, parameters.DESCRIPTOR).items():
        indexes, _ = ask_in_no_place(script, 0x01, 1, idn, row)
        for index in indexes:
            data = parameters.descriptor(script.device, idn, index)
            for length in (255, len(data), len(data) - 1, 2):
                script.asks(0x01, 1, idn, index, length=length, data=data[:length])
            script.asks(0x01, 1, idn, index, code=0xF9)
            script.asks(0x81, 2, idn, index, length=len(data), code=0xF7)
    ask_of_none(script, 1)


def ask_of_none(script, opcode):
    """Queries of what neither profile has."""
    for idn in {*range(0x18), 0x80, 0xFF} - {*parameters.rows_of(1, parameters.CLASSES[opcode])}:
        for it in (opcode, opcode + 1):
            function = 0x01 if it in parameters.READS else 0x81
            script.asks(function, it, idn, 255, 255, code=0xFD)
            script.asks(function ^ 0x80, it, idn, 255, 255, code=0xFE)


def ask_of_attributes(script):
    """Each attribute is read and written, with the least and the greatest value and beyond them."""
    for idn, row in parameters.rows_of(1, parameters.ATTRIBUTE).items():
        if (4, idn) in parameters.SETTINGS:
            continue
        indexes, selectors = ask_in_no_place(script, 0x01, 3, idn, row)
        ask_in_no_place(script, 0x81, 4, idn, row)
        for index, selector in [(index, selector) for index in indexes for selector in (selectors[0], selectors[-1])]:
            read_attribute(script, idn, row, index, selector)
            write_attribute(script, idn, row, index, selector)
    ask_of_none(script, 3)


def read_attribute(script, idn, row, index, selector):
    """What an attribute tells, if it is read at all."""
    place = (0x01, 3, idn, index, selector)
    if 3 in row.opcodes:
        script.asks(*place, value=7, told=script.attributes.get(idn, row.told))
        script.asks(*place, length=1, code=0xF9)
    else:
        script.asks(*place, length=1, code=0xF6)


def write_attribute(script, idn, row, index, selector):
    """Values that an attribute takes, each of which is told then, and others."""
    place = (0x81, 4, idn, index, selector)
    if 4 not in row.opcodes:
        script.asks(*place, length=1, value=row.told, code=0xF7)
        return
    script.asks(*place, length=1, value=row.greatest, code=0xF9)
    wrong = [] if row.greatest == parameters.LARGEST else [row.greatest + 1, 0x100 + row.least, parameters.LARGEST]
    for value in wrong + ([row.least - 1] if row.least else []):
        script.asks(*place, value=value, code=0xFA)
    for value in (row.greatest, row.least, row.told):
        if (4, idn) == parameters.LOCK_WRITTEN:
            script.asks(*place, value=value, code=0xF8)
        else:
            script.write_attribute(idn, value, index, selector)
            read_attribute(script, idn, row, index, selector)


def ask_of_flags(script):
    """Each flag is read, set, cleared and toggled."""
    for idn, row in parameters.rows_of(1, parameters.FLAG).items():
        ask_in_no_place(script, 0x01, 5, idn, row)
        ask_in_no_place(script, 0x81, 8, idn, row)
        for opcode in (5, 7, 5, 8, 5, 8, 6, 6, 5):
            place = (0x01 if opcode == 5 else 0x81, opcode, idn)
            if opcode not in row.opcodes:
                script.asks(*place, length=1, code=0xF6 if opcode == 5 else 0xF7)
            else:
                script.asks(*place, length=1, code=0xF9)
            if idn == 0x04:
                script.background = {6: 1, 7: 0, 8: 1 - script.background}.get(opcode, script.background)
                script.asks(*place, value=9, told=script.background)
            elif opcode == 7 and 7 in row.opcodes:
                script.asks(*place, told=0)
                script.asks(0x01, 5, idn, told=0)
            elif opcode == 5 and row.profile and 5 in row.opcodes:
                script.asks(*place, told=row.told)
    for opcode in (5, 7):
        ask_of_none(script, opcode)


def reset_link(script, kind):
    """Values of attributes, a flag that is cleared, and a LINK EVENT: the clock is as it was, and all else as a life
    begins."""
    script.write_attribute(0x03, 9)
    script.write_attribute(0x0A, 3)
    script.asks(0x81, 7, 4, told=0)
    script.reset(kind)
    for idn in (0x03, 0x0A):
        script.asks(0x01, 3, idn, told=script.attributes[idn])
    script.asks(0x01, 5, 4, told=1)
    script.asks(0x01, 5, 3, told=script.power_on)
    script.greet()


def move_blocks(script, number):
    """Writes of each kind, their reads, flushes, and an UNMAP."""
    at = 3 * number % 40
    script.write(0, at, 2)
    script.write(0, (at + 9) % 44, 3, forced=True)
    script.write(2 if not script.permanent else 0, at % 14, 1, form=6)
    script.read(0, 0, (at + 9) % 44, 2)
    script.read(0, 0, at, form=6)
    script.flush(DEVICE)
    script.read(0, 0, at, 2, BLOCK + 16 if number % 4 == 0 else 16)
    script.unmap(0, (at + 1) % 40, 1 + number % 5)
    script.read(0, 0, (at + 1) % 40)
    script.write(0, (at + 2) % 40, 1)
    script.flush(0, at_once=True)
    script.settle(8)
    script.read(0, 0, (at + 3) % 40)
    script.write(0, 47, 1, forced=number % 2 == 0)


def unmap_in_vain(script):
    """UNMAPs that change nothing."""
    head = bytes([0, 22, 0, 16, 0, 0, 0, 0])
    for data in (b"", bytes([0, 6, 0, 0, 0, 0, 0, 0]), head + big(3, 8) + bytes(8)):
        tag = script.begin_unmap(0, data)
        script.reply(response(0, tag, len(data), len(data)))
    script.unmap_refused(NO_LIST_FIELD, 0, bytes([0, 22, 0, 17, 0, 0, 0, 0]) + big(3, 8) + big(1, 4) + bytes(4))
    script.unmap_refused(NO_LIST_FIELD, 0, head + big(3, 8) + big(33, 4) + bytes(4))
    script.unmap_refused(OUT_OF_RANGE, 0, head + big(47, 8) + big(2, 4) + bytes(4))


def guard_area(script, number):
    """Requests to the replay protected memory block."""
    if not script.key:
        script.read_counter()
        script.write_area(0, 1, 7)
    script.program_key()
    script.read_counter()
    at = 29 * number % 480
    script.write_area(at, 1 + number % 8)
    script.read_area(at, 1 + number % 4)
    if number % 3 == 0:
        script.write_area(at, 1, 2)
        script.write_area(at, 1, 3, script.counter + 1)
        script.write_area(511, 2, 4)
        tag = script.begin_frames([frame(9)])
        script.reply(response(RPMB, tag, 512, 512, CHECK, NO_LIST_FIELD))


def abort_tasks(script, number):
    """Each function of task management, of tasks that are there and of others."""
    at = 5 * number % 40
    tag = script.begin_write(0, at, 1)
    script.host(header(0x00, tag=tag), TAG_IN_USE)
    script.reply(transfer(0x31, 0, tag, 0, count=BLOCK))
    script.manage(0x80, 0, tag, 0x08)
    script.manage(0x81, 0, 0, 0x08)
    script.manage(0x01, 0, tag, 0x00)
    script.reply(None)
    script.fill(transfer(0x02, 0, tag, 0, bytes(BLOCK)), 0, BLOCK, NOT_ASKED_FOR)
    script.manage(0x80, 0, tag, 0x00)
    script.manage(0x01, 0, tag, 0x00)
    # What was accepted stays accepted.
    first = script.random.randrange(1, 200)
    tag = script.begin_write(0, at, 1, forced=True)
    script.send_blocks(0, tag, first, 1)
    script.hold(0, at, first, 1)
    script.manage((0x01, 0x02, 0x04, 0x08)[number % 4], 0, tag, 0x00)
    script.settle(8)
    script.reply(None)
    script.greet()
    script.read(0, 0, at)
    for function in (0x02, 0x04, 0x08):
        script.command(0, [0x28, 0, 0, 0, 0, 0, 0, 0, 2], TO_HOST, 2 * BLOCK)
        script.manage(function, 0, 0, 0x00)
        script.manage(0x81, 0, 0, 0x00)
        script.greet()
    script.manage(0x03, 0, 0, 0x04)
    script.manage(0x01, 5, 0, 0x09)
    script.reply(None)


def set_and_boot(script, number):
    """Settings, and reads of the unit that boots."""
    script.set_boot(1 + number % 2)
    script.read(BOOT, script.boot, number % 16)
    script.told(BOOT, [0x25], big(15, 4) + big(BLOCK, 4), 8)
    script.write(1, number % 15, 1, forced=True)
    if number % 3 == 1:
        script.asks(0x81, 6, 3, told=1)
        script.power_on = 1
        script.refused(PROTECTED, 1, [0x2A, 0, 0, 0, 0, 0, 0, 0, 1], TO_DEVICE, BLOCK)
        script.refused(PROTECTED, 1, [0x42, 0, 0, 0, 0, 0, 0, 0, 24], TO_DEVICE, 24)
    script.set_boot(0)


def fail_job(script, number):
    """The program or the erase of a write fails, and it is answered GOOD all the same; or the read of a
    READ, which ends then."""
    at = 7 * number % 40
    is_read = number % 3 == 1
    first = script.random.randrange(1, 200)
    tag = script.begin_write(0, at, 1, forced=True)
    script.send_blocks(0, tag, first, 1)
    script.take(0)
    script.done(0, "ok" if is_read else "fail")
    script.settle(32)
    script.reply(response(0, tag, BLOCK, BLOCK))
    script.hold(0, at, first, 1)
    if is_read:
        tag = script.command(0, [0x28, 0, *big(at, 4), 0, 0, 1], TO_HOST, BLOCK)
        script.take(0)
        script.done(0, "fail")
        script.reply(response(0, tag, BLOCK, 0, CHECK, READ_ERROR))
    script.read(0, 0, at)


def stop_here(script, number):
    """A stop between commands, or inside the last program of a write that nobody was told of: of one block, and in
    profile 1 of two, so that one block of it is lost."""
    script.flush(0)
    if number % 2 == 0:
        script.stop()
        return
    count = 1 + script.profile
    tag = script.begin_write(0, 47 - count, count)
    script.send_blocks(0, tag, 0x77, count)
    script.reply(response(0, tag, BLOCK * count, BLOCK * count))
    if count == 2:
        script.take(1)
        script.done(1)
    script.take(0)
    script.stop("0:torn", is_mended=count == 1)
    script.read(0, 0, 46)


def page_of(lun, page):
    """A page of vital product data."""
    known, pages = lun >= 8, {**PAGES, **({} if lun >= 8 else UNIT_PAGES)}
    pages[0x00] = (big(len(pages) + 1, 2) + bytes([0, *pages])).hex()
    last = [lun] if page == 0x83 else []
    return bytes([0x1E if known else 0, page]) + bytes.fromhex(pages[page]) + bytes(last)


def ask_of_pages(script):
    """INQUIRY for vital product data, of each page of each unit."""
    for lun in (0, 1, 2, LIST, BOOT, RPMB, DEVICE):
        for page in (0x00, *PAGES, *(UNIT_PAGES if lun < 8 else ())):
            data = page_of(lun, page)
            script.told(lun, [0x12, 1, page, 0, 64], data, 64)
            script.told(lun, [0x12, 1, page, 0, 4], data[:4], 4)
    for lun, option, page in ((0, 1, 0x86), (RPMB, 1, 0xB0), (DEVICE, 1, 0xB2), (0, 0, 0x80), (0, 2, 0)):
        script.refused(NO_FIELD, lun, [0x12, option, page, 0, 64], TO_HOST, 64)


def mode_sense(form, page, subpage=0, option=0, size=64):
    """The CDB of a MODE SENSE, of so many bytes."""
    return [0x1A, option, page, subpage, size] if form == 6 else [0x5A, option, page, subpage, 0, 0, 0, *big(size, 2)]


def modes(form, page, state=0x10):
    """What a MODE SENSE tells of this page, or of all, and of these values."""
    which, values = page & 0x3F, int(page >> 6 == 1)
    data = bytes.fromhex("".join(MODE_PAGES[it][values] for it in MODE_PAGES if which in (it, 0x3F)))
    if form == 6:
        return bytes([len(data) + 3, 0, state, 0]) + data
    return big(len(data) + 6, 2) + bytes([0, state, 0, 0, 0, 0]) + data


def ask_of_modes(script):
    """MODE SENSE for each page and all, with each kind of values, in both forms."""
    for form in (6, 10):
        for values in (0x00, 0x40, 0x80):
            for page in (*MODE_PAGES, 0x3F):
                script.told(0, mode_sense(form, values | page), modes(form, values | page), 64)
        script.told(1, mode_sense(form, 0x3F, 0xFF, 0x18), modes(form, 0x3F), 64)
        script.told(2, mode_sense(form, 0x08, size=4), modes(form, 0x08)[:4], 64)
        script.refused(NOTHING_SAVED, 0, mode_sense(form, 0xC8), TO_HOST, 64)
        script.refused(NO_FIELD, 0, mode_sense(form, 0x02), TO_HOST, 64)
        script.refused(NO_FIELD, 0, mode_sense(form, 0x08, 0xFF), TO_HOST, 64)
        script.refused(NO_OPERATION, DEVICE, mode_sense(form, 0x08), TO_HOST, 64)


def ask_of_operations(script):
    """REPORT SUPPORTED OPERATION CODES: of all, and of each command by itself, with timeouts and without."""
    def asked(option, code=0, action=0):
        return [0xA3, 0x0C, option, code, *big(action, 2), *big(512, 4)]
    times = bytes([0, 10]) + bytes(10)
    usages = [bytes.fromhex(it) for it in USAGES]
    for option, flag, rest in ((0x00, 0, b""), (0x80, 2, times)):
        listed = b"".join(bytes([it[0], 0, 0, ACTIONS.get(it[0], 0), 0, flag + (it[0] in ACTIONS)])
                          + big(len(it), 2) + rest for it in usages)
        script.told(0, asked(option), big(len(listed), 4) + listed, 512)
        for it in usages:
            action = ACTIONS.get(it[0])
            cdb = asked(option + (1 if action is None else 2), it[0], action or 0)
            script.told(0, cdb, bytes([0, option + 3]) + big(len(it), 2) + it + rest, 512)
        for cdb in (asked(option + 1, 0x55), asked(option + 2, 0x9E, 0x12)):
            script.told(0, cdb, bytes([0, option + 1, 0, 0]) + rest, 512)
    for cdb in (asked(3), asked(1, 0x9E), asked(2, 0x28)):
        script.refused(NO_FIELD, 0, cdb, TO_HOST, 512)
    script.refused(NO_OPERATION, 0, [0xA3, 0x0D], TO_HOST, 512)
    script.refused(NO_OPERATION, DEVICE, asked(0), TO_HOST, 512)


def capacity_16(unit):
    """What READ CAPACITY(16) tells of a unit."""
    return big(UNITS[unit][0] - 1, 8) + big(BLOCK, 4) + bytes([0, 0, 0xC0]) + bytes(17)


def ask_for_more(script):
    """What else profile 1 takes: the capacity of 64 bits, self-tests, VERIFY, PRE-FETCH; and how it refuses them."""
    for unit in range(len(UNITS)):
        script.told(unit, [0x9E, 0x10, *bytes(8), *big(32, 4)], capacity_16(unit), 32)
    script.refused(NO_UNIT, BOOT, [0x9E, 0x10, *bytes(8), *big(32, 4)], TO_HOST, 32)
    for lun, option in ((0, 0x00), (1, 0x04), (2, 0x10), (DEVICE, 0x14)):
        script.told(lun, [0x1D, option], b"", 0)
    script.refused(NO_FIELD, 0, [0x1D, 0x01])
    script.refused(NO_OPERATION, RPMB, [0x1D, 0x04])
    # A VERIFY of blocks that were never written reads nothing.
    for address, count, group in ((0, 16, 0), (47, 1, LAST_GROUP), (48, 0, 0)):
        script.told(0, verifying(address, count, DPO, group), b"", 0)
    script.refused(NO_FIELD, 0, verifying(0, 33))
    for option in UNKNOWN_CHECKS:
        script.refused(NO_FIELD, 0, verifying(0, 1, option), TO_DEVICE, BLOCK)
    script.refused(NO_FIELD, 0, [0x2F, 0, *big(0, 4), LAST_GROUP + 1])
    script.refused(OUT_OF_RANGE, 0, verifying(47, 2))
    script.refused(NO_OPERATION, DEVICE, [0x2F])
    for address, count, group in ((0, 48, 0), (47, 1, LAST_GROUP), (3, 0, 0)):
        script.told(0, [0x34, 2, *big(address, 4), group, *big(count, 2)], b"", 0)
        script.told(0, [0x90, 0, *big(address, 8), *big(count, 4), group], b"", 0)
    script.refused(OUT_OF_RANGE, 0, [0x34, 0, *big(47, 4), 0, *big(2, 2)])
    script.refused(OUT_OF_RANGE, 0, [0x90, 0, *big(1 << 63, 8), *big(1, 4)])
    script.refused(NO_FIELD, 0, [0x34, 0, *big(0, 4), LAST_GROUP + 1])


def ask_of_attentions(script):
    """Each LUN is reset, and then has an attention: what ends it, and what does not."""
    for lun in LUNS:
        script.manage(0x08, lun, 0, 0x00)
        script.told(lun, IDENTITY, inquiry(0x00 if lun < 8 else 0x1E), 36)
        script.told(lun, [0x12, 1, 0x80, 0, 64], page_of(lun, 0x80), 64)
        script.refused(NO_FIELD, lun, [0x12, 1, 0x86, 0, 64], TO_HOST, 64)
        script.told(lun, [0x03, 0, 0, 0, 14], fixed_sense(ATTENTION)[:14], 18)
        script.attentions.remove(lun)
        script.told(lun, SENSE, fixed_sense(NO_SENSE), 18)
        script.ready(lun)
    # Nobody needs to take what REQUEST SENSE tells.
    script.manage(0x08, 0, 0, 0x00)
    script.told(0, [0x03], b"", 0)
    script.attentions.remove(0)
    script.ready(0)
    for lun in (0, LIST):
        script.manage(0x08, lun, 0, 0x00)
        script.told(lun, [0xA0, 0, 0, 0, 0, 0, 0, 0, 0, 8], big(8 * len(UNITS), 4) + bytes(4), 8)
        script.attention(lun, READY)
    # While no unit boots there is nothing to read, whatever attention there is.
    script.manage(0x08, BOOT, 0, 0x00)
    script.refused(NO_UNIT, BOOT, moving(False, 10, 0, 1), TO_HOST | ATTRIBUTES[0], BLOCK)
    script.attention(BOOT, [0xFF], ATTRIBUTES[0])
    # Before the operation code, and before a field and the data.
    for cdb in ([0xFF], [0x28, 0xFF], moving(False, 10, 0, 1)):
        script.manage(0x08, 0, 0, 0x00)
        script.attention(0, cdb, TO_HOST, BLOCK)
    script.refused(NO_OPERATION, 0, [0xFF], TO_HOST, BLOCK)
    # REPORT LUNS, which RPMB does not take, passes its attention.
    script.manage(0x08, RPMB, 0, 0x00)
    script.refused(NO_OPERATION, RPMB, [0xA0], TO_HOST, 16)
    script.attention(RPMB, script.security(0xA2, 1), TO_HOST, 512)
    # Other functions leave none.
    for function in (0x01, 0x02, 0x04, 0x80, 0x81):
        script.manage(function, DEVICE, 0, 0x00)
    script.ready(DEVICE)


def ask_with_attributes(script):
    """Task attributes, and the priority, which changes nothing."""
    for attribute in ATTRIBUTES:
        script.refused(NOT_SIMPLE, 0, READY, attribute)
        script.refused(NOT_SIMPLE, 0, moving(False, 10, 0, 1), TO_HOST | attribute, BLOCK)
        script.refused(NOT_SIMPLE, DEVICE, IDENTITY, TO_HOST | PRIORITY | attribute, 36)
        script.refused(NOT_SIMPLE, 0, [0xFF], attribute)
    script.manage(0x08, 0, 0, 0x00)
    script.attention(0, READY, ATTRIBUTES[0])
    script.refused(NOT_SIMPLE, 0, SENSE, TO_HOST | ATTRIBUTES[0], 18)
    script.told(0, IDENTITY, inquiry(0), 36, PRIORITY)
    script.told(0, READY, b"", 0, PRIORITY)
    for flags in (0x08, 0x10, 0x60, 0x80):
        script.host(header(0x01, flags, 0, 201), RESERVED)


def ask_where_nothing_is(script):
    """LUNs that are not there."""
    for lun in ABSENT:
        script.told(lun, IDENTITY, inquiry(0x7F), 36)
        script.told(lun, SENSE, fixed_sense(NO_UNIT), 18)
        script.refused(NO_FIELD, lun, [0x12, 1, 0x80, 0, 64], TO_HOST, 64)
        script.refused(NOT_SIMPLE, lun, SENSE, TO_HOST | ATTRIBUTES[1], 18)
        for cdb in (READY, [0xA0], [0xFF]):
            script.refused(NO_UNIT, lun, cdb, ATTRIBUTES[2])
        script.manage(0x08, lun, 0, 0x09)
        script.told(lun, SENSE, fixed_sense(NO_UNIT), 18)


def move_more(script, number):
    """READ, WRITE and SYNCHRONIZE CACHE in what forms profile 1 has beside the others."""
    at = 5 * number + 20
    script.write(0, at, 2, forced=True, form=16, group=LAST_GROUP)
    script.write(0, at + 4, 1, form=16)
    script.write(0, at + 5, 1, group=1)
    script.flush(DEVICE, form=16, group=LAST_GROUP)
    script.read(0, 0, at, 2, BLOCK + 16, form=16, option=DPO | FUA, group=1)
    script.read(0, 0, at + 4, option=DPO, group=LAST_GROUP)
    script.write(0, at + 6, 1, form=16)
    script.flush(0, at_once=True, form=16)
    script.flush(0, group=1)
    script.refused(NO_FIELD, 0, moving(False, 10, 0, 1, 0, LAST_GROUP + 1), TO_HOST, BLOCK)
    script.refused(NO_FIELD, 0, moving(False, 16, 0, 1, 0x20), TO_HOST, BLOCK)
    script.refused(NO_FIELD, 0, moving(True, 16, 0, 33), TO_DEVICE, 33 * BLOCK)
    script.refused(OUT_OF_RANGE, 0, moving(True, 16, 0xFFFFFFFFFFFFFFFF, 1), TO_DEVICE, BLOCK)
    script.refused(NO_FIELD, 0, [0x91, 0, *bytes(12), LAST_GROUP + 1])


def compare_more(script, number):
    """VERIFY with BYTCHK 01: of blocks that are the host's, in slots, on dies, discarded and never written; of blocks
    that are not; and how it is refused."""
    at = 5 * number + 20
    for _ in range(2):
        script.compare(0, at, 8, group=LAST_GROUP)
        script.compare(0, at, 3, other=0)
        script.compare(0, at, 3, other=1, option=DPO)
        script.compare(0, at, 3, other=2, more=1)
        script.unmap(0, at + 1, 2)
        script.flush(DEVICE)
    script.compare(2, 15, 1, more=BLOCK)
    script.told(0, verifying(48, 0, COMPARED), b"", 16)
    # Its blocks are those that were there at its COMMAND.
    tag = script.command(0, verifying(at, 1, COMPARED), TO_DEVICE, BLOCK)
    byte = script.blocks[0][at]
    script.settle(8)
    script.reply(transfer(0x31, 0, tag, 0, count=BLOCK))
    script.write(0, at, 1, forced=True)
    script.host(transfer(0x02, 0, tag, BLOCK, bytes(16)), NOT_ASKED_FOR)
    script.fill(transfer(0x02, 0, tag, 0, bytes([byte]) * BLOCK), byte, BLOCK)
    script.reply(response(0, tag, BLOCK, BLOCK))
    for count, flags, expected in ((1, 0, BLOCK), (1, TO_HOST, BLOCK), (1, TO_DEVICE, BLOCK - 1), (2, TO_DEVICE, 0),
                                   (33, TO_DEVICE, 33 * BLOCK)):
        script.refused(NO_FIELD, 0, verifying(0, count, COMPARED), flags, expected)
    script.refused(OUT_OF_RANGE, 0, verifying(47, 2, COMPARED), TO_DEVICE, 2 * BLOCK)
    script.refused(NO_OPERATION, DEVICE, verifying(0, 1, COMPARED), TO_DEVICE, BLOCK)


def boot_more(script):
    """What profile 1 tells of the unit that boots, and of a unit that is protected."""
    script.set_boot(1)
    script.told(BOOT, [0x9E, 0x10, *bytes(8), *big(32, 4)], capacity_16(1), 32)
    script.read(BOOT, 1, 3, form=16)
    script.set_boot(0)
    if script.power_on:
        for form in (6, 10):
            script.told(1, mode_sense(form, 0x08), modes(form, 0x08, 0x90), 64)


def lock(script):
    """So many blocks fail that the device is locked, while a WRITE with FUA waits."""
    first = script.random.randrange(1, 200)
    tag = script.begin_write(0, 40, 1, forced=True)
    script.send_blocks(0, tag, first, 1)
    for _ in range(CONFIG[5]):
        script.take(0)
        script.done(0, "fail")
    script.reply(response(0, tag, BLOCK, BLOCK, CHECK, WRITE_ERROR))
    script.refused(PROTECTED, 0, moving(True, 16, 0, 1), TO_DEVICE, BLOCK)
    script.refused(PROTECTED, 0, [0x91])
    script.refused(TEST_FAILED, DEVICE, [0x1D, 0x04])
    script.told(0, [0x1D], b"", 0)
    for form in (6, 10):
        script.told(0, mode_sense(form, 0x08), modes(form, 0x08, 0x90), 64)
    script.asks(0x81, 4, 0, value=1, code=0xFF)
    script.write_attribute(0x0A, 2)
    script.asks(0x81, 8, 4, told=0)


def tell_round(script, number):
    """What the device tells."""
    script.nop()
    if number == 0 and script.profile:
        script.note("What profile 1 tells beside it.")
        ask_of_pages(script)
        ask_of_modes(script)
        ask_of_operations(script)
        ask_for_more(script)
        script.note("Attentions, task attributes, and LUNs that are not there.")
        ask_of_attentions(script)
        ask_with_attributes(script)
        ask_where_nothing_is(script)
        script.note("Descriptors, attributes and flags, which are told, written, set, cleared and toggled.")
        ask_of_descriptors(script)
        ask_of_attributes(script)
        ask_of_flags(script)
    if number % 4 == 0:
        ask_of_units(script)
        ask_in_vain(script)
    ask_by_queries(script)


def play_round(script, number):
    """A round of everything."""
    script.note(f"Round {number}: what the device tells.")
    tell_round(script, number)
    script.note("Blocks.")
    move_blocks(script, number)
    if script.profile:
        move_more(script, number)
        compare_more(script, number)
    if number % 4 == 1:
        unmap_in_vain(script)
    script.note("The replay protected memory block.")
    guard_area(script, number)
    script.note("Task management.")
    abort_tasks(script, number)
    script.note("Settings.")
    set_and_boot(script, number)
    if script.profile:
        boot_more(script)
        for kind in (0x02, 0x01):
            reset_link(script, kind)
    script.note("A job that fails, and a stop.")
    fail_job(script, number)
    stop_here(script, number)


def made(profile):
    """The whole script of a profile."""
    script = Script(profile)
    script.note("A new device writes a mark.")
    if not profile:
        script.refused(NOT_READY, 0, READY)
    else:
        script.asks(0x81, 4, 0, value=2, code=0xFF)
    script.mend(8)
    for number in range(ROUNDS[profile]):
        play_round(script, number)
    script.note("A protection that stays.")
    script.sets(0x81, 6, 2, told=1)
    script.permanent = 1
    script.asks(0x81, 6, 2, code=0xF8)
    script.refused(PROTECTED, 2, [0x2A, 0, 0, 0, 0, 0, 0, 0, 1], TO_DEVICE, BLOCK)
    script.stop()
    script.refused(PROTECTED, 2, [0x2A, 0, 0, 0, 0, 0, 0, 0, 1], TO_DEVICE, BLOCK)
    if profile:
        script.note("A device that is locked.")
        lock(script)
    return script


def main():
    for profile, place in enumerate(SCRIPTS):
        script = made(profile)
        place.write_text(script.text(), encoding="ascii")
        print(f"{place.name}: {len(script.lines)} lines, {len(script.printed)} of which print something")


if __name__ == "__main__":
    main()
