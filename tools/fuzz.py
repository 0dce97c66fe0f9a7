#!/usr/bin/env python3
"""Makes random and near-valid scripts for `ufsim run`, and compares each line that it prints with a plain model.

usage: fuzz.py [--seed N] [--scripts M] [--first N] [--keep FOLDER] [--program UFSIM] [--bits] [--over M] [--long M]

The model is tools/plain_host.py: what docs/FORMATS.md and docs/GUIDE.md say that a host can see. A script is made
from the seed and its number alone; half of them have profile 1, with a random serial number, and most of these soon
end the attentions of their LUNs. For each difference a line tells the seed, the number of the script, its line, what
was wanted and what came, and --keep keeps the script in a folder. Then come counts of what was sent and answered. The
last line is 'N passed, M failed', and the status is 0 only if none failed. --bits flips each bit of a COMMAND, a
QUERY REQUEST and a TASK REQUEST that has to be zero in a profile, one by one. --over plays so many scripts over each
image of dies in examples/version_1/, by `ufsim image load`: of the life before, NAME.life.xz has the script, and
NAME.told.xz what the program of then printed. --long plays so many scripts on devices with 256 slots, which take
commands of 128 blocks. ufsim is built without a proof, once, but with --program that program is run.
"""
import argparse
import collections
import copy
import itertools
import lzma
import pathlib
import random
import signal
import subprocess
import sys
import tempfile
from typing import Any, Dict, NamedTuple, Tuple

import parameters
import plain_host as plain
from cases import OLD_DIES, lay
from every_command import big, frame, header, transfer
from kept import kept as kept_program
from plain_host import MANY, SURE, Model, event_of

# A script takes a second or two.
SECONDS = 600
NAMES = {code: row.name for code, row in plain.ROWS.items()}
KINDS = {0x00: "NOP OUT", 0x01: "COMMAND", 0x02: "DATA OUT", 0x04: "TASK REQUEST", 0x16: "QUERY",
         plain.LINK_EVENT: "LINK EVENT", 0x20: "NOP IN", 0x21: "RESPONSE", 0x22: "DATA IN", 0x24: "TASK RESPONSE",
         0x31: "READY TO TRANSFER", 0x36: "QUERY RESPONSE"}
HEAD = ("config ", "unit ", "profile ")
# Where a CDB asks for more than blocks, right ones and wrong ones: bytes 1 and on, one of each list.
ASKED: Dict[int, Tuple[Any, ...]] = {
    plain.INQUIRY: ((0, 1, 1, 1), (0, 0x80, 0x83, 0x87, 0xB0, 0xB1, 0xB2, 0, 0x86)),
    plain.MODES6: ((0, 8, 16, 24, 4), (1, 8, 10, 0x3F, 0x48, 0x7F, 0xBF, 0xC8, 0, 9), (0,) * 6 + (0xFF, 1)),
    plain.CAPACITY16: ((16,) * 8 + (0x12, 0),), plain.LUNS: ((0,), (0, 1, 2, 2, 3)),
    plain.OPERATIONS: ((12,) * 8 + (0, 0x2C), (0, 0x80, 1, 0x81, 2, 0x82, 3, 0x10),
                       (*plain.ROWS, 0x9E, 0xA3, 0xA3, 0x55, 0xFF), (0, 0, 0, 1), (0, 12, 16, 16)),
    plain.DIAGNOSE: ((0, 4, 4, 0x10, 0x14, 1, 0x24),)}
ASKED[plain.MODES] = ASKED[plain.MODES6]
# Of these commands, what both profiles have, and what profile 1 has alone.
OLD, NEW = ([it for it in (plain.READY, plain.DIAGNOSE, *plain.TELLS) if (plain.ROWS[it].bits[0] is None) == is_new]
            for is_new in (False, True))
FUNCTIONS = (0x01, 0x02, 0x04, 0x08, 0x80, 0x81)
# What a COMMAND has in bits 2..0 of byte 1, which profile 0 does not take: a priority (4), and a task attribute.
ATTRIBUTES = (1, 2, 3, 4, 4, 4, 5, 7)
# What a LUN is asked for beside its sense data, right and wrong: CDBs without their last zeros.
LOOKS = ([plain.INQUIRY, 0, 0, 0, 36], [plain.INQUIRY, 1, 0x80, 0, 64], [plain.INQUIRY, 1, 0x86, 0, 64],
         [plain.LUNS, *bytes(8), 64], [plain.READY], [plain.CAPACITY], [0xFF])
WRONG_LINES = ("reply now", "take x", "settle 4294967296", "host 0", "host 0g", "fill 00 5 4", "fill 00 555 4",
               "turns", "done 0 never", "stop 0:odd", "stop x:old", "stop 0", "take 1 2", "   ", "done 200 ok",
               "stop 0:old 0:old", "config 1 1 1 1 1 1", "fill 0g 5a x", "stop 300:new", "reply\tnow", "profile 1 1",
               "host caf\u00e9")


def shape(chance):
    """A configuration that is small enough to collect soon, and its units."""
    dies = chance.choice((1, 1, 1, 2, 2, 3, 4))
    units = [(chance.choice((8, 12, 20, 32, 40)), 0, 0),
             (chance.randint(4, 12), chance.randint(0, 1), chance.randint(0, 1)),
             (chance.randint(2, 8), chance.choice((0, 2)), chance.choice((0, 2, 2)))]
    units = units[:chance.choice((1, 2, 3, 3, 3))] + [(4, 0, 1)] * chance.choice((0, 0, 1))
    spare = chance.choice((0, 0, 0, 1, 2, 4))
    least = -(-(sum(it[0] for it in units) + 32 + 2 + 4 * 64) // 16) + 4 * dies + 8 + spare
    return (dies, max(16, -(-least // dies) + chance.randint(0, 3)), 16, 1, 64, spare), units


def long_shape(chance):
    """A configuration whose device takes commands of 128 blocks, and its units."""
    dies = chance.choice((1, 2, 4))
    units = [(chance.choice((128, 130, 160)), 0, 0), (8, 1, 1)]
    least = -(-(sum(it[0] for it in units) + 32 + 2 + 4 * 256) // 16) + 4 * dies + 8
    return (dies, max(16, -(-least // dies) + chance.randint(0, 3)), 16, 1, 256, 0), units


def some_profile(chance):
    """The profile and the serial number of a device: profile 1 in half of them."""
    serial = chance.choice((0, 1, 255, chance.getrandbits(32), chance.getrandbits(64), (1 << 64) - 1))
    return chance.choice((plain.PLAIN_PROFILE,) * 3 + ((0, serial),) + ((1, serial),) * 4)


class Kept(NamedTuple):
    """Dies that an earlier life left: the name of their image, the device, and the model once the power failed."""

    name: str
    config: Tuple[int, ...]
    units: Tuple[Tuple[int, ...], ...]
    model: Model

    @staticmethod
    def read(packed):
        """The dies of a packed image, in the folder of which is the script of the life before, and what it printed."""
        name = packed.name.split(".")[0]
        lines, told = (lzma.open(packed.with_name(f"{name}.{it}.xz"), "rt", encoding="utf-8").read().splitlines()
                       for it in ("life", "told"))
        config, units, _ = plain.device_of(it for it in lines if it.startswith(HEAD))
        model, _, difference = played([*lines, "stop"], [*told, "stop ok"])
        if difference:
            raise ValueError(f"{packed}: {difference}")
        return Kept(name, config, tuple(units), model)


class Script:
    """The lines of a script, made with the model beside it, which says what seems to be the case."""

    def __init__(self, seed, place, kept=None, is_long=False):
        self.random = random.Random(f"{seed}/{place}")
        self.config, self.units = (kept.config, kept.units) if kept else \
            long_shape(self.random) if is_long else shape(self.random)
        self.most = plain.most_blocks(self.config)
        self.lines = ["config " + " ".join(map(str, self.config))]
        self.lines += ["unit " + " ".join(map(str, it)) for it in self.units]
        self.profile = some_profile(self.random)
        if self.profile != plain.PLAIN_PROFILE:
            self.lines.append("profile {} {}".format(*self.profile))
        self.model = copy.deepcopy(kept.model) if kept else Model(self.config, self.units)
        self.model.become(self.profile)
        self.luns = (*range(len(self.units)), *plain.WELL_KNOWN)
        self.sent, self.payload, self.fails, self.address = 0, {}, 0.0, 0

    def chance(self, odds):
        return self.random.random() < odds

    def do_one_of(self, *acts: Any):
        self.random.choice(acts)()

    @property
    def world(self):
        return self.model.worlds[0]

    def say(self, line):
        self.lines.append(line)
        self.model.hear(event_of(line))
        self.model.worlds = self.model.worlds[-1:]

    def make(self):
        """The whole script."""
        acts: Dict[Any, float] = {
            self.move: 7, self.flush: 1, self.unmap: 1, self.rpmb: 2, self.query: 2.5 if self.profile[0] else 1.5,
            self.manage: 1, self.inform: 1, self.switch: 0.6 if self.profile[0] else 0.05,
            self.hand_wrong: 0.7, self.fetch: 0.6 if self.profile[0] else 0.1, self.stop: 0.5, self.crowd: 0.5,
            self.verify: 1.0 if self.profile[0] else 0.1, self.compare: 3 if self.profile[0] else 0.05,
            self.tread: 2.5, self.tear: 0.3, self.protect: 0.4, self.look: 1.2 if self.profile[0] else 0.2,
            self.initialize: 0.3, self.audit: 0.2}
        favoured = self.random.sample(list(acts)[:-1], 3)
        weights = [acts[it] * (4 if it in favoured else 1) for it in acts]
        if self.chance(0.12):
            self.churn()
        self.fails = self.random.choice((0.0, 0.0, 0.05, 0.3, 0.3))
        self.begin()
        messages = self.random.randint(20, 80)
        while self.sent < messages:
            self.random.choices(list(acts), weights)[0]()
            if self.chance(0.85):
                self.pump()
        self.pump()
        if self.chance(0.5):
            self.audit()
        if self.chance(0.1):
            self.lines.append(self.random.choice(WRONG_LINES))
            self.lines.append("reply")
        return self.lines

    def begin(self):
        """The device is mended, and the attentions of its LUNs end, in most lives, in one order or another."""
        if self.chance(0.5 if self.profile[0] else 0.05):
            self.initialize()
        for act in (self.greet, self.look):
            if self.chance(0.25):
                act()
        if self.chance(0.9):
            if self.chance(0.2):
                self.say(f"settle {self.random.randint(0, 3)}")
                self.do_one_of(self.look, self.initialize)
            self.say(f"settle {MANY}")
        if self.chance(0.85):
            self.greet()

    # Messages

    def host(self, message):
        self.sent += message[:1] != b"\2"
        body = message.rstrip(message[-1:]) if len(message) > 96 else message
        if len(message) - len(body) > 64 and body:
            self.say(f"fill {body.hex()} {message[-1]:02x} {len(message) - len(body)}")
        else:
            digits = message.hex() or "00"
            self.say(f"host {digits.upper() if self.chance(0.02) else digits}")

    def near(self, message):
        """The message with one thing changed."""
        found, at = bytearray(message), self.random.randrange(min(32, len(message)))
        how = self.random.randrange(5)
        if how < 3:
            found[at] ^= 1 << self.random.randrange(8)
        elif how == 3:
            found[at] = self.random.choice((0, 1, 0xFF, self.random.randrange(256)))
        else:
            found = found[:-1] if self.chance(0.5) else found + b"\0"
        return bytes(found)

    def send(self, message, odds=0.06):
        self.host(self.near(message) if self.chance(odds) else message)

    def tag(self):
        used = [it.tag for it in self.world.open.values()]
        if used and self.chance(0.03):
            return self.random.choice(used)
        return self.random.choice([it for it in range(256) if it not in used])

    def command(self, lun, cdb, flags, expected, tag=None):
        """A COMMAND, often with something wrong."""
        tag = self.tag() if tag is None else tag
        cdb = bytearray(bytes(cdb).ljust(16, b"\0"))
        wrong = self.random.randrange(8) if self.chance(0.12) else None
        if wrong == 0:
            lun = self.random.choice((*range(8), *plain.WELL_KNOWN, self.random.randrange(256)))
        elif wrong == 1:
            flags = self.random.choice((0, plain.TO_DEVICE, plain.TO_HOST))
        elif wrong == 2:
            expected = self.random.choice((0, 1, max(0, expected - 1), expected + 1, 0xFFFFFFFF))
        elif wrong in (3, 4, 5):
            cdb[self.random.randrange(16)] ^= 1 << self.random.randrange(8)
        elif wrong == 6:
            cdb[0] = self.random.choice(list(NAMES))
        if self.chance(0.05 if self.profile[0] else 0.01):
            flags |= self.random.choice(ATTRIBUTES)
        self.send(header(0x01, flags, lun, tag, fields=big(expected, 4) + bytes(cdb)), 0.03)
        return tag

    # Commands

    def near_length(self, length):
        """What a host may expect of so many bytes that come to it."""
        return self.random.choice((length,) * 6 + (0, length // 2, max(0, length - 1), length + 1, length + 4096))

    def form(self, codes, option, address, count, other=0):
        """A CDB of ten bytes, or of sixteen, at times with what profile 1 takes, and with this other option."""
        is_rich = self.chance(0.5 if self.profile[0] else 0.03)
        group = self.random.choice((0, 0, 1, 5, 16, 16, 17)) if is_rich else 0
        option |= other if is_rich and self.chance(0.3) else 0
        if is_rich and self.chance(0.6):
            address += self.random.choice((0,) * 30 + (1 << 32, (1 << 64) - 1 - address))
            return [codes[1], option, *big(address, 8), *big(count, 4), group]
        return [codes[0], option, *big(address, 4), group, *big(count, 2)]

    def move(self, count=None, unit=None, writes=None, fua=None):
        """A READ or a WRITE."""
        unit = self.random.randrange(len(self.units)) if unit is None else unit
        writes = self.chance(0.6) if writes is None else writes
        blocks = self.units[unit][0]
        count = count or self.random.choice(
            (1,) * 16 + (2, 2, 2, 3, 3, 4, 5, 7, 12, self.most, 0, 0, self.most + 1))
        address = self.random.randint(0, max(0, blocks - count))
        if self.chance(0.05):
            address = self.random.choice((blocks - count + 1 if count <= blocks else 1, blocks, 0xFFFFFFFF, 0x1FFFFF))
        is_short = self.chance(0.15) and count and address < 1 << 21
        fua = self.chance(0.4) if fua is None else fua
        if is_short:
            cdb = [plain.WRITE6 if writes else plain.READ6, *big(address, 3), count % 256]
        else:
            codes = (plain.WRITE, plain.WRITE16) if writes else (plain.READ, plain.READ16)
            cdb = self.form(codes, 8 * fua, address, count, 16)
        lun = plain.BOOT if self.chance(0.1) and not writes else unit
        length = 4096 * count
        if writes:
            self.command(lun, cdb, plain.TO_DEVICE, length + self.random.choice((0, 0, 0, 0, 1, 4096)) -
                         self.cut(length))
        else:
            self.command(lun, cdb, plain.TO_HOST, self.near_length(length))

    def cut(self, length):
        """How many bytes fewer than it has come of a WRITE."""
        return self.random.choice((1, 4096, length)) if length and self.chance(0.08) else 0

    def flush(self):
        address, count = (self.random.randrange(1 << it) if self.chance(0.3) else 0 for it in (32, 16))
        cdb = self.form(plain.FLUSHES, 2 * self.chance(0.25), address, count)
        self.command(self.random.choice((plain.DEVICE, 0)), cdb, 0, self.random.choice((0, 0, 0, 512)))

    def fetch(self):
        """A PRE-FETCH of blocks, some of them beyond the unit."""
        unit = self.random.randrange(len(self.units))
        blocks = self.units[unit][0]
        address = self.random.choice((0, self.random.randrange(blocks), blocks - 1, blocks, blocks + 1))
        count = self.random.choice((0, 1, blocks - address, blocks - address + 1, 0xFFFF))
        cdb = self.form(plain.FETCHES, 2 * self.chance(0.5), address, max(0, count))
        self.command(unit, cdb, self.random.choice((0, 0, plain.TO_HOST)), self.random.choice((0, 0, 0, 4096)))

    def verify(self):
        """A VERIFY of blocks, some of them beyond the unit; often they are compared with what the host sends."""
        unit = self.random.randrange(len(self.units))
        blocks = self.units[unit][0]
        count = self.random.choice((1, 1, 2, 3, 7, self.most, 0, self.most + 1))
        address = self.random.choice((0, self.random.randint(0, max(0, blocks - count)), blocks))
        option = self.random.choice((0, 0, 0, 0x10, 0x10, 0x04, 0x06))
        flags, expected = self.random.choice((0, 0, plain.TO_HOST)), self.random.choice((0, 0, 0, 4096))
        if self.chance(0.6):
            option |= plain.COMPARED
            flags = self.random.choice((plain.TO_DEVICE,) * 12 + (0, plain.TO_HOST))
            expected = 4096 * count + self.random.choice((0, 0, 0, 0, 1, 4096)) - self.cut(4096 * count)
        self.command(unit, [plain.VERIFY, option, *big(address, 4), 0, *big(count, 2)], flags, expected)

    def compare(self):
        """A VERIFY that compares blocks, which were written before or not, with other things in between."""
        unit, count = self.random.randrange(len(self.units)), self.random.choice((1, 2, 2, 3, 5))
        address = self.random.randint(0, max(0, self.units[unit][0] - count))
        numbers = [*big(address, 4), 0, *big(count, 2)]
        if self.chance(0.4):
            self.rest()
        if self.chance(0.7):
            self.overwrite(unit, numbers)
        if self.chance(0.3):
            self.rest()
        tag = self.command(unit, [plain.VERIFY, plain.COMPARED, *numbers], plain.TO_DEVICE, 4096 * count)
        for _ in range(6 * count):
            it = self.world.open.get(tag)
            if it is None:
                break
            if self.chance(0.2):
                self.disturb(unit, numbers)
            elif it.asked:
                self.bring(it)
            elif any(self.world.due(at)[1] == SURE for at in self.world.open.values()):
                self.say("reply")
            else:
                self.work()

    def overwrite(self, unit, numbers):
        """A WRITE of the blocks of these bytes of a CDB, all of which come at once."""
        length = 4096 * plain.number(bytes(numbers), 5, 2)
        tag = self.command(unit, [plain.WRITE, 0, *numbers], plain.TO_DEVICE, length)
        for _ in range(2 * length // 4096 + 4):
            it = self.world.open.get(tag)
            if it is None or it.replies:
                break
            if it.asked:
                self.bring(it)
            else:
                self.say("reply")

    def disturb(self, unit, numbers):
        """What comes between the blocks of a VERIFY, the bytes of whose CDB are these."""
        how = self.random.randrange(14)
        if how < 4:
            self.overwrite(unit, numbers)
            if how < 2:
                self.rest()
        elif how < 6:
            self.work()
        elif how == 6:
            self.stop()
        elif how == 7:
            self.send(header(plain.LINK_EVENT, five=self.random.choice((1, 2))))
        elif how == 8:
            self.command(unit, [plain.READ, 0, *numbers], plain.TO_HOST, 4096)
        elif how < 11:
            self.fail_late()
        else:
            self.do_one_of(self.manage, self.verify, self.move, self.rest)

    def unmap(self):
        unit = self.random.randrange(len(self.units))
        size = self.random.choice((24,) * 8 + (8, 0, 16))
        count = self.random.choice((1, 2, 7, min(self.most, self.units[unit][0]), 0, self.most + 1))
        address = self.random.randint(0, max(0, self.units[unit][0] - count))
        data = bytearray(big(size - 2, 2) + big(size - 8, 2) + bytes(4) if size else b"")
        data += (big(address, 8) + big(count, 4) + bytes(4)) if size == 24 else bytes(max(0, size - 8))
        if self.chance(0.15) and data:
            data[self.random.randrange(len(data))] ^= 1 << self.random.randrange(8)
        self.payload[self.command(unit, [plain.UNMAP, *bytes(6), *big(size, 2)], plain.TO_DEVICE, size)] = bytes(data)

    def inform(self):
        """A command that tells something."""
        code = self.random.choice(NEW if self.chance(0.5 if self.profile[0] else 0.05) else OLD)
        row, lun = plain.ROWS[code], self.random.choice((*range(len(self.units)), *plain.WELL_KNOWN))
        if self.chance(0.7) and row.known != plain.WELL_KNOWN:
            lun = plain.LIST if code == plain.LUNS else self.random.randrange(len(self.units))
        elif self.chance(0.15 if self.profile[0] else 0.03):
            lun = self.absent()
        allocation = self.random.choice((0, 1, 4, 8, 17, 18, 20, 28, 32, 36, 64, 255, 512))
        cdb = bytearray(16)
        if code != plain.INQUIRY or self.chance(0.6 if self.profile[0] else 0.1):
            for at, values in enumerate(ASKED.get(code, ()), 1):
                cdb[at] = self.random.choice(values)
        cdb[0], (start, width) = code, row.size
        cdb[start:start + width] = big(allocation, 4)[4 - width:] if width else b""
        length = 8 if code == plain.CAPACITY else allocation
        has_data = code in plain.TELLS
        self.command(lun, cdb, plain.TO_HOST if has_data else 0, self.near_length(length) if has_data else 0)

    # LUNs, there or not

    def absent(self):
        """A LUN byte that most devices do not have."""
        return self.random.choice((len(self.units), 7, 8, 0x01, 0x44, 0x80, 0xFF, self.random.randrange(256)))

    def greet(self):
        """A command to each LUN that has an attention, which ends it."""
        for lun in self.luns:
            if self.world.has_attention(lun):
                is_told = self.chance(0.15)
                self.command(lun, [plain.SENSE, 0, 0, 0, 18] if is_told else [plain.READY],
                             plain.TO_HOST if is_told else 0, 18 if is_told else 0)
                for _ in range(1 + is_told if self.chance(0.9) else 0):
                    self.say("reply")

    def look(self):
        """What a LUN tells of itself, more than once, at times after it or the link was reset."""
        lun = self.random.choice(self.luns) if self.chance(0.75) else self.absent()
        if self.chance(0.15):
            self.send(header(plain.LINK_EVENT, five=self.random.choice((1, 2))))
        if self.chance(0.4):
            self.send(header(0x04, lun=lun, tag=self.tag(), five=0x08, fields=bytes([0, 0, 0, lun])))
        for _ in range(self.random.randint(2, 3)):
            allocation = self.random.choice((18, 18, 18, 36, 255, 4, 0))
            self.command(lun, self.random.choice(LOOKS + ([plain.SENSE, 0, 0, 0, allocation],) * 4),
                         self.random.choice((plain.TO_HOST, plain.TO_HOST, 0)), self.near_length(allocation))
            if self.chance(0.7):
                self.say("reply")

    def initialize(self):
        """fDeviceInit is set and read, in one order or another."""
        for opcode in self.random.choice(((6, 5), (6, 5), (5, 6, 5), (5, 6), (6,), (5,))):
            self.send(header(0x16, tag=self.tag(), five=0x01 if opcode == 5 else 0x81, fields=bytes([opcode, 1])))
            if self.chance(0.7):
                self.say("reply")

    # The RPMB

    def rpmb(self):
        """Requests to the RPMB, each with its response or without."""
        is_first = self.world.plain.key is None and self.chance(0.7)
        known = ((3, 5), (3, 5), (3, 4), (3, 3, 2), (4,), (2,), (5,), (1, 5), (1,))
        for kind in ((1, 5) if is_first else ()) + self.random.choice(known) + self.random.choice(known):
            if self.chance(0.6 if kind == 4 else 0.2):
                self.rest()
            self.ask(kind)

    def ask(self, kind):
        """A request to the RPMB, and often its response."""
        self.secure(plain.SECURITY_OUT, b"".join(self.frames(kind)))
        if self.chance(0.06):
            self.manage()
        if self.chance(0.95):
            self.pump()
        if self.chance(0.05 if kind in (1, 3) else 0.8):
            response = self.world.response or [b""] * self.random.randint(1, 8)
            self.secure(plain.SECURITY_IN, bytes(512 * (len(response) + self.chance(0.06))))
            self.pump()

    def frames(self, kind):
        """The frames of a request, of which one is wrong at times."""
        held = self.world.plain
        address = self.random.choice((self.random.randint(0, 504), 14, 12, 511, *[self.address] * (3 * (kind == 4))))
        self.address = address if kind == 3 else self.address
        count = self.random.randint(1, 8)
        nonce, key = self.random.randbytes(16), self.random.randbytes(32)
        counter = (held.counter + self.random.choice((0,) * 14 + (1, -1))) % (1 << 32)
        fields = {3: {"count": count, "address": address, "counter": counter}, 1: {"mac": key},
                  2: {"nonce": nonce}, 4: {"count": count, "address": address, "nonce": nonce}}.get(kind, {})
        frames = [frame(kind, data=bytes([self.random.randrange(256)]) * 256 if kind == 3 else bytes(256), **fields)
                  for _ in range(count if kind == 3 else 1)]
        changes = self.random.randrange(4) if self.chance(0.25) else None
        at = self.random.randrange(len(frames))
        if changes == 0:
            frames[at] = frames[at][:500] + self.near(frames[at][500:])[:12].ljust(12, b"\0")
        elif changes == 1:
            frames.append(frames[-1])
        if kind == 3:
            frames = self.world.signed(frames)
        if changes in (2, 3):
            bits = bytearray(frames[at])
            bits[self.random.randrange(512)] ^= 1 << self.random.randrange(8)
            frames[at] = bytes(bits)
        return frames[:8]

    def secure(self, code, data):
        size = len(data) + self.random.choice((0,) * 20 + (512, -512, 1))
        out = code == plain.SECURITY_OUT
        tag = self.command(plain.RPMB, [code, 0xEC, 0, 1, 0, 0, *big(max(0, size), 4)],
                           plain.TO_DEVICE if out else plain.TO_HOST, size if out else self.near_length(max(0, size)))
        if out:
            self.payload[tag] = data.ljust(max(0, size), b"\0")[:max(0, size)]

    # Other messages

    def query(self):
        """A query or some, often of what profile 1 has beside the rest, right or with a field that is wrong."""
        usual = ((1, 0, 0, 0, 64, 0), (1, 2, self.random.randrange(len(self.units)), 0, 35, 0), (3, 0, 0, 0, 0, 0),
                 (4, 0, 0, 0, 0, self.random.randrange(3)), (5, self.random.randint(1, 3), 0, 0, 0, 0),
                 (6, self.random.randint(1, 3), 0, 0, 0, 0), (7, 1, 0, 0, 0, 0), (8, 3, 0, 0, 0, 0), (2, 0, 0, 0, 0, 0),
                 (0, 0, 0, 0, 0, 0), (1, 7, 0, 0, 72, 0))
        for _ in range(self.random.choice((1, 2, 4, 8)) if self.profile[0] else 1):
            of_table = self.chance(0.8 if self.profile[0] else 0.3)
            fields = self.asked() if of_table else list(self.random.choice(usual))
            if self.chance(0.2 if of_table else 0.4):
                at = self.random.randrange(6)
                fields[at] = self.random.choice((0, 1, 2, 3, 7, 9, 15, 16, 0xC4, 255, fields[at] + 1))
            self.ask_by_query(*fields)

    def asked(self):
        """The fields of a query of one that the table has, or of an IDN that it may not have."""
        opcode = self.random.randint(1, 8)
        kind = parameters.CLASSES[opcode]
        row, idn = None, self.random.randrange(0x19)
        if self.chance(0.9):
            idn, row = self.random.choice([*parameters.rows_of(1, kind).items()])
        numbers = parameters.indexes_of(row, 1, len(self.units)) if row else [0, 1]
        selectors = parameters.selectors_of(row) if row else [0, 1]
        if row and opcode not in row.opcodes and row.opcodes and self.chance(0.6):
            opcode = self.random.choice(row.opcodes)
        length = self.random.choice((0xFF, 0xFF, 0xFFFF, 4096, 64, 35, 1, 2, 6, 23, 143, 144)) if opcode == 1 else 0
        value = self.random.choice((0, 0, 1, 8, 16, 0x100, 1 << 31, parameters.LARGEST, self.random.getrandbits(32)))
        if row and opcode == 4 and self.chance(0.7):
            value = self.random.choice((row.least, row.greatest, min(row.greatest + 1, parameters.LARGEST),
                                        self.random.randint(row.least, row.greatest)))
        return [opcode, idn, self.random.choice(numbers), self.random.choice(selectors), length, value]

    def ask_by_query(self, opcode, idn, index=0, selector=0, length=0, value=0):
        """A QUERY REQUEST with these fields, at times of the other function."""
        function = (0x01 if opcode in parameters.READS else 0x81) ^ (0x80 * self.chance(0.04))
        segment = bytes(8) if opcode == 2 and self.chance(0.3) else b""
        self.send(header(0x16, tag=self.tag(), five=function, segment=len(segment), fields=bytes(
            [opcode & 255, idn & 255, index & 255, selector & 255, 0, 0]) + big(length & 0xFFFF, 2) +
            big(value & parameters.LARGEST, 4)) + segment)

    def switch(self):
        """What lasts until the next power cycle is set and told, at times with a reset of the link in between."""
        settable = ((4, 0x03, 15), (4, 0x0A, 3), (6, 0x04, 0), (7, 0x04, 0), (8, 0x04, 0), (8, 0x04, 0))
        for _ in range(self.random.randint(1, 4)):
            opcode, idn, most = self.random.choice(settable)
            self.ask_by_query(opcode, idn, value=self.random.randint(0, most))
        if self.chance(0.4):
            self.send(header(plain.LINK_EVENT, five=self.random.choice((1, 2))))
        for opcode, idn in self.random.sample(((3, 0x03), (3, 0x0A), (5, 0x04)), 3):
            self.ask_by_query(opcode, idn)
        for _ in range(self.random.randint(0, 7)):
            self.say("reply")

    def protect(self):
        """A flag of protection is set, or a protected unit is written."""
        if self.chance(0.5):
            self.send(header(0x16, tag=self.tag(), five=0x81, fields=bytes([6, self.random.choice((2, 3))])))
        protected = [at for at, it in enumerate(self.units) if it[2]]
        for unit in protected[:2]:
            self.move(unit=unit, writes=True)

    def manage(self):
        """A TASK REQUEST."""
        tasks = self.world.tasks()
        it = self.random.choice(tasks) if tasks and self.chance(0.8) else None
        lun = it.lun if it else self.random.choice((0, 1, 7, *plain.WELL_KNOWN, 0x55))
        meant = it.tag if it else self.random.randrange(256)
        function = self.random.choice(FUNCTIONS if self.chance(0.93) else range(256))
        self.send(header(0x04, lun=lun, tag=self.tag(), five=function, fields=bytes([0, 0, 0, lun, 0, 0, 0, meant])))

    def hand_wrong(self):
        """A NOP OUT, or a message that is refused."""
        tag, code = self.tag(), self.random.choice((*KINDS, self.random.randrange(64)))
        wrong = [header(0, tag=tag), header(0, tag=tag)[:31], header(0, tag=tag) + b"\0", header(0x80, tag=tag),
                 header(0x40 | code, tag=tag), header(code, tag=tag), transfer(0x02, 0, tag, 0, bytes(4096)),
                 transfer(0x02, 0, tag, 0, bytes(6))[:-1] + b"\1", transfer(0x02, 0, tag, 0, b"\1\2", 3),
                 header(code, tag=tag, segment=4097) + bytes(4100), bytes([0, 0, 0, tag, 0, 0, 0, 0, 1]) + bytes(23)]
        self.send(self.random.choice(wrong if self.chance(0.7) else wrong[:1]), 0.2)

    def crowd(self):
        """More tasks, blocks or short exchanges than the device takes."""
        how = self.random.choice((0, 0, 1, 1, 2))
        for _ in range(self.random.randint(33, 36) if how else 4):
            if how == 0:
                self.move(self.most, 0, True)
            elif how == 1:
                self.move(1, 0, False)
            else:
                self.send(header(0, tag=self.tag()), 0.01)
        for _ in range(self.random.randint(1, 3)):
            self.do_one_of(self.unmap, self.rpmb, self.query, self.move, self.manage, self.look)

    def churn(self):
        """So many blocks are written that the device collects."""
        for _ in range(self.random.randint(4, 12)):
            self.move(min(self.most, self.units[0][0]), 0, True, False)
            self.pump()
            if self.chance(0.1):
                self.interrupt()
                self.say(f"settle {MANY}")

    def fail_late(self):
        """The dies write what waits, and fail at what they then read."""
        for die in 6 * [*range(self.config[0])]:
            if die not in self.world.flight:
                self.say(f"take {die}")
            if die in self.world.flight:
                self.say(f"done {die} {'fail' if self.world.flight[die][0] == 'read' else 'ok'}")

    # Replies, dies and stops

    def bring(self, it):
        """The DATA OUT that is asked for."""
        offset, count = it.asked
        if it.compares:
            data = self.near_block(it.compares[0][0])
            if self.chance(0.06):
                self.bring_wrong(it, data)
        elif it.code in plain.WRITES:
            data = self.random.randbytes(count) if self.chance(0.02) else bytes([self.random.randrange(256)]) * count
        else:
            data = self.payload.get(it.tag, b"")[:count].ljust(count, b"\0")
        self.send(transfer(0x02, it.lun, it.tag, offset, data), 0.03)

    def near_block(self, block):
        """The block of a VERIFY, or at times another one: all of it, or a bit of it."""
        if self.chance(0.85):
            return block
        if self.chance(0.3):
            return bytes([self.random.randrange(256)]) * 4096
        found, at = bytearray(block), self.random.choice((0, 4095, self.random.randrange(4096)))
        found[at] ^= 1 << self.random.randrange(8)
        return bytes(found)

    def bring_wrong(self, it, data):
        """A DATA OUT beside that which is asked for."""
        offset, _ = it.asked
        offset, count = self.random.choice(((offset + 4096, 4096), (max(0, offset - 4096), 4096), (offset + 1, 4096),
                                            (offset, 2048), (offset + 2048, 2048)))
        self.send(transfer(0x02, self.random.choice((it.lun, it.lun, 1)), it.tag, offset, data[:count]))

    def pump(self):
        """Takes what is due, and brings what is asked for, until nothing is left or the host gives up."""
        # A block needs a READY TO TRANSFER and a DATA OUT.
        for _ in range(max(150, 3 * self.most)):
            asked = [it for it in self.world.open.values() if it.asked]
            if asked and self.chance(0.85):
                self.bring(self.random.choice(asked))
            elif any(self.world.due(it)[1] == SURE for it in self.world.open.values()):
                self.say("reply")
            elif not self.world.open or self.chance(0.02):
                break
            elif self.chance(0.004):
                self.stop()
            else:
                self.work()
        if self.chance(0.2):
            self.say("reply")

    def work(self):
        """The dies do something."""
        world = self.world
        idle = [it for it in range(self.config[0]) if it not in world.flight]
        reads = world.readers()
        if world.queue and idle and (self.config[0] == 1 or not reads) or reads and idle and self.config[0] == 1 \
                and world.queue == []:
            self.say(f"take {self.random.choice(idle)}")
            if self.chance(0.5):
                return
        if self.world.flight:
            if self.chance(0.1):
                self.stop()
            else:
                die = self.random.choice(list(self.world.flight))
                self.say(f"done {die} {'fail' if self.chance(self.fails) else 'ok'}")
        elif self.chance(0.9):
            self.say(f"settle {world.rounds()}")
        else:
            others = ("turn", "settle 1", "settle 3", "reply", f"take {self.config[0]}", "take 300")
            self.say(self.random.choice(others))

    def rest(self):
        """The dies come to rest, so that the model knows what they do next."""
        for die in list(self.world.flight):
            self.say(f"done {die} ok")
        self.say(f"settle {MANY}")
        self.say("turn")

    def tread(self):
        """Blocks are written and read step by step."""
        self.rest()
        for _ in range(self.random.randint(1, 4)):
            self.move(self.random.choice((1, 1, 2, 3, 5)), None, self.chance(0.65))

    def tear(self):
        """The power fails inside a WRITE, some blocks of which are programmed: the device is not mended then."""
        self.rest()
        self.move(self.random.choice((2, 3, 5)), None, True, False)
        for _ in range(16):
            asked = [it for it in self.world.open.values() if it.asked]
            if asked:
                self.bring(asked[0])
            else:
                self.say("reply")
        die = self.random.randrange(self.config[0])
        for line in (f"take {die}", f"done {die} ok", f"take {die}"):
            if not line.startswith("done") or die in self.world.flight:
                self.say(line)
        self.stop()

    def stop(self):
        """The power fails, sometimes twice."""
        named = [f" {die}:{self.random.choice(('old', 'new', 'torn'))}" for die, it in self.world.flight.items()
                 if it[0] != "read" and self.chance(0.9)]
        self.say("stop" + "".join(named))
        if self.chance(0.4):
            self.do_one_of(self.inform, self.move, self.query, self.manage, self.rpmb)
        if self.chance(0.3):
            self.interrupt()
        self.begin()
        if self.world.mended and self.chance(0.7):
            self.audit()

    def interrupt(self):
        """The power fails in a step of the device's own."""
        self.say(f"settle {self.random.randint(0, 6)}")
        for line in ("turn", *[f"take {die}" for die in range(self.config[0])], "stop"):
            self.say(line)

    def audit(self):
        """Reads back units, the settings, and what the RPMB has."""
        self.rest()
        units = range(len(self.units))
        for unit in units if self.chance(0.6) else [self.random.choice(units)]:
            for at in range(0, self.units[unit][0], 8):
                count = min(8, self.units[unit][0] - at)
                self.host(header(0x01, plain.TO_HOST, unit, self.tag(), fields=big(4096 * count, 4) + bytes(
                    [plain.READ, 0, *big(at, 4), 0, *big(count, 2)]).ljust(16, b"\0")))
                self.pump()
        told = ((3, 0x03), (3, 0x0A), (5, 0x04)) if self.profile[0] else ()
        for opcode, idn in ((3, 0), (5, 2), (5, 3), *told):
            self.send(header(0x16, tag=self.tag(), five=0x01, fields=bytes([opcode, idn])))
        for kind in (2, 4) if self.world.plain.key else ():
            self.ask(kind)


# Judging


class Counts(collections.Counter):
    """What was sent and answered, by kind."""

    def note(self, event, printed):
        if event[0] == "host":
            message = event[1]
            name = KINDS.get(message[0], "another code") if len(message) >= 32 else "too short"
            if name == "COMMAND":
                name += f" {NAMES.get(message[16], 'another operation')}"
            elif name == "QUERY":
                row = parameters.row_of(1, message[12], message[13])
                name += f" opcode {min(message[12], 9)}" + (f" {row.name}" if row else "")
            elif name == "TASK REQUEST":
                name += f" {message[5]:02x}" if message[5] in FUNCTIONS else " another function"
            self[f"sent: {name}"] += 1
            self[f"heard: {printed}"] += 1
        elif event[0] == "reply":
            self[f"answered: {self.answer(printed[6:])}"] += 1
        else:
            words = printed.split()
            self[f"dies: {event[0]}" + (f" {words[2]}" if event[0] == "take" else f" {event[2]}" if event[0] == "done"
                                        else f" {words[1]}" if event[0] == "turn" else "")] += 1
            for _, how in event[1] if event[0] == "stop" else ():
                self[f"dies: stop {how}"] += 1

    @staticmethod
    def answer(digits):
        if digits == "none":
            return digits
        data = bytes.fromhex(digits)
        name = KINDS[data[0]]
        if name == "DATA IN" and len(data) == 52 and data[32:34] + data[39:40] == b"\x70\0\n":
            return f"{name} of sense {data[34]:x}/{data[44]:02x}/{data[45]:02x}"
        if name == "DATA IN" and data[32:36] == b"\x7f\0\6\2":
            return f"{name} of no unit"
        row = parameters.row_of(1, data[12], data[13])
        if name == "QUERY RESPONSE" and data[6] == 0 and row:
            is_flag = parameters.CLASSES[data[12]] == parameters.FLAG
            return f"{name} of {row.name}" + (f" value {data[23]}" if is_flag else "")
        if name == "RESPONSE" and data[7] == plain.CHECK:
            return f"{name} {data[36]:x}/{data[46]:02x}/{data[47]:02x}"
        if name == "DATA IN" and data[2] == plain.RPMB and plain.number(data, 10, 2) % 512 == 0:
            return f"{name} of RPMB type {plain.number(data, 542, 2):04x} result {plain.number(data, 540, 2):04x}"
        more = {0x21: f" status {data[7]:02x}", 0x36: f" {data[6]:02x}", 0x24: f" {data[15]:02x}"}
        return name + more.get(data[0], "")


def played(lines, printed, counts=None, until=None, kept=None):
    """The model after the lines, how they end, and the first difference: a line, what was wanted, what came."""
    head, model, rest, is_head = [], copy.deepcopy(kept.model) if kept else None, iter(printed), True
    for place, line in enumerate(lines, 1):
        if place == until:
            break
        if not line or line.startswith("#"):
            continue
        if is_head and line.startswith(HEAD):
            head.append(line)
            continue
        if is_head:
            config, units, profile = plain.device_of(head)
            is_head, model = False, model or Model(config, units)
            model.become(profile)
            if counts is not None:
                counts[f"scripts: profile {profile[0]}"] += 1
        event = event_of(line)
        fault = event if isinstance(event, str) else None if model.is_event(event) else "event"
        if fault:
            extra = next(rest, None)
            return model, (1, f"ufsim: line {place}: {fault}\n"), extra and (place, "an end", extra)
        found = next(rest, "nothing")
        if not model.hear(event, found):
            return model, (0, ""), (place, event, found)
        if counts is not None:
            counts.note(event, found)
    extra = None if until else next(rest, None)
    return model, (0, ""), extra and (len(lines), "an end", extra)


def judged(lines, text, told, status, counts=None, kept=None):
    """What is wrong with the run of a script: the line, what was wanted and what came; or None."""
    _, wanted, found = played(lines, text.splitlines(), counts, kept=kept)
    if found and not isinstance(found[1], str):
        place, event, came = found
        model = played(lines, text.splitlines(), until=place, kept=kept)[0]
        return place, model.wanted(event), came
    if found:
        return found
    if (status, told) != wanted:
        return len(lines), f"status {wanted[0]} {wanted[1]!r}", f"status {status} {told!r}"
    return None


# Running


def text_of(lines):
    return "".join(f"{it}\n" for it in lines).encode("latin-1")


def by_program(program, scripts):
    """What a program prints of each script, on standard output and on standard error, and its status."""
    with tempfile.TemporaryDirectory(prefix="fuzz.") as folder:
        for place, lines, kept in scripts:
            file = pathlib.Path(folder, "script")
            file.write_bytes(text_of(lines))
            words = ["image", "load", image_of(kept, folder)] if kept else ["run"]
            try:
                done = subprocess.run([program, *words, str(file)], stdin=subprocess.DEVNULL, capture_output=True,
                                      encoding="latin-1", timeout=SECONDS, check=False)
                yield place, lines, kept, done.stdout, done.stderr, done.returncode
            except subprocess.TimeoutExpired:
                yield place, lines, kept, "", "it did not end", -1


def image_of(kept, folder):
    """The image of these dies, unpacked in the folder."""
    image = pathlib.Path(folder, f"{kept.name}.img")
    if not image.exists():
        lay(OLD_DIES / f"{image.name}.xz", image)
    return str(image)


def short(text):
    """The text, if it is short, or its ends."""
    return text if len(text) < 200 else f"{text[:150]}..({len(text)} characters)"


def zero_bits(message, profile):
    """The bits of a COMMAND, a QUERY REQUEST or a TASK REQUEST that have to be zero in this profile: their bytes and
    values."""
    bits = {at: 0xFF for at in (8, *plain.ZERO_BYTES[message[0]])}
    bits[0] = 0xC0
    if message[0] == 0x01:
        bits[1] = 0xFF ^ plain.TO_DEVICE ^ plain.TO_HOST ^ (plain.PRIORITY | plain.ATTRIBUTE) * profile
        named = plain.bits_of(message[16], profile)
        bits.update((17 + at, bit ^ 0xFF) for at, bit in enumerate(named))
    return [(at, 1 << bit) for at in sorted(bits) for bit in range(8) if bits[at] >> bit & 1]


def right_command(code):
    """A COMMAND with this operation code that is not refused for a field."""
    row = plain.ROWS[code]
    cdb = [code, row.action or 0, 0x3F if code in plain.SENSES else 0]
    if code in plain.SECURITY:
        cdb = [code, 0xEC, 0, 1, 0, 0, 0, 0, 2, 0]
    lun = plain.RPMB if code in plain.SECURITY else 0
    flags = plain.TO_DEVICE if code == plain.SECURITY_OUT else plain.TO_HOST
    return header(0x01, flags, lun, 1, fields=big(4096, 4) + bytes(cdb).ljust(16, b"\0"))


def bit_scripts():
    """A script for each kind of message in each profile: a right one, and then one with each bit that has to be zero
    set. In profile 1 a TEST UNIT READY first ends the attention of the LUN."""
    others = [header(0x16, tag=1, five=0x01, fields=bytes([3])), header(0x04, tag=1, five=0x80)]
    for profile in (0, 1):
        codes = [it for it in plain.ROWS if plain.bits_of(it, profile) is not None]
        for message in [*others, *map(right_command, codes)]:
            lines = ["config 1 40 16 1 64 0", "unit 16 0 0", f"profile {profile} 1", f"settle {MANY}"]
            lines += [f"host {header(0x01, lun=message[2], tag=3).hex()}", "reply"] * profile
            lines += [f"host {message.hex()}", "reply", "reply"]
            for at, bit in zero_bits(message, profile):
                wrong = bytearray(message)
                wrong[3], wrong[at] = 2, wrong[at] ^ bit
                lines += [f"host {wrong.hex()}", "reply"]
            yield f"bits {profile} {message[0]:02x} {message[16]:02x}", lines


def scripts_over(seed, count):
    """So many scripts over each image."""
    for packed in sorted(OLD_DIES.glob("*.img.xz")) if count else ():
        kept = Kept.read(packed)
        for number in range(1, count + 1):
            place = f"over {kept.name} {number}"
            yield place, Script(seed, place, kept).make(), kept


def long_scripts(seed, count):
    """So many scripts on devices that take commands of 128 blocks."""
    for number in range(1, count + 1):
        place = f"long {number}"
        yield place, Script(seed, place, is_long=True).make(), None


def run(asked, program):
    """Runs the scripts, and tells each difference and the counts."""
    others = asked.bits or asked.over or asked.long
    count = asked.scripts if asked.scripts is not None else 0 if others else 50
    scripts = itertools.chain(
        ((*it, None) for it in (bit_scripts() if asked.bits else ())),
        ((it, Script(asked.seed, it).make(), None) for it in range(asked.first, asked.first + count)),
        long_scripts(asked.seed, asked.long),
        scripts_over(asked.seed, asked.over))
    counts, passed, failed = Counts(), 0, 0
    for place, lines, kept, text, told, status in by_program(program, scripts):
        difference = judged(lines, text, told, status, counts, kept)
        passed, failed = passed + (not difference), failed + bool(difference)
        if difference:
            at, wanted, came = difference
            print(f"seed {asked.seed} script {place} line {at}: {short(lines[at - 1])}: wanted {short(wanted)}; "
                  f"came {short(came)}", flush=True)
        if difference and asked.keep:
            asked.keep.mkdir(parents=True, exist_ok=True)
            asked.keep.joinpath(f"{asked.seed}_{place}.txt".replace(" ", "_")).write_bytes(text_of(lines))
    for name, count in sorted(counts.items()):
        print(f"{count:7} {name}")
    print(f"{passed} passed, {failed} failed")
    return 0 if passed and not failed else 1


def main():
    parser = argparse.ArgumentParser(description="Compares ufsim with a plain model on random scripts.")
    parser.add_argument("--seed", type=int, default=1, help="what the scripts are made from (1)")
    parser.add_argument("--scripts", type=int, help="how many scripts there are (50; none with other kinds)")
    parser.add_argument("--first", type=int, default=1, help="the number of the first script (1)")
    parser.add_argument("--keep", type=pathlib.Path, help="a folder for the scripts that failed")
    parser.add_argument("--program", type=pathlib.Path, help="ufsim, built already")
    parser.add_argument("--bits", action="store_true", help="flip each bit that has to be zero")
    parser.add_argument("--long", type=int, default=0, help="how many scripts have commands of 128 blocks (none)")
    parser.add_argument("--over", type=int, default=0, help="how many scripts there are over each image (none)")
    asked = parser.parse_args()
    if asked.program:
        return run(asked, str(asked.program.absolute()))
    with kept_program("ufsim_main") as (program, said):
        if program is None:
            print(f"{said[-4000:]}fuzz: rt built no ufsim", file=sys.stderr)
            return 1
        return run(asked, program)


if __name__ == "__main__":
    # So that what it made goes also if it is stopped.
    signal.signal(signal.SIGTERM, lambda number, frame: sys.exit(128 + number))
    sys.exit(main())
