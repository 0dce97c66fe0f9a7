"""What queries name: the descriptors, attributes and flags of each profile, what may be done with each, and what it
tells (JESD220, 14).

The tools share this table, and what stands in the descriptors. It is written from docs/FORMATS.md and
docs/PROFILE_1.md, not from the code.
"""
from typing import NamedTuple, Tuple

DESCRIPTOR, ATTRIBUTE, FLAG = "descriptor", "attribute", "flag"
# What each opcode is about, and those that read; the others write, set, clear and toggle.
CLASSES = {1: DESCRIPTOR, 2: DESCRIPTOR, 3: ATTRIBUTE, 4: ATTRIBUTE, 5: FLAG, 6: FLAG, 7: FLAG, 8: FLAG}
READS = (1, 3, 5)
# Which index and selector name one: there is one; one a unit; one a unit that there may be, and that of the RPMB; five
# strings; fifteen contexts a unit.
ONE, UNITS, ALL_UNITS, STRINGS, CONTEXTS = range(5)
RPMB = 0xC4
# How many units a device may have.
MOST_UNITS = 8
LARGEST = 0xFFFFFFFF


class Parameter(NamedTuple):
    """A row of the table: its name; the profile from which on a device has it; which indexes and selectors name one;
    the opcodes that it takes; the least and the greatest value that it may be written; and what it tells as a life
    begins, which is kept of bBootLunEn and fPermanentWPEn alone."""

    name: str
    profile: int
    indexes: int = ONE
    opcodes: Tuple[int, ...] = ()
    least: int = 0
    greatest: int = 0
    told: int = 0


READ, WRITE, BOTH = (3,), (4,), (3, 4)
TABLE = {
    (DESCRIPTOR, 0x00): Parameter("device", 0, ONE, (1,)),
    (DESCRIPTOR, 0x01): Parameter("configuration", 1, ONE, (1,)),
    (DESCRIPTOR, 0x02): Parameter("unit", 0, ALL_UNITS, (1,)),
    (DESCRIPTOR, 0x04): Parameter("interconnect", 1, ONE, (1,)),
    (DESCRIPTOR, 0x05): Parameter("string", 1, STRINGS, (1,)),
    (DESCRIPTOR, 0x07): Parameter("geometry", 1, ONE, (1,)),
    (DESCRIPTOR, 0x08): Parameter("power parameters", 1, ONE, (1,)),
    (ATTRIBUTE, 0x00): Parameter("bBootLunEn", 0, ONE, BOTH, 0, 2),
    (ATTRIBUTE, 0x02): Parameter("bCurrentPowerMode", 1, ONE, READ, told=0x11),
    (ATTRIBUTE, 0x03): Parameter("bActiveICCLevel", 1, ONE, BOTH, 0, 15),
    (ATTRIBUTE, 0x04): Parameter("bOutOfOrderDataEn", 1, ONE, BOTH),
    (ATTRIBUTE, 0x06): Parameter("bPurgeStatus", 1, ONE, READ),
    (ATTRIBUTE, 0x07): Parameter("bMaxDataInSize", 1, ONE, BOTH, 8, 8, 8),
    (ATTRIBUTE, 0x08): Parameter("bMaxDataOutSize", 1, ONE, BOTH, 8, 8, 8),
    (ATTRIBUTE, 0x09): Parameter("dDynCapNeeded", 1, UNITS, READ),
    (ATTRIBUTE, 0x0A): Parameter("bRefClkFreq", 1, ONE, BOTH, 0, 3, 1),
    (ATTRIBUTE, 0x0B): Parameter("bConfigDescrLock", 1, ONE, BOTH, 0, LARGEST, 1),
    (ATTRIBUTE, 0x0F): Parameter("dSecondsPassed", 1, ONE, WRITE, 0, LARGEST),
    (ATTRIBUTE, 0x10): Parameter("wContextConf", 1, CONTEXTS, BOTH),
    (ATTRIBUTE, 0x14): Parameter("bDeviceFFUStatus", 1, ONE, READ),
    (ATTRIBUTE, 0x15): Parameter("bPSAState", 1, ONE, READ),
    (ATTRIBUTE, 0x16): Parameter("dPSADataSize", 1, ONE, READ),
    (FLAG, 0x01): Parameter("fDeviceInit", 0, ONE, (5, 6)),
    (FLAG, 0x02): Parameter("fPermanentWPEn", 0, ONE, (5, 6)),
    (FLAG, 0x03): Parameter("fPowerOnWPEn", 0, ONE, (5, 6)),
    (FLAG, 0x04): Parameter("fBackgroundOpsEn", 1, ONE, (5, 6, 7, 8), told=1),
    (FLAG, 0x05): Parameter("fDeviceLifeSpanModeEn", 1, ONE, (5, 7)),
    (FLAG, 0x06): Parameter("fPurgeEnable", 1),
    (FLAG, 0x08): Parameter("fPhyResourceRemoval", 1, ONE, (5, 7)),
    (FLAG, 0x09): Parameter("fBusyRTC", 1, ONE, (5,)),
    (FLAG, 0x0B): Parameter("fPermanentlyDisableFwUpdate", 1, ONE, (5,))}
# What is an accepted command: an opcode and an IDN. What is locked from the start: the same.
SETTINGS = BOOT_WRITTEN, PERMANENT_SET = (4, 0x00), (6, 0x02)
LOCK_WRITTEN = (4, 0x0B)


class Device(NamedTuple):
    """What the configuration of a device gives of it; of each unit its blocks, its boot number and its protection; and
    the steps of 128 KiB of the first region of the RPMB."""

    profile: int
    serial: int
    units: Tuple[Tuple[int, int, int], ...]
    steps: int


def row_of(profile, opcode, idn):
    """The row of what a query names; None, if the profile has none."""
    row = TABLE.get((CLASSES.get(opcode, ""), idn))
    return row if row and row.profile <= profile else None


def rows_of(profile, kind):
    """The rows of one kind that a profile has, by their IDNs."""
    return {idn: row for (its, idn), row in TABLE.items() if its == kind and row.profile <= profile}


def indexes_of(row, profile, units):
    """The indexes that name one, where there are so many units."""
    if row.indexes == ALL_UNITS and profile:
        return [*range(MOST_UNITS), RPMB]
    return {ONE: [0], STRINGS: [*range(1, 6)]}.get(row.indexes, [*range(units)])


def selectors_of(row):
    """The selectors that name one."""
    return [*range(1, 16)] if row.indexes == CONTEXTS else [0]


def laid(size, places):
    """So many bytes: these digits, by their offsets, and zeros."""
    found = bytearray(size)
    for at, digits in places.items():
        data = bytes.fromhex(digits)
        found[at:at + len(data)] = data
    return bytes(found)


def boots(device):
    """01 if a unit boots."""
    return f"{int(any(unit[1] for unit in device.units)):02x}"


def device_descriptor(device):
    """The descriptor of the device."""
    places = {0: "40", 6: f"{len(device.units):02x}", 7: "04", 8: boots(device), 9: "01", 13: "01", 16: "0210"}
    if device.profile:
        places.update({4: "00" if int(boots(device)) else "01", 10: "01", 11: "7f", 14: "01", 18: "112501020304",
                       26: "1010", 28: "20", 33: "20", 34: "0001", 42: "05"})
    return laid(64, places)


def configuration_descriptor(device):
    """That of what a host may configure."""
    places = {0: "9001", 3: boots(device), 4: "01", 5: "01", 6: "7f"}
    for at, (blocks, boot, protect) in enumerate(device.units):
        places[16 + 16 * at] = f"01{boot:02x}{protect:02x}00{blocks:08x}010c03"
    return laid(144, places)


def unit_descriptor(device, index):
    """That of a unit, of one that is not there, or of the RPMB."""
    if index == RPMB:
        frames = f"{512 * device.steps:016x}"
        return laid(35, {0: f"2302{RPMB:02x}01", 6: "01", 8: "0f", 10: "08", 11: frames, 24: frames})
    is_there = index < len(device.units)
    blocks, boot, protect = device.units[index] if is_there else (0, 0, 0)
    return laid(35, {0: f"2302{index:02x}{is_there:02x}{boot:02x}{protect:02x}", 9: "010c", 11: f"{blocks:016x}",
                     19: "00000001", 23: "03", 24: f"{blocks:016x}"})


def geometry_descriptor(device):
    """That of the geometry."""
    blocks = sum(unit[0] for unit in device.units)
    return laid(72, {0: "4807", 4: f"{8 * blocks:016x}", 13: "00000008", 17: "01", 18: 6 * "08", 26: "05", 29: "01",
                     30: "8001"})


def string_descriptor(device, index):
    """A string: of the maker, the product, the serial number, the customer, and the revision."""
    text = {2: "UFS PROFILE 2.1 ", 3: f"{device.serial:016x}", 5: "0001"}.get(index, "PROFILE ")
    return bytes([2 + 2 * len(text), 5]) + text.encode("utf-16-be")


def descriptor(device, idn, index):
    """All bytes of a descriptor that the device has."""
    if idn == 0x02:
        return unit_descriptor(device, index)
    if idn == 0x05:
        return string_descriptor(device, index)
    made = {0x00: device_descriptor, 0x01: configuration_descriptor, 0x07: geometry_descriptor}
    if idn in made:
        return made[idn](device)
    return {0x04: bytes.fromhex("060401600300"), 0x08: laid(98, {0: "6208"})}[idn]
