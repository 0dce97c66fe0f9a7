"""Attributes, flags and descriptors, with the names of the standard (JESD220, 14).

A device may have fewer of them, and refuses a query for any other by FDh.
"""
from __future__ import annotations

import difflib
import enum
from typing import Dict, Iterable, Mapping, NamedTuple, Tuple, TypeVar

Row = TypeVar("Row")
RPMB_UNIT = 0xC4


class Indexes(enum.Enum):
    """Which index and selector name one of those that a row stands for."""

    ONE = "one"
    """There is one: both are 0, or of the RPMB unit descriptor the index is C4h."""
    UNITS = "units"
    """There is one for each unit, whose number is the index."""
    CONTEXTS = "contexts"
    """There are fifteen for each unit: the selector is 1 to Fh."""
    STRINGS = "strings"
    """There are five: the index is 1 to 5."""


class AttributeRow(NamedTuple):
    """An attribute. `size` is in bytes. `access` has R if it is read, and W if it is written."""

    idn: int
    name: str
    size: int
    access: str
    indexes: Indexes = Indexes.ONE


class FlagRow(NamedTuple):
    """A flag. `access` has R, S, C and T if it is read, set, cleared and toggled."""

    idn: int
    name: str
    access: str


class Field(NamedTuple):
    """A number in a descriptor. `offset` and `size` are in bytes."""

    offset: int
    size: int
    name: str


class DescriptorRow(NamedTuple):
    """A descriptor. `size` is in bytes, and `first` is the index of the first one.

    What is reserved or no number has no field, such as the text of a string.
    """

    idn: int
    name: str
    size: int
    fields: Tuple[Field, ...]
    indexes: Indexes = Indexes.ONE
    first: int = 0


def repeated(count: int, step: int, fields: Iterable[Field]) -> Tuple[Field, ...]:
    """Fields that come so many times, every `step` bytes, named as in `bLUEnable[0]`."""
    once = tuple(fields)
    return tuple(Field(it.offset + step * number, it.size, f"{it.name}[{number}]")
                 for number in range(count) for it in once)


HEAD = (Field(0x00, 1, "bLength"), Field(0x01, 1, "bDescriptorIDN"))

ATTRIBUTES: Tuple[AttributeRow, ...] = (
    AttributeRow(0x00, "bBootLunEn", 1, "RW"),
    AttributeRow(0x02, "bCurrentPowerMode", 1, "R"),
    AttributeRow(0x03, "bActiveICCLevel", 1, "RW"),
    AttributeRow(0x04, "bOutOfOrderDataEn", 1, "RW"),
    AttributeRow(0x05, "bBackgroundOpStatus", 1, "R"),
    AttributeRow(0x06, "bPurgeStatus", 1, "R"),
    AttributeRow(0x07, "bMaxDataInSize", 1, "RW"),
    AttributeRow(0x08, "bMaxDataOutSize", 1, "RW"),
    AttributeRow(0x09, "dDynCapNeeded", 4, "R", Indexes.UNITS),
    AttributeRow(0x0A, "bRefClkFreq", 1, "RW"),
    AttributeRow(0x0B, "bConfigDescrLock", 1, "RW"),
    AttributeRow(0x0C, "bMaxNumOfRTT", 1, "RW"),
    AttributeRow(0x0D, "wExceptionEventControl", 2, "RW"),
    AttributeRow(0x0E, "wExceptionEventStatus", 2, "R"),
    AttributeRow(0x0F, "dSecondsPassed", 4, "W"),
    AttributeRow(0x10, "wContextConf", 2, "RW", Indexes.CONTEXTS),
    AttributeRow(0x14, "bDeviceFFUStatus", 1, "R"),
    AttributeRow(0x15, "bPSAState", 1, "R"),
    AttributeRow(0x16, "dPSADataSize", 4, "R"),
)

FLAGS: Tuple[FlagRow, ...] = (
    FlagRow(0x01, "fDeviceInit", "RS"),
    FlagRow(0x02, "fPermanentWPEn", "RS"),
    FlagRow(0x03, "fPowerOnWPEn", "RS"),
    FlagRow(0x04, "fBackgroundOpsEn", "RSCT"),
    FlagRow(0x05, "fDeviceLifeSpanModeEn", "RC"),
    FlagRow(0x06, "fPurgeEnable", ""),
    FlagRow(0x08, "fPhyResourceRemoval", "RC"),
    FlagRow(0x09, "fBusyRTC", "R"),
    FlagRow(0x0B, "fPermanentlyDisableFwUpdate", "R"),
)

# JESD220, 14.1.4.2.
DEVICE_FIELDS = HEAD + (
    Field(0x02, 1, "bDevice"),
    Field(0x03, 1, "bDeviceClass"),
    Field(0x04, 1, "bDeviceSubClass"),
    Field(0x05, 1, "bProtocol"),
    Field(0x06, 1, "bNumberLU"),
    Field(0x07, 1, "bNumberWLU"),
    Field(0x08, 1, "bBootEnable"),
    Field(0x09, 1, "bDescrAccessEn"),
    Field(0x0A, 1, "bInitPowerMode"),
    Field(0x0B, 1, "bHighPriorityLUN"),
    Field(0x0C, 1, "bSecureRemovalType"),
    Field(0x0D, 1, "bSecurityLU"),
    Field(0x0E, 1, "bBackgroundOpsTermLat"),
    Field(0x0F, 1, "bInitActiveICCLevel"),
    Field(0x10, 2, "wSpecVersion"),
    Field(0x12, 2, "wManufactureDate"),
    Field(0x14, 1, "iManufacturerName"),
    Field(0x15, 1, "iProductName"),
    Field(0x16, 1, "iSerialNumber"),
    Field(0x17, 1, "iOemID"),
    Field(0x18, 2, "wManufacturerID"),
    Field(0x1A, 1, "bUD0BaseOffset"),
    Field(0x1B, 1, "bUDConfigPLength"),
    Field(0x1C, 1, "bDeviceRTTCap"),
    Field(0x1D, 2, "wPeriodicRTCUpdate"),
    Field(0x1F, 1, "bUFSFeaturesSupport"),
    Field(0x20, 1, "bFFUTimeout"),
    Field(0x21, 1, "bQueueDepth"),
    Field(0x22, 2, "wDeviceVersion"),
    Field(0x24, 1, "bNumSecureWPArea"),
    Field(0x25, 4, "dPSAMaxDataSize"),
    Field(0x29, 1, "bPSAStateTimeout"),
    Field(0x2A, 1, "iProductRevisionLevel"),
)

# JESD220, 14.1.4.3: a header, and sixteen bytes for each unit that there may be.
CONFIGURATION_FIELDS = HEAD + (
    Field(0x02, 1, "bConfDescContinue"),
    Field(0x03, 1, "bBootEnable"),
    Field(0x04, 1, "bDescrAccessEn"),
    Field(0x05, 1, "bInitPowerMode"),
    Field(0x06, 1, "bHighPriorityLUN"),
    Field(0x07, 1, "bSecureRemovalType"),
    Field(0x08, 1, "bInitActiveICCLevel"),
    Field(0x09, 2, "wPeriodicRTCUpdate"),
) + repeated(8, 0x10, (
    Field(0x10, 1, "bLUEnable"),
    Field(0x11, 1, "bBootLunID"),
    Field(0x12, 1, "bLUWriteProtect"),
    Field(0x13, 1, "bMemoryType"),
    Field(0x14, 4, "dNumAllocUnits"),
    Field(0x18, 1, "bDataReliability"),
    Field(0x19, 1, "bLogicalBlockSize"),
    Field(0x1A, 1, "bProvisioningType"),
    Field(0x1B, 2, "wContextCapabilities"),
))

# JESD220, 14.1.4.5.
UNIT_FIELDS = HEAD + (
    Field(0x02, 1, "bUnitIndex"),
    Field(0x03, 1, "bLUEnable"),
    Field(0x04, 1, "bBootLunID"),
    Field(0x05, 1, "bLUWriteProtect"),
    Field(0x06, 1, "bLUQueueDepth"),
    Field(0x07, 1, "bPSASensitive"),
    Field(0x08, 1, "bMemoryType"),
    Field(0x09, 1, "bDataReliability"),
    Field(0x0A, 1, "bLogicalBlockSize"),
    Field(0x0B, 8, "qLogicalBlockCount"),
    Field(0x13, 4, "dEraseBlockSize"),
    Field(0x17, 1, "bProvisioningType"),
    Field(0x18, 8, "qPhyMemResourceCount"),
    Field(0x20, 2, "wContextCapabilities"),
    Field(0x22, 1, "bLargeUnitGranularity_M1"),
)

# JESD220, 14.1.4.6: what the other units have there is reserved of this one.
NOT_OF_RPMB = ("bDataReliability", "wContextCapabilities", "bLargeUnitGranularity_M1")
RPMB_UNIT_FIELDS = tuple(it for it in UNIT_FIELDS if it.name not in NOT_OF_RPMB)

# JESD220, 14.1.4.8.
INTERCONNECT_FIELDS = HEAD + (
    Field(0x02, 2, "bcdUniproVersion"),
    Field(0x04, 2, "bcdMphyVersion"),
)

# JESD220, 14.1.4.4.
GEOMETRY_FIELDS = HEAD + (
    Field(0x02, 1, "bMediaTechnology"),
    Field(0x04, 8, "qTotalRawDeviceCapacity"),
    Field(0x0C, 1, "bMaxNumberLU"),
    Field(0x0D, 4, "dSegmentSize"),
    Field(0x11, 1, "bAllocationUnitSize"),
    Field(0x12, 1, "bMinAddrBlockSize"),
    Field(0x13, 1, "bOptimalReadBlockSize"),
    Field(0x14, 1, "bOptimalWriteBlockSize"),
    Field(0x15, 1, "bMaxInBufferSize"),
    Field(0x16, 1, "bMaxOutBufferSize"),
    Field(0x17, 1, "bRPMB_ReadWriteSize"),
    Field(0x18, 1, "bDynamicCapacityResourcePolicy"),
    Field(0x19, 1, "bDataOrdering"),
    Field(0x1A, 1, "bMaxContexIDNumber"),
    Field(0x1B, 1, "bSysDataTagUnitSize"),
    Field(0x1C, 1, "bSysDataTagResSize"),
    Field(0x1D, 1, "bSupportedSecRTypes"),
    Field(0x1E, 2, "wSupportedMemoryTypes"),
    Field(0x20, 4, "dSystemCodeMaxNAllocU"),
    Field(0x24, 2, "wSystemCodeCapAdjFac"),
    Field(0x26, 4, "dNonPersistMaxNAllocU"),
    Field(0x2A, 2, "wNonPersistCapAdjFac"),
    Field(0x2C, 4, "dEnhanced1MaxNAllocU"),
    Field(0x30, 2, "wEnhanced1CapAdjFac"),
    Field(0x32, 4, "dEnhanced2MaxNAllocU"),
    Field(0x36, 2, "wEnhanced2CapAdjFac"),
    Field(0x38, 4, "dEnhanced3MaxNAllocU"),
    Field(0x3C, 2, "wEnhanced3CapAdjFac"),
    Field(0x3E, 4, "dEnhanced4MaxNAllocU"),
    Field(0x42, 2, "wEnhanced4CapAdjFac"),
    Field(0x44, 4, "dOptimalLogicalBlockSize"),
)

# JESD220, 14.1.4.7: sixteen levels of the current of each supply.
POWER_FIELDS = HEAD + (
    *repeated(16, 2, [Field(0x02, 2, "wActiveICCLevelsVCC")]),
    *repeated(16, 2, [Field(0x22, 2, "wActiveICCLevelsVCCQ")]),
    *repeated(16, 2, [Field(0x42, 2, "wActiveICCLevelsVCCQ2")]),
)

# What a maker tells behind these is no number.
HEALTH_FIELDS = HEAD + (
    Field(0x02, 1, "bPreEOLInfo"),
    Field(0x03, 1, "bDeviceLifeTimeEstA"),
    Field(0x04, 1, "bDeviceLifeTimeEstB"),
)

DESCRIPTORS: Tuple[DescriptorRow, ...] = (
    DescriptorRow(0x00, "Device", 64, DEVICE_FIELDS),
    DescriptorRow(0x01, "Configuration", 144, CONFIGURATION_FIELDS),
    DescriptorRow(0x02, "Unit", 35, UNIT_FIELDS, Indexes.UNITS),
    DescriptorRow(0x02, "RPMB Unit", 35, RPMB_UNIT_FIELDS, first=RPMB_UNIT),
    DescriptorRow(0x04, "Interconnect", 6, INTERCONNECT_FIELDS),
    # The greatest size: a string is as long as its text.
    DescriptorRow(0x05, "String", 254, HEAD, Indexes.STRINGS, first=1),
    DescriptorRow(0x07, "Geometry", 72, GEOMETRY_FIELDS),
    DescriptorRow(0x08, "Power", 98, POWER_FIELDS),
    DescriptorRow(0x09, "Device Health", 37, HEALTH_FIELDS),
)

ATTRIBUTE_NAMED: Dict[str, AttributeRow] = {it.name: it for it in ATTRIBUTES}
FLAG_NAMED: Dict[str, FlagRow] = {it.name: it for it in FLAGS}
DESCRIPTOR_NAMED: Dict[str, DescriptorRow] = {it.name: it for it in DESCRIPTORS}


def row_named(rows: Mapping[str, Row], name: str, kind: str) -> Row:
    """The row with this name. If there is none, `KeyError` tells the names that are close to it."""
    if name not in rows:
        raise KeyError(f"no {kind} has the name {name!r}{close_names(rows, name)}")
    return rows[name]


def close_names(names: Iterable[str], name: str) -> str:
    """The names that are close to this one, in words. Upper and lower case are alike here."""
    spelled = {it.lower(): it for it in names}
    close = difflib.get_close_matches(str(name).lower(), [*spelled])
    return f"; close to it: {', '.join(spelled[it] for it in close)}" if close else ""
