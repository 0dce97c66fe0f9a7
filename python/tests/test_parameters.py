"""The table of names: it is that of the tools, and its fields lie beside each other."""
import importlib.util
from pathlib import Path
from typing import Any, Dict, Set

import pytest

from butcherford import parameters
from butcherford.parameters import ATTRIBUTES, DESCRIPTORS, FLAGS, Indexes

FILE = Path(__file__).resolve().parents[2] / "tools" / "parameters.py"
# The first letter of a name says how many bytes it has (JESD220, 14): byte, index, word, double, quad.
SIZES = {"b": 1, "i": 1, "w": 2, "d": 4, "q": 8}
LETTERS = {1: "R", 3: "R", 4: "W", 5: "R", 6: "S", 7: "C", 8: "T"}
TABLES: Dict[str, Any] = {"attribute": ATTRIBUTES, "flag": FLAGS, "descriptor": DESCRIPTORS}
# Those that docs/PROFILE_1.md says are left out so far.
LEFT_OUT: Dict[str, Set[int]] = {"attribute": {0x05, 0x0C, 0x0D, 0x0E}, "flag": set(), "descriptor": {0x09}}
# Bytes behind the head that have no field, of each descriptor (JESD220, 14.1.4): they are reserved, or no numbers.
NO_FIELDS = {"Device": [*range(0x2B, 0x40)], "RPMB Unit": [0x09, 0x20, 0x21, 0x22], "Geometry": [0x03],
             "Configuration": [*range(0x0B, 0x10)] + [at + it for at in range(0x10, 0x90, 0x10) for it in (13, 14, 15)],
             "String": [*range(2, 254)], "Device Health": [*range(5, 37)]}


@pytest.fixture(scope="module")
def tools():
    """The table of the tools, which is written from docs/PROFILE_1.md."""
    spec = importlib.util.spec_from_file_location("tools_parameters", FILE)
    module = importlib.util.module_from_spec(spec)
    spec.loader.exec_module(module)
    return module


def indexes_of(tools, row):
    """Which index and selector name one of a row of the tools, in the words of the package."""
    return {tools.ONE: {Indexes.ONE}, tools.UNITS: {Indexes.UNITS}, tools.CONTEXTS: {Indexes.CONTEXTS},
            tools.STRINGS: {Indexes.STRINGS}, tools.ALL_UNITS: {Indexes.UNITS, Indexes.ONE}}[row.indexes]


@pytest.mark.parametrize("kind", TABLES)
def test_it_is_the_table_of_the_tools(kind, tools):
    """The same rows, each with the same indexes. What has a name in both has the same one, and the same access."""
    rows, wanted = TABLES[kind], tools.rows_of(1, kind)
    idns = {it.idn for it in rows}
    assert set(wanted) <= idns and idns - set(wanted) <= LEFT_OUT[kind]
    for idn, row in wanted.items():
        found = [it for it in rows if it.idn == idn]
        if kind != "flag":
            assert {it.indexes for it in found} == indexes_of(tools, row)
        if kind != "descriptor":
            access = "".join(LETTERS[it] for it in row.opcodes)
            assert [(it.name, it.access) for it in found] == [(row.name, access)]


def test_descriptors_are_as_long_as_those_of_the_tools(tools):
    """But for strings, each of which has its own length."""
    device = tools.Device(1, 1, ((64, 1, 0), (16, 0, 2)), 1)
    for row in DESCRIPTORS:
        if row.indexes is not Indexes.STRINGS and row.idn in tools.rows_of(1, tools.DESCRIPTOR):
            told = tools.descriptor(device, row.idn, row.first)
            assert len(told) == row.size and told[:3:2] == bytes([row.size, told[2]])


def test_a_name_says_how_many_bytes_it_has():
    for row in ATTRIBUTES:
        assert row.size == SIZES[row.name[0]]
    for descriptor in DESCRIPTORS:
        for field in descriptor.fields:
            assert field.size == (2 if field.name.startswith("bcd") else SIZES[field.name[0]]), field.name


def test_each_byte_of_a_descriptor_is_of_one_field():
    """Or it is one of those that have none."""
    for row in DESCRIPTORS:
        held = [at for it in row.fields for at in range(it.offset, it.offset + it.size)]
        assert sorted(held + NO_FIELDS.get(row.name, [])) == [*range(row.size)], row.name
        assert held == sorted(held)


def test_no_name_comes_twice():
    for rows in (*TABLES.values(), *(it.fields for it in DESCRIPTORS)):
        names = [it.name for it in rows]
        assert len(set(names)) == len(names)


def test_repeated_fields():
    """Unit 7 of the configuration has bytes 80h to 8Fh, and level 15 of the last supply the last two."""
    placed = {row.name: {it.name: it.offset for it in row.fields} for row in DESCRIPTORS}
    configuration, power = placed["Configuration"], placed["Power"]
    assert configuration["bLUEnable[7]"] == 0x80 and configuration["dNumAllocUnits[7]"] == 0x84
    assert configuration["wContextCapabilities[7]"] == 0x8B
    assert (power["wActiveICCLevelsVCC[0]"], power["wActiveICCLevelsVCCQ[0]"]) == (0x02, 0x22)
    assert (power["wActiveICCLevelsVCCQ2[0]"], power["wActiveICCLevelsVCCQ2[15]"]) == (0x42, 0x60)


@pytest.mark.parametrize("name, close", [
    ("bRefClkFrek", "bRefClkFreq"), ("brefclkfreq", "bRefClkFreq"), ("fDeviceInit", ""), ("x", "")])
def test_close_names(name, close):
    told = parameters.close_names(parameters.ATTRIBUTE_NAMED, name)
    assert close in told if close else told == ""
