"""What a unit of profile 1 takes and tells. What comes is told by docs/PROFILE_1.md, and by SPC-4."""
import pytest

from butcherford import (Capacity, CheckCondition, Device, ModePage, Modes, ModeValues, SupportedOperation, UnitNumbers,
                         VpdPage, messages)

BLOCK = 4096
# ILLEGAL REQUEST, by the additional sense code.
NO_OPERATION, OUT_OF_RANGE, NO_FIELD, NOT_SAVED = ((5, code, 0) for code in (0x20, 0x21, 0x24, 0x39))
MISCOMPARE = (0xE, 0x1D, 0)


@pytest.fixture
def device_options():
    return {"serial": 0x0123456789ABCDEF}


@pytest.fixture
def unit(device):
    return device.units[0]


def sense_of(call):
    """The sense data with which a command is refused."""
    with pytest.raises(CheckCondition) as told:
        call()
    return told.value.sense


def test_commands_of_sixteen_bytes(device, unit):
    """They do what the shorter forms do."""
    data = b"".join(bytes([it]) * BLOCK for it in range(1, 41))
    unit.write_16(1, data)
    unit.flush_16()
    device.power_cut()
    assert unit.read(1, 40) == unit.read_16(1, 40) == data
    unit.write_16(0, bytes(BLOCK), fua=True)
    for address in (64, 1 << 32, (1 << 64) - 1):
        assert sense_of(lambda: unit.read_16(address)) == OUT_OF_RANGE
    for call in (lambda: unit.read_16((1 << 64) - 1, 2), lambda: unit.read((1 << 32) - 1, 2),
                 lambda: unit.prefetch(1 << 64), lambda: unit.prefetch(0, 1 << 32)):
        with pytest.raises(ValueError):
            call()


def test_prefetch(unit):
    """The whole unit, what is left of it, nothing behind its end; past it, in both forms."""
    for address, count in ((0, 64), (60, 0), (64, 0)):
        unit.prefetch(address, count)
    for address, count in ((60, 5), (65, 0), (1 << 32, 0), (0, 1 << 16)):
        assert sense_of(lambda: unit.prefetch(address, count)) == OUT_OF_RANGE


def test_verify(device, unit):
    """Blocks on the dies, in the write cache and never written can be read; past the end of the unit there are none.
    A command may have 32 blocks."""
    unit.write(0, bytes([1]) * 40 * BLOCK, fua=True)
    unit.write(40, bytes([2]) * 3 * BLOCK)
    unit.verify(0, 64)
    for address, count in ((60, 5), (64, 1), (0, 65)):
        assert sense_of(lambda: unit.verify(address, count)) == OUT_OF_RANGE
    assert sense_of(lambda: device.command(0, messages.blocks_cdb(messages.VERIFY_10, 0, 33))) == NO_FIELD


def test_compare(device, unit):
    """The same blocks are GOOD, and one other byte of the last one is a MISCOMPARE. Nothing is written, and a host that
    brings a block too few is refused."""
    written = b"".join(bytes([it]) * BLOCK for it in range(1, 44))
    unit.write(1, written[:40 * BLOCK], fua=True)
    unit.write(41, written[40 * BLOCK:])
    data = bytes(BLOCK) + written + bytes(BLOCK)
    unit.compare(0, data)
    assert sense_of(lambda: unit.compare(0, data[:-1] + b"\1")) == MISCOMPARE
    assert unit.read(0, 45) == data
    assert sense_of(lambda: unit.compare(63, bytes(2 * BLOCK))) == OUT_OF_RANGE
    with pytest.raises(ValueError):
        unit.compare(0, data[1:])
    two = messages.blocks_cdb(messages.VERIFY_10, 0, 2, compare=True)
    assert sense_of(lambda: device.command(0, two, send=data[:BLOCK])) == NO_FIELD


def test_diagnostic(unit):
    unit.send_diagnostic()
    unit.send_diagnostic(self_test=True)


def test_capacity(unit):
    assert unit.capacity_16() == Capacity(63, BLOCK, unmaps=True, unmapped_are_zeros=True)


@pytest.mark.parametrize("page, wanted", [
    (VpdPage.SUPPORTED_PAGES, "00808387b0b1b2"), (VpdPage.SERIAL_NUMBER, b"0123456789abcdef".hex()),
    (VpdPage.IDENTIFICATION, "01030008" "304653" "89abcdef" "00"), (VpdPage.MODE_PAGE_POLICY, "3fff0000"),
    (VpdPage.BLOCK_LIMITS, "00000001" + "00000020" * 2 + "0000000000000020" + "00000001" * 2 + "80" + "00" * 31),
    (VpdPage.BLOCK_CHARACTERISTICS, "0001" + "00" * 58), (VpdPage.PROVISIONING, "00840200")])
def test_pages_of_vital_product_data(page, wanted, unit):
    """A command may have 32 blocks."""
    assert unit.inquiry_page(page).hex() == wanted


def test_a_page_that_is_not_there(unit):
    assert sense_of(lambda: unit.inquiry_page(0x81)) == NO_FIELD


def page(front, length):
    return bytes.fromhex(front).ljust(length, b"\0")


def test_mode_pages(unit):
    """There are three, none of whose bits may be changed, and no saved values."""
    caching, control = page("081204", 20), page("0a0a00100000" "0000ffff", 12)
    assert unit.mode_sense(ModePage.CACHING) == Modes(False, True, (caching,))
    for told in (unit.mode_sense(), unit.mode_sense_6(ModePage.ALL, ModeValues.DEFAULT, 0xFF)):
        assert told == Modes(False, True, (page("010a80", 12), caching, control))
    told = unit.mode_sense_6(values=ModeValues.CHANGEABLE)
    assert told.pages == (page("010a", 12), page("0812", 20), page("0a0a", 12))
    assert sense_of(lambda: unit.mode_sense(values=ModeValues.SAVED)) == NOT_SAVED
    assert sense_of(lambda: unit.mode_sense(ModePage.CONTROL, subpage=1)) == NO_FIELD


def test_a_protected_unit_says_so():
    """Protection 2 is that by fPermanentWPEn, flag 02h."""
    with Device(units=[UnitNumbers(64, protect=2)]) as device:
        assert not device.units[0].mode_sense().is_protected
        device.set_flag(0x02)
        assert device.units[0].mode_sense().is_protected
        assert device.units[0].mode_sense_6().is_protected


def test_supported_operations(unit):
    """Those of the tables that a unit takes. Bits 7 to 5 of an operation code say how long a CDB is."""
    codes = bytes.fromhex("00 03 08 0a 12 1a 1d 25 28 2a 2f 34 35 42 5a 88 8a 90 91 9e a0 a3")
    actions, lengths = {0x9E: 0x10, 0xA3: 0x0C}, {0: 6, 1: 10, 2: 10, 4: 16, 5: 12}
    wanted = tuple(SupportedOperation(it, actions.get(it), lengths[it >> 5]) for it in codes)
    assert unit.supported_operations() == wanted


def test_one_operation(unit):
    """READ(10) has DPO, FUA and a group number, and VERIFY(10) DPO, BYTCHK and a group number. FORMAT UNIT is none. A
    code with service actions wants one."""
    assert unit.supported_operation(0x28).hex() == "28" "18" "ffffffff" "1f" "ffff" "00"
    assert unit.supported_operation(0x2F).hex() == "2f" "12" "ffffffff" "1f" "ffff" "00"
    assert unit.supported_operation(0x04) is None
    assert unit.supported_operation(0xA3, 0x0C) is not None
    assert sense_of(lambda: unit.supported_operation(0x9E)) == NO_FIELD
    assert sense_of(lambda: unit.supported_operation(0x28, 0)) == NO_FIELD


def test_profile_0_has_none_of_these():
    with Device(profile=0) as device:
        unit = device.units[0]
        calls = (lambda: unit.read_16(0), unit.flush_16, unit.prefetch, lambda: unit.verify(0),
                 lambda: unit.compare(0, bytes(BLOCK)), unit.send_diagnostic, unit.capacity_16, unit.mode_sense,
                 unit.mode_sense_6, unit.supported_operations)
        assert [sense_of(call) for call in calls] == [NO_OPERATION] * len(calls)
        assert sense_of(lambda: unit.inquiry_page(VpdPage.SERIAL_NUMBER)) == NO_FIELD
