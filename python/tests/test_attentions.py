"""Attentions, and what is told of LUNs that are not there and of a device that mends. What comes is told by
docs/PROFILE_1.md, by SPC-4 (REQUEST SENSE, sense data) and by SAM-5 (unit attention condition)."""
import pytest

from butcherford import CheckCondition, Device, Flag, MessageFault, messages

UNITS = [32, 16]
# The units, then REPORT LUNS, BOOT, RPMB and UFS DEVICE.
LUNS = (0, 1, 0x81, 0xB0, 0xC4, 0xD0)
ATTENTION, BECOMING_READY, NO_UNIT = (6, 0x29, 0), (2, 0x04, 1), (5, 0x25, 0)
READY, SENSE, INQUIRY = bytes(6), bytes([3, 0, 0, 0, 18, 0]), bytes([0x12, 0, 0, 0, 36, 0])
REPORT_LUNS, READ, CAPACITY = bytes.fromhex("a00000000000 00000018 0000"), b"\x28" + bytes(9), b"\x25" + bytes(9)
# The 36 bytes of INQUIRY, but the first one.
IDENTITY = bytes.fromhex("00 06021f 0000 02") + b"PROFILE UFS PROFILE 2.1 0001"
ABORT_TASK_SET, RESET, QUERY_TASK_SET = 0x02, 0x08, 0x81


@pytest.fixture
def device_options():
    return {"units": UNITS}


@pytest.fixture
def mended():
    """A device that has mended, and whose attentions are there."""
    with Device(units=UNITS, mend=False) as device:
        device.mend()
        yield device


def sense_of(device, lun, cdb=READY):
    """The sense data with which a command is refused; None if it is answered GOOD."""
    try:
        device.command(lun, cdb)
    except CheckCondition as refusal:
        return refusal.sense
    return None


def sense_data(key, code, qualifier):
    """Sense data of the fixed format."""
    return bytes([0x70, 0, key, 0, 0, 0, 0, 10, 0, 0, 0, 0, code, qualifier, 0, 0, 0, 0])


def managed(device, function, lun):
    """The service response to a TASK MANAGEMENT REQUEST (JESD220, 10.7.6 and 10.7.7)."""
    device.host(bytes([0x04, 0, lun, 7, 0, function]) + bytes(9) + bytes([lun]) + bytes(16))
    reply = device.reply()
    assert (reply[0], reply[3]) == (0x24, 7)
    return reply[15]


def test_each_lun_has_one_after_an_opening_and_after_a_stop(mended):
    """The first command meets it, and ends it."""
    for _ in range(2):
        assert [sense_of(mended, lun) for lun in LUNS] == [ATTENTION] * len(LUNS)
        assert [sense_of(mended, lun) for lun in LUNS] == [None] * len(LUNS)
        mended.power_cut(mend=False)
        mended.mend()


def test_the_refusal_in_its_bytes():
    """A READ(10) of a block, with task tag 1. Nothing was carried of the 1000h bytes."""
    with Device(mend=False) as device:
        device.host(bytes.fromhex("01400001" + "00" * 8 + "00001000" "28000000000000000100" + "00" * 6))
        wanted = "21200001" "00000102" "00000014" "00001000" + "00" * 16 + "0012" + sense_data(*ATTENTION).hex()
        assert device.reply().hex() == wanted and device.reply() is None


def test_a_device_that_is_made_ready_has_none(device):
    for _ in range(2):
        assert [sense_of(device, lun) for lun in LUNS] == [None] * len(LUNS)
        device.power_cut()


def test_each_lun_is_asked_once(mended, monkeypatch):
    """A device is made ready by one TEST UNIT READY to each LUN."""
    commands, host = [], mended.host

    def listening(message):
        if message[0] == 0x01:
            commands.append(message)
        host(message)

    monkeypatch.setattr(mended, "host", listening)
    mended.make_ready()
    assert [message[2] for message in commands] == list(LUNS)
    assert {message[16:] for message in commands} == {bytes(16)}


def test_these_commands_leave_it(mended):
    """INQUIRY and REPORT LUNS, which tells both units."""
    for lun in LUNS:
        told = mended.command(lun, INQUIRY, receive=36)
        assert told[0] == (0x00 if lun < 8 else 0x1E) and told[1:] == IDENTITY
    for lun in (0, 1, 0x81):
        told = mended.command(lun, REPORT_LUNS, receive=24)
        assert told.hex() == "00000010" "00000000" "0000000000000000" "0001000000000000"
    assert [sense_of(mended, lun) for lun in LUNS] == [ATTENTION] * len(LUNS)


def test_request_sense_tells_it_and_ends_it():
    """Then it tells that the device mends, and that there is nothing to tell."""
    with Device(units=UNITS, mend=False) as device:
        for wanted in (ATTENTION, BECOMING_READY):
            told = [device.command(lun, SENSE, receive=18) for lun in LUNS]
            assert told == [sense_data(*wanted)] * len(LUNS)
        assert sense_of(device, 0) == BECOMING_READY
        device.mend()
        for lun in LUNS:
            assert device.command(lun, SENSE, receive=18) == sense_data(0, 0, 0)
            assert sense_of(device, lun) is None


def test_luns_that_are_not_there(mended):
    """INQUIRY tells so by the peripheral qualifier, and REQUEST SENSE as data; any other command is refused. The
    attentions of the others stay."""
    for lun in (2, 7, 8, 0x7F, 0x80, 0xC5, 0xFF):
        assert mended.command(lun, INQUIRY, receive=36) == b"\x7f" + IDENTITY
        assert mended.command(lun, SENSE, receive=18) == sense_data(*NO_UNIT)
        for cdb in (READY, READ, CAPACITY, REPORT_LUNS):
            assert sense_of(mended, lun, cdb) == NO_UNIT
    assert [sense_of(mended, lun) for lun in LUNS] == [ATTENTION] * len(LUNS)


def test_a_reset_of_a_unit_sets_it_again(device):
    """The other LUNs have none. Whoever asked for the reset ends it."""
    for lun in LUNS:
        assert managed(device, RESET, lun) == 0x00
        assert sense_of(device, lun) == ATTENTION
        assert [sense_of(device, it) for it in LUNS] == [None] * len(LUNS)
        managed(device, RESET, lun)
        device.end_attentions()
        assert sense_of(device, lun) is None


@pytest.mark.parametrize("reset", list(messages.Reset))
def test_a_reset_of_the_link_sets_it_again(device, reset):
    """For each LUN, and what was asked before is not answered. A LINK EVENT is a message of profile 1."""
    device.host(bytes([0, 0, 0, 7]) + bytes(28))
    device.link_event(reset)
    assert device.reply() is None
    for wanted in (ATTENTION, None):
        assert [sense_of(device, lun) for lun in LUNS] == [wanted] * len(LUNS)
    with Device(units=UNITS, profile=0) as other, pytest.raises(MessageFault):
        other.link_event(reset)


def test_the_bytes_of_a_link_event():
    wanted = [bytes([0x1F, 0, 0, 0, 0, kind]) + bytes(26) for kind in (1, 2)]
    assert [messages.link_event(reset) for reset in messages.Reset] == wanted


def test_task_management_has_tags_of_its_own(device):
    """It may have the tag of a NOP OUT that waits for its answer."""
    device.host(bytes([0, 0, 0, 7]) + bytes(28))
    device.host(bytes([0x04, 0, 0, 7, 0, ABORT_TASK_SET]) + bytes(26))
    assert [device.reply()[:4].hex() for _ in range(2)] == ["20000007", "24000007"]


def test_what_sets_none(device):
    """Another function of task management, and a reset of a LUN that is not there (service response 09h)."""
    assert [managed(device, it, 0) for it in (ABORT_TASK_SET, QUERY_TASK_SET)] == [0x00, 0x00]
    assert managed(device, RESET, 2) == 0x09
    assert [sense_of(device, lun) for lun in LUNS] == [None] * len(LUNS)


def test_initialization_takes_as_long_as_mending():
    """fDeviceInit is 1 from when a host sets it until the device has mended. Queries meet no attention."""
    with Device(mend=False) as device:
        assert not device.read_flag(Flag.DEVICE_INIT)
        device.set_flag(Flag.DEVICE_INIT)
        assert device.read_flag(Flag.DEVICE_INIT)
        device.settle(16)
        assert not device.read_flag(Flag.DEVICE_INIT)
        device.set_flag(Flag.DEVICE_INIT)
        assert not device.read_flag(Flag.DEVICE_INIT)
        assert sense_of(device, 0) == ATTENTION


def answer(device, flags):
    """The status and the sense data of a TEST UNIT READY with these flags, and task tag 1."""
    device.host(messages.command(0, 1, READY, flags, 0))
    reply = messages.read_reply(device.reply())
    return reply.status, reply.data[2:]


@pytest.mark.parametrize("flags", [0x00, 0x04])
def test_a_command_may_have_priority(flags, device):
    """Bit 2 of byte 1 is CP, which changes nothing."""
    assert answer(device, flags) == (0x00, b"")


@pytest.mark.parametrize("flags", [0x01, 0x02, 0x03, 0x05])
def test_a_task_attribute_is_refused(flags, device):
    """Bits 1 and 0 of byte 1: all but SIMPLE get B/49/00. The unit goes on."""
    assert answer(device, flags) == (0x02, sense_data(0x0B, 0x49, 0x00))
    assert answer(device, 0x00) == (0x00, b"")


def test_profile_0_has_none_of_these():
    """The flags are a fault 6 of the message (ufs.h has 26), and a LUN that is not there refuses all."""
    with Device(units=UNITS, profile=0, mend=False) as device:
        assert sense_of(device, 0xD0) == BECOMING_READY
        device.set_flag(Flag.DEVICE_INIT)
        assert not device.read_flag(Flag.DEVICE_INIT)
        device.make_ready()
        device.power_cut(mend=False)
        device.mend()
        managed(device, RESET, 0)
        assert [sense_of(device, lun) for lun in LUNS] == [None] * len(LUNS)
        assert sense_of(device, 2, INQUIRY) == sense_of(device, 2, SENSE) == NO_UNIT
        for flags in (0x01, 0x04):
            with pytest.raises(MessageFault) as told:
                device.host(messages.command(0, 1, READY, flags, 0))
            assert told.value.number == 26
