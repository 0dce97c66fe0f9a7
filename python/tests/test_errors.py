"""Each class of errors once, with the numbers of include/ufs.h and of docs/FORMATS.md."""
import gc
from concurrent.futures import ThreadPoolExecutor

import pytest

import butcherford
from butcherford import Device, UfsError, UnitNumbers

BLOCK = bytes(4096)
NOP = bytes([0, 0, 0, 5]) + bytes(28)
# A WRITE of 32 blocks at address 0 of unit 0, and a READ of one, without their task tags.
WRITE_32 = bytes.fromhex("012000000000000000000000000200002a000000000000002000000000000000")
READ = bytes.fromhex("0140000000000000000000000000100028000000000000000100000000000000")


def tagged(message, tag):
    return message[:3] + bytes([tag]) + message[4:]


def test_a_fault_has_number_and_text(device):
    with pytest.raises(UfsError) as told:
        device.take(2)
    assert told.value.number == 12 and told.value.text == str(told.value) != ""


def test_device_closed():
    device = Device()
    device.close()
    device.close()
    with pytest.raises(butcherford.DeviceClosed) as told:
        device.turn()
    assert told.value.number == 1


def test_a_device_that_was_not_closed_is_told():
    device = Device()
    handle, copied = device._handle, butcherford.device.lib.Handle
    kept = copied(handle.at, handle.is_open)
    with pytest.warns(ResourceWarning):
        del device, handle
        gc.collect()
    assert butcherford.device.lib.library().ufs_close(kept) == 0


@pytest.mark.parametrize("number, words", [
    (4, {"dies": 9}), (4, {"dies": 256 + 2}), (4, {"dies": -1}), (4, {"slots": 63}), (4, {"units": []}),
    (4, {"units": [1] * 9}), (4, {"rpmb": (0, 0, 0, 0)}), (4, {"profile": 2}), (4, {"profile": 256}),
    (4, {"serial": -1}), (4, {"serial": 1 << 64}), (4, {"profile": 2, "units": [4096]}), (5, {"units": [4096]}),
    (6, {"units": [UnitNumbers(8, boot=1), UnitNumbers(8, boot=1)]})])
def test_configuration_error(number, words):
    with pytest.raises(butcherford.ConfigurationError) as told:
        Device(**words)
    assert told.value.number == number


def test_image_error(device):
    with pytest.raises(butcherford.ImageError) as told:
        Device.from_image(b"no image")
    assert told.value.number == 8
    with pytest.raises(butcherford.ImageError) as told:
        Device.from_image(device.image(), units=[65])
    assert told.value.number == 7


@pytest.mark.parametrize("number, message", [
    (21, b""), (21, NOP[:31]), (22, NOP + b"\0"), (23, b"\x80" + NOP[1:]), (25, b"\x20" + NOP[1:]),
    (26, NOP[:31] + b"\1"), (27, NOP)])
def test_message_fault(number, message, device):
    device.host(NOP)
    with pytest.raises(butcherford.MessageFault) as told:
        device.host(message)
    assert told.value.number == number


def test_check_condition(device):
    """A READ past the end of the unit gets 5/21/00."""
    with pytest.raises(butcherford.CheckCondition) as told:
        device.units[0].read(64)
    assert (told.value.key, told.value.code, told.value.qualifier) == told.value.sense == (5, 0x21, 0)
    assert told.value.number == 0


def test_a_device_that_mends_is_not_ready():
    """2/04/01. On a device of profile 1 the first command meets the attention of its LUN before, 6/29/00."""
    becoming_ready = (2, 0x04, 1)
    for profile, wanted in ((0, [becoming_ready] * 2), (1, [(6, 0x29, 0), becoming_ready])):
        with Device(profile=profile, mend=False) as device:
            for sense in wanted:
                with pytest.raises(butcherford.CheckCondition) as told:
                    device.units[0].read(0)
                assert told.value.sense == sense


def test_busy(device):
    """Two WRITEs of 32 blocks have all 64 slots from their COMMANDs on."""
    device.host(tagged(WRITE_32, 1))
    device.host(tagged(WRITE_32, 2))
    with pytest.raises(butcherford.Busy):
        device.units[0].write(40, BLOCK)


def test_task_set_full(device):
    """32 READs are open, since nobody takes their replies."""
    for tag in range(32):
        device.host(tagged(READ, tag))
    with pytest.raises(butcherford.TaskSetFull):
        device.command(0, bytes(16))


def test_no_answer(device, monkeypatch):
    """A WRITE with FUA waits for a die, and here no die works."""
    monkeypatch.setattr(device, "settle", lambda rounds=1: None)
    with pytest.raises(butcherford.NoAnswer):
        device.units[0].write(0, BLOCK, fua=True)


@pytest.mark.parametrize("response, query", [
    (0xFD, lambda it: it.read_attribute(1)), (0xFC, lambda it: it.read_descriptor(2, index=8)),
    (0xF9, lambda it: it.read_descriptor(0, length=0)), (0xFA, lambda it: it.write_attribute(0, 3))])
def test_query_error(response, query, device):
    with pytest.raises(butcherford.QueryError) as told:
        query(device)
    assert told.value.response == response


def test_power_cut(device):
    """While the power is away each call says so, and the device can be closed."""
    device.power_off()
    assert not device.is_on
    calls = (lambda: device.units[0].read(0), device.turn, device.reply, device.image, device.power_off,
             lambda: device.take(0), lambda: device.work(0), lambda: device.host(NOP))
    for call in calls:
        with pytest.raises(butcherford.PowerCut):
            call()
    assert not issubclass(butcherford.PowerCut, UfsError)
    device.power_on()
    assert device.is_on and device.units[0].read(0) == BLOCK


def test_another_thread_is_refused(device):
    """The library lets one thread use a handle, and does not check it."""
    with ThreadPoolExecutor(1) as threads:
        for call in (device.turn, device.close):
            with pytest.raises(RuntimeError, match="thread"):
                threads.submit(call).result()
    assert device.units[0].read(0) == BLOCK


def test_words_that_are_no_such_numbers(device):
    for call in (lambda: device.units[0].write(0, b"short"), lambda: device.units[0].read(-1),
                 lambda: device.rpmb(0, b"short"), lambda: device.rpmb(4, bytes(32)),
                 lambda: Device(rpmb=(1,))):
        with pytest.raises(ValueError):
            call()
