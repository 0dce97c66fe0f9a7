"""The RPMB: results, counters and areas are those of docs/FORMATS.md."""
from dataclasses import replace

import pytest

import butcherford
from butcherford import Device
from butcherford.rpmb import Frame

KEY, OTHER_KEY = bytes(range(32)), bytes(range(1, 33))


@pytest.fixture
def region(device):
    found = device.rpmb(0, KEY)
    found.program_key()
    return found


def blocks(first, count):
    """Blocks of 256 bytes, of which none is like another."""
    return b"".join((first + it).to_bytes(2, "big") * 128 for it in range(count))


def result_of(call):
    with pytest.raises(butcherford.RpmbError) as told:
        call()
    assert type(told.value) is butcherford.RpmbError
    return told.value.result


def test_without_a_key(device):
    region = device.rpmb(0, KEY)
    assert result_of(region.counter) == 0x0007
    assert result_of(lambda: region.read(0)) == 0x0007
    assert result_of(lambda: region.read(0, 2)) == 0x0007
    assert result_of(lambda: region.write(0, bytes(256))) == 0x0007


def test_a_key_is_programmed_once(region):
    assert result_of(region.program_key) == 0x0001


def test_write_and_read(region):
    """A new area is zeros, and each write of at most eight blocks counts one."""
    assert region.counter() == 0
    region.write(3, blocks(1, 2))
    assert region.counter() == 1
    assert region.read(2, 4) == bytes(256) + blocks(1, 2) + bytes(256)
    region.write(10, blocks(5, 9))
    assert region.counter() == 3
    assert region.read(10, 9) == blocks(5, 9)


def test_past_the_end_of_the_area(region):
    """128 KiB are 512 blocks."""
    region.write(511, blocks(7, 1))
    assert region.read(511) == blocks(7, 1)
    assert result_of(lambda: region.read(512)) == 0x0004
    assert result_of(lambda: region.read(511, 2)) == 0x0004
    assert result_of(lambda: region.write(511, bytes(512))) == 0x0004
    assert region.counter() == 1


def test_another_key_is_seen(device, region):
    """The device signs with its own key, so the host sees a wrong MAC."""
    for call in (device.rpmb(0, OTHER_KEY).counter, lambda: device.rpmb(0, OTHER_KEY).read(0)):
        with pytest.raises(butcherford.RpmbResponseError, match="MAC"):
            call()


def test_a_write_with_a_wrong_mac_is_refused(region, monkeypatch):
    """The host signs with another key, and looks at the response with its own: result 0002h."""
    own = butcherford.rpmb.mac_of
    monkeypatch.setattr(butcherford.rpmb, "mac_of",
                        lambda key, frames: own(OTHER_KEY if frames[0].kind == 3 else key, frames))
    assert result_of(lambda: region.write(0, blocks(1, 1))) == 0x0002
    assert region.read(0) == bytes(256)


def test_a_write_under_an_old_counter_is_refused(region, monkeypatch):
    """As where somebody plays it again: result 0003h."""
    region.write(0, blocks(1, 1))
    monkeypatch.setattr(region, "counter", lambda: 0)
    assert result_of(lambda: region.write(0, blocks(2, 1))) == 0x0003
    assert region.read(0) == blocks(1, 1)


@pytest.mark.parametrize("what, changed", [
    ("nonce", {"nonce": b"x" * 16}), ("type", {"kind": 0x0400}), ("MAC", {"counter": 9})])
def test_a_response_that_was_changed_is_seen(what, changed, region, monkeypatch):
    """Somebody between host and device changes a response; for the nonce he has the key."""
    receive = region._receive

    def changing(count):
        told = [replace(it, **changed) for it in receive(count)]
        if what == "nonce":
            told[-1] = replace(told[-1], mac=butcherford.rpmb.mac_of(KEY, told))
        return told

    monkeypatch.setattr(region, "_receive", changing)
    with pytest.raises(butcherford.RpmbResponseError, match=what):
        region.counter()


def test_a_read_of_another_place_is_seen(region, monkeypatch):
    """The response to a read tells address and count."""
    send = region._send
    monkeypatch.setattr(region, "_send", lambda frames: send([replace(it, address=1) for it in frames]))
    with pytest.raises(butcherford.RpmbResponseError, match="address"):
        region.read(0)


@pytest.mark.parametrize("changed", [{"address": 5}, {"counter": 7}])
def test_a_response_to_another_write_is_seen(changed, region, monkeypatch):
    """It is signed rightly, and tells another address or counter."""
    receive = region._receive

    def changing(count):
        told = receive(count)
        if told[0].kind == 0x0300:
            told = [replace(told[0], **changed)]
            told = [replace(told[0], mac=butcherford.rpmb.mac_of(KEY, told))]
        return told

    monkeypatch.setattr(region, "_receive", changing)
    with pytest.raises(butcherford.RpmbResponseError, match="counter"):
        region.write(0, blocks(1, 1))


def test_key_and_counter_are_kept_over_a_cut(device, region):
    region.write(0, blocks(1, 8))
    device.power_cut()
    assert device.rpmb(0, KEY).counter() == 1
    assert device.rpmb(0, KEY).read(0, 8) == blocks(1, 8)
    assert result_of(device.rpmb(0, KEY).program_key) == 0x0001


def test_regions_are_apart():
    with Device(rpmb=(1, 0, 1, 0)) as device:
        first, third = device.rpmb(0, KEY), device.rpmb(2, OTHER_KEY)
        first.program_key()
        third.program_key()
        third.write(0, blocks(1, 1))
        assert (first.counter(), third.counter()) == (0, 1)
        assert first.read(0) == bytes(256)
        with pytest.raises(butcherford.CheckCondition) as told:
            device.rpmb(1, KEY).counter()
        assert told.value.sense == (5, 0x24, 0)


def test_a_frame_has_512_bytes():
    assert len(Frame(2).packed()) == 512
