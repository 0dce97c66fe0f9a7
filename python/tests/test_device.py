"""The calls of a device, its units and its settings. What comes is told by README and docs/FORMATS.md."""
import pytest

from butcherford import Attribute, Descriptor, Device, Flag, Job, JobKind, QueryError, UnitNumbers

# The configuration of README's script.
README = {"dies": 4, "blocks": 16, "pages": 64, "units": [256], "rpmb": (1, 0, 0, 0), "slots": 64, "spare": 4,
          "profile": 0}
WRITE = bytes.fromhex("012000010000000000000000000010002a080000000000000100000000000000")
DATA = bytes.fromhex("0200000100000000000010000000000000001000000000000000000000000000") + b"\x5a" * 4096
READ = bytes.fromhex("0140000200000000000000000000100028000000000000000100000000000000")


def hexed(message, length):
    return message[:length].hex()


def blocks(first, count):
    """Blocks of which none is like another."""
    return b"".join((first + it).to_bytes(2, "big") * 2048 for it in range(count))


def test_script_of_readme():
    """It plays README's script, call by call."""
    with Device(**README, mend=False) as device:
        device.settle(4)
        device.host(WRITE)
        assert hexed(device.reply(), 16) == "31000001000000000000000000000000"
        device.host(DATA)
        assert device.reply() is None
        job = device.take(0)
        assert job[:4] == (JobKind.PROGRAM, 0, 0, 1) and job.body == b"\x5a" * 4096
        assert device.take(0) is None
        assert device.work(0) is True
        assert device.work(0) is False
        assert hexed(device.reply(), 5) == "2100000100"
        device.host(READ)
        device.settle(1)
        data = device.reply()
        assert hexed(data, 32) == "2200000200000000000010000000000000001000" + "00" * 12
        assert data[32:] == b"\x5a" * 4096
        assert hexed(device.reply(), 32) == "21000002" + "00" * 28
        assert device.reply() is None


def test_page_of_a_program():
    """The spare bytes begin with UFSP and version 2; kind 1 is data, and the block address is 0 (Pages)."""
    with Device(**README) as device:
        device.host(WRITE)
        device.reply()
        device.host(DATA)
        job = device.take(0)
    assert isinstance(job, Job)
    assert job.spare[:12].hex() == "55465350" "02" "01" "00" "00" "00000000"


def test_turn_tells_whether_a_step_was_due():
    """The mending of a new device begins with a step, and one that is ready and has free blocks has none."""
    with Device(mend=False) as device:
        assert device.turn() is True
    with Device() as device:
        device.settle(8)
        assert device.turn() is False


def test_replies_of_other_tags_are_kept(device):
    """A NOP OUT is answered by a NOP IN with its tag, also where a whole exchange came between, which waits for a
    die. At a power cut such a reply is gone."""
    for cuts in (False, True):
        device.host(bytes([0, 0, 0, 5]) + bytes(28))
        device.units[0].write(0, bytes(4096), fua=True)
        if cuts:
            device.power_cut()
        assert device.reply() == (None if cuts else bytes([0x20, 0, 0, 5]) + bytes(28))


def test_blocks_that_were_never_written_are_zeros(device):
    assert device.units[0].read(0, 2) == bytes(8192)


def test_write_and_read(device):
    unit = device.units[0]
    unit.write(1, blocks(1, 3))
    unit.write(2, blocks(9, 1), fua=True)
    assert unit.read(0, 5) == bytes(4096) + blocks(1, 1) + blocks(9, 1) + blocks(3, 1) + bytes(4096)


def sent_counts(device, monkeypatch):
    """The count of blocks, bytes 7 and 8 of the CDB, of each READ and each WRITE that the device is handed."""
    counts, host = [], device.host

    def listening(message):
        if message[0] == 0x01 and message[16] in (0x28, 0x2A):
            counts.append(int.from_bytes(message[23:25], "big"))
        host(message)

    monkeypatch.setattr(device, "host", listening)
    return counts


@pytest.mark.parametrize("slots, wanted", [(128, [32, 32, 6]), (255, [32, 32, 6]), (256, [70])])
def test_long_commands_are_split(slots, wanted, monkeypatch):
    """A command has at most 32 blocks, or 128 with 256 slots or more."""
    with Device(blocks=64, units=[128], slots=slots) as device:
        counts = sent_counts(device, monkeypatch)
        device.units[0].write(3, blocks(0, 70))
        assert device.units[0].read(3, 70) == blocks(0, 70)
        assert counts == wanted * 2


def test_longest_command_of_a_large_cache(monkeypatch):
    with Device(blocks=64, units=[256], slots=256) as device:
        counts = sent_counts(device, monkeypatch)
        device.units[0].write(0, blocks(0, 129))
        assert counts == [128, 1]


def test_writes_that_fill_the_cache_wait_for_the_dies():
    """64 slots hold no 96 blocks at once."""
    with Device(blocks=64, units=[128]) as device:
        device.units[0].write(0, blocks(0, 96))
        assert device.units[0].read(0, 96) == blocks(0, 96)


def test_unmap(device):
    unit = device.units[0]
    unit.write(0, blocks(1, 40))
    unit.unmap(1, 35)
    assert unit.read(0, 40) == blocks(1, 1) + bytes(35 * 4096) + blocks(37, 4)


def test_units_are_apart():
    with Device(units=[16, UnitNumbers(8, boot=1)]) as device:
        assert [it.blocks for it in device.units] == [16, 8]
        device.units[1].write(7, blocks(5, 1), fua=True)
        assert device.units[0].read(7) == bytes(4096)
        assert device.units[1].read(7) == blocks(5, 1)


def test_command_gives_what_it_received(device):
    """INQUIRY tells `PROFILE ` in bytes 8 to 15, READ CAPACITY the last address and the size of a block."""
    told = device.command(0, bytes([0x12, 0, 0, 0, 36]), receive=36)
    assert told[:5].hex() == "000006021f" and told[8:16] == b"PROFILE "
    assert device.command(0, b"\x25", receive=8).hex() == "0000003f" "00001000"


def test_profile_1_tells_more():
    """The geometry is a descriptor of profile 1 alone. Dies that a device of one profile wrote open with the other."""
    with Device(serial=0x0123456789ABCDEF) as device:
        assert device.profile == 1
        assert device.read_descriptor(Descriptor.GEOMETRY)[:12].hex() == "48070000" "0000000000000200"
        device.units[0].write(7, blocks(5, 1), fua=True)
        image = device.image()
    with Device.from_image(image, profile=0) as device:
        assert device.profile == 0 and device.units[0].read(7, 1) == blocks(5, 1)
        with pytest.raises(QueryError) as told:
            device.read_descriptor(Descriptor.GEOMETRY)
        assert told.value.response == 0xFD
        device.units[0].write(8, blocks(6, 1), fua=True)
        image = device.image()
    with Device.from_image(image, serial=2) as device:
        assert device.units[0].read(7, 2) == blocks(5, 1) + blocks(6, 1)


def test_image_there_and_back():
    """Its first bytes, and its length, are those of docs/FORMATS.md."""
    with Device(**README) as device:
        device.units[0].write(9, blocks(3, 2), fua=True)
        image = device.image()
    assert image[:14].hex() == "554653494d414745" "04" "00" "0010" "0040"
    assert len(image) == 17_170_510
    with Device.from_image(image, **README) as device:
        assert device.units[0].read(8, 4) == bytes(4096) + blocks(3, 2) + bytes(4096)


@pytest.mark.parametrize("profile, wanted", [
    (0, "40000000000002040101" "000000" "01" "0000" "0210" + "00" * 46),
    (1, "40000000000002040101" "017f00" "01" "0100" "0210" "1125" "01020304" "0000" "101020" + "00" * 4
     + "200001" + "00" * 6 + "05" + "00" * 21)])
def test_descriptors(profile, wanted):
    """The bytes of both descriptors (Queries; Profile 1)."""
    with Device(units=[16, UnitNumbers(8, boot=2, protect=1)], profile=profile) as device:
        assert device.read_descriptor(Descriptor.DEVICE).hex() == wanted
        unit = device.read_descriptor(Descriptor.UNIT, index=1)
        assert unit.hex() == ("23020101" "02" "01" "000000" "01" "0c" "0000000000000008" "00000001" "03"
                              "0000000000000008" "000000")
        assert device.read_descriptor(Descriptor.UNIT, length=4).hex() == "23020001"


def test_attribute():
    """bBootLunEn is 0 on a new device, and is kept over a cut: it is a setting."""
    with Device(units=[16, UnitNumbers(8, boot=2)]) as device:
        assert device.read_attribute(Attribute.BOOT_LUN_EN) == 0
        device.write_attribute(Attribute.BOOT_LUN_EN, 2)
        device.power_cut()
        assert device.read_attribute(Attribute.BOOT_LUN_EN) == 2


def test_flags(device):
    """fPermanentWPEn is kept over a cut; fPowerOnWPEn is 0 after each opening; fDeviceInit is read as 0."""
    assert not device.read_flag(Flag.PERMANENT_WRITE_PROTECT)
    for flag in Flag:
        device.set_flag(flag)
    assert [device.read_flag(it) for it in Flag] == [False, True, True]
    device.power_cut()
    assert [device.read_flag(it) for it in Flag] == [False, True, False]
