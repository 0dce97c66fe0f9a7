"""What is there after a power cut: README's promise, whatever a stop leaves of a page."""
import pytest

from butcherford import JobKind

OLD, NEW, ZEROS = b"o" * 4096, b"n" * 4096, bytes(4096)
# A WRITE with FUA of one block at address 1 of unit 0, with task tag 1, and its data.
WRITE = bytes.fromhex("012000010000000000000000000010002a080000000100000100000000000000")
DATA = bytes.fromhex("0200000100000000000010000000000000001000000000000000000000000000") + NEW


def test_a_write_without_fua_is_lost_until_a_flush(device):
    """No die was given a job before the first cut; the second one comes behind a flush."""
    unit = device.units[0]
    unit.write(0, NEW)
    assert unit.read(0) == NEW
    device.power_cut()
    assert unit.read(0) == ZEROS
    unit.write(0, NEW)
    unit.flush()
    device.power_cut()
    assert unit.read(0) == NEW


@pytest.mark.parametrize("left, found", [({}, ZEROS), ({"new": [0]}, NEW), ({"torn": [0]}, ZEROS)])
def test_what_had_fua_is_kept_at_each_cut_of_the_next_write(left, found, device):
    """Block 0 was acknowledged. The program of block 1 is old, new or torn: it is there if it is new."""
    unit = device.units[0]
    unit.write(0, OLD, fua=True)
    device.host(WRITE)
    device.reply()
    device.host(DATA)
    job = device.take(0)
    assert job.kind is JobKind.PROGRAM and job.body == NEW
    device.power_cut(**left)
    assert device.reply() is None
    assert unit.read(0, 2) == OLD + found


def page_of(image, pages, job):
    """The page of a job of die 0 in an image, whose blocks have a byte and their pages (docs/FORMATS.md)."""
    start = 14 + job.block * (1 + pages * 4192) + 1 + job.page * 4192
    return image[start:start + 4192]


@pytest.mark.parametrize("left", ["old", "new", "torn"])
def test_the_page_that_a_cut_leaves(left, device):
    """It is blank, which is FFh, or as intended, or has the lowest bit of its check turned (docs/FORMATS.md)."""
    device.host(WRITE)
    device.reply()
    device.host(DATA)
    job = device.take(0)
    device.power_cut(new=[0] if left == "new" else [], torn=[0] if left == "torn" else [], mend=False)
    check = bytes([job.spare[64] ^ 1]) + job.spare[65:]
    wanted = {"old": b"\xff" * 4192, "new": job.body + job.spare, "torn": job.body + job.spare[:64] + check}
    assert page_of(device.image(), 16, job) == wanted[left]


def test_a_cut_between_jobs(device):
    """The page was programmed, and GOOD is due but not taken: the block is kept, the reply is not."""
    device.host(WRITE)
    device.reply()
    device.host(DATA)
    device.take(0)
    device.work(0)
    device.power_cut()
    assert device.reply() is None
    assert device.units[0].read(1) == NEW


def test_an_unmap_is_durable_behind_a_flush(device):
    unit = device.units[0]
    unit.write(0, OLD, fua=True)
    unit.unmap(0)
    device.power_cut()
    assert unit.read(0) == OLD
    unit.unmap(0)
    unit.flush()
    device.power_cut()
    assert unit.read(0) == ZEROS


def test_jobs_are_watched(device):
    """A write with FUA of two blocks is two programs, of these blocks (Pages: spare bytes 8 to 11)."""
    seen = []
    device.on_job = seen.append
    device.units[0].write(6, OLD + NEW, fua=True)
    device.on_job = None
    device.units[0].write(9, NEW, fua=True)
    programs = [it for it in seen if it.kind is JobKind.PROGRAM]
    assert [(it.body, it.spare[8:12].hex()) for it in programs] == [(OLD, "00000006"), (NEW, "00000007")]


@pytest.mark.every_power_cut
def test_a_write_is_there_as_a_whole_or_not_at_all(device, power_cuts):
    unit, is_done = device.units[0], False
    unit.write(0, OLD * 4, fua=True)
    with power_cuts:
        unit.write(0, NEW * 4, fua=True)
        is_done = True
    assert unit.read(0, 4) in ((NEW * 4,) if is_done else (OLD * 4, NEW * 4))


@pytest.mark.every_power_cut
def test_an_rpmb_write_and_its_count_go_together(device, power_cuts):
    region, is_done = device.rpmb(0, b"k" * 32), False
    region.program_key()
    with power_cuts:
        region.write(0, NEW[:2048])
        is_done = True
    found = region.counter(), region.read(0, 8)
    assert found == (1, NEW[:2048]) or (not is_done and found == (0, ZEROS[:2048]))


@pytest.mark.every_power_cut
def test_a_setting_is_old_or_new(device, power_cuts):
    is_done = False
    with power_cuts:
        device.write_attribute(0, 1)
        is_done = True
    assert device.read_attribute(0) in ((1,) if is_done else (0, 1))
