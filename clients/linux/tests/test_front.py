"""The front between a controller and a device that keeps what it was told."""
import dataclasses
from types import SimpleNamespace

import pytest

from dies import Cut, Dies, PowerFailed
from butcherford import Job, JobKind
from front import Front
from transfers import Buffer, Status, Transfer, TransferFault

WRITE = bytes.fromhex("01200001000000000000000000001000 2a000000000000000100000000000000")
# VERIFY(10) of five blocks with BYTCHK 01 (SBC-3).
VERIFY = bytes.fromhex("01200001000000000000000000005000 2f020000000000000500000000000000")
READY = bytes.fromhex("31000001000000000000000000000000 00001000") + bytes(12)
GOOD = bytes.fromhex("21000001") + bytes(28)
# The first READ(10) of a block behind an opening, and CHECK CONDITION 6/29/00 with an underflow of 1000h bytes
# (JESD220, 10.7.2; SPC-4, sense data).
READ = bytes.fromhex("01400001000000000000000000001000 28000000000000000100000000000000")
ATTENTION = bytes.fromhex("21200001000001020000001400001000") + bytes(16) \
    + bytes.fromhex("0012 700006000000000a00000000290000000000")
# JESD220, 10.7.6 and 10.7.7: abort task, with tag 1 of its own, of the task with tag 1; and its response.
ABORT = bytes.fromhex("04000001000100000000000000000000 00000001") + bytes(12)
ABORTED = bytes.fromhex("2400000100000000") + bytes(24)
# FORMATS, LINK EVENT: the controller was reset.
LINK_RESET = bytes.fromhex("1f0000000002") + bytes(26)
# JESD220, 10.7.9: 255 bytes of the descriptor GEOMETRY (07h), with tag 1; the first four of 72 that come.
GEOMETRY = bytes.fromhex("16000001000100000000000001070000000000ff") + bytes(12)
TOLD = bytes.fromhex("3600000100010000000000040107000000000004") + bytes(12) + bytes.fromhex("48070000")
# SPC-4: MODE SENSE(10) of page 08h, of which Linux has room for 28 bytes; 12h 01h is INQUIRY for page B0h.
MODE_SENSE = bytes.fromhex("0140000100000000000000000000001c 5a080800000000001c00000000000000")
MODES = bytes.fromhex("001a001000000000081204") + bytes(17)
LIMITS = bytes.fromhex("01400001000000000000000000000040 1201b000400000000000000000000000")
# SBC-3: UNMAP with a list of 24 bytes, and the list: 5 blocks from 100h on.
UNMAP = bytes.fromhex("01200001000000000000000000000018 42000000000000001800000000000000")
UNMAP_LIST = bytes.fromhex("0016001000000000 0000000000000100 00000005 00000000")


class Device:
    """A device whose replies are those of a list."""

    def __init__(self):
        self.units, self.dies = [SimpleNamespace(blocks=64)], 1
        self.heard, self.replies, self.jobs, self.worked = [], [], [], []

    def host(self, message):
        self.heard.append(message)

    def link_event(self):
        self.heard.append(LINK_RESET)
        self.replies = []

    def reply(self):
        return self.replies.pop(0) if self.replies else None

    def turn(self):
        return False

    def take(self, die):
        return self.jobs[die].pop(0) if self.jobs and self.jobs[die] else None

    def work(self, die):
        self.worked.append(die)


class Controller:
    """A controller that keeps what ended."""

    def __init__(self):
        self.ended, self.managed = [], []

    def finish(self, transfer, response, status=Status.SUCCESS):
        self.ended.append((transfer.slot, response, status))

    def finish_management(self, slot, response, status=Status.SUCCESS):
        self.managed.append((slot, response, status))


@pytest.fixture
def bench(memory):
    device, controller = Device(), Controller()
    front = Front(device, Dies(device), controller, memory, most_kept=4)
    return SimpleNamespace(device=device, controller=controller, front=front, memory=memory)


def transfer_of(buffers, request=WRITE):
    return Transfer(7, 0x10000, request, 0x11000, 512, buffers)


@pytest.mark.parametrize("request_of_linux", [GEOMETRY, MODE_SENSE, LIMITS])
def test_the_front_answers_nothing_itself(bench, request_of_linux):
    bench.front.begin(transfer_of([Buffer(0x12000, 4096)], request_of_linux))
    assert bench.device.heard == [request_of_linux] and bench.controller.ended == []


def test_the_answer_of_a_query_is_handed_on(bench):
    bench.front.begin(transfer_of([], GEOMETRY))
    bench.device.replies = [TOLD]
    bench.front.work()
    assert bench.controller.ended == [(7, TOLD, Status.SUCCESS)]


def test_an_attention_is_handed_on(bench):
    """The host is told, and repeats the command or not."""
    bench.front.begin(transfer_of([Buffer(0x12000, 4096)], READ))
    bench.device.replies = [ATTENTION]
    bench.front.work()
    assert bench.device.heard == [READ] and bench.controller.ended == [(7, ATTENTION, Status.SUCCESS)]


def test_what_a_command_tells_goes_to_its_buffers(bench):
    """JESD220, 10.7.3: a DATA IN of 28 bytes from offset 0 on, for two buffers of 16 and 12 bytes."""
    bench.front.begin(transfer_of([Buffer(0x12000, 16), Buffer(0x13000, 12)], MODE_SENSE))
    data_in = bytes.fromhex("22000001000000000000001c00000000 0000001c") + bytes(12) + MODES
    bench.device.replies = [data_in, GOOD]
    bench.front.work()
    assert bench.memory.read(0x12000, 16) + bench.memory.read(0x13000, 12) == MODES
    assert bench.controller.ended == [(7, GOOD, Status.SUCCESS)]


def test_the_dies_work_once_much_is_in_the_write_cache_alone(bench):
    """Four blocks may be. An UNMAP of five has one list, which goes to the device."""
    bench.memory.write(0x12000, UNMAP_LIST)
    bench.device.jobs = [[Job(JobKind.PROGRAM, 0, 5, page, b"", b"") for page in range(2)]]
    bench.front.begin(transfer_of([Buffer(0x12000, 24)], UNMAP))
    bench.device.replies = [READY[:16] + bytes.fromhex("00000018") + bytes(12), GOOD]
    bench.front.work()
    assert bench.device.heard[-1][32:] == UNMAP_LIST
    assert bench.controller.ended == [(7, GOOD, Status.SUCCESS)] and bench.device.worked == [0, 0]


def test_what_a_verify_compares_is_not_in_the_write_cache(bench):
    """Its host sends five blocks, and four may be there."""
    bench.memory.write(0x12000, b"d" * 5 * 4096)
    bench.device.jobs = [[Job(JobKind.PROGRAM, 0, 5, 0, b"", b"")]]
    bench.front.begin(transfer_of([Buffer(0x12000, 5 * 4096)], VERIFY))
    bench.device.replies = [READY[:12] + (4096 * at).to_bytes(4, "big") + READY[16:] for at in range(5)] + [GOOD]
    bench.front.work()
    assert [len(it) for it in bench.device.heard] == [32] + [32 + 4096] * 5
    assert bench.controller.ended == [(7, GOOD, Status.SUCCESS)] and bench.device.worked == []


def test_a_write_brings_its_data(bench):
    bench.memory.write(0x12000, b"d" * 4096)
    bench.front.begin(transfer_of([Buffer(0x12000, 4096)]))
    bench.device.replies = [READY, GOOD]
    bench.front.work()
    header = bytes.fromhex("02000001000000000000100000000000 00001000") + bytes(12)
    assert bench.device.heard == [WRITE, header + b"d" * 4096]
    assert bench.controller.ended == [(7, GOOD, Status.SUCCESS)]


def test_a_write_without_memory_ends_and_is_aborted(bench):
    """The buffers have 512 bytes. The host hears of it, and the device gives up the task."""
    bench.front.begin(transfer_of([Buffer(0x12000, 512)]))
    bench.device.replies = [READY]
    bench.front.work()
    assert bench.controller.ended == [(7, b"", Status.MISMATCHED_DATA_SIZE)]
    aborted = bench.device.heard[-1]
    assert (aborted[0], aborted[5], aborted[15], aborted[19]) == (0x04, 0x01, 0, 1)


def test_task_management_has_tags_of_its_own(bench):
    """Tag 1 is a command's too: the device has both, and answers both."""
    bench.memory.write(0x12000, b"d" * 4096)
    bench.front.begin(transfer_of([Buffer(0x12000, 4096)]))
    bench.front.manage(1, ABORT)
    bench.device.replies = [ABORTED, READY, GOOD]
    bench.front.work()
    assert ABORT in bench.device.heard
    assert bench.controller.managed == [(1, ABORTED, Status.SUCCESS)]
    assert bench.controller.ended == [(7, GOOD, Status.SUCCESS)]


@pytest.mark.parametrize("code", [0x02, 0x04, 0x1F, 0x20])
def test_a_transfer_has_a_code_of_a_host(bench, code):
    transfer = transfer_of([Buffer(0x12000, 4096)])
    with pytest.raises(TransferFault):
        bench.front.begin(dataclasses.replace(transfer, request=bytes([code]) + transfer.request[1:]))
    assert bench.device.heard == []


def test_a_reset_ends_what_is_open(bench):
    """The device hears of it, and answers nothing more."""
    bench.front.begin(transfer_of([Buffer(0x12000, 4096)]))
    bench.device.replies = [READY, GOOD]
    bench.front.reset()
    bench.front.work()
    assert bench.controller.ended == []
    assert bench.device.heard == [WRITE, LINK_RESET]


def test_the_power_fails_inside_the_program_that_is_named():
    """Of two programs in flight the second one is named: it is torn, the other one is the next kind, old."""
    device = Device()
    device.dies = 2
    device.jobs = [[Job(JobKind.PROGRAM, die, 5, 6, b"", b"")] for die in range(2)]
    with pytest.raises(PowerFailed) as failed:
        Dies(device, Cut(2, "torn")).round()
    assert [job.die for job in failed.value.jobs] == [1, 0] and failed.value.lefts == ["torn", "old"]
    assert device.worked == []


def test_the_power_fails_inside_the_next_erase():
    device = Device()
    device.jobs = [[Job(JobKind.PROGRAM, 0, 5, page, b"", b"") for page in range(3)]
                   + [Job(JobKind.ERASE, 0, 7, 0, b"", b"")]]
    dies = Dies(device, Cut(2, "old", is_in_erase=True))
    assert [dies.round() for _ in range(3)] == [True] * 3
    with pytest.raises(PowerFailed) as failed:
        dies.round()
    assert str(failed.value) == "erase of block 7: die 0 old" and dies.erases == [4]
