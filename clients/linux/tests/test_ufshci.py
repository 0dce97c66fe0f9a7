"""The registers of JESD223 as a driver uses them: offsets and bits are written out as the standard says."""
import pytest

from ufshci import Controller

CAP, VER, IS, IE, HCS, HCE = 0x00, 0x08, 0x20, 0x24, 0x30, 0x34
UTRLBA, UTRLDBR, UTRLCLR = 0x50, 0x58, 0x5C
UICCMD, ARGUMENT_1, ARGUMENT_2, ARGUMENT_3 = 0x90, 0x94, 0x98, 0x9C
DME_GET, DME_SET, LINK_STARTUP = 0x01, 0x02, 0x16
UTRCS, UPMS, UCCS = 1 << 0, 1 << 4, 1 << 10
LIST, COMMAND = 0x10000, 0x11000
# A NOP OUT with tag 2 (JESD220, 10.7.11), whose response has room behind it and which has no PRDT.
UTRD = bytes.fromhex("00000001 00000000 0f000000 00000000 00100100 00000000 08000800 00000000")
NOP = bytes.fromhex("00000002") + bytes(28)
NOP_IN = bytes.fromhex("20000002") + bytes(28)


class Port:
    """A port that keeps what it was told."""

    def __init__(self):
        self.begun, self.dropped, self.resets = [], [], 0

    def begin(self, transfer):
        self.begun.append(transfer)

    def drop(self, slot):
        self.dropped.append(slot)

    def reset(self):
        self.resets += 1


@pytest.fixture
def raised():
    return []


@pytest.fixture
def controller(memory, raised):
    found = Controller(memory, lambda: raised.append(True))
    found.port = Port()
    return found


def enable(controller):
    controller.write(HCE, 0)
    controller.write(HCE, 1)
    controller.write(UICCMD, LINK_STARTUP)
    controller.write(IS, 0xFFFFFFFF)


def test_it_says_what_it_is(controller):
    """32 slots, 8 of task management, 64 bits of addresses; version 2.1."""
    assert (controller.read(CAP), controller.read(VER)) == (0x0107001F, 0x0210)
    controller.write(CAP, 0)
    assert controller.read(CAP) == 0x0107001F


def test_the_link_starts_after_a_reset(controller, raised):
    """HCE is 1 at once and UIC commands are taken; after the link's start there are both lists."""
    controller.write(IE, UCCS)
    controller.write(HCE, 0)
    assert (controller.read(HCE), controller.read(HCS), controller.read(IE)) == (0, 0, 0)
    controller.write(HCE, 1)
    assert (controller.read(HCE), controller.read(HCS)) == (1, 0x8)
    controller.write(IE, UCCS)
    controller.write(UICCMD, LINK_STARTUP)
    assert (controller.read(HCS), controller.read(IS), controller.read(ARGUMENT_2)) == (0xF, UCCS, 0)
    assert raised == [True] and controller.port.resets == 1


def test_a_bit_of_is_is_cleared_by_a_one(controller):
    controller.write(UICCMD, LINK_STARTUP)
    controller.write(IS, UTRCS)
    assert controller.read(IS) == UCCS
    controller.write(IS, UCCS)
    assert controller.read(IS) == 0


def test_a_bit_that_ie_lets_through_later_raises_the_line(controller, raised):
    controller.write(UICCMD, LINK_STARTUP)
    assert raised == []
    controller.write(IE, UCCS)
    assert raised == [True]


def test_the_power_mode_changes(controller):
    """DME_SET of PA_PWRMode (1571h): UPMS, and the field UPMCRS (bits 10 to 8 of HCS) is 1."""
    enable(controller)
    controller.write(ARGUMENT_1, 0x15710000)
    controller.write(ARGUMENT_3, 0x11)
    controller.write(UICCMD, DME_SET)
    assert controller.read(IS) == UCCS | UPMS and controller.read(HCS) >> 8 & 7 == 1
    controller.write(ARGUMENT_3, 0)
    controller.write(UICCMD, DME_GET)
    assert controller.read(ARGUMENT_3) == 0x11


def test_a_doorbell_rings_until_its_transfer_ends(controller, memory):
    enable(controller)
    memory.write(LIST + 32 * 2, UTRD)
    memory.write(COMMAND, NOP)
    controller.write(UTRLBA, LIST)
    controller.write(UTRLDBR, 1 << 2)
    transfer, = controller.port.begun
    assert transfer.request == NOP and controller.read(UTRLDBR) == 1 << 2
    controller.write(UTRLDBR, 1 << 2)
    assert len(controller.port.begun) == 1
    controller.finish(transfer, NOP_IN)
    assert (controller.read(UTRLDBR), controller.read(IS)) == (0, UTRCS)
    assert memory.read(COMMAND + 32, 32) == NOP_IN and memory.read(LIST + 32 * 2 + 8, 1) == b"\0"


def test_a_zero_in_utrlclr_clears_its_slot(controller, memory):
    enable(controller)
    memory.write(LIST, UTRD)
    memory.write(COMMAND, NOP)
    controller.write(UTRLBA, LIST)
    controller.write(UTRLDBR, 1)
    controller.write(UTRLCLR, 0xFFFFFFFE)
    assert controller.port.dropped == [0] and controller.read(UTRLDBR) == 0
