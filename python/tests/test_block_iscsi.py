"""The iSCSI target of examples/block, by the bytes of RFC 7143: section 11 has the offsets in a header."""
import signal
import socket

import pytest
from block_server import servers

NAME = b"iqn.2020-01.example:butcherford"
COMMAND, TASK_MANAGEMENT, LOGIN, TEXT, DATA_OUT = 0x01, 0x02, 0x03, 0x04, 0x05
ANSWER, MANAGED, LOGIN_ANSWER, TEXT_ANSWER, TO_TRANSFER, REJECT = 0x21, 0x22, 0x23, 0x24, 0x31, 0x3F
READ, WRITE, FINAL = 0x40, 0x20, 0x80
NO_TAG = b"\xff" * 4
BLOCK = 4096
# Of block addresses and counts; FUA is bit 3 of byte 1 (SBC-3).
READ_10 = "28 00 {:08x} 00 {:04x} 00"
WRITE_10 = "2a {:02x} {:08x} 00 {:04x} 00"
# SPC-4: INQUIRY for page 80h, the serial number. SBC-3: READ CAPACITY(16), and READ(16), whose address has
# eight bytes.
SERIAL, CAPACITY = "12 01 80 00 40 00", "9e 10" + "00" * 11 + "20 00 00"
READ_16 = "88 00 {:016x} {:08x} 00 00"
# SPC-4: TEST UNIT READY, INQUIRY, and REQUEST SENSE with room for so many bytes.
READY, INQUIRY, SENSE = "00", "12 00 00 00 24 00", "03 00 00 00 {:02x} 00"
# The functions of task management (RFC 7143, 11.5.1).
CLEAR_TASK_SET, RESET_UNIT, WARM_RESET = 4, 5, 6
# Sense data of 6/29/00, with their length before them.
ATTENTION = bytes.fromhex("0012 700006000000000a00000000290000000000")
# The units of the fixtures, and the LUNs of the well-known ones.
LUNS = (0, 1, 0xC101, 0xC130, 0xC144, 0xC150)


class Initiator:
    """A connection to the target, which has logged in by one request of the operational stage."""

    def __init__(self, target, keys=()):
        self.link = socket.create_connection(("127.0.0.1", target.port), timeout=60)
        self.number = self.tag = 0
        own = (b"InitiatorName=iqn.2020-01.example:test", b"TargetName=" + NAME)
        text = b"".join(it + b"\0" for it in (*own, *keys))
        header = bytearray(48)
        header[0:2] = 0x40 | LOGIN, 0x87
        self.send(header, text)
        self.answer, self.keys = self.hear()

    def send(self, header, data=b""):
        header[5:8] = len(data).to_bytes(3, "big")
        self.link.sendall(bytes(header) + data + bytes(-len(data) % 4))

    def hear(self):
        header = self.exactly(48)
        length = int.from_bytes(header[5:8], "big")
        return header, self.exactly(length + -length % 4)[:length]

    def exactly(self, count):
        came = b""
        while len(came) < count:
            part = self.link.recv(count - len(came))
            if not part:
                raise ConnectionError("closed")
            came += part
        return came

    def header(self, opcode, flags, is_counted=True):
        """A header with a new tag, and the next number of a command."""
        self.tag += 1
        header = bytearray(48)
        header[0:2] = opcode, flags
        header[16:20] = self.tag.to_bytes(4, "big")
        header[24:28] = self.number.to_bytes(4, "big")
        self.number += is_counted
        return header

    def command(self, cdb, direction=0, expected=0, data=b"", lun=0):
        """A SCSI command with immediate data."""
        header = self.header(COMMAND, FINAL | direction)
        header[8:10] = lun.to_bytes(2, "big")
        header[20:24] = expected.to_bytes(4, "big")
        cdb = bytes.fromhex(cdb)
        header[32:32 + len(cdb)] = cdb
        self.send(header, data)

    def data_out(self, asked, number, offset, data, is_final=True):
        header = bytearray(48)
        header[0:2] = DATA_OUT, FINAL if is_final else 0
        header[16:24] = asked[16:24]
        header[36:44] = number.to_bytes(4, "big") + offset.to_bytes(4, "big")
        self.send(header, data)

    def manage(self, function, lun=0):
        """The response to a function of task management."""
        header = self.header(TASK_MANAGEMENT, FINAL | function)
        header[8:10] = lun.to_bytes(2, "big")
        self.send(header)
        told, _ = self.hear()
        assert told[0] == MANAGED
        return told[2]

    def ready(self, lun=0):
        """What a TEST UNIT READY is refused with; nothing if it is answered GOOD."""
        self.command(READY, lun=lun)
        flags, status, residual, told = self.status()
        assert (flags, residual, status) == (FINAL, 0, 2 if told else 0)
        return told

    def status(self):
        """The SCSI Response that comes next: flags and status, the residual, and what stands behind its
        length."""
        header, data = self.hear()
        assert header[0] == ANSWER and header[2] == 0
        return header[1], header[3], int.from_bytes(header[44:48], "big"), data


@pytest.fixture
def start():
    with servers("iscsi_target.py", "--units", "64,32") as begin:
        yield begin


@pytest.fixture
def target(start):
    return start()


@pytest.fixture
def initiator(target):
    return Initiator(target, (b"InitialR2T=No", b"ImmediateData=Yes", b"HeaderDigest=CRC32C,None",
                              b"X-other=1", b"MaxRecvDataSegmentLength=2048"))


def test_a_login_is_answered(initiator):
    """The status is 0, the handle is not, and each key is answered by its own function (section 13)."""
    header, keys = initiator.answer, initiator.keys.split(b"\0")
    assert header[0:2] == bytes([LOGIN_ANSWER, 0x87])
    assert header[36:38] == b"\0\0" and header[14:16] != b"\0\0"
    for key in (b"InitialR2T=Yes", b"ImmediateData=Yes", b"HeaderDigest=None", b"X-other=NotUnderstood"):
        assert key in keys


def test_another_name_is_refused(target):
    """Status 0203h: not found. The target goes on."""
    link = Initiator(target, (b"TargetName=iqn.2020-01.example:other",))
    assert link.answer[36:38] == b"\x02\x03"
    assert Initiator(target).answer[36:38] == b"\0\0"


def test_targets_are_told(initiator, target):
    initiator.send(initiator.header(TEXT, FINAL), b"SendTargets=All\0")
    header, text = initiator.hear()
    assert header[0:2] == bytes([TEXT_ANSWER, FINAL])
    assert text == b"TargetName=" + NAME + b"\0TargetAddress=127.0.0.1:%d,1\0" % target.port


def test_blocks_go_out_and_come_back(initiator):
    """Half a block is immediate: an R2T asks for what is left. Data-In is in PDUs of the 2048 bytes of the
    login."""
    data = b"a" * BLOCK + b"b" * BLOCK
    initiator.command(WRITE_10.format(8, 5, 2), WRITE, len(data), data[:2048])
    asked, _ = initiator.hear()
    assert asked[0] == TO_TRANSFER and asked[40:48] == (2048).to_bytes(4, "big") + (6144).to_bytes(4, "big")
    initiator.data_out(asked, 0, 2048, data[2048:3000], is_final=False)
    initiator.data_out(asked, 1, 3000, data[3000:])
    assert initiator.status() == (FINAL, 0, 0, b"")
    initiator.command(READ_10.format(5, 2), READ, len(data))
    parts = [initiator.hear() for _ in range(4)]
    assert [int.from_bytes(header[40:44], "big") for header, _ in parts] == [0, 2048, 4096, 6144]
    assert [header[1] for header, _ in parts] == [0, 0, 0, FINAL]
    assert b"".join(part for _, part in parts) == data
    assert initiator.status() == (FINAL, 0, 0, b"")


def test_a_refusal_has_the_sense_data_of_the_device(initiator):
    """READ(10) past the end: CHECK CONDITION, 5/21/00, and an underflow of all bytes (FORMATS, Residuals)."""
    initiator.command(READ_10.format(64, 1), READ, BLOCK)
    told = bytes.fromhex("0012 700005000000000a00000000210000000000")
    assert initiator.status() == (FINAL | 0x02, 2, BLOCK, told)


def test_residuals(initiator):
    """One block is read with room for 5000 bytes, and with room for 100."""
    initiator.command(READ_10.format(0, 1), READ, 5000)
    assert len(initiator.hear()[1]) + len(initiator.hear()[1]) == BLOCK
    assert initiator.status() == (FINAL | 0x02, 0, 5000 - BLOCK, b"")
    initiator.command(READ_10.format(0, 1), READ, 100)
    assert len(initiator.hear()[1]) == 100
    assert initiator.status() == (FINAL | 0x04, 0, BLOCK - 100, b"")


def test_units(initiator):
    """REPORT LUNS tells both units; READ CAPACITY(10) of unit 1 its last address. No unit 2: 5/25/00. The
    well-known unit C1h 50h (UFS DEVICE) is ready."""
    initiator.command("a0 00 00 00 00 00 00 00 00 ff 00 00", READ, 255)
    assert initiator.hear()[1].hex() == "00000010" + "00000000" + "0000000000000000" + "0001000000000000"
    initiator.status()
    initiator.command("25", READ, 8, lun=1)
    assert initiator.hear()[1].hex() == "0000001f00001000"
    initiator.status()
    initiator.command("00", lun=2)
    assert initiator.status()[3][14:16] == b"\x25\0"
    for lun in (2, 8, 0xC102, 0x0100):
        initiator.command(INQUIRY, READ, 36, lun=lun)
        assert initiator.hear()[1][:8].hex() == "7f0006021f000002"
        assert initiator.status()[1] == 0
    assert [initiator.ready(lun) for lun in LUNS] == [b""] * len(LUNS)


def test_the_device_tells_of_itself(start):
    """It has profile 1: the serial number 1234h, the last address 3Fh, and blocks of 1000h bytes. With profile 0
    it refuses both commands, by 5/24/00 and 5/20/00."""
    initiator = Initiator(start("--serial", str(0x1234)))
    initiator.command(SERIAL, READ, 64)
    assert initiator.hear()[1] == b"\0\x80\0\x10" b"0000000000001234"
    assert initiator.status()[1] == 0
    initiator.command(CAPACITY, READ, 32)
    assert initiator.hear()[1].hex() == "000000000000003f" "00001000" "0000c0" + "00" * 17
    assert initiator.status()[1] == 0
    initiator = Initiator(start("--profile", "0"))
    for cdb, code in ((SERIAL, 0x24), (CAPACITY, 0x20)):
        initiator.command(cdb, READ, 64)
        assert initiator.status()[3][14:16] == bytes([code, 0])


def test_a_long_command_is_split(start):
    """A command of this device has at most 32 blocks. Unit 0 has 64: the last part of a READ that goes on behind
    them is refused by 5/21/00, and nothing came of it. The first part meets an attention for all of them. A
    target that splits nothing answers 5/24/00."""
    initiator = Initiator(start("--slots", "64", "--split"))
    initiator.command(READ_16.format(8, 40), READ, 40 * BLOCK)
    assert b"".join(initiator.hear()[1] for _ in range(40)) == bytes(40 * BLOCK)
    assert initiator.status() == (FINAL, 0, 0, b"")
    initiator.command(READ_16.format(30, 40), READ, 40 * BLOCK)
    assert initiator.status()[3][14:16] == b"\x21\0"
    assert initiator.manage(RESET_UNIT) == 0
    initiator.command(READ_16.format(8, 40), READ, 40 * BLOCK)
    assert initiator.status() == (FINAL | 0x02, 2, 40 * BLOCK, ATTENTION)
    initiator = Initiator(start("--slots", "64"))
    initiator.command(READ_16.format(8, 40), READ, 40 * BLOCK)
    assert initiator.status()[3][14:16] == b"\x24\0"


def test_data_that_were_not_asked_for_end_the_command(initiator):
    """A wrong DataSN: a Reject, and ABORTED COMMAND 0C/0D, incorrect amount of data (11.4.7.2). Nothing is
    written."""
    initiator.command(WRITE_10.format(8, 0, 1), WRITE, BLOCK)
    asked, _ = initiator.hear()
    initiator.data_out(asked, 7, 0, b"x" * BLOCK)
    assert initiator.hear()[0][0] == REJECT
    told = initiator.status()
    assert (told[1], told[3][4], told[3][14:16]) == (2, 0x0B, b"\x0c\x0d")
    initiator.command(READ_10.format(0, 1), READ, BLOCK)
    assert initiator.hear()[1] + initiator.hear()[1] == bytes(BLOCK)


def test_an_abort_ends_a_task(initiator):
    """Response 0, and the tag's task is not there any more: response 1 to the same again (11.6.1)."""
    initiator.command(WRITE_10.format(8, 0, 1), WRITE, BLOCK)
    asked, _ = initiator.hear()
    answers = []
    for _ in range(2):
        header = initiator.header(TASK_MANAGEMENT, FINAL | 1, is_counted=False)
        header[0] |= 0x40
        header[20:24] = asked[16:20]
        initiator.send(header)
        told, _ = initiator.hear()
        answers.append((told[0], told[2]))
    assert answers == [(MANAGED, 0), (MANAGED, 1)]


def test_a_reset_of_a_unit_tells_other_sessions(initiator, target):
    """The other session's task ends with TASK ABORTED (40h)."""
    other = other_of(target)
    other.command(WRITE_10.format(8, 0, 1), WRITE, BLOCK)
    other.hear()
    assert initiator.manage(RESET_UNIT) == 0
    assert other.status()[1] == 0x40


def other_of(target):
    return Initiator(target, (b"InitiatorName=iqn.2020-01.example:other",))


@pytest.mark.parametrize("is_other_first", [False, True])
def test_a_reset_leaves_each_session_an_attention(is_other_first, initiator, target):
    """The next command of each to the unit is refused by 6/29/00, whoever comes first; also a READ, of which
    nothing is sent (SAM-5, 5.14 and 6.3.3). The other units have none, and a session that comes later."""
    other = other_of(target)
    assert initiator.manage(RESET_UNIT, lun=1) == 0
    for session in (other, initiator) if is_other_first else (initiator, other):
        assert session.ready(lun=0) == b""
        session.command(READ_10.format(0, 1), READ, BLOCK, lun=1)
        assert session.status() == (FINAL | 0x02, 2, BLOCK, ATTENTION)
        assert session.ready(lun=1) == b""
    assert other_of(target).ready(lun=1) == b""


def test_which_commands_meet_an_attention(initiator, target):
    """INQUIRY and REPORT LUNS do not. REQUEST SENSE tells it as data, as many as there is room for, and it has
    ended then: the device tells it first, and then the target. A function that resets nothing sets none."""
    other = other_of(target)
    assert initiator.manage(RESET_UNIT) == 0
    for session, room, expected in ((initiator, 18, 18), (other, 14, 16)):
        session.command(INQUIRY, READ, 36)
        assert session.hear()[1][8:16] == b"PROFILE "
        assert session.status()[1] == 0
        session.command("a0 00 00 00 00 00 00 00 00 ff 00 00", READ, 255)
        assert len(session.hear()[1]) == 24 and session.status()[1] == 0
        session.command(SENSE.format(room), READ, expected)
        assert session.hear()[1] == ATTENTION[2:][:room]
        assert session.status() == (FINAL | (0x02 if room < expected else 0), 0, expected - room, b"")
        assert session.ready() == b""
    assert initiator.manage(CLEAR_TASK_SET) == 0
    assert initiator.manage(RESET_UNIT, lun=2) == 2
    assert initiator.ready() == other.ready() == b""


def test_a_reset_of_the_target_is_one_of_each_unit(tmp_path, start):
    """Well-known units too. What was not flushed before is saved at the end all the same."""
    image = tmp_path / "dies"
    words = ("--image", str(image), "--dies", "2", "--blocks", "24", "--pages", "16", "--slots", "64")
    target = start(*words, "--lazy")
    initiator, other = Initiator(target), other_of(target)
    initiator.command(WRITE_10.format(0, 3, 1), WRITE, BLOCK, b"n" * BLOCK)
    assert initiator.status()[1] == 0
    assert initiator.manage(WARM_RESET) == 0
    for session in (initiator, other):
        assert [session.ready(lun) for lun in LUNS[:-1]] == [ATTENTION] * 5
        assert [session.ready(lun) for lun in LUNS[:-1]] == [b""] * 5
    assert target.end() == f"saved {image}\n"
    initiator = Initiator(start(*words))
    assert [initiator.ready(lun) for lun in LUNS] == [b""] * len(LUNS)
    initiator.command(READ_10.format(3, 1), READ, BLOCK)
    assert initiator.hear()[1] == b"n" * BLOCK


def test_a_reset_of_profile_0_leaves_no_attention(start):
    target = start("--profile", "0")
    initiator, other = Initiator(target), other_of(target)
    assert initiator.manage(RESET_UNIT) == initiator.manage(WARM_RESET) == 0
    assert initiator.ready() == other.ready() == b""


def test_nonsense_closes_its_connection_alone(target, initiator):
    link = socket.create_connection(("127.0.0.1", target.port), timeout=60)
    link.sendall(b"GET / HTTP/1.1\r\nHost: x\r\n\r\n" + bytes(48))
    assert link.recv(1) == b""
    initiator.command("00")
    assert initiator.status()[1] == 0


def test_the_power_goes_and_the_image_is_kept(tmp_path, start):
    """What had FUA is there behind a cut, what had not is gone with the write cache, and the image has it at
    last."""
    image = tmp_path / "dies"
    target = start("--image", str(image), "--lazy")
    initiator = Initiator(target)
    initiator.command(WRITE_10.format(8, 0, 1), WRITE, BLOCK, b"f" * BLOCK)
    assert initiator.status()[1] == 0
    initiator.command(WRITE_10.format(0, 1, 1), WRITE, BLOCK, b"n" * BLOCK)
    assert initiator.status()[1] == 0
    target.process.send_signal(signal.SIGUSR1)
    with pytest.raises(ConnectionError):
        initiator.hear()
    assert target.line() == "cut old: no job\n"
    again = Initiator(target)
    assert [again.ready(lun) for lun in LUNS] == [b""] * len(LUNS)
    assert target.end() == f"saved {image}\n"
    initiator = Initiator(start("--image", str(image)))
    initiator.command(READ_10.format(0, 2), READ, 2 * BLOCK)
    assert initiator.hear()[1] == b"f" * BLOCK and initiator.hear()[1] == bytes(BLOCK)
