"""The NBD server of examples/block, by the bytes of the NBD protocol document."""
import socket
import struct

import pytest
from block_server import servers

OPTION_MAGIC, REPLY_MAGIC = b"IHAVEOPT", 0x3E889045565A9
REQUEST_MAGIC, SIMPLE_MAGIC = 0x25609513, 0x67446698
EXPORT_NAME, ABORT, LIST, INFO, GO, STRUCTURED_REPLY = 1, 2, 3, 6, 7, 8
ACK, SERVER, INFORMED, UNSUPPORTED, UNKNOWN = 1, 2, 3, 0x80000001, 0x80000006
READ, WRITE, FLUSH, TRIM, RESIZE = 0, 1, 3, 4, 8
FUA = 1
EINVAL, ENOSPC = 22, 28
BLOCK = 4096
# HAS_FLAGS, SEND_FLUSH, SEND_FUA, SEND_TRIM and CAN_MULTI_CONN.
FLAGS = 1 | 4 | 8 | 32 | 256


@pytest.fixture
def start():
    with servers("nbd_server.py", "--units", "64,32") as begin:
        yield begin


class Client:
    """A connection that is in the handshake, with the fixed newstyle and without the zeroes."""

    def __init__(self, server, flags=3):
        self.link = socket.create_connection(("127.0.0.1", server.port), timeout=60)
        assert self.exactly(18) == b"NBDMAGIC" + OPTION_MAGIC + b"\0\3"
        self.link.sendall(struct.pack(">I", flags))

    def exactly(self, count):
        came = b""
        while len(came) < count:
            part = self.link.recv(count - len(came))
            if not part:
                raise ConnectionError("closed")
            came += part
        return came

    def option(self, option, data=b""):
        self.link.sendall(OPTION_MAGIC + struct.pack(">II", option, len(data)) + data)

    def told(self, option):
        """The type and the data of a reply to this option."""
        magic, number, kind, length = struct.unpack(">QIII", self.exactly(20))
        assert (magic, number) == (REPLY_MAGIC, option)
        return kind, self.exactly(length)

    def go(self, name=b"unit0", option=GO):
        """What GO, or INFO, tells, up to its last reply."""
        self.option(option, struct.pack(">I", len(name)) + name + b"\0\0")
        told = [self.told(option)]
        while told[-1][0] == INFORMED:
            told.append(self.told(option))
        return told

    def ask(self, kind, offset=0, length=0, data=b"", flags=0, cookie=b"12345678"):
        """A request, and the error and the data of its simple reply."""
        header = (REQUEST_MAGIC, flags, kind, cookie, offset, length or len(data))
        self.link.sendall(struct.pack(">IHH8sQI", *header) + data)
        magic, error, told = struct.unpack(">II8s", self.exactly(16))
        assert (magic, told) == (SIMPLE_MAGIC, cookie)
        return error, self.exactly(length) if kind == READ and not error else b""


def test_the_handshake(start):
    """LIST, an option that is not there, INFO of no export, and GO: size, flags and block sizes."""
    client = Client(start())
    client.option(LIST)
    assert [client.told(LIST) for _ in range(3)] == [
        (SERVER, b"\0\0\0\5unit0"), (SERVER, b"\0\0\0\5unit1"), (ACK, b"")]
    client.option(STRUCTURED_REPLY)
    assert client.told(STRUCTURED_REPLY)[0] == UNSUPPORTED
    assert client.go(b"unit2", INFO) == [(UNKNOWN, b"")]
    assert client.go(b"unit1") == [(INFORMED, struct.pack(">HQH", 0, 32 * BLOCK, FLAGS)),
                                   (INFORMED, struct.pack(">HIII", 3, BLOCK, BLOCK, 1 << 25)), (ACK, b"")]
    assert client.ask(READ, 0, BLOCK) == (0, bytes(BLOCK))


def test_the_old_way_in(start):
    """EXPORT_NAME has no reply but the size and the flags, and 124 zeroes where they are not declined."""
    client = Client(start(), flags=1)
    client.option(EXPORT_NAME, b"")
    assert client.exactly(134) == struct.pack(">QH", 64 * BLOCK, FLAGS) + bytes(124)
    assert client.ask(READ, 0, BLOCK) == (0, bytes(BLOCK))


def test_an_abort_is_answered(start):
    client = Client(start())
    client.option(ABORT)
    assert client.told(ABORT) == (ACK, b"")
    assert client.link.recv(1) == b""


def test_blocks_and_trims(start):
    """A write of 40 blocks is more than the device takes at once with 64 slots."""
    client = Client(start("--slots", "64"))
    client.go()
    data = b"".join(bytes([number]) * BLOCK for number in range(40))
    assert client.ask(WRITE, BLOCK, data=data, flags=FUA) == (0, b"")
    assert client.ask(READ, BLOCK, len(data)) == (0, data)
    assert client.ask(TRIM, 2 * BLOCK, BLOCK) == (0, b"")
    assert client.ask(FLUSH) == (0, b"")
    assert client.ask(READ, BLOCK, 3 * BLOCK) == (0, data[:BLOCK] + bytes(BLOCK) + data[2 * BLOCK:3 * BLOCK])


def test_what_is_refused(start):
    """No whole blocks, past the end, and a request that is not there."""
    client = Client(start())
    client.go()
    assert client.ask(READ, 512, BLOCK)[0] == EINVAL
    assert client.ask(WRITE, 0, data=b"x" * 512)[0] == EINVAL
    assert client.ask(WRITE, 64 * BLOCK, data=b"x" * BLOCK)[0] == ENOSPC
    assert client.ask(READ, 63 * BLOCK, 2 * BLOCK)[0] == EINVAL
    assert client.ask(RESIZE)[0] == EINVAL
    assert client.ask(READ, 0, BLOCK) == (0, bytes(BLOCK))


def test_parts_of_blocks(start):
    """With the least block of 1 what is around the written bytes stays."""
    client = Client(start("--least-block", "1"))
    assert client.go()[1] == (INFORMED, struct.pack(">HIII", 3, 1, BLOCK, 1 << 25))
    client.ask(WRITE, 0, data=b"o" * 3 * BLOCK)
    assert client.ask(WRITE, BLOCK - 3, data=b"n" * (BLOCK + 5)) == (0, b"")
    wanted = b"o" * (BLOCK - 3) + b"n" * (BLOCK + 5) + b"o" * (BLOCK - 2)
    assert client.ask(READ, 0, 3 * BLOCK) == (0, wanted)
    assert client.ask(READ, BLOCK - 4, 5) == (0, b"onnnn")


def test_nonsense_closes_its_connection_alone(start):
    server = start()
    client, other = Client(server), Client(server)
    other.link.sendall(bytes(64))
    assert other.link.recv(1) == b""
    client.go()
    assert client.ask(READ, 0, BLOCK) == (0, bytes(BLOCK))


@pytest.mark.parametrize("left, found", [("old", b"o"), ("new", b"n"), ("torn", b"o")])
def test_the_power_goes_inside_the_job_of_a_write(left, found, start):
    """The block had FUA, and is written again: the program of that is old, new or torn. The write is not
    answered."""
    server = start("--control")
    client = Client(server)
    client.go()
    client.ask(WRITE, 0, data=b"o" * BLOCK, flags=FUA)
    server.say(f"cut {left} 1")
    with pytest.raises(ConnectionError):
        for _ in range(1000):
            client.ask(READ, 0, BLOCK)
            client.ask(WRITE, 0, data=b"n" * BLOCK, flags=FUA)
    assert server.line().startswith(f"cut {left}: die ")
    again = Client(server)
    again.go()
    assert again.ask(READ, 0, BLOCK) == (0, found * BLOCK)


def test_what_a_cut_loses(start):
    """With lazy dies a write is lost, unless it has FUA or a flush came behind it."""
    server = start("--control", "--lazy")
    client = Client(server)
    client.go()
    client.ask(WRITE, 0, data=b"f" * BLOCK, flags=FUA)
    client.ask(WRITE, BLOCK, data=b"n" * BLOCK)
    assert cut(server).ask(READ, 0, 2 * BLOCK) == (0, b"f" * BLOCK + bytes(BLOCK))
    client = Client(server)
    client.go()
    client.ask(WRITE, BLOCK, data=b"n" * BLOCK)
    client.ask(FLUSH)
    assert cut(server).ask(READ, BLOCK, BLOCK) == (0, b"n" * BLOCK)


def cut(server):
    """Cuts the power while no die works, and gives a new client."""
    server.say("cut")
    assert server.line() == "cut old: no job\n"
    client = Client(server)
    client.go()
    return client
