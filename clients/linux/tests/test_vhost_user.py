"""The socket and the queues of a guest: messages of QEMU's "Vhost-user Protocol" in their bytes."""
import os
import selectors
import socket
import struct
from types import SimpleNamespace

import pytest

from vhost_user import Connection, GuestMemory, PeerFault, Virtqueue

GET_FEATURES = struct.pack("<III", 1, 1, 0)
NEEDS_REPLY = 1 << 3


@pytest.fixture
def bench():
    here, there = socket.socketpair()
    memory = GuestMemory()
    with selectors.DefaultSelector() as selector:
        connection = Connection(there, selector, memory, lambda index: None)
        yield SimpleNamespace(peer=here, connection=connection, memory=memory,
                              step=lambda: [key.data() for key, _ in selector.select(0)])
        connection.close()
        here.close()


def test_the_features(bench):
    """Protocol features (bit 30) and version 1 of virtio (bit 32)."""
    bench.peer.sendall(GET_FEATURES)
    bench.step()
    assert bench.peer.recv(64) == struct.pack("<IIIQ", 1, 1 | 1 << 2, 8, 1 << 30 | 1 << 32)


def test_memory_comes_by_a_file(bench):
    file = os.memfd_create("memory")
    os.pwrite(file, b"here", 0x1000)
    os.truncate(file, 0x2000)
    table = struct.pack("<IIQQQQ", 1, 0, 0x70000, 0x1000, 0, 0x1000)
    message = struct.pack("<III", 5, 1 | NEEDS_REPLY, len(table)) + table
    socket.send_fds(bench.peer, [message], [file])
    os.close(file)
    bench.step()
    assert bench.peer.recv(64) == struct.pack("<IIIQ", 5, 1 | 1 << 2, 8, 0)
    assert bench.memory.read(0x70000, 4) == b"here"
    with pytest.raises(PeerFault):
        bench.memory.read(0x70FFF, 2)


def test_a_message_that_nobody_knows_is_refused(bench, capsys):
    bench.peer.sendall(struct.pack("<III", 99, 1 | NEEDS_REPLY, 0))
    bench.step()
    assert bench.peer.recv(64) == struct.pack("<IIIQ", 99, 1 | 1 << 2, 8, 1)
    assert "message 99" in capsys.readouterr().err


def test_a_message_that_is_too_long_ends_the_connection(bench):
    bench.peer.sendall(struct.pack("<III", 5, 1, 1 << 30))
    with pytest.raises(PeerFault):
        bench.step()


def test_a_chain_without_an_end(memory):
    """Descriptor 0 goes on at descriptor 0."""
    queue = Virtqueue(memory)
    queue.size, queue.descriptors, queue.available, queue.used = 4, 0x10000, 0x11000, 0x12000
    memory.write(0x10000, struct.pack("<QIHH", 0x13000, 16, 1, 0))
    memory.write(0x11000, struct.pack("<HHH", 0, 1, 0))
    with pytest.raises(PeerFault):
        queue.take()
