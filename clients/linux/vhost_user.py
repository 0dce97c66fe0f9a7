"""A device of a virtual machine by vhost-user: the guest's memory, its queues, and its socket's messages.

The messages are those of QEMU's "Vhost-user Protocol", as far as user-mode Linux sends them. The queues are
split virtqueues (Virtual I/O Device, VIRTIO, 1.1, clause "Split Virtqueues").
"""
from __future__ import annotations

import array
import enum
import functools
import mmap
import os
import selectors
import socket
import struct
import sys
from typing import Callable, Dict, List, NamedTuple, Optional, Sequence, Tuple

HEADER = struct.Struct("<III")
NUMBER = struct.Struct("<Q")
STATE = struct.Struct("<II")
ADDRESSES = struct.Struct("<IIQQQQ")
REGION = struct.Struct("<QQQQ")
REGIONS_AT = 8
MOST_PAYLOAD, MOST_FILES = 4096, 8
VERSION, IS_REPLY, NEEDS_REPLY = 1, 1 << 2, 1 << 3
QUEUE_MASK, HAS_NO_FILE = 0xFF, 1 << 8
PROTOCOL_FEATURES, VIRTIO_VERSION_1 = 1 << 30, 1 << 32
# User-mode Linux has one interrupt for the backend's channel and for the queues, so it needs the channel, to
# which this device never writes.
REPLY_ACK, BACKEND_CHANNEL = 1 << 3, 1 << 5
DONE, REFUSED = 0, 1
QUEUES = 2
# The most entries that a split virtqueue may have.
MOST_ENTRIES = 1 << 15

DESCRIPTOR = struct.Struct("<QIHH")
USED_ENTRY = struct.Struct("<II")
INDEX = struct.Struct("<H")
INDEX_AT, RING_AT = 2, 4
HAS_NEXT, IS_WRITABLE = 1, 2
INDEX_MASK = 0xFFFF


class Request(enum.IntEnum):
    """The messages that are answered."""

    GET_FEATURES = 1
    SET_FEATURES = 2
    SET_OWNER = 3
    SET_MEMORY_TABLE = 5
    SET_QUEUE_SIZE = 8
    SET_QUEUE_ADDRESSES = 9
    SET_QUEUE_BASE = 10
    GET_QUEUE_BASE = 11
    SET_QUEUE_KICK = 12
    SET_QUEUE_CALL = 13
    GET_PROTOCOL_FEATURES = 15
    SET_PROTOCOL_FEATURES = 16
    SET_QUEUE_ENABLE = 18
    SET_BACKEND_CHANNEL = 21


class PeerFault(Exception):
    """The guest sent what its protocol does not allow. The connection is closed."""


class Region(NamedTuple):
    """A part of the guest's memory, and where it lies in the mapped file."""

    address: int
    length: int
    offset: int
    mapped: mmap.mmap


class GuestMemory:
    """The memory of the guest, which its memory table names."""

    def __init__(self) -> None:
        self._regions: List[Region] = []

    def map(self, rows: Sequence[bytes], files: Sequence[int]) -> None:
        """Maps the regions of a memory table in place of those before. The files are closed."""
        self.close()
        for row, file in zip(rows, files):
            address, length, _, offset = REGION.unpack(row)
            try:
                self._regions.append(Region(address, length, offset, mmap.mmap(file, length + offset)))
            except (OSError, ValueError, OverflowError) as fault:
                raise PeerFault(f"a region of the guest's memory cannot be mapped: {fault}") from fault
            finally:
                os.close(file)

    def close(self) -> None:
        """Gives up the regions."""
        for region in self._regions:
            region.mapped.close()
        self._regions = []

    def _region(self, address: int, length: int) -> Region:
        for region in self._regions:
            if region.address <= address and address + length <= region.address + region.length:
                return region
        raise PeerFault(f"the guest has no memory at {address:X}h with {length} bytes")

    def read(self, address: int, length: int) -> bytes:
        """The bytes that stand there."""
        region = self._region(address, length)
        start = address - region.address + region.offset
        return region.mapped[start:start + length]

    def write(self, address: int, data: bytes) -> None:
        """Writes bytes there."""
        region = self._region(address, len(data))
        start = address - region.address + region.offset
        region.mapped[start:start + len(data)] = data


class Part(NamedTuple):
    """A buffer of a chain."""

    address: int
    length: int


class Chain(NamedTuple):
    """What the guest put into a queue at once: buffers to read, and then buffers to write."""

    head: int
    readable: List[Part]
    writable: List[Part]


class Virtqueue:
    """A split virtqueue, seen from the device."""

    def __init__(self, memory: GuestMemory) -> None:
        self._memory = memory
        self.size = 0
        self.descriptors = self.used = self.available = 0
        self.taken = self.given = 0
        self.call: Optional[int] = None

    def start_at(self, index: int) -> None:
        """The next chain is the one with this index."""
        self.taken = self.given = index

    def take(self) -> Optional[Chain]:
        """The next chain that the guest put in, or None."""
        if not self.size or not self.available:
            return None
        index, = INDEX.unpack(self._memory.read(self.available + INDEX_AT, INDEX.size))
        if index == self.taken & INDEX_MASK:
            return None
        place = self.available + RING_AT + INDEX.size * (self.taken % self.size)
        head, = INDEX.unpack(self._memory.read(place, INDEX.size))
        self.taken += 1
        return self._chain(head)

    def _chain(self, head: int) -> Chain:
        chain, at = Chain(head, [], []), head
        for _ in range(self.size):
            row = self._memory.read(self.descriptors + DESCRIPTOR.size * at, DESCRIPTOR.size)
            address, length, flags, following = DESCRIPTOR.unpack(row)
            (chain.writable if flags & IS_WRITABLE else chain.readable).append(Part(address, length))
            if not flags & HAS_NEXT:
                return chain
            at = following
        raise PeerFault("a chain of a queue has no end")

    def read(self, chain: Chain) -> bytes:
        """The bytes that the guest put into the chain."""
        return b"".join(self._memory.read(part.address, part.length) for part in chain.readable)

    def give(self, chain: Chain, data: bytes = b"") -> None:
        """Gives the chain back, with these bytes in its first writable buffer."""
        if data:
            if not chain.writable or chain.writable[0].length < len(data):
                raise PeerFault(f"a chain of a queue has no room for {len(data)} bytes")
            self._memory.write(chain.writable[0].address, data)
        place = self.used + RING_AT + USED_ENTRY.size * (self.given % self.size)
        self._memory.write(place, USED_ENTRY.pack(chain.head, len(data)))
        self.given += 1
        self._memory.write(self.used + INDEX_AT, INDEX.pack(self.given & INDEX_MASK))

    def notify(self) -> None:
        """Tells the guest that chains were given back. A pipe that is full tells it already."""
        if self.call is None:
            return
        try:
            os.write(self.call, NUMBER.pack(1))
        except BlockingIOError:
            pass
        except BrokenPipeError as fault:
            raise PeerFault("the guest is gone") from fault


class Connection:
    """A guest at the other end of the socket. `hear` is called with the number of a queue that has chains."""

    def __init__(self, peer: socket.socket, selector: selectors.BaseSelector, memory: GuestMemory,
                 hear: Callable[[int], None]) -> None:
        self._peer = peer
        self._selector = selector
        self._memory = memory
        self._hear = hear
        self._kicks: Dict[int, int] = {}
        self._channel: Optional[int] = None
        self.queues = [Virtqueue(memory) for _ in range(QUEUES)]
        self.is_open = True
        selector.register(peer, selectors.EVENT_READ, self._receive)

    def close(self) -> None:
        """Ends the connection. Closing it again does nothing."""
        if not self.is_open:
            return
        self.is_open = False
        self._selector.unregister(self._peer)
        self._peer.close()
        for index in list(self._kicks):
            self._drop_kick(index)
        for queue in self.queues:
            self._set_call(queue, None)
        self._set_channel([])
        self._memory.close()

    def _receive(self) -> None:
        """One message of the guest."""
        told, extra, _, _ = self._peer.recvmsg(HEADER.size, socket.CMSG_SPACE(4 * MOST_FILES))
        if len(told) < HEADER.size:
            self.close()
            return
        request, flags, length = HEADER.unpack(told)
        files = files_of(extra)
        if length > MOST_PAYLOAD:
            raise PeerFault(f"a message has {length} bytes")
        payload = self._rest(length)
        try:
            answer = self._answer(request, payload, files)
        except (struct.error, IndexError) as fault:
            raise PeerFault(f"message {request} is too short, or names no queue") from fault
        if answer is not None:
            self._reply(request, answer)
        elif flags & NEEDS_REPLY:
            self._reply(request, NUMBER.pack(DONE))

    def _rest(self, length: int) -> bytes:
        received = bytearray()
        while len(received) < length:
            some = self._peer.recv(length - len(received))
            if not some:
                raise PeerFault("a message ended too early")
            received += some
        return bytes(received)

    def _reply(self, request: int, payload: bytes) -> None:
        self._peer.sendall(HEADER.pack(request, VERSION | IS_REPLY, len(payload)) + payload)

    def _answer(self, request: int, payload: bytes, files: List[int]) -> Optional[bytes]:
        """Does what a message asks. None: it has no answer of its own."""
        if request == Request.GET_FEATURES:
            return NUMBER.pack(PROTOCOL_FEATURES | VIRTIO_VERSION_1)
        if request == Request.GET_PROTOCOL_FEATURES:
            return NUMBER.pack(REPLY_ACK | BACKEND_CHANNEL)
        if request == Request.SET_MEMORY_TABLE:
            count, _ = STATE.unpack_from(payload)
            self._memory.map([payload[at:at + REGION.size] for at in table_places(count)], files)
        elif request in (Request.SET_QUEUE_KICK, Request.SET_QUEUE_CALL):
            self._set_file(request, NUMBER.unpack_from(payload)[0], files)
        elif request in (Request.SET_QUEUE_SIZE, Request.SET_QUEUE_BASE, Request.GET_QUEUE_BASE):
            return self._set_state(request, *STATE.unpack_from(payload))
        elif request == Request.SET_BACKEND_CHANNEL:
            self._set_channel(files)
        elif request == Request.SET_QUEUE_ADDRESSES:
            index, _, descriptors, used, available, _ = ADDRESSES.unpack_from(payload)
            queue = self.queues[index]
            queue.descriptors, queue.used, queue.available = descriptors, used, available
        elif request not in list(Request):
            print(f"vhost-user: message {request} is not known, and is refused", file=sys.stderr)
            return NUMBER.pack(REFUSED)
        return None

    def _set_state(self, request: int, index: int, number: int) -> Optional[bytes]:
        queue = self.queues[index]
        if request == Request.GET_QUEUE_BASE:
            return STATE.pack(index, queue.taken & INDEX_MASK)
        if request == Request.SET_QUEUE_BASE:
            queue.start_at(number)
        elif 0 < number <= MOST_ENTRIES and number & (number - 1) == 0:
            queue.size = number
        else:
            raise PeerFault(f"a queue has {number} entries; they have to be a power of two")
        return None

    def _set_file(self, request: int, told: int, files: List[int]) -> None:
        index = told & QUEUE_MASK
        queue = self.queues[index]
        file = None if told & HAS_NO_FILE or not files else files[0]
        if request == Request.SET_QUEUE_CALL:
            self._set_call(queue, file)
            return
        self._drop_kick(index)
        if file is not None:
            self._kicks[index] = file
            self._selector.register(file, selectors.EVENT_READ, functools.partial(self._kicked, index))

    def _set_channel(self, files: List[int]) -> None:
        if self._channel is not None:
            os.close(self._channel)
        self._channel = files[0] if files else None

    @staticmethod
    def _set_call(queue: Virtqueue, file: Optional[int]) -> None:
        if queue.call is not None:
            os.close(queue.call)
        queue.call = file

    def _drop_kick(self, index: int) -> None:
        file = self._kicks.pop(index, None)
        if file is not None:
            self._selector.unregister(file)
            os.close(file)

    def _kicked(self, index: int) -> None:
        """The guest put chains into a queue. A message before may have taken the queue away."""
        if index in self._kicks:
            os.read(self._kicks[index], NUMBER.size)
            self._hear(index)


def table_places(count: int) -> range:
    """Where the regions of a memory table stand."""
    return range(REGIONS_AT, REGIONS_AT + REGION.size * min(count, MOST_FILES), REGION.size)


def files_of(extra: Sequence[Tuple[int, int, bytes]]) -> List[int]:
    """The files that came with a message."""
    files = array.array("i")
    for level, kind, data in extra:
        if level == socket.SOL_SOCKET and kind == socket.SCM_RIGHTS:
            files.frombytes(data[:len(data) // files.itemsize * files.itemsize])
    return list(files)
