"""The replay protected memory block: frames, their MACs, and what a response has to be."""
from __future__ import annotations

import hashlib
import hmac
import secrets
from dataclasses import dataclass, replace
from typing import TYPE_CHECKING, List, Sequence

from . import messages
from .errors import CheckCondition, RpmbError, RpmbResponseError
from .messages import big, number_at

if TYPE_CHECKING:
    from .device import Device

FRAME, BLOCK, MOST_FRAMES = 512, 256, 8
PROGRAM_KEY, READ_COUNTER, WRITE, READ, READ_RESULT = 1, 2, 3, 4, 5
RESPONSE = 0x0100
NO_KEY = 0x0007
AT_END = 0x0080
WRONG_LENGTH = (5, 0x24, 0)


@dataclass(frozen=True)
class Frame:
    """The fields of a frame."""

    kind: int
    result: int = 0
    count: int = 0
    address: int = 0
    counter: int = 0
    nonce: bytes = bytes(16)
    data: bytes = bytes(BLOCK)
    mac: bytes = bytes(32)

    def packed(self) -> bytes:
        """Its 512 bytes."""
        numbers = b"".join((big(self.counter, 4), big(self.address, 2), big(self.count, 2), big(self.result, 2),
                            big(self.kind, 2)))
        return bytes(196) + self.mac + self.data + self.nonce + numbers

    @staticmethod
    def read(told: bytes) -> Frame:
        """The fields of these 512 bytes."""
        return Frame(number_at(told, 510, 2), number_at(told, 508, 2), number_at(told, 506, 2),
                     number_at(told, 504, 2), number_at(told, 500, 4), told[484:500], told[228:484], told[196:228])


def mac_of(key: bytes, frames: Sequence[Frame]) -> bytes:
    """HMAC with SHA-256 over bytes 228 to 511 of each frame."""
    covered = b"".join(it.packed()[228:] for it in frames)
    return hmac.new(key, covered, hashlib.sha256).digest()


class Rpmb:
    """An RPMB region, for a host that has its key. Addresses and counts are in blocks of 256 bytes.

    The MAC, the nonce, the type and the result of each response are checked.
    """

    def __init__(self, device: Device, region: int, key: bytes) -> None:
        if len(key) != 32:
            raise ValueError("a key has 32 bytes")
        if not 0 <= region <= 3:
            raise ValueError("the regions are 0 to 3")
        self._device = device
        self._key = bytes(key)
        self.region = region
        """The number of the region."""

    def program_key(self) -> None:
        """Programs the key: once for ever."""
        self._send([Frame(PROGRAM_KEY, mac=self._key)])
        self._send([Frame(READ_RESULT)])
        told = self._receive(1)
        expect_type(told, PROGRAM_KEY)
        expect_ok(told[0].result)

    def counter(self) -> int:
        """The write counter."""
        nonce = secrets.token_bytes(16)
        self._send([Frame(READ_COUNTER, nonce=nonce)])
        told = self._receive(1)
        self._check(told, READ_COUNTER, nonce)
        return told[0].counter

    def read(self, address: int, count: int = 1) -> bytes:
        """The blocks from this address on."""
        return b"".join(self._read(start, min(MOST_FRAMES, address + count - start))
                        for start in range(address, address + count, MOST_FRAMES))

    def write(self, address: int, data: bytes) -> None:
        """Writes blocks, and returns once they are durable. Each eight of them are kept as a whole or not at all."""
        if len(data) % BLOCK:
            raise ValueError(f"the data are no whole blocks of {BLOCK} bytes")
        for start in range(0, len(data), MOST_FRAMES * BLOCK):
            self._write(address + start // BLOCK, data[start:start + MOST_FRAMES * BLOCK])

    def _read(self, address: int, count: int) -> bytes:
        nonce = secrets.token_bytes(16)
        self._send([Frame(READ, nonce=nonce, address=address, count=count)])
        told = self._receive_read(count)
        self._check(told, READ, nonce)
        if len(told) != count or any((it.address, it.count) != (address, count) for it in told):
            raise RpmbResponseError(told[0].result, "the address or the count")
        return b"".join(it.data for it in told)

    def _receive_read(self, count: int) -> List[Frame]:
        """The frames of a data read; of one that failed there is one alone."""
        try:
            return self._receive(count)
        except CheckCondition as refusal:
            if refusal.sense != WRONG_LENGTH or count == 1:
                raise
        return self._receive(1)

    def _write(self, address: int, data: bytes) -> None:
        counter = self.counter()
        count = len(data) // BLOCK
        frames = [Frame(WRITE, count=count, address=address, counter=counter, data=data[at:at + BLOCK])
                  for at in range(0, len(data), BLOCK)]
        frames[-1] = replace(frames[-1], mac=mac_of(self._key, frames))
        self._send(frames)
        self._send([Frame(READ_RESULT)])
        told = self._receive(1)
        self._check(told, WRITE, bytes(16))
        if (told[0].address, told[0].counter) != (address, counter + 1):
            raise RpmbResponseError(told[0].result, "the address or the counter")

    def _check(self, told: Sequence[Frame], kind: int, nonce: bytes) -> None:
        """A response has to be of this type, with this nonce, the MAC of the key, and the result OK."""
        expect_type(told, kind)
        result = told[0].result
        if result & ~AT_END == NO_KEY:
            raise RpmbError(result)
        if not hmac.compare_digest(told[-1].mac, mac_of(self._key, told)):
            raise RpmbResponseError(result, "the MAC")
        if any(it.nonce != nonce for it in told):
            raise RpmbResponseError(result, "the nonce")
        expect_ok(result)

    def _send(self, frames: Sequence[Frame]) -> None:
        data = b"".join(it.packed() for it in frames)
        cdb = messages.security_cdb(messages.SECURITY_OUT, self.region, len(data))
        self._device.command(messages.LUN_RPMB, cdb, send=data)

    def _receive(self, count: int) -> List[Frame]:
        cdb = messages.security_cdb(messages.SECURITY_IN, self.region, count * FRAME)
        told = self._device.command(messages.LUN_RPMB, cdb, receive=count * FRAME)
        return [Frame.read(told[at:at + FRAME]) for at in range(0, len(told), FRAME)]


def expect_type(told: Sequence[Frame], kind: int) -> None:
    """A response has the type of its request, times 100h."""
    if not told or any(it.kind != kind * RESPONSE for it in told):
        raise RpmbResponseError(told[0].result if told else 0, "the type")


def expect_ok(result: int) -> None:
    """A result that is not OK raises `RpmbError`; that the counter is at its end is no failure of a read."""
    if result & ~AT_END:
        raise RpmbError(result)
