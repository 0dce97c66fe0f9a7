"""Frames of the replay protected memory block (RPMB; JESD220, 12.4) that the guest sends, and the answers."""
from __future__ import annotations

import hashlib
import hmac
from typing import Dict

KEY = bytes(range(32))
NONCE = b"sixteen byte one"
FRAME_BYTES = 512
KEY_AT, SIGNED_AT, NONCE_AT, RESULT_AT = 196, 228, 484, 508
PROGRAM_KEY, READ_COUNTER, READ_RESULT = 1, 2, 5
# A response has the type of its request in the high byte.
KEY_PROGRAMMED, COUNTER_READ = 0x0100, 0x0200


def frame(kind: int, key: bytes = bytes(32), nonce: bytes = bytes(16)) -> bytes:
    """A request: bytes 196 to 227 are the key, 484 to 499 the nonce, and the last two the type."""
    return bytes(KEY_AT) + key + bytes(256) + nonce + bytes(10) + kind.to_bytes(2, "big")


def requests() -> Dict[str, bytes]:
    """The frames that the guest finds, by name."""
    return {"key": frame(PROGRAM_KEY, key=KEY), "result": frame(READ_RESULT),
            "counter": frame(READ_COUNTER, nonce=NONCE)}


def is_key_result(answer: bytes) -> bool:
    """Whether the answer says that a key was programmed: result 0000h (bytes 508 and 509)."""
    return len(answer) == FRAME_BYTES and answer[RESULT_AT:] == bytes(2) + KEY_PROGRAMMED.to_bytes(2, "big")


def is_first_counter(answer: bytes) -> bool:
    """Whether the answer is signed, fresh, and tells a write counter of 0 (bytes 500 to 503)."""
    mac = hmac.new(KEY, answer[SIGNED_AT:], hashlib.sha256).digest()
    is_signed = len(answer) == FRAME_BYTES and hmac.compare_digest(answer[KEY_AT:SIGNED_AT], mac)
    return is_signed and answer[NONCE_AT:] == NONCE + bytes(10) + COUNTER_READ.to_bytes(2, "big")
