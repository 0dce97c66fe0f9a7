"""The calls of include/ufs.h, by ctypes, over the shared library libufs.so."""
from __future__ import annotations

import ctypes
import functools
import os
import sys
from pathlib import Path
from typing import Iterator

from .errors import UfsError, fault_class

VARIABLE = "BUTCHERFORD_LIBRARY"
NAME = "libufs.so"
REPLY_BYTES = 4128
TEXT_BYTES = 256
NOTHING, NO_JOB = 9, 10


class Handle(ctypes.Structure):
    """`ufs_device`."""

    _fields_ = [("at", ctypes.c_void_p), ("is_open", ctypes.c_bool)]


class ConfigRow(ctypes.Structure):
    """`ufs_config`."""

    _fields_ = [("dies", ctypes.c_uint8), ("blocks", ctypes.c_uint16), ("pages", ctypes.c_uint16),
                ("rpmb", ctypes.c_uint8 * 4), ("slots", ctypes.c_uint16), ("spare", ctypes.c_uint16),
                ("profile", ctypes.c_uint8), ("serial", ctypes.c_uint64)]


class UnitRow(ctypes.Structure):
    """`ufs_unit`."""

    _fields_ = [("blocks", ctypes.c_uint32), ("boot", ctypes.c_uint8), ("protect", ctypes.c_uint8)]


class JobRow(ctypes.Structure):
    """`ufs_job`."""

    _fields_ = [("kind", ctypes.c_uint8), ("die", ctypes.c_uint8), ("block", ctypes.c_uint16),
                ("page", ctypes.c_uint16), ("body", ctypes.c_uint8 * 4096), ("spare", ctypes.c_uint8 * 96)]


def places() -> Iterator[Path]:
    """Where the shared library may lie: the first of these that is there is taken."""
    named = os.environ.get(VARIABLE)
    if named:
        yield Path(named)
        return
    yield Path(__file__).resolve().parent / NAME
    yield Path(sys.prefix) / "lib" / NAME
    yield Path("/usr/local/lib") / NAME


@functools.lru_cache(maxsize=None)
def library() -> ctypes.CDLL:
    """The shared library, which is loaded once."""
    found = next((place for place in places() if place.is_file()), None)
    if found is None:
        told = ", ".join(str(place) for place in places())
        raise ImportError(f"butcherford: there is no {NAME} ({told}); name it by {VARIABLE}")
    return declared(ctypes.CDLL(str(found)))


def declared(loaded: ctypes.CDLL) -> ctypes.CDLL:
    """The library, with the types of its calls."""
    device, size, byte = ctypes.POINTER(Handle), ctypes.c_size_t, ctypes.c_uint8
    config, units = ctypes.POINTER(ConfigRow), ctypes.POINTER(UnitRow)
    calls = {
        "ufs_open": (device, config, units, size),
        "ufs_open_image": (device, config, units, size, ctypes.c_char_p, size),
        "ufs_close": (device,),
        "ufs_host": (device, ctypes.c_char_p, size),
        "ufs_reply": (device, ctypes.POINTER(byte), size, ctypes.POINTER(size)),
        "ufs_turn": (device,),
        "ufs_take": (device, byte, ctypes.POINTER(JobRow)),
        "ufs_work": (device, byte),
        "ufs_stop": (device, ctypes.POINTER(byte), size),
        "ufs_image_length": (device, ctypes.POINTER(ctypes.c_uint64)),
        "ufs_save": (device, ctypes.POINTER(byte), size),
    }
    for name, types in calls.items():
        call = getattr(loaded, name)
        call.argtypes, call.restype = types, ctypes.c_uint32
    loaded.ufs_fault_text.argtypes = (ctypes.c_uint32, ctypes.POINTER(ctypes.c_char), size)
    loaded.ufs_fault_text.restype = size
    return loaded


def fault_text(number: int) -> str:
    """What a fault of the library says, in English."""
    room = ctypes.create_string_buffer(TEXT_BYTES)
    length = library().ufs_fault_text(number, room, TEXT_BYTES)
    return room.raw[:length].decode("ascii")


def fault(number: int) -> UfsError:
    """The exception of a fault of the library."""
    return fault_class(number)(number, fault_text(number))
