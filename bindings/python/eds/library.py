"""The call of the library."""

from __future__ import annotations

import ctypes
import ctypes.util
import mmap
import os
import struct
import threading
from typing import Iterable

DONE, SHEET, USAGE, DATA, MEMORY, LIMIT, NO_FILE, ROOM, REQUEST = 0, 1, 2, 3, 6, 7, 8, 9, 10
# The most octets of a report that is done.
REPORT_MOST = 67108864
# A report of more octets than these leaves its thread's room as it was: without memory.
KEPT = 1 << 20


class _Answer(ctypes.Structure):
    _fields_ = [("status", ctypes.c_uint64), ("length", ctypes.c_uint64)]


def _library() -> ctypes.CDLL:
    """The library that the environment's EDS_LIBRARY names, the one of the wheel, or the one that is installed."""
    own = os.path.join(os.path.dirname(os.path.abspath(__file__)), "libeds.so.0")
    named = os.environ.get("EDS_LIBRARY") or (own if os.path.exists(own) else ctypes.util.find_library("eds")) or "libeds.so.0"
    library = ctypes.CDLL(named)
    library.eds_call.argtypes = [ctypes.c_char_p, ctypes.c_size_t, ctypes.c_char_p, ctypes.c_size_t, ctypes.c_void_p, ctypes.c_size_t]
    library.eds_call.restype = _Answer
    return library


_CALL = _library().eds_call


class _Rooms(threading.local):
    """A room for each thread. Its memory comes from the system where it is first written to."""

    def __init__(self) -> None:
        self.room = mmap.mmap(-1, REPORT_MOST)
        self.at = ctypes.addressof(ctypes.c_char.from_buffer(self.room))


_ROOMS = _Rooms()


def block(fields: Iterable[bytes]) -> bytes:
    """The block of these fields: of each its length in four octets, the least first, and then its octets."""
    return b"".join(part for it in fields for part in (struct.pack("<I", len(it)), it))


def call(words: bytes, files: bytes) -> tuple[int, bytes]:
    """The status and the report of a command, whose words and files are blocks."""
    answer = _CALL(words, len(words), files, len(files), _ROOMS.at, REPORT_MOST)
    if answer.status == ROOM:
        larger = ctypes.create_string_buffer(answer.length)
        answer = _CALL(words, len(words), files, len(files), ctypes.addressof(larger), answer.length)
        return answer.status, larger.raw[: answer.length]
    report = _ROOMS.room[: answer.length]
    if answer.length > KEPT:
        _ROOMS.room.madvise(mmap.MADV_DONTNEED)
    return answer.status, report
