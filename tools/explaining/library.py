"""The library that judges short traces in this process, where it is installed beside these tools."""
from __future__ import annotations

import os
from collections.abc import Callable
from functools import lru_cache
from pathlib import Path

from .commands import VERSION

MOST_BYTES = 1 << 16  # of a trace that is judged here: it takes so little time that nobody wants to stop it
BESIDE = Path(__file__).resolve().parents[2] / "libdomepeeler.so.0"  # as tools/install puts both
SHORT = 4  # the status of a call whose room is too short
ENDS = {2: "finder: ", 3: "finder: memory"}  # what the program says before its fault, by its status


@lru_cache(maxsize=None)
def library_beside() -> Callable | None:
    """A call that judges a trace, and answers the status, the report as JSON and the fault that the program would; none where there is no library
    of the tools' version, or this process was forked from the one that asked first."""
    if not BESIDE.is_file():
        return None
    import ctypes

    class End(ctypes.Structure):
        """How a call ended: `struct domepeeler_end` of domepeeler_judge.h."""

        _fields_ = [("status", ctypes.c_uint32), ("line", ctypes.c_uint32), ("length", ctypes.c_size_t)]

    try:
        loaded = ctypes.CDLL(str(BESIDE))
        verdict, version = loaded.domepeeler_verdict, loaded.domepeeler_version
    except (OSError, AttributeError):
        return None
    verdict.argtypes = [ctypes.c_char_p, ctypes.c_size_t, ctypes.c_uint32, ctypes.c_char_p, ctypes.c_size_t]
    version.argtypes = [ctypes.c_char_p, ctypes.c_size_t]
    verdict.restype = version.restype = End
    process = os.getpid()

    def into_room(call: Callable, size: int = 4096) -> tuple[int, bytes]:
        room = ctypes.create_string_buffer(size)
        end = call(room, size)
        return into_room(call, end.length) if end.status == SHORT else (end.status, room.raw[:end.length])

    def judged(trace: bytes) -> tuple[int, bytes, bytes] | None:
        if os.getpid() != process or len(trace) > MOST_BYTES:
            return None
        status, said = into_room(lambda room, size: verdict(trace, len(trace), 1, room, size))
        return (status, b"", ENDS[status].encode() + said + b"\n") if status in ENDS else (status, said, b"")

    return judged if into_room(version)[1] == VERSION.encode() else None
