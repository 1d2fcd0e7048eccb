"""Calls the shared library by ctypes, as c/http_cache_semantics.h declares its functions.

If the environment variable HTTP_CACHE_SEMANTICS_LIBRARY names a file, that file is loaded. Otherwise the first file that is
found is loaded: beside this package, in out/c of the repository, or by the system's loader."""
from __future__ import annotations

import ctypes
import os
from ctypes import POINTER, c_char_p, c_int32, c_int64, c_size_t, c_uint8, c_uint32, c_uint64
from functools import lru_cache
from pathlib import Path
from typing import Any, Callable, List, Tuple

from ._errors import BadArgument, DateNotPrintable, HeaderMapFull, LibraryNotFound, Malformed

_FILE = "libhttp_cache_semantics.so.0"
_TOO_SMALL = -5


class CacheStruct(ctypes.Structure):
    _fields_ = [
        ("secret", c_uint64),
        ("more_secret", c_uint64),
        ("immutable_seconds", c_uint64),
        ("immutable_nanoseconds", c_uint32),
        ("heuristic_numerator", c_uint32),
        ("heuristic_denominator", c_uint32),
        ("shared", c_uint8),
        ("ignore_cargo_cult", c_uint8),
        ("form", c_uint8),
    ]


class TimeStruct(ctypes.Structure):
    _fields_ = [("seconds", c_int64), ("nanoseconds", c_uint32)]


class DurationStruct(ctypes.Structure):
    _fields_ = [("seconds", c_uint64), ("nanoseconds", c_uint32)]

    def in_nanoseconds(self) -> int:
        return int(self.seconds) * 1_000_000_000 + int(self.nanoseconds)


_CACHE = [POINTER(CacheStruct)]
_BYTES = [c_char_p, c_size_t]
_TIME = [POINTER(TimeStruct)]
_DURATION = [POINTER(DurationStruct)]
_COUNT = [POINTER(c_size_t)]
_OUT = _BYTES + _COUNT

_ARGUMENTS = {
    "hcs_new": _CACHE + _BYTES + _BYTES + _TIME + _OUT,
    "hcs_before": _CACHE + _BYTES + _BYTES + _TIME + _OUT,
    "hcs_after": _CACHE + _BYTES + _BYTES + _BYTES + _TIME + _OUT + _OUT,
    "hcs_choose": _CACHE + _BYTES + [POINTER(c_size_t), c_size_t] + _BYTES + _TIME + _COUNT + _OUT,
    "hcs_explain": _CACHE + _BYTES + _BYTES + _TIME + _BYTES + _OUT,
    "hcs_storability": _BYTES + [POINTER(c_uint32)],
    "hcs_freshness": _BYTES + _DURATION,
    "hcs_age": _BYTES + _TIME + _DURATION,
    "hcs_time_to_live": _BYTES + _TIME + _DURATION,
    "hcs_stale_use": _CACHE + _BYTES + _BYTES + _TIME,
    "hcs_response_at": _BYTES + _TIME + _OUT,
    "hcs_is_not_modified_for": _CACHE + _BYTES + _BYTES,
    "hcs_is_confirmed_by": _CACHE + _BYTES + _BYTES,
    "hcs_joined": _CACHE + _BYTES + _OUT,
    "hcs_updated": _CACHE + _BYTES + _BYTES + _OUT,
    "hcs_fresh_at": _CACHE + _BYTES + _BYTES + _TIME,
    "hcs_may_be_used": _CACHE + _BYTES + _BYTES + _TIME,
}

_ERRORS = {
    -1: (MemoryError, "out of memory"),
    -2: (Malformed, "a message or a stored form can't be read"),
    -3: (HeaderMapFull, "a message has more fields than a header map holds"),
    -4: (DateNotPrintable, "the time is before 1900"),
    -6: (BadArgument, "an option or a time is out of range"),
}


def _files() -> List[str]:
    named = os.environ.get("HTTP_CACHE_SEMANTICS_LIBRARY")
    if named:
        return [named]
    here = Path(__file__).resolve().parent
    beside = [here / _FILE, here.parent.parent / "out/c" / _FILE]
    return [str(file) for file in beside if file.exists()] + [_FILE]


@lru_cache(maxsize=None)
def library() -> ctypes.CDLL:
    """Returns the shared library. Raises `LibraryNotFound`.

    The first call loads it, so that the modules `process` and `proxy` work without it.
    """
    file = _files()[0]
    try:
        loaded = ctypes.CDLL(file)
    except OSError as e:
        raise LibraryNotFound(f"{file} can't be loaded: {e}; bin/library builds it") from e
    for name, arguments in _ARGUMENTS.items():
        if not hasattr(loaded, name):
            raise LibraryNotFound(f"{file} has no {name}: its version differs from this package's; bin/library builds it")
        getattr(loaded, name).argtypes = arguments
        getattr(loaded, name).restype = c_int32
    loaded.hcs_version.argtypes = []
    loaded.hcs_version.restype = c_uint32
    return loaded


def library_version() -> Tuple[int, int, int]:
    """Returns the version of the shared library: major, minor and patch."""
    number = library().hcs_version()
    return number >> 16 & 255, number >> 8 & 255, number & 255


def checked(code: int) -> int:
    """Returns the result code of a call, or raises its error."""
    if code < 0:
        kind, why = _ERRORS[code]
        raise kind(why)
    return code


def called(name: str, *arguments: Any) -> int:
    return checked(getattr(library(), name)(*arguments))


class Buffer:
    """A buffer for a result, and the length that the result needs."""

    def __init__(self, size: int) -> None:
        self.size = size
        self.bytes = ctypes.create_string_buffer(size)
        self.needed = c_size_t()

    def arguments(self) -> Tuple[Any, int, Any]:
        return self.bytes, self.size, ctypes.byref(self.needed)

    def result(self) -> bytes:
        return ctypes.string_at(self.bytes, self.needed.value)

    def enough(self) -> "Buffer":
        return Buffer(max(self.size, self.needed.value))


def filled(call: Callable[..., int], buffers: List[Buffer]) -> Tuple[int, List[bytes]]:
    """Returns the code and the results of a call. If the buffers are too short, calls again with longer ones."""
    while True:
        code = call(*(it for buffer in buffers for it in buffer.arguments()))
        if code != _TOO_SMALL:
            return checked(code), [buffer.result() for buffer in buffers]
        buffers = [buffer.enough() for buffer in buffers]
