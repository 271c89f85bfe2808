"""The calls of the shared library, as include/xemdulba.h declares them, and how bytes are lent to them.

The library is the one that XEMDULBA_LIBRARY names; else the one that the package carries; else the one that bindings/python/build
made in the source folder.
"""

import ctypes
import os
from pathlib import Path
from typing import Any, Optional

NAME = "libxemdulba.so"
KIT_NAME = "libxemdulba.kit"

MOST_OFFSET = ctypes.c_size_t(-1).value
DEFAULT_LAUNCH = 0xFFFFFFFF  # the launch label that stands for none

_NATIVE = "@=<>!"  # how a format of the buffer protocol may begin: of one byte they all say the same
_ONE_BYTE = ("B", "b", "c")


class Checked(ctypes.Structure):
    _fields_ = [(name, ctypes.c_uint32) for name in ("refusal", "place", "shapes", "cells", "blocks", "steps")]


class Stretch(ctypes.Structure):
    _fields_ = [(name, ctypes.c_uint32) for name in ("refusal", "place", "start", "length")]


class Ran(ctypes.Structure):
    _fields_ = [(name, ctypes.c_uint32) for name in ("refusal", "place", "cells", "jobs")]


class Rounded(ctypes.Structure):
    _fields_ = [(name, ctypes.c_uint32) for name in ("refusal", "place", "cells", "jobs", "turns")]


class Written(ctypes.Structure):
    _fields_ = [(name, ctypes.c_uint32) for name in ("refusal", "place", "length")]


class Told(ctypes.Structure):
    _fields_ = [
        *((name, ctypes.c_uint32) for name in ("kind", "first", "second", "third", "number")),
        ("next", ctypes.c_size_t),
    ]


def lent(data: Any, name: str) -> bytes:
    """A copy of any contiguous buffer of bytes, which nobody can change while it is lent.

    This is the one place that reads what a caller hands over. It asks the buffer itself: what a subclass of bytes says of its
    length or its contents plays no part.
    """
    try:
        view = memoryview(data)
    except TypeError:
        raise TypeError(f"{name} must be a buffer of bytes, not {type(data).__name__}") from None
    with view:
        if view.ndim != 1 or view.format.lstrip(_NATIVE) not in _ONE_BYTE:
            raise TypeError(f"{name} must be a buffer of bytes, not of format {view.format} in {view.ndim} dimensions")
        if not view.c_contiguous:
            raise TypeError(f"{name} must be a contiguous buffer of bytes")
        return view.tobytes()


def space(length: int, byte: int = 0) -> ctypes.Array:
    """Memory to lend, full of one byte. It has an address even where it is empty."""
    return (ctypes.c_ubyte * length).from_buffer(bytearray([byte]) * length)


def _path() -> str:
    named = os.environ.get("XEMDULBA_LIBRARY")
    if named:
        return named
    folder = Path(__file__).resolve().parent
    carried, built = folder / NAME, folder / "../../../target/bindings" / NAME
    return str(carried if carried.is_file() else built.resolve())


def _load(path: str) -> ctypes.CDLL:
    read = [ctypes.c_char_p, ctypes.c_size_t]
    written = [ctypes.POINTER(ctypes.c_ubyte), ctypes.c_size_t]
    calls = {
        "xemdulba_check": (read, Checked),
        "xemdulba_block": ([*read, ctypes.c_uint32], Stretch),
        "xemdulba_record": ([*read, ctypes.c_size_t], Told),
        "xemdulba_event": ([*read, ctypes.c_size_t], Told),
        "xemdulba_run": ([*read, ctypes.c_uint32, *read, *(written * 3)], Ran),
        "xemdulba_round": ([*read, ctypes.c_uint32, *(written * 3), ctypes.c_uint32], Rounded),
        "xemdulba_write": ([ctypes.c_uint32, *(read * 4), *written], Written),
    }
    try:
        library = ctypes.CDLL(path)
        for name, (arguments, answer) in calls.items():
            call = getattr(library, name)
            call.argtypes, call.restype = arguments, answer
    except (OSError, AttributeError) as error:
        raise ImportError(f"{error} (in the source folder, bindings/python/build makes the library)") from error
    return library


def _kit(path: str) -> Optional[str]:
    """The line beside the library, if there is one."""
    try:
        return (Path(path).parent / KIT_NAME).read_text(encoding="utf-8").strip() or None
    except OSError:
        return None


_PATH = _path()
library = _load(_PATH)
KIT = _kit(_PATH)
