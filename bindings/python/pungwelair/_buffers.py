"""Rows of boxes, handles, questions and what is told in the memory of the caller.

A buffer is anything that `memoryview` takes: an array of numpy, an `array.array`, a `memoryview`, bytes, an array of ctypes. It is
read and written where it stands. A list is packed first.
"""

from __future__ import annotations

import ctypes
import re
import struct
import sys
from ctypes import c_char_p, c_int, c_size_t, c_ssize_t, c_void_p
from functools import lru_cache
from math import prod
from typing import TYPE_CHECKING, Any, Callable, Iterable, NamedTuple, Optional, Tuple, Union

from ._library import BOX, HANDLE, SLOTS, RawBox, RawCast, RawHandle, RawHit, RawPair, RawQuery, RawRay, RawTold
from ._values import Box, Cast, Handle, Question, Ray, refuse_kind, refuse_places, refuse_words

if TYPE_CHECKING:
    from typing_extensions import Buffer

#: Boxes and handles, as batches take them, and questions, as many are asked at once.
Boxes = Union["Buffer", Iterable[Box]]
Handles = Union["Buffer", Iterable[Handle]]
Questions = Union["Buffer", Iterable[Question]]
Rays = Union["Buffer", Iterable[Ray]]
Casts = Union["Buffer", Iterable[Cast]]


class Kind(NamedTuple):
    """What a row of a buffer is, and how many bytes it has."""

    name: str
    raw: Any
    #: Rows of whole numbers of 32 bits have such letters of `struct`, each of them.
    letters: str
    #: Other rows stand in a buffer as one item each, whose letters are one of these.
    items: Tuple[str, ...]
    #: The rows in words.
    said: str
    size: int
    #: How many of them a workspace has room for.
    found: c_size_t


def _kind(name: str, raw: Any, letters: str, items: Tuple[str, ...] = (), said: str = "") -> Kind:
    size = ctypes.sizeof(raw)
    sign = {"i": "int32", "I": "uint32", "iI": "32 bits"}.get(letters)
    return Kind(name, raw, letters, items, said or f"rows of {size // 4} numbers of {sign}", size, c_size_t(SLOTS * HANDLE.size // size))


BOXES, HANDLES = _kind("boxes", RawBox, "i"), _kind("handles", RawHandle, "I")
PAIRS, EVENTS = _kind("pairs", RawPair, "I"), _kind("events", RawTold, "I")
# Their masks are above the numbers of a place, so either sign is taken.
QUESTIONS, RAYS, CASTS = _kind("questions", RawQuery, "iI"), _kind("rays", RawRay, "iI"), _kind("casts", RawCast, "iI")
# A long of 8 bytes has the letter of a number of 32 bits here, and is told from it by the size of the item.
HITS = _kind("hits", RawHit, "", ("IIqqII", "IIiiII"), "structs of two numbers of uint32, two of int64 and two of uint32")
ENDS = _kind("ends", c_size_t, "", ("I", "Q", "N"), "numbers of size_t")


class Rows:
    """Rows that stand in memory: how many, where, and the first. They stay in place for as long as this lives."""

    __slots__ = ("count", "first", "start", "end", "_holder")

    def __init__(self, kind: Kind, count: int, first: Any, holder: Any = None) -> None:
        self.count, self.first, self._holder = count, first, holder
        self.start = ctypes.addressof(first)
        self.end = self.start + count * kind.size
        if self.start % ctypes.alignment(kind.raw):
            raise ValueError(f"the buffer of {kind.name} doesn't stand at a multiple of {ctypes.alignment(kind.raw)}")

    def refuse_common(self, other: Rows) -> None:
        """Raises if both have a byte, of which the library would read what it has just written."""
        if self.start < other.end and other.start < self.end:
            raise ValueError("two buffers of one call share memory")


class _PyBuffer(ctypes.Structure):
    """CPython's Py_buffer. A reference is a plain pointer here: PyBuffer_Release lets go of it."""

    _fields_ = [
        ("address", c_void_p), ("exporter", c_void_p), ("length", c_ssize_t), ("item_size", c_ssize_t), ("read_only", c_int),
        ("dimensions", c_int), ("format", c_char_p), ("shape", c_void_p), ("strides", c_void_p), ("suboffsets", c_void_p),
        ("internal", c_void_p),
    ]  # fmt: skip


# Functions of our own, whose types nobody else sets.
_python = ctypes.PyDLL(None, handle=ctypes.pythonapi._handle)
_python.PyObject_GetBuffer.argtypes = [ctypes.py_object, ctypes.POINTER(_PyBuffer), c_int]
_python.PyBuffer_Release.argtypes = [ctypes.POINTER(_PyBuffer)]
_python.PyBuffer_Release.restype = None


class _Pinned:
    """The place of a buffer that may not be written, which ctypes gives no way to."""

    def __init__(self, view: memoryview) -> None:
        self.buffer = _PyBuffer()
        _python.PyObject_GetBuffer(view, ctypes.byref(self.buffer), 0)

    def __del__(self) -> None:
        _python.PyBuffer_Release(ctypes.byref(self.buffer))


_FOREIGN_ORDER = ">!" if sys.byteorder == "little" else "<"
_UNMARKED = str.maketrans("lL", "iI", "T{}<>=@!^ ")


@lru_cache(maxsize=256)
def _letters(form: str) -> str:
    """The letters of the numbers of an item: a struct has those of its fields, one behind the other."""
    form = re.sub(r":[^:]*:", "", form)
    if any(mark in form for mark in _FOREIGN_ORDER):
        return "?"
    form = re.sub(r"\(([\d,]+)\)([<>=@!^]?)(\w)", lambda part: part[3] * min(prod(map(int, part[1].split(","))), 99), form)
    return form.translate(_UNMARKED)


def _count(kind: Kind, view: memoryview) -> int:
    """How many rows a buffer has."""
    if not view.c_contiguous:
        raise ValueError(f"the buffer of {kind.name} has gaps: copy it first")
    letters, wanted = _letters(view.format), kind.said
    if letters in ("B", "b", "c"):
        row = kind.size if view.nbytes % kind.size == 0 else 0
        wanted = f"a multiple of {kind.size} bytes"
    elif letters in kind.items and view.itemsize == kind.size:
        row = view.itemsize * prod(view.shape[1:])
    elif kind.letters and letters and not letters.strip(kind.letters) and view.itemsize == 4 * len(letters):
        row = view.itemsize * prod(view.shape[1:])
        if view.ndim == 1 and view.nbytes % kind.size == 0 and len(letters) == 1:
            row = kind.size
    else:
        raise TypeError(f"{kind.name} are {kind.said}, not of the format {view.format!r}")
    if row != kind.size:
        raise ValueError(f"a buffer of {kind.name} has {wanted}, not the shape {view.shape} of {view.format!r}")
    return view.nbytes // kind.size


def _rows(kind: Kind, view: memoryview) -> Rows:
    count = _count(kind, view)
    if count == 0:
        # A pointer before no items leads to some, too.
        return Rows(kind, 0, kind.raw())
    if not view.readonly:
        return Rows(kind, count, kind.raw.from_buffer(view))
    pinned = _Pinned(view)
    return Rows(kind, count, kind.raw.from_address(pinned.buffer.address), pinned)


def packed_box(box: Any) -> bytes:
    """A box as the library has it."""
    if not isinstance(box, Box):
        refuse_kind(box, Box)
    try:
        return BOX.pack(*box)
    except struct.error:
        refuse_places(*box)
        raise


def packed_handle(handle: Any) -> bytes:
    """A handle as the library has it."""
    if not isinstance(handle, Handle):
        refuse_kind(handle, Handle)
    try:
        return HANDLE.pack(handle.slot, handle.generation)
    except struct.error:
        refuse_words(slot=handle.slot, generation=handle.generation)
        raise


def view_of(items: Any) -> Optional[memoryview]:
    """A view of a buffer, and None of what comes one by one."""
    if isinstance(items, (list, tuple)):
        return None
    try:
        return memoryview(items)
    except TypeError:
        return None


def rows_of(kind: Kind, items: Any, pack: Optional[Callable[[Any], bytes]] = None) -> Rows:
    """The rows of a buffer that is read, or of what comes one by one: boxes and handles, or what `pack` makes a row of."""
    view = view_of(items)
    if view is None:
        pack = pack or (packed_box if kind is BOXES else packed_handle)
        view = memoryview(bytearray().join(map(pack, items)))
    return _rows(kind, view)


def room_of(kind: Kind, out: Any) -> Rows:
    """The rows of a buffer that is written."""
    view = memoryview(out)
    if view.readonly:
        raise TypeError(f"the buffer for {kind.name} is read-only")
    return _rows(kind, view)


def new_rows(kind: Kind, count: int) -> Tuple[bytearray, Rows]:
    """Room of our own, with a row at least."""
    memory = bytearray(max(count, 1) * kind.size)
    return memory, Rows(kind, count, kind.raw.from_buffer(memory))
