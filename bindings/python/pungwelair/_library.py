"""The shared library: where it is, the structs of pungwelair.h, and what each of its functions takes.

Each argument has its type, so that ctypes refuses another one, and no pointer leads to less than the library reads.
"""

from __future__ import annotations

import ctypes
import os
import struct
from ctypes import POINTER, c_double, c_int32, c_int64, c_size_t, c_uint32, c_uint64, c_void_p
from pathlib import Path
from typing import Any, Dict, List, Tuple

#: The most boxes that live at once. Slots are below it, so a buffer of as many handles has room for the answer to any question.
SLOTS = 8192
#: The most marks that a world holds.
MOST_MARKS = 64
#: A mask with all 32 groups. (A question with the mask 0 looks at no group: it finds every box, those in no group too.)
ALL = 0xFFFFFFFF


class RawPoint(ctypes.Structure):
    _fields_ = [(axis, c_int32) for axis in "xyz"]


class RawBox(ctypes.Structure):
    _fields_ = [("lo", RawPoint), ("hi", RawPoint)]


class RawMasks(ctypes.Structure):
    _fields_ = [("groups", c_uint32), ("sees", c_uint32)]


class RawGroup(ctypes.Structure):
    _fields_ = [("owner", c_uint32), ("fixed", c_uint32)]


class RawNew(ctypes.Structure):
    _fields_ = [("masks", RawMasks), ("owner", c_uint32), ("fixed", c_uint32)]


class RawHandle(ctypes.Structure):
    _fields_ = [("slot", c_uint32), ("generation", c_uint32)]


class RawLive(ctypes.Structure):
    _fields_ = [("box", RawBox), ("how", RawNew)]


class RawPair(ctypes.Structure):
    _fields_ = [("a", RawHandle), ("b", RawHandle)]


class RawTold(ctypes.Structure):
    _fields_ = [("event", c_uint32), ("pair", RawPair)]


class RawCounts(ctypes.Structure):
    _fields_ = [(name, c_size_t) for name in ("pairs", "events", "changes")]


class RawQuery(ctypes.Structure):
    _fields_ = [("kind", c_uint32), ("mask", c_uint32), ("a", RawPoint), ("b", RawPoint)]


class RawRay(ctypes.Structure):
    _fields_ = [("mask", c_uint32), ("origin", RawPoint), ("direction", RawPoint)]


class RawCast(ctypes.Structure):
    _fields_ = [("mask", c_uint32), ("box", RawBox), ("by", RawPoint)]


class RawNear(ctypes.Structure):
    _fields_ = [("mask", c_uint32), ("want", c_uint32), ("at", RawPoint)]


class RawSquare(ctypes.Structure):
    _fields_ = [("low", c_uint64), ("high", c_uint64)]


class RawNearBox(ctypes.Structure):
    _fields_ = [("mask", c_uint32), ("want", c_uint32), ("box", RawBox), ("least", RawSquare)]


class RawHit(ctypes.Structure):
    _fields_ = [("handle", RawHandle), ("num", c_int64), ("den", c_int64), ("axis", c_uint32), ("side", c_uint32)]


class RawInfo(ctypes.Structure):
    _fields_ = [(name, c_uint32) for name in ("structure", "spent", "boxes", "marks")] + [
        (name, c_uint64) for name in ("frames", "exchanges")  # type: ignore[misc]
    ]


class RawFloats(ctypes.Structure):
    """Three floats, whose bits the library reads."""

    _fields_ = [(axis, ctypes.c_float) for axis in "xyz"]


class RawDoubles(ctypes.Structure):
    """Three doubles, whose bits the library reads."""

    _fields_ = [(axis, c_double) for axis in "xyz"]


class RawWorld(ctypes.Structure):
    """The two words of a world. Zeros are a closed one."""

    _fields_ = [("state", c_uint32), ("held", c_void_p)]


class RawReader(ctypes.Structure):
    """The two words of a reader. Zeros are a closed one."""

    _fields_ = [("state", c_uint32), ("held", c_void_p)]


def _loaded() -> ctypes.CDLL:
    named = os.environ.get("PUNGWELAIR_LIB")
    place = Path(named) if named else Path(__file__).resolve().parents[2] / "out"
    path = place / "libpungwelair.so" if place.is_dir() or not named else place
    if not path.is_file():
        raise ImportError(f"no library at {path}: run bindings/build first, or name the library or its folder by PUNGWELAIR_LIB")
    try:
        return ctypes.CDLL(str(path))
    except OSError as fault:
        raise ImportError(f"{path} isn't a library for this Python: {fault}") from fault


library = _loaded()


def _takes(name: str, *types: Any) -> None:
    try:
        function = getattr(library, name)
    except AttributeError:
        raise ImportError(f"{library._name} has no {name}: run bindings/build again") from None
    function.argtypes, function.restype = types, c_uint32


class _To:
    """What leads to a struct: itself, or a pointer to it. No null, which ctypes would take and the library read."""

    def __init__(self, raw: Any) -> None:
        self.pointer = POINTER(raw)

    def from_param(self, argument: Any) -> Any:
        if argument is None or isinstance(argument, self.pointer) and not argument:
            raise TypeError("null leads nowhere")
        return self.pointer.from_param(argument)  # type: ignore[attr-defined]


_WORLD, _BOX, _HANDLE, _NUMBER, _COUNT = _To(RawWorld), _To(RawBox), _To(RawHandle), _To(c_int32), _To(c_size_t)
_READER, _QUERY, _RAY, _CAST, _HIT, _SQUARE = map(_To, (RawReader, RawQuery, RawRay, RawCast, RawHit, RawSquare))
_FOUND, _FIRSTS = (_HANDLE, c_size_t, _COUNT), (_HIT, c_size_t, _COUNT)
_takes("pw_version")
_takes("pw_open", _WORLD, c_uint32)
_takes("pw_close", _WORLD)
_takes("pw_add", _WORLD, _BOX, c_size_t, _To(RawNew), _HANDLE, c_size_t, _COUNT)
_takes("pw_move", _WORLD, _HANDLE, c_size_t, _BOX, c_size_t, _COUNT)
_takes("pw_mask", _WORLD, RawHandle, RawMasks)
_takes("pw_regroup", _WORLD, RawHandle, RawGroup)
_takes("pw_remove", _WORLD, _HANDLE, c_size_t, _COUNT)
_takes("pw_update", _WORLD, _To(RawCounts))
_takes("pw_pairs_now", _WORLD, c_size_t, _To(RawPair), c_size_t, _COUNT)
_takes("pw_mark", _WORLD)
_takes("pw_forget", _WORLD, c_uint32)
_takes("pw_back", _WORLD)
_takes("pw_reader_open", _READER)
_takes("pw_reader_close", _READER)
_takes("pw_share", _WORLD, _READER)
_takes("pw_join", _READER, _READER)
_takes("pw_unshare", _READER, _WORLD)
_takes("pw_fix_below_32", c_uint32, _NUMBER)
_takes("pw_fix_above_32", c_uint32, _NUMBER)
_takes("pw_fix_below_64", c_uint64, _NUMBER)
_takes("pw_fix_above_64", c_uint64, _NUMBER)
_takes("pw_box_around_32", _To(RawFloats), _To(RawFloats), _BOX)
_takes("pw_box_around_64", _To(RawDoubles), _To(RawDoubles), _BOX)

#: The calls that ask and read, and what each takes behind the words of a world (`pw_hits`) or a reader (`pw_reader_hits`).
ASKS: Dict[str, Tuple[Any, ...]] = {
    "hits": (_QUERY, *_FOUND),
    "ray_hits": (_RAY, *_FOUND),
    "cast_hits": (_CAST, *_FOUND),
    "ray_first": (_RAY, _HIT, _COUNT),
    "cast_first": (_CAST, _HIT, _COUNT),
    "ray_meets": (_RAY, RawHandle, _HIT, _COUNT),
    "cast_meets": (_CAST, RawHandle, _HIT, _COUNT),
    "square_to": (_To(RawPoint), RawHandle, _SQUARE),
    "square_apart": (_BOX, RawHandle, _SQUARE),
    "nearest": (_To(RawNear), *_FOUND),
    "nearest_box": (_To(RawNearBox), *_FOUND),
    "hits_each": (_QUERY, c_size_t, _HANDLE, c_size_t, _COUNT, c_size_t, _COUNT),
    "ray_first_each": (_RAY, c_size_t, *_FIRSTS),
    "cast_first_each": (_CAST, c_size_t, *_FIRSTS),
    "get": (RawHandle, _To(RawLive)),
    "at": (c_uint32, _HANDLE, _To(RawLive)),
    "pairs": (c_size_t, _To(RawPair), c_size_t, _COUNT),
    "events": (c_size_t, _To(RawTold), c_size_t, _COUNT),
    "changes": (c_size_t, _To(RawTold), c_size_t, _COUNT),
    "info": (_To(RawInfo),),
}
for _name, _types in ASKS.items():
    _takes(f"pw_{_name}", _WORLD, *_types)
    _takes(f"pw_reader_{_name}", _READER, *_types)


def version() -> int:
    """The version of the library that runs, as one number: 6003 for 0.6.3."""
    return int(library.pw_version())


def unchecked(name: str) -> Any:
    """The same function without a look at its arguments, which would double the time of a short call.

    It is for pointers to the own memory of a world, a reader or a workspace, for structs and numbers of ctypes, and for bytes that a
    `struct.Struct` below has just packed.
    """
    function = library[name]
    function.restype = c_uint32
    return function


#: Lengths. (A bare number would go as an int of C.)
NONE, ONE, MOST = c_size_t(0), c_size_t(1), c_size_t(SLOTS)


class Workspace:
    """Memory for what one call gives, with the pointers to its parts.

    A call takes one and puts it back, since to make one takes longer than the call. So calls of several threads have one each, and
    so has a call that a collector's finalizer makes in the middle of another one.
    """

    def __init__(self) -> None:
        self.box, self.handle, self.live, self.hit, self.info = RawBox(), RawHandle(), RawLive(), RawHit(), RawInfo()
        self.count, self.number, self.square = c_size_t(), c_int32(), RawSquare()
        # Room for the answer to any question, and for what is told of most frames.
        self.found = bytearray(SLOTS * ctypes.sizeof(RawHandle))
        self.box_at, self.handle_at, self.live_at, self.info_at = map(ctypes.byref, (self.box, self.handle, self.live, self.info))
        self.hit_at, self.count_at, self.number_at = map(ctypes.byref, (self.hit, self.count, self.number))
        self.square_at = ctypes.byref(self.square)
        self.found_at = ctypes.byref(ctypes.c_char.from_buffer(self.found))


kept: List[Workspace] = []


def workspace() -> Workspace:
    """One that was put back by `kept.append`, or a new one."""
    try:
        return kept.pop()
    except IndexError:
        return Workspace()


#: How the numbers of each struct stand in memory. Places and lengths are as ctypes has them.
BOX, HANDLE, PAIR, TOLD = (struct.Struct(form) for form in ("=6i", "=2I", "=4I", "=5I"))
NEW, LIVE, HIT, INFO = (struct.Struct(form) for form in ("=4I", "=6i4I", "=2I2q2I", "=4I2Q"))
QUERY, RAY, CAST, NEAR, DOUBLES = (struct.Struct(form) for form in ("=2I6i", "=I6i", "=I9i", "=2I3i", "=3d"))
POINT, SQUARE, NEAR_BOX = (struct.Struct(form) for form in ("=3i", "=2Q", "=2I6i2Q"))
