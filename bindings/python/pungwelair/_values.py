"""What goes in and what comes out: values, which are equal if their parts are, serve as keys, and don't change."""

from __future__ import annotations

import enum
import struct
from ctypes import c_uint64
from operator import index
from typing import Any, Iterable, List, NamedTuple, NoReturn, Optional, Tuple, Union

from ._library import ALL, BOX, DOUBLES, kept, library, unchecked, workspace


class Status(enum.IntEnum):
    """What a call came to."""

    OK = 0
    STALE = 1  #: no live box has the handle, or is in the slot
    FULL = 2  #: SLOTS boxes live, or MOST_MARKS marks are held
    #: Memory ran out, and what ran out wasn't done. A world over PLAIN or SAP may be spent then, which `World.info` tells.
    NO_MEMORY = 3
    INVERTED = 4  #: a lower corner is above the upper one
    CLOSED = 5  #: the world is closed, as it is while readers read it, or the reader left
    ARGUMENT = 6  #: no such structure, an inverted region, or lengths that don't agree
    EXHAUSTED = 7  #: a number of the world is at its end, which no game comes to
    NO_MARK = 8  #: no mark is held to go back to, or fewer are than are to be given up
    NOT_A_NUMBER = 9  #: a float is a NaN
    OUT_OF_RANGE = 10  #: a float is below -32,768 or above 32,767.99998, or an infinity
    SHARED = 11  #: a reader reads a world already, or others still read it; no call of a World or a Reader is refused so


#: The text of each status.
REFUSALS = tuple(status.name.lower().replace("_", " ") for status in Status)


class Structure(enum.IntEnum):
    """How a world keeps its boxes. The answers are the same; the costs are not."""

    PLAIN = 0  #: tests every two: for a few hundred boxes
    SAP = 1  #: sweep and prune: if you want exchanges counted
    TREE = 2  #: a dynamic tree of enlarged boxes: if few boxes move, or much is asked
    GRID = 3  #: a hashed grid of levels: if most boxes move
    SKIN = 4  #: boxes in skins over the tree: if boxes move by little in each tick


class Event(enum.IntEnum):
    """What became of a pair."""

    BEGIN = 0  #: it is new
    STAY = 1  #: it was there in the frame before, too
    OVER = 2  #: it was there in the frame before, and is no more


class Side(enum.IntEnum):
    """Which side of a box, along an axis."""

    LOWER = 0  #: the side at `lo`, whose normal points down
    UPPER = 1  #: the side at `hi`, whose normal points up


PLAIN, SAP, TREE, GRID, SKIN = Structure
BEGIN, STAY, OVER = Event
LOWER, UPPER = Side


class Refused(Exception):
    """A call was refused, and changed nothing except what its comment names. `status` tells why, and the text says it."""

    status: Status

    def __init__(self, status: int, *others: Any) -> None:
        super().__init__(status, *others)
        self.status = Status(status)

    def __str__(self) -> str:
        return REFUSALS[self.status]


class Stopped(Refused):
    """A batch stopped: `done` of its items were done and stay so, and `status` tells why the next one was not.

    `handles` are those of the boxes that `World.add_all` added; they are empty for the other batches.
    """

    done: int
    handles: List[Handle]

    def __init__(self, status: int, done: int, handles: Iterable[Handle] = ()) -> None:
        super().__init__(status, done)
        self.done, self.handles = done, list(handles)

    def __str__(self) -> str:
        return f"{super().__str__()}, after {self.done} were done"

    def __reduce__(self) -> Tuple[Any, ...]:
        return type(self), (self.status, self.done, self.handles)


class Point(NamedTuple):
    """A place or a displacement, in raw units of 1/65,536: whole numbers of 32 bits."""

    x: int = 0
    y: int = 0
    z: int = 0


class Box(tuple[int, ...]):
    """A closed axis-aligned box in raw units, from two corners. Boxes that touch meet.

    It is a row of six numbers, as a buffer has them: the lower corner's, and then the upper one's. One whose `lo` is above its `hi` on
    some axis is no box, and calls refuse it.
    """

    __slots__ = ()

    def __new__(cls, lo: Iterable[int] = (0, 0, 0), hi: Iterable[int] = (0, 0, 0)) -> Box:
        (x, y, z), (u, v, w) = lo, hi
        return tuple.__new__(cls, (x, y, z, u, v, w))

    def __getnewargs__(self) -> Tuple[Point, Point]:  # type: ignore[override]
        return self.lo, self.hi

    @property
    def lo(self) -> Point:
        """The lower corner."""
        return Point(*self[:3])

    @property
    def hi(self) -> Point:
        """The upper corner."""
        return Point(*self[3:])

    def __repr__(self) -> str:
        return f"Box(lo={self.lo!r}, hi={self.hi!r})"


class Handle(NamedTuple):
    """What names a live box: its slot, and how often that slot was given before.

    A new box takes the least free slot, so index lists of your own by it. A handle of a box that is gone stays stale, unless
    `World.back` undoes what was done since.
    """

    slot: int
    generation: int


#: The handle of no box, stale in every world.
NO_HANDLE = Handle(ALL, ALL)


class Pair(NamedTuple):
    """Two boxes that meet, `a`'s slot below `b`'s."""

    a: Handle
    b: Handle


class Told(NamedTuple):
    """What became of the pair of two boxes."""

    event: Event
    a: Handle
    b: Handle

    @property
    def pair(self) -> Pair:
        """The two boxes, as `World.pairs` gives them."""
        return Pair(self.a, self.b)


class Ray(NamedTuple):
    """A ray without end. A direction of zero asks for the boxes that hold `origin`."""

    origin: Point
    direction: Point


class Segment(NamedTuple):
    """The places from one to the other, with both."""

    a: Point
    b: Point


class Cast(NamedTuple):
    """A box that is moved by a displacement."""

    box: Box
    by: Point


#: What `World.hits` answers: which boxes meet a box, hold a point, or meet a ray or a segment.
Question = Union[Box, Point, Ray, Segment]


class Live(NamedTuple):
    """A live box, and how it came: `groups` and `sees` are masks, and `owner` is 0 for nobody's.

    With `groups` 0 it pairs with no box, and a question finds it only if its mask is 0.
    """

    box: Box
    groups: int
    sees: int
    owner: int
    fixed: bool


class Hit(NamedTuple):
    """Where a ray or a moved box meets a box.

    The box is met at the place `num / den` of the way, exactly: at 0 where it begins, and at 1 where it ends, which a ray goes on past.
    `axis` (0 to 2) and `side` are those of the side by which it is entered, of the lowest axis if there are several. They are None if
    the way begins in the box and comes in by no side.
    """

    handle: Handle
    num: int
    den: int
    axis: Optional[int]
    side: Optional[Side]

    @property
    def place(self) -> float:
        """The place, as the float that is nearest to its fraction."""
        return self.num / self.den

    @property
    def normal(self) -> Optional[Point]:
        """The direction that the side faces, of length 1. None if there is no side."""
        if self.axis is None:
            return None
        length = 1 if self.side == UPPER else -1
        return Point(*(length if axis == self.axis else 0 for axis in range(3)))


class Frame(NamedTuple):
    """How many pairs a frame has, how many events, and how many changes, which are the events of pairs that began or are over."""

    pairs: int
    events: int
    changes: int


class Info(NamedTuple):
    """What a world is. `exchanges` are those of the endpoint lists since the last frame over SAP, and else 0.

    A `spent` world ran out of memory in a change. It tells what it had, as by `get` and `pairs`, and where one of its boxes is met and how
    far off it is. It refuses each other change and question with NO_MEMORY.
    """

    structure: Structure
    spent: bool
    boxes: int
    marks: int
    frames: int
    exchanges: int


#: A value of a tuple of its parts, which needs no look: of numbers that the library gave.
made: Any = tuple.__new__


def call(name: str, *arguments: Any) -> None:
    """Calls a function of pungwelair.h by its name, and raises `Refused` if it doesn't give PW_OK.

    A `World` has each of them: this is for the few that want its structs, which stand in `pungwelair._library`.
    """
    status = getattr(library, name)(*arguments)
    if status:
        raise Refused(status)


def refuse_words(**words: Any) -> None:
    """Raises for the first of some numbers that isn't whole, or isn't one of 32 bits."""
    for name, word in words.items():
        if not 0 <= index(word) <= ALL:
            raise ValueError(f"{name} is {word}: it must be from 0 to {ALL}")


def refuse_places(*numbers: Any) -> None:
    """Raises for the first of some coordinates that isn't whole, or isn't one of 32 bits."""
    for number in numbers:
        if not -(2**31) <= index(number) < 2**31:
            raise ValueError(f"{number} isn't a raw number: they are from {-(2**31)} to {2**31 - 1}")


def refuse_kind(value: Any, kind: type) -> NoReturn:
    """Raises for a value of another type than it should be."""
    raise TypeError(f"{value!r} isn't a {kind.__name__}")


def _refuse_floats(fault: Exception, *numbers: Any) -> NoReturn:
    for number in numbers:
        float(number)
    raise TypeError(f"not numbers: {numbers}") from fault


_pw_box_around_64, _pw_fix_below_64, _pw_fix_above_64 = map(unchecked, ("pw_box_around_64", "pw_fix_below_64", "pw_fix_above_64"))


def box_around(lo: Iterable[float], hi: Iterable[float]) -> Box:
    """The least box in raw units that holds a box of floats, which are three numbers a corner.

    The lower corner is rounded down and the upper one up, so that boxes of floats with a common point have boxes that meet.
    NOT_A_NUMBER, OUT_OF_RANGE or INVERTED: the first fault by axes.
    """
    x, y, z = lo
    u, v, w = hi
    try:
        low, high = DOUBLES.pack(x, y, z), DOUBLES.pack(u, v, w)
    except (struct.error, OverflowError) as fault:
        _refuse_floats(fault, x, y, z, u, v, w)
    work = workspace()
    status = _pw_box_around_64(low, high, work.box_at)
    box: Box = made(Box, BOX.unpack_from(work.box))
    kept.append(work)
    if status:
        raise Refused(status)
    return box


#: The ends of the range.
_LEAST, _MOST = -(2**31) / 65536, (2**31 - 1) / 65536


def box_around_cut(lo: Iterable[float], hi: Iterable[float]) -> Box:
    """As `box_around`, but cut to the range: what is below it or above it, as an infinity, becomes its end.

    A box that lies past the range becomes a flat one at the end. NOT_A_NUMBER or INVERTED: the first fault by axes.
    """
    low, high = [*lo], [*hi]
    for axis, (least, most) in enumerate(zip(low, high)):
        # Two numbers past one end are cut to one number, so what is inverted stays so. A NaN stays one too.
        if least > most:
            low[axis], high[axis] = 1, 0
        else:
            low[axis], high[axis] = _cut_to_range(least), _cut_to_range(most)
    return box_around(low, high)


def _cut_to_range(number: float) -> float:
    return _LEAST if number < _LEAST else _MOST if number > _MOST else number


def _fixed(rounds: Any, number: float) -> int:
    work = workspace()
    (bits,) = struct.unpack("=Q", struct.pack("=d", float(number)))
    status = rounds(c_uint64(bits), work.number_at)
    fixed: int = work.number.value
    kept.append(work)
    if status:
        raise Refused(status)
    return fixed


def fix_below(number: float) -> int:
    """The greatest raw number that is at most 65,536 times a float. NOT_A_NUMBER, OUT_OF_RANGE."""
    return _fixed(_pw_fix_below_64, number)


def fix_above(number: float) -> int:
    """The least raw number that is at least 65,536 times a float. NOT_A_NUMBER, OUT_OF_RANGE."""
    return _fixed(_pw_fix_above_64, number)
