"""Pungwelair's broad phase for Python: which of many moving boxes meet, and which of them a question finds.

It is proved that a world's answers are those of testing every live box, and every two of them, whatever structure keeps them. This
package is the edge to that library, by ctypes over the shared library that `bindings/build` makes; `PUNGWELAIR_LIB` names another
one, or its folder. What each call means, and what it costs, stands in pungwelair.h.

    with World() as world:
        crate = world.add(box_around((0, 0, 0), (1, 1, 1)))
        world.move(crate, box_around((0.5, 0, 0), (1.5, 1, 1)))
        world.end_frame()
        for event, a, b in world.pair_changes():
            ...

Several threads ask one world at once by a reader each, as long as nobody changes it:

    with world.share() as first, first.join() as second:
        ...

A call that is refused raises `Refused`, whose `status` tells why; a batch raises `Stopped`, which tells how many were done. A value of
the wrong type is a TypeError and a number that doesn't fit a ValueError, before the library is called.
"""

from ._asking import Asker
from ._library import ALL, MOST_MARKS, SLOTS, library, version
from ._reader import Reader
from ._values import (
    BEGIN, GRID, LOWER, NO_HANDLE, OVER, PLAIN, REFUSALS, SAP, SKIN, STAY, TREE, UPPER, Box, Cast, Event, Frame, Handle, Hit, Info, Live,
    Pair, Point, Question, Ray, Refused, Segment, Side, Status, Stopped, Structure, Told, box_around, box_around_cut, call, fix_above,
    fix_below,
)  # fmt: skip
from ._world import World

__all__ = [
    "ALL", "Asker", "BEGIN", "Box", "Cast", "Event", "Frame", "GRID", "Handle", "Hit", "Info", "LOWER", "Live", "MOST_MARKS", "NO_HANDLE",
    "OVER", "PLAIN", "Pair", "Point", "Question", "REFUSALS", "Ray", "Reader", "Refused", "SAP", "SKIN", "SLOTS", "STAY", "Segment", "Side",
    "Status", "Stopped", "Structure", "TREE", "Told", "UPPER", "World", "box_around", "box_around_cut", "call", "fix_above", "fix_below",
    "library", "version",
]  # fmt: skip
