"""The package for Python: each call, what it takes and gives, and what it refuses."""

import array
import copy
import ctypes
import gc
import inspect
import os
import pickle
import random
import struct
import subprocess
import sys
import threading
import time
import tracemalloc
import warnings
from concurrent.futures import ThreadPoolExecutor
from fractions import Fraction
from pathlib import Path

import pungwelair
from pungwelair import (
    ALL, BEGIN, LOWER, MOST_MARKS, NO_HANDLE, OVER, PLAIN, SLOTS, STAY, TREE, UPPER, Box, Cast, Event, Handle, Hit, Live, Pair, Point, Ray,
    Reader, Refused, Segment, Status, Stopped, Structure, Told, World, box_around, box_around_cut, fix_above, fix_below, library,
)  # fmt: skip

try:
    import numpy
except ImportError:
    numpy = None


def cube(x):
    return box_around((x, 0, 0), (x + 1, 1, 1))


def raw(x):
    """A cube of ten raw units."""
    return Box((x, 0, 0), (x + 10, 10, 10))


def raises(kind, call, *arguments, **named):
    """What a call raises, which is of this kind and of no other."""
    try:
        given = call(*arguments, **named)
    except Exception as fault:
        assert type(fault) is kind, (fault, kind, arguments)
        return fault
    raise AssertionError(f"{call.__name__}{arguments} gave {given}, and should raise {kind.__name__}")


def refused(status, call, *arguments, **named):
    assert raises(Refused, call, *arguments, **named).status is status


def stopped(status, done, call, *arguments, **named):
    fault = raises(Stopped, call, *arguments, **named)
    assert isinstance(fault, Refused) and (fault.status, fault.done) == (status, done), fault
    return fault


# Frames and pairs.


def slots_of_frames(world):
    assert world.events() == world.changes() == []
    boxes = [world.add(cube(x)) for x in (0, 1, 2, 9)]
    assert world.update() == world.changes() == [(BEGIN, 0, 1), (BEGIN, 1, 2)]
    world.move(boxes[0], cube(10))
    world.end_frame()
    assert world.changes() == [(BEGIN, 0, 3), (OVER, 0, 1)]
    assert world.events() == [(BEGIN, 0, 3), (STAY, 1, 2), (OVER, 0, 1)]
    assert world.update() == [(STAY, 0, 3), (STAY, 1, 2)] and world.changes() == []


def handles_of_frames(world):
    assert world.pairs() == world.pair_events() == world.pair_changes() == [] and world.frame == (0, 0, 0)
    a, b, c = (world.add(cube(x)) for x in (0, 1, 2))
    world.end_frame()
    assert world.pairs() == [Pair(a, b), Pair(b, c)] and world.frame == (2, 2, 2)
    world.remove(a)
    later = world.add(cube(3))
    assert later == Handle(a.slot, a.generation + 1)
    world.end_frame()
    assert world.pair_changes() == [Told(BEGIN, later, c), Told(OVER, a, b)]
    assert world.pair_events() == [Told(BEGIN, later, c), Told(STAY, b, c), Told(OVER, a, b)]
    assert [told.pair for told in world.pair_events()[:2]] == world.pairs() == [Pair(later, c), Pair(b, c)]
    assert all(type(told.event) is Event for told in world.pair_events())
    assert {told.a for told in world.pair_events()} == {a, later, b}


def long_lists(world):
    handles = world.add_all([raw(0)] * 100)
    world.end_frame()
    pairs = [Pair(a, b) for k, a in enumerate(handles) for b in handles[k + 1 :]]
    begun = [Told(BEGIN, *pair) for pair in pairs]
    assert world.pairs() == pairs and world.pair_events() == world.pair_changes() == begun
    assert world.events() == world.changes() == [(BEGIN, a.slot, b.slot) for a, b in pairs]
    out = array.array("I", [7] * 4 * 2000)
    assert world.pairs_into(out, 4000) == 950 and tuple(out[:4]) == (*pairs[4000].a, *pairs[4000].b) and out[4 * 950] == 7
    told = array.array("I", [7] * 5 * 3)
    assert world.pair_events_into(told, 4948) == world.pair_changes_into(told, 4948) == 2
    assert tuple(told[5:]) == (BEGIN, *pairs[-1].a, *pairs[-1].b, 7, 7, 7, 7, 7)
    assert world.pairs_into(out, 4950) == world.pairs_into(out, 2**80) == 0
    # What is there now, if the last frame has fewer and if it has as many.
    world.mark()
    world.add(raw(0))
    assert len(world.pairs_now()) == 5050 and world.pairs_now()[:99] == pairs[:99] and world.pairs() == pairs
    world.back()
    assert world.pairs_now() == pairs and world.pairs_now_into(out, 4000) == 4950 and tuple(out[:2]) == pairs[4000].a
    assert world.pairs_now_into(out[:0]) == world.pairs_now_into(out, 2**80) == 4950 and world.frame == (4950, 4950, 4950)
    for call in (world.pairs_into, world.pairs_now_into):
        raises(ValueError, call, told, 0)
    raises(ValueError, world.pairs_now_into, out, -1)
    raises(ValueError, world.pairs_into, out, -1)
    # The frame that a way back brings has more pairs than the last one that ended.
    world.mark()
    world.remove_all(handles)
    world.end_frame()
    assert world.pairs() == [] and world.frame == (0, 4950, 4950)
    world.back()
    assert world.pairs() == pairs and world.pair_changes() == [Told(OVER, *pair) for pair in pairs]


def pairs_within_a_frame(world):
    a, b, c = (world.add(cube(x)) for x in (0, 1, 9))
    assert world.pairs_now() == [Pair(a, b)] and world.pairs() == []
    world.end_frame()
    world.move(c, cube(2))
    assert world.pairs_now() == [Pair(a, b), Pair(b, c)] and world.pairs() == [Pair(a, b)] and world.frame == (1, 1, 1)
    more = [world.add(cube(0)) for _ in range(30)]
    now = world.pairs_now()
    assert len(now) == 2 + 30 * 2 + 30 * 29 // 2 and now[1] == Pair(a, more[0]) and world.info().frames == 1
    world.end_frame()
    assert world.pairs() == now == world.pairs_now() and len(world.pair_changes()) == len(now) - 1


# Changes of one box.


def live_boxes(world):
    handle = world.add(cube(0), groups=2, sees=4, owner=5, fixed=True)
    assert world.get(handle) == Live(cube(0), 2, 4, 5, True)
    world.mask(handle, 8, ALL)
    world.move(handle, cube(3))
    assert world.get(handle) == Live(box=cube(3), groups=8, sees=ALL, owner=5, fixed=True)
    assert world.hits(cube(3), mask=7) == [] and world.hits(cube(3), mask=8) == [handle]
    assert world.get(world.add(cube(1))) == (cube(1), 1, ALL, 0, False)
    info = world.info()
    assert info == (info.structure, False, 2, 0, 0, info.exchanges) and type(info.structure) is Structure
    world.remove(handle)
    for call in (
        world.get, world.remove, lambda gone: world.move(gone, cube(0)), lambda gone: world.mask(gone, 1, 1),
        lambda gone: world.ray_meets((0, 0, 0), (0, 0, 0), gone), lambda gone: world.cast_meets(cube(0), (0, 0, 0), gone),
        lambda gone: world.square_to((0, 0, 0), gone), lambda gone: world.square_apart(cube(0), gone),
    ):  # fmt: skip
        refused(Status.STALE, call, handle)
        refused(Status.STALE, call, NO_HANDLE)
    inverted = Box((1, 0, 0), (0, 0, 0))
    refused(Status.INVERTED, world.add, inverted)
    refused(Status.INVERTED, world.move, handle, inverted)
    refused(Status.INVERTED, world.cast_meets, inverted, (0, 0, 0), handle)
    refused(Status.INVERTED, world.square_apart, inverted, handle)
    refused(Status.INVERTED, world.nearest_box, inverted)
    refused(Status.INVERTED, world.nearest_box_into, bytearray(8), inverted)
    assert str(raises(Refused, world.remove, handle)) == "stale"


def wrong_types(world):
    handle, box = world.add(cube(0)), cube(0)
    raises(TypeError, world.move, box, handle)
    for wrong in (None, 0, handle, tuple(box), "box", b"x" * 24, Point(0, 0, 0), Pair(handle, handle)):
        raises(TypeError, world.add, wrong)
        raises(TypeError, world.move, handle, wrong)
        raises(TypeError, world.cast_hits, wrong, (0, 0, 0))
        raises(TypeError, world.cast_meets, wrong, (0, 0, 0), handle)
        raises(TypeError, world.square_apart, wrong, handle)
        raises(TypeError, world.nearest_box, wrong)
        raises(TypeError, world.cast_first_each, [wrong])
        raises(TypeError, world.ray_first_each, [wrong])
        raises(TypeError, world.add_all, [box, wrong])
        raises(TypeError, world.move_all, [handle], [wrong])
    for wrong in (None, 0, box, tuple(handle), "handle", b"x" * 8, Point(0, 0, 0), Pair(handle, handle)):
        raises(TypeError, world.remove, wrong)
        raises(TypeError, world.get, wrong)
        raises(TypeError, world.mask, wrong, 1, 1)
        raises(TypeError, world.ray_meets, (0, 0, 0), (1, 0, 0), wrong)
        raises(TypeError, world.cast_meets, box, (1, 0, 0), wrong)
        raises(TypeError, world.square_to, (0, 0, 0), wrong)
        raises(TypeError, world.square_apart, box, wrong)
        raises(TypeError, world.move, wrong, box)
        raises(TypeError, world.remove_all, [handle, wrong])
    raises(TypeError, world.move_all, [box], [handle])
    for wrong in (None, handle, (0, 0, 0), "hits"):
        raises(TypeError, world.hits, wrong)
        raises(TypeError, world.hits_each, [box, wrong])
    assert world.info().boxes == 1 and world.get(handle).box == box


def wrong_numbers(world):
    handle, out = world.add(raw(0)), bytearray(80)
    for wrong, kind in ((-1, ValueError), (2**32, ValueError), (1 << 40, ValueError), (1.0, TypeError), ("1", TypeError)):
        for name in ("groups", "sees", "owner"):
            raises(kind, world.add, raw(0), **{name: wrong})
            raises(kind, world.add_all, [raw(0)], **{name: wrong})
            raises(kind, world.add_all_into, out, [raw(0)], **{name: wrong})
        raises(kind, world.mask, handle, wrong, 1)
        raises(kind, world.mask, handle, 1, wrong)
        raises(kind, world.hits, raw(0), wrong)
        raises(kind, world.ray_hits, (0, 0, 0), (1, 0, 0), wrong)
        raises(kind, world.first_hit, (0, 0, 0), (1, 0, 0), wrong)
        raises(kind, world.cast_first, raw(0), (1, 0, 0), wrong)
        raises(kind, world.cast_hits_into, out, raw(0), (1, 0, 0), wrong)
        raises(kind, world.nearest, (0, 0, 0), wrong)
        raises(kind, world.nearest, (0, 0, 0), 1, wrong)
        raises(kind, world.ray_meets, (0, 0, 0), (1, 0, 0), Handle(wrong, 0))
        raises(kind, world.cast_meets, raw(0), (1, 0, 0), Handle(0, wrong))
        raises(kind, world.square_to, (0, 0, 0), Handle(wrong, 0))
        raises(kind, world.square_apart, raw(0), Handle(wrong, 0))
        raises(kind, world.nearest_box, raw(0), wrong)
        raises(kind, world.nearest_box, raw(0), 1, wrong)
        raises(kind, world.hits_each, [raw(0)], wrong)
        raises(kind, world.hits_each, [], wrong)
        raises(kind, world.ray_first_each, [Ray((0, 0, 0), (1, 0, 0))], wrong)
        raises(kind, world.cast_first_each_into, out, [Cast(raw(0), (1, 0, 0))], wrong)
        raises(kind, world.remove, Handle(wrong, 0))
        raises(kind, world.remove_all, [Handle(0, wrong)])
        raises(kind, World, wrong)
    for wrong, kind in ((2**31, ValueError), (-(2**31) - 1, ValueError), (0.5, TypeError), ("1", TypeError)):
        place = (0, wrong, 0)
        raises(kind, world.add, Box((0, 0, 0), place))
        raises(kind, world.move, handle, Box(place, (0, 0, 0)))
        raises(kind, world.add_all, [Box((0, 0, 0), place)])
        raises(kind, world.hits, Point(*place))
        raises(kind, world.hits, Segment(Point(), place))
        raises(kind, world.ray_handles, place, (1, 0, 0))
        raises(kind, world.cast_hits, raw(0), place)
        raises(kind, world.ray_first, place, (1, 0, 0))
        raises(kind, world.ray_meets, (0, 0, 0), place, handle)
        raises(kind, world.cast_meets, raw(0), place, handle)
        raises(kind, world.square_to, place, handle)
        raises(kind, world.nearest, place)
        raises(kind, world.nearest_box, Box((0, 0, 0), place))
        raises(kind, world.square_apart, Box(place, place), handle)
        raises(kind, world.hits_each, [raw(0), Point(*place)])
        raises(kind, world.ray_first_each, [Ray(place, (0, 0, 0))])
        raises(kind, world.cast_first_each, [Cast(raw(0), place)])
    for wrong, kind in ((-1, ValueError), (2**128, ValueError), (1.0, TypeError), ("1", TypeError)):
        raises(kind, world.nearest_box, raw(0), 1, ALL, wrong)
    for wrong in ((0, 0), (0, 0, 0, 0)):
        raises(ValueError, Box, wrong, (0, 0, 0))
        raises(ValueError, world.hits, Ray(wrong, (0, 0, 0)))
        raises(ValueError, world.ray_hits, (0, 0, 0), wrong)
        raises(ValueError, world.cast_hits, raw(0), wrong)
        raises(ValueError, world.nearest, wrong)
        raises(ValueError, world.square_to, wrong, handle)
    assert world.info().boxes == 1 and world.get(handle) == (raw(0), 1, ALL, 0, False)


# Questions.


def questions(world):
    far, near = world.add(raw(50)), world.add(raw(0))
    origin, direction = (-5, 5, 5), (2, 0, 0)
    assert world.hits(raw(5)) == world.hits(raw(5), 1) == [near] and world.hits(Box((0, 0, 0), (50, 0, 0))) == [far, near]
    assert world.hits(Point(10, 0, 0)) == [near] and world.hits(Point(11, 0, 0)) == []
    assert world.hits(Ray(Point(*origin), Point(*direction))) == world.hits(Ray(origin, direction)) == [far, near]
    assert world.hits(Segment(origin, (-1, 5, 5))) == [] and world.hits(Segment(origin, (0, 5, 5))) == [near]
    assert world.ray_handles(origin, direction) == [near, far] and world.ray_hits(origin, direction) == [near.slot, far.slot]
    assert world.ray_handles(origin, direction, mask=2) == world.ray_hits(origin, direction, mask=2) == []
    assert world.first_hit(origin, direction) == near and world.first_hit(origin, (-1, 0, 0)) is None
    assert world.cast_hits(raw(-20), (60, 0, 0)) == [near, far] and world.cast_hits(raw(-20), (10, 0, 0)) == [near]
    assert world.nearest((40, 5, 5)) == [far] and world.nearest((40, 5, 5), 9) == [far, near]
    assert world.nearest((0, 0, 0), want=0) == world.nearest((0, 0, 0), want=ALL, mask=2) == []
    refused(Status.ARGUMENT, world.hits, Box((1, 0, 0), (0, 0, 0)))
    refused(Status.INVERTED, world.cast_hits, Box((1, 0, 0), (0, 0, 0)), (0, 0, 0))
    first = world.ray_first((100, 5, 5), (-80, 0, 0))
    assert first[0] == far and first.place == 0.5 and first[3:] == (0, UPPER) and first.side is UPPER and first.normal == (1, 0, 0)
    moved = world.cast_first(Box((0, -20, 0), (1, -10, 1)), (0, 20, 0))
    assert moved == Hit(near, moved.num, 2 * moved.num, 1, LOWER) and moved.normal == (0, -1, 0)
    within = world.ray_first((5, 5, 5), (0, 0, 0))
    assert (within.handle, within.place, within.axis, within.side, within.normal) == (near, 0, None, None, None)
    assert world.ray_first(origin, direction, mask=2) is None and world.cast_first(raw(-20), (9, 0, 0)) is None
    refused(Status.INVERTED, world.cast_first, Box((1, 0, 0), (0, 0, 0)), (0, 0, 0))
    # Of one box, also of one that isn't met first.
    same = world.ray_meets((100, 5, 5), (-80, 0, 0), far)
    assert same[0] == far and same.place == 0.5 and same[3:] == first[3:] and same.side is UPPER
    behind = world.ray_meets((100, 5, 5), (-80, 0, 0), near)
    assert behind == Hit(near, behind.num, behind.den, 0, UPPER) and behind.num * 8 == behind.den * 9 and behind.place == 1.125
    inside = world.ray_meets((5, 5, 5), (0, 0, 0), near)
    assert (inside.handle, inside.num, inside.normal) == (near, 0, None) and world.ray_meets((5, 5, 5), (0, 0, 0), far) is None
    there = world.cast_meets(raw(-20), (60, 0, 0), far)
    assert there.handle == far and there.num == there.den and there.normal == (-1, 0, 0)
    assert world.cast_meets(raw(-20), (59, 0, 0), far) is None
    assert world.square_to((13, 14, 10), near) == 25 and world.square_to(Point(55, 5, 5), far) == 0
    least, most = Point(*[-(2**31)] * 3), Point(*[2**31 - 1] * 3)
    alone = world.add(Box(most, most), groups=0)
    assert world.square_to(least, alone) == 3 * (2**32 - 1) ** 2 and world.ray_meets(least, (1, 1, 1), alone).num > 0
    world.remove(alone)
    line = Box((0, 0, 0), (50, 0, 0))
    for call, arguments, answer in (
        (world.hits_into, (line,), [far, near]),
        (world.hits_into, (Ray(origin, direction), 1), [far, near]),
        (world.ray_handles_into, (origin, direction), [near, far]),
        (world.cast_hits_into, (raw(-20), (60, 0, 0)), [near, far]),
        (world.nearest_into, ((40, 5, 5), 2), [far, near]),
    ):
        for room in range(4):
            out = array.array("I", [7] * 2 * room)
            assert call(out, *arguments) == 2, call.__name__
            written = [number for handle in answer[:room] for number in handle]
            assert list(out) == written + [7] * (2 * room - len(written)), call.__name__
    assert world.hits_into(array.array("I"), line, 2) == 0


# Nearest to a box, many questions at once, and readers.

INVERTED = Box((0, 1, 0), (0, 0, 0))


class ThreeNumbers(ctypes.Structure):
    _fields_ = [("x", ctypes.c_int32), ("yz", ctypes.c_int32 * 2)]


class TwoCorners(ctypes.Structure):
    _fields_ = [("lo", ThreeNumbers), ("hi", ThreeNumbers)]


class SlotAndGeneration(ctypes.Structure):
    _fields_ = [("slot", ctypes.c_uint32), ("generation", ctypes.c_uint32)]


def nearest_to_boxes(world):
    handles = world.add_all([raw(20 * k) for k in range(9)])
    assert world.nearest_box(raw(-5)) == handles[:1] and world.nearest_box(raw(35), 2) == [handles[2], handles[1]]
    assert world.nearest_box(raw(0), 9) == handles and world.nearest_box(raw(0), 9, mask=2) == world.nearest_box(raw(0), 0) == []
    assert [world.square_apart(raw(-5), handle) for handle in handles[:3]] == [0, 15**2, 35**2]
    assert world.square_apart(Box((13, 14, 12), (14, 15, 13)), handles[0]) == 9 + 16 + 4
    # In parts, each from the last one of the part before, which is told again.
    found, least = [], 0
    while True:
        part = world.nearest_box(raw(-5), 3, least=least)
        found += part[found[-1:] == part[:1] :]
        if len(part) < 3:
            break
        least = world.square_apart(raw(-5), part[-1])
    assert found == handles and least == 155**2
    # From end to end, whose square is above 64 bits.
    ends = [Box(*[[end] * 3] * 2) for end in (-(2**31), 2**31 - 1)]
    world.move(handles[8], ends[1])
    far = 3 * (2**32 - 1) ** 2
    assert world.square_apart(ends[0], handles[8]) == far and world.nearest_box(ends[0], 9, least=far) == [handles[8]]
    assert world.nearest_box(ends[0], 9, least=far + 1) == world.nearest_box(ends[0], 9, least=2**128 - 1) == []
    for room in range(4):
        out = array.array("I", [7] * 2 * room)
        assert world.nearest_box_into(out, raw(0), 2, least=1) == 2
        assert list(out) == [*handles[1], *handles[2], 7, 7][: 2 * room]


def many_questions(world):
    far, near = world.add(raw(50), groups=2), world.add(raw(0))
    asked = [raw(5), Point(100, 0, 0), Ray((-5, 5, 5), (2, 0, 0)), Segment((-5, 5, 5), (0, 5, 5)), Box((0, 0, 0), (50, 0, 0))]
    assert world.hits_each(asked) == [[near], [], [far, near], [near], [far, near]] == [world.hits(one) for one in asked]
    assert world.hits_each(iter(asked), mask=2) == [[], [], [far], [], [far]] and world.hits_each([]) == []
    fault = stopped(Status.ARGUMENT, 2, world.hits_each, [*asked[:2], INVERTED, raw(5)])
    assert fault.handles == [] and str(fault) == "argument, after 2 were done"
    assert len(world.hits_each([asked[4]] * 5000)) == 5000 and set(map(tuple, world.hits_each([asked[4]] * 5000))) == {(far, near)}
    rays = [Ray((100, 5, 5), (-80, 0, 0)), Ray((100, 5, 5), (1, 0, 0)), Ray(Point(5, 5, 5), Point())]
    first = world.ray_first_each(rays)
    assert first == [world.ray_first(*ray) for ray in rays] and first[0].handle == far and first[1] is None and first[2].axis is None
    assert [hit and hit.handle for hit in world.ray_first_each(rays, mask=1)] == [near, None, near] and world.ray_first_each([]) == []
    casts = [Cast(raw(-20), (60, 0, 0)), Cast(raw(-20), Point(9, 0, 0)), Cast(raw(45), (0, 0, 0))]
    met = world.cast_first_each(casts)
    assert met == [world.cast_first(*cast) for cast in casts] and met[0].normal == (-1, 0, 0) and met[1] is None and met[2].handle == far
    assert world.cast_first_each(casts, 2)[0].handle == far and world.cast_first_each(()) == []
    stopped(Status.INVERTED, 2, world.cast_first_each, [*casts[:2], Cast(INVERTED, (0, 0, 0)), casts[0]])


def packed_questions(asked, masks):
    kinds = {Box: 0, Point: 1, Ray: 2, Segment: 3}
    places = [(*one, *one) if type(one) is Point else one if type(one) is Box else (*one[0], *one[1]) for one in asked]
    return b"".join(struct.pack("=2I6i", kinds[type(one)], mask, *numbers) for one, mask, numbers in zip(asked, masks, places))


class NumbersOfQuestion(ctypes.Structure):
    _fields_ = [("kind", ctypes.c_uint32), ("mask", ctypes.c_uint32), ("a", ThreeNumbers), ("b", ThreeNumbers)]


class NumbersOfHit(ctypes.Structure):
    _fields_ = [
        ("handle", SlotAndGeneration), ("num", ctypes.c_int64), ("den", ctypes.c_int64), ("axis", ctypes.c_uint32),
        ("side", ctypes.c_uint32),
    ]  # fmt: skip


def many_questions_of_buffers(world):
    far, near = world.add(raw(50), groups=2), world.add(raw(0))
    asked = [Box((0, 0, 0), (50, 0, 0)), Point(100, 0, 0), Ray((-5, 5, 5), (2, 0, 0)), Segment((-5, 5, 5), (60, 5, 5))]
    packed, answers = packed_questions(asked, [3, ALL, 1, 2]), [[far, near], [], [near], [far]]
    flat = array.array("i", packed)
    rows = [packed, bytearray(packed), flat, array.array("I", packed), memoryview(flat).cast("B").cast("i", [4, 8])]
    rows += [memoryview(flat).toreadonly(), (NumbersOfQuestion * 4).from_buffer_copy(packed)]
    written = [number for handle in (far, near, near, far) for number in handle]
    for buffer in rows:
        assert world.hits_each(buffer) == answers
        for room in range(6):
            out, ends = array.array("I", [7] * 2 * room), array.array("Q", [7] * 5)
            assert world.hits_each_into(out, ends, buffer) == 4 and ends.tolist() == [2, 2, 3, 4, 7]
            assert list(out) == (written + [7, 7])[: 2 * room]
    for ends in (bytearray(32), (ctypes.c_size_t * 4)(), array.array("L", [0] * 4), memoryview(bytearray(32)).cast("N")):
        assert world.hits_each_into(bytearray(), ends, packed) == 4 and bytes(ends)[24:] == struct.pack("=Q", 4)
    # What was answered before the first that is refused stands there.
    out, ends = array.array("I", [7] * 4), array.array("Q", [7] * 4)
    stopped(Status.ARGUMENT, 1, world.hits_each_into, out, ends, [asked[2], INVERTED, asked[0]])
    assert ends.tolist() == [2, 7, 7, 7] and list(out) == [*far, *near]
    stopped(Status.ARGUMENT, 1, world.hits_each_into, out, ends, packed[64:96] + struct.pack("=2I6i", 9, *[1] * 7))
    assert ends.tolist() == [1, 7, 7, 7] and list(out[:2]) == [*near]
    stopped(Status.ARGUMENT, 0, world.hits_each_into, out, ends[:2], packed)
    assert world.hits_each_into(bytearray(), bytearray(), []) == 0

    rays = [Ray((100, 5, 5), (-80, 0, 0)), Ray((100, 5, 5), (1, 0, 0))]
    packed = b"".join(struct.pack("=I6i", mask, *ray.origin, *ray.direction) for ray, mask in zip(rays, (1, ALL)))
    first, kept = world.ray_first(*rays[0], mask=1), (7).to_bytes(8, "little") * 4
    expected = struct.pack("=2I2q2I", *near, *first[1:]) + struct.pack("=2I2q2I", *NO_HANDLE, 0, 1, 3, 0) + kept
    for buffer in (packed, array.array("i", packed), memoryview(packed).cast("I", [2, 7])):
        assert world.ray_first_each(buffer) == [first, None]
        for hits in (bytearray(kept * 3), (NumbersOfHit * 3).from_buffer_copy(kept * 3)):
            assert world.ray_first_each_into(hits, buffer) == 2 and bytes(hits) == expected
    assert world.ray_first_each_into(hits, rays, 1) == 2 and bytes(hits) == expected
    casts = [Cast(raw(-20), (60, 0, 0)), Cast(INVERTED, (0, 0, 0))]
    packed = b"".join(struct.pack("=I9i", 2, *cast.box, *cast.by) for cast in casts)
    moved, hits = world.cast_first(*casts[0], mask=2), bytearray(kept * 3)
    stopped(Status.INVERTED, 1, world.cast_first_each_into, hits, array.array("I", packed))
    assert bytes(hits) == struct.pack("=2I2q2I", *far, *moved[1:]) + kept * 2
    assert world.cast_first_each_into(hits, packed[:40]) == 1 and world.cast_first_each(packed[:40]) == [moved]
    stopped(Status.ARGUMENT, 0, world.ray_first_each_into, bytearray(32), rays)
    stopped(Status.ARGUMENT, 0, world.cast_first_each_into, bytearray(), casts)

    # A mask beside a buffer, what doesn't fit, and what is shared.
    raises(ValueError, world.hits_each, flat, 1)
    raises(ValueError, world.hits_each_into, out, ends, flat, 1)
    raises(ValueError, world.ray_first_each, packed[:28], 1)
    raises(ValueError, world.cast_first_each, packed, 2)
    assert world.hits_each(flat, ALL) == answers
    for kind, wrong in ((ValueError, flat[:31]), (ValueError, bytes(33)), (TypeError, array.array("q", flat)), (TypeError, "questions")):
        raises(kind, world.hits_each, wrong)
        raises(kind, world.hits_each_into, out, ends, wrong)
    for kind, wrong in (
        (TypeError, array.array("i", [7] * 8)), (TypeError, array.array("I", [7] * 8)), (TypeError, array.array("d", [7] * 4)),
        (TypeError, bytes(32)), (ValueError, bytearray(33)), (ValueError, memoryview(bytearray(40))[4:36]), (TypeError, None),
        (TypeError, [7] * 4),
    ):  # fmt: skip
        raises(kind, world.hits_each_into, out, wrong, flat)
    for kind, wrong in (
        (TypeError, array.array("I", [7] * 16)), (TypeError, array.array("q", [7] * 8)), (TypeError, bytes(64)),
        (ValueError, bytearray(65)), (ValueError, memoryview(bytearray(72))[4:68]), (TypeError, (NumbersOfQuestion * 2)()), (TypeError, None),
    ):  # fmt: skip
        raises(kind, world.ray_first_each_into, wrong, rays)
        raises(kind, world.cast_first_each_into, wrong, casts)
    common = memoryview(bytearray(packed_questions(asked, [ALL] * 4) + bytes(32)))
    raises(ValueError, world.hits_each_into, common[96:], ends, common[:128])
    raises(ValueError, world.hits_each_into, out, common[120:152], common[:128])
    raises(ValueError, world.hits_each_into, common[128:136], common[128:], flat)
    raises(ValueError, world.ray_first_each_into, common[:64], common[:28])
    grown = array.array("i", packed_questions([INVERTED], [1]))
    fault = stopped(Status.ARGUMENT, 0, world.hits_each, grown)
    grown.append(0)
    assert len(grown) == 9 and fault.done == 0


def asks_of(handle):
    """Each call that asks, by its name and what it is given."""
    box, ray, cast = raw(-5), Ray((-20, 5, 5), (1, 0, 0)), Cast(raw(-20), (60, 0, 0))
    question = packed_questions([box], [ALL])
    yield from (("hits", box), ("hits", box, 0), ("hits", Point(5, 5, 5), 2), ("hits", ray), ("hits", INVERTED), ("ray_hits", *ray))
    yield from (("ray_handles", *ray), ("ray_handles", *ray, 0))
    yield from (("ray_first", *ray), ("ray_first", *ray, 4), ("first_hit", *ray), ("cast_first", *cast), ("cast_hits", *cast))
    yield from (("ray_meets", *ray, handle), ("ray_meets", *ray, NO_HANDLE), ("cast_meets", *cast, handle))
    yield from (("cast_first", INVERTED, ray[1]), ("square_to", (9, 99, 9), handle))
    yield from (("square_apart", box, handle), ("square_apart", box, NO_HANDLE))
    yield from (("nearest", (9, 9, 9), 3), ("nearest_box", box, 3), ("nearest_box", box, 3, ALL, 1), ("nearest_box", INVERTED))
    yield from (("hits_each", [box, ray]), ("hits_each", question), ("hits_each", [box, INVERTED]), ("ray_first_each", [ray] * 3))
    yield from (("cast_first_each", [cast] * 3), ("cast_first_each", [cast, Cast(INVERTED, ray[1])]))
    yield from (("hits_into", bytearray(24), box), ("ray_handles_into", bytearray(24), *ray), ("cast_hits_into", bytearray(24), *cast))
    yield from (("nearest_into", bytearray(24), (9, 9, 9), 3), ("nearest_box_into", bytearray(24), box, 3))
    yield from (("hits_each_into", bytearray(24), bytearray(16), [box, ray]), ("ray_first_each_into", bytearray(64), [ray] * 2))
    yield ("cast_first_each_into", bytearray(64), [cast] * 2)
    yield from (("get", handle), ("get", NO_HANDLE), ("at", 1), ("at", SLOTS), ("boxes",), ("info",), ("pairs",), ("pair_events",))
    yield from (("pair_changes",), ("events",), ("changes",), ("pairs_into", bytearray(32)), ("pair_events_into", bytearray(20), 1))
    yield from (("pair_changes_into", bytearray(60)), ("pairs_into", bytearray(16), 9))


def answer_to(asked, name, *given):
    """What a call answers or refuses, and what it writes."""
    given = [copy.copy(one) for one in given]
    try:
        answer = getattr(asked, name)(*given)
        if inspect.isgenerator(answer):
            answer = list(answer)
    except Stopped as fault:
        answer = fault.status, fault.done
    except Refused as fault:
        answer = fault.status
    return answer, [one for one in given if type(one) is bytearray]


def readers_answer_as_worlds(world):
    handles = world.add_all([raw(30 * k) for k in range(5)])
    world.mask(handles[2], 2, ALL)
    world.mask(handles[3], 0, ALL)
    world.move_all(handles[:2], [raw(0), raw(2)])
    world.end_frame()
    world.move(handles[1], raw(30))
    asks = list(asks_of(handles[1]))
    names = {name for name in dir(Reader) if not name.startswith("_")} - {"join", "leave", "closed"}
    assert names == {name for name, *_ in asks}, names ^ {name for name, *_ in asks}
    # The one in no group is found if no group is looked at.
    assert world.hits(raw(90)) == [] and world.hits(raw(90), 0) == [handles[3]]
    answers = [answer_to(world, *ask) for ask in asks]
    assert answers[0][0] == answers[1][0] == handles[:1] and answers[4][0] is Status.ARGUMENT and len({str(answer) for answer in answers}) > 15
    with world.share() as first, first.join() as second:
        for reader in (first, second, first):
            assert [answer_to(reader, *ask) for ask in asks] == answers
        # The world is nobody's until they left.
        assert {str(answer_to(world, *ask)[0]) for ask in asks} == {str(Status.CLOSED), str((Status.CLOSED, 0))}
    assert [answer_to(world, *ask) for ask in asks] == answers
    for reader in (first, second):
        assert {str(answer_to(reader, *ask)[0]) for ask in asks} == {str(Status.CLOSED), str((Status.CLOSED, 0))}


def the_last_reader(world):
    kept = world.add_all([raw(0)] * 2)
    world.end_frame()
    world.mark()
    world.remove(kept[1])
    told = (world.info(), world.pairs(), list(world.boxes()))
    first = world.share()
    assert world.closed and not first.closed
    assert told == (first.info(), first.pairs(), list(first.boxes()))
    for call in (world.share, world.info, world.end_frame, world.mark, lambda: world.add(raw(0)), lambda: list(world.boxes())):
        refused(Status.CLOSED, call)
    refused(Status.CLOSED, Reader, world)
    second = first.join()
    third = second.join()
    assert first.leave() is False and first.closed and first.leave() is False and world.closed
    refused(Status.CLOSED, first.join)
    raises(TypeError, copy.copy, second)
    raises(TypeError, pickle.dumps, second)
    assert second.hits(raw(0)) == kept[:1] == third.hits(raw(0))
    # One that is dropped leaves, and the last one that leaves opens the world.
    held = second._held
    del second
    gc.collect()
    assert not held.state and not held.held and world.closed
    assert third.leave() is True and third.leave() is False and not world.closed
    assert told == (world.info(), world.pairs(), list(world.boxes()))
    refused(Status.CLOSED, third.info)
    world.back()
    assert world.get(kept[1]).box == raw(0)
    # As often as one likes, also if an exception ends the block.
    for _ in range(3):
        with world.share() as alone:
            assert alone.hits(raw(0)) == kept
        world.move(kept[0], raw(0))
    try:
        with world.share():
            raise KeyError
    except KeyError:
        assert not world.closed
    Reader.__new__(Reader)


def ends_of_shared_worlds(world):
    structure, handle = world.info().structure, world.add(raw(0))

    # One that is closed answers its readers, and ends with the last.
    with world.share() as first, first.join() as second:
        world.close()
        assert first.leave() is False and second.hits(raw(0)) == [handle] and second.leave() is False
    assert world.closed and not world._held.held
    refused(Status.CLOSED, world.share)

    # If you have a reader alone you have the world still.
    world = World(structure)
    world.add(raw(0))
    reader, held = world.share(), world._held
    del world
    gc.collect()
    assert reader.hits(raw(0)) == [handle] and not held.state
    reader._world.__dict__["open_again"] = opened = []
    del reader
    gc.collect()
    assert not held.state and not held.held and opened == []

    # In a ring of garbage both ends come in some order.
    for order in range(2):
        world = World(structure)
        ring = [world, world.share()][:: 1 - 2 * order]
        held, words = world._held, ring[order - 1]._held
        ring.append(ring)
        world.ring = ring
        del world, ring
        gc.collect()
        assert not held.state and not held.held and not words.state and not words.held


def readers_at_once(world):
    """A call of a reader waits for the one before it, and not for one of another reader of the same world."""
    within, most, both, asks = [], [], threading.Barrier(2), Reader._asks

    def alone(*_):
        within.append(0)
        most.append(len(within))
        time.sleep(0.001)
        within.pop()
        return Status.OK

    def together(*_):
        both.wait(30)
        return Status.OK

    with world.share() as first, first.join() as second:
        hits = asks.hits
        try:
            asks.hits = alone
            played_at_once(lambda number: [first.hits(raw(0)) for _ in range(5)])
            assert most == [1] * 20
            asks.hits = together
            played_at_once(lambda number: (first, second)[number].hits(raw(0)), 2)
        finally:
            asks.hits = hits


def entry_of(origin, way, box, ends):
    """Where a way first meets a box, if it does, by fractions."""
    enters, leaves = Fraction(0), Fraction(1) if ends else None
    for at, step, lo, hi in zip(origin, way, box.lo, box.hi):
        if step == 0:
            if not lo <= at <= hi:
                return None
            continue
        near, far = sorted((Fraction(lo - at, step), Fraction(hi - at, step)))
        enters, leaves = max(enters, near), far if leaves is None else min(leaves, far)
    return enters if leaves is None or enters <= leaves else None


def less(a, b):
    """Where a displacement brings one box so that it meets the other."""
    return Box((low - high for low, high in zip(a.lo, b.hi)), (high - low for high, low in zip(a.hi, b.lo)))


def square_between(a, b):
    gaps = (max(0, low - high, other_low - other_high) for low, high, other_low, other_high in zip(b.lo, a.hi, a.lo, b.hi))
    return sum(gap * gap for gap in gaps)


def compared(asked, model, seed, rounds):
    """Each question beside a model that tests every box: pairs of a handle and a box, with the groups of each."""
    dice = random.Random(seed)

    def place(reach=300):
        return Point(*(dice.randint(-reach, reach) for _ in range(3)))

    for _ in range(rounds):
        mask, region, origin, way, want = dice.choice((0, 1, 2, 3)), raw_at(place(), dice), place(500), place(3), dice.randint(0, 9)
        # A mask of 0 looks at no group.
        seen = [(handle, box) for handle, box, groups in model if not mask or groups & mask]
        touched = [handle for handle, box in seen if square_between(region, box) == 0]
        holders = [handle for handle, box in seen if square_between(Box(origin, origin), box) == 0]
        assert asked.hits(region, mask) == touched and asked.hits_each([region, origin], mask) == [touched, holders]
        by = place(600)
        starts = [(entry_of(origin, way, box, False), handle) for handle, box in seen]
        moves = [(entry_of((0, 0, 0), by, less(box, region), True), handle) for handle, box in seen]
        on_ray, on_cast = (sorted(entry for entry in entries if entry[0] is not None) for entries in (starts, moves))
        assert asked.ray_handles(origin, way, mask) == [handle for _, handle in on_ray]
        assert asked.cast_hits(region, by, mask) == [handle for _, handle in on_cast]
        on_rays, on_casts = asked.ray_first_each([Ray(origin, way)] * 2, mask), asked.cast_first_each([Cast(region, by)], mask)
        for found, told in ((on_ray, on_rays), (on_cast, on_casts)):
            assert {hit and (Fraction(hit.num, hit.den), hit.handle) for hit in told} == {found[0] if found else None}
        least = dice.choice((0, square_between(region, model[0][1])))
        apart = sorted((square_between(region, box), handle) for handle, box in seen)
        assert asked.nearest_box(region, want, mask, least) == [handle for square, handle in apart if square >= least][:want]
        assert asked.square_apart(region, model[0][0]) == square_between(region, model[0][1])


def raw_at(lo, dice):
    return Box(lo, (number + dice.randint(0, 60) for number in lo))


def readers_of_threads(world):
    """Four threads ask one world at once by a reader each, in several ticks between which it changes."""
    dice = random.Random(5)
    model = []
    for _ in range(60):
        box, groups = raw_at([dice.randint(-300, 300) for _ in range(3)], dice), dice.randint(0, 3)
        model.append((world.add(box, groups=groups), box, groups))
    with ThreadPoolExecutor(4) as pool:
        for tick in range(2):
            moved = [(handle, raw_at([dice.randint(-300, 300) for _ in range(3)], dice), groups) for handle, _, groups in model[:20]]
            model[:20] = moved
            world.move_all([handle for handle, _, _ in moved], [box for _, box, _ in moved])
            world.end_frame()
            compared(world, model, tick, 3)
            all_asked = threading.Barrier(4)

            def job(number, reader):
                try:
                    compared(reader, model, 10 * tick + number, 8)
                finally:
                    all_asked.wait(60)
                return reader.leave()

            first = world.share()
            readers = [first, *(first.join() for _ in range(3))]
            # Just one of those that leave at once opens the world.
            assert sorted(pool.map(job, range(4), readers)) == [False, False, False, True] and not world.closed
    played_at_once(lambda number: [world.hits(raw(0)) for _ in range(5)])


# Batches.


def batches_of_values(world):
    handles = world.add_all([raw(20 * k) for k in range(5)], groups=3, owner=9)
    assert handles == [Handle(k, 0) for k in range(5)] and all(world.get(handle)[1:4] == (3, ALL, 9) for handle in handles)
    world.move_all(tuple(handles), (raw(k) for k in range(5)))
    assert [world.get(handle).box for handle in handles] == [raw(k) for k in range(5)]
    world.remove_all(iter(handles[3:]))
    assert world.info().boxes == 3
    assert world.add_all([]) == [] and world.move_all([], []) is None and world.remove_all(()) is None

    inverted = Box((0, 1, 0), (0, 0, 0))
    fault = stopped(Status.INVERTED, 2, world.add_all, [raw(0), raw(1), inverted, raw(2)])
    assert fault.handles == [Handle(3, 1), Handle(4, 1)] and world.get(fault.handles[1]).box == raw(1)
    assert str(fault) == "inverted, after 2 were done"
    stopped(Status.STALE, 1, world.move_all, [handles[0], handles[4], handles[1]], [raw(70)] * 3)
    assert world.get(handles[0]).box == raw(70) and world.get(handles[1]).box == raw(1)
    stopped(Status.ARGUMENT, 0, world.move_all, handles[:2], [raw(0)])
    stopped(Status.STALE, 1, world.remove_all, [handles[0], handles[0], handles[1]])
    assert world.info().boxes == 4
    stopped(Status.ARGUMENT, 0, world.add_all_into, bytearray(8), [raw(0)] * 2)
    out = bytearray(8 * 3)
    stopped(Status.INVERTED, 1, world.add_all_into, out, [raw(0), inverted, raw(0)])
    assert list(struct.iter_unpack("=2I", out)) == [Handle(0, 1), (0, 0), (0, 0)]


def buffers_of(numbers, letter, columns, row):
    """Whole numbers as buffers of many kinds: rows of so many, whose struct is `row`."""
    one = {"i": ctypes.c_int32, "I": ctypes.c_uint32}[letter]
    flat, count = array.array(letter, numbers), len(numbers) // columns
    yield "an array", flat
    yield "a view", memoryview(flat)
    yield "a view of rows", memoryview(flat).cast("B").cast(letter, [count, columns])
    yield "a view that can't be written", memoryview(flat).toreadonly()
    yield "bytes", flat.tobytes()
    yield "bytes that can be written", bytearray(flat)
    yield "a part of bytes", memoryview(b"abcd" + flat.tobytes())[4:]
    yield "numbers of ctypes", (one * len(numbers)).from_buffer_copy(flat)
    yield "rows of ctypes", (one * columns * count).from_buffer_copy(flat)
    yield "structs of ctypes", (row * count).from_buffer_copy(flat)
    if numpy:
        rows = numpy.array(flat).reshape(count, columns)
        rows.flags.writeable = False
        yield "an array of numpy", numpy.array(flat)
        yield "rows of numpy that can't be written", rows
        yield "structs of numpy", numpy.array(flat).view([("first", one), ("others", one, (columns - 1,))])
    if numpy and columns == 6:
        yield "corners of numpy", numpy.array(flat).reshape(count, 2, 3)


def batches_of_buffers(world):
    boxes = [raw(20 * k) for k in range(4)]
    numbers = [number for box in boxes for number in box]
    made = world.add_all([raw(0)] * 4)
    for name, buffer in buffers_of(numbers, "i", 6, TwoCorners):
        world.move_all(made, [raw(0)] * 4)
        world.move_all(made, buffer)
        assert [world.get(handle).box for handle in made] == boxes, name
        more = world.add_all(buffer)
        assert [world.get(handle).box for handle in more] == boxes, name
        world.remove_all(more)
    names = [number for handle in made for number in handle]
    packed = struct.pack("=8I", *names)
    for name, buffer in buffers_of(names, "I", 2, SlotAndGeneration):
        world.mark()
        world.move_all(buffer, [raw(7)] * 4)
        assert [world.get(handle).box for handle in made] == [raw(7)] * 4, name
        world.remove_all(buffer)
        assert world.info().boxes == 0, name
        if not memoryview(buffer).readonly:
            written = (ctypes.c_char * 32).from_buffer(buffer)
            assert world.add_all_into(buffer, boxes) == 4 and written.raw != packed, name
            assert [world.get(Handle(*row)).box for row in struct.iter_unpack("=2I", written.raw)] == boxes, name
            written.raw = packed
        world.back()
        if not memoryview(buffer).readonly:
            written.raw = bytes(32)
            assert world.hits_into(buffer, Box((0, 0, 0), (99, 0, 0))) == 4 and written.raw == packed, name


def wrong_buffers(world):
    handles = world.add_all([raw(0)] * 2)
    names, boxes = array.array("I", [0, 0, 1, 0]), array.array("i", [*raw(1), *raw(2)])
    wide = memoryview(bytes(2 * 48)).cast("i", [2, 12])
    for kind, wrong in (
        (TypeError, array.array("I", boxes)),
        (TypeError, array.array("q", boxes)),
        (TypeError, array.array("l", boxes) if array.array("l").itemsize == 8 else "boxes"),
        (TypeError, array.array("f", boxes)),
        (TypeError, (ctypes.c_int32.__ctype_be__ * 12)()),
        (TypeError, (SlotAndGeneration * 2)()),
        (TypeError, "boxes"),
        (ValueError, boxes[:11]),
        (ValueError, bytes(23)),
        (ValueError, wide),
        (ValueError, memoryview(boxes)[::2]),
        (ValueError, memoryview(bytes(49))[1:]),
    ):
        raises(kind, world.move_all, handles, wrong)
        raises(kind, world.add_all, wrong)
        raises(kind, world.add_all_into, bytearray(64), wrong)
    for kind, wrong in (
        (TypeError, array.array("i", names)),
        (TypeError, array.array("Q", names)),
        (TypeError, boxes),
        (TypeError, (TwoCorners * 2)()),
        (ValueError, names[:3]),
        (ValueError, bytearray(9)),
        (ValueError, memoryview(names).cast("B").cast("I", [1, 4])),
        (ValueError, memoryview(bytearray(17))[1:]),
    ):
        raises(kind, world.move_all, wrong, boxes)
        raises(kind, world.remove_all, wrong)
        raises(kind, world.hits_into, wrong, raw(0))
    for wrong in (bytes(16), memoryview(names).toreadonly(), [0, 0], None):
        raises(TypeError, world.hits_into, wrong, raw(0))
        raises(TypeError, world.add_all_into, wrong, boxes)
        raises(TypeError, world.pairs_into, wrong)
    common = bytearray(64)
    raises(ValueError, world.add_all_into, memoryview(common)[44:60], memoryview(common)[:48])
    raises(ValueError, world.move_all, memoryview(common)[:16], memoryview(common)[12:60])
    assert world.add_all_into(memoryview(common)[48:], memoryview(common)[:48]) == 2
    assert world.info().boxes == 4 and [world.get(handle).box for handle in handles] == [raw(0)] * 2
    # A buffer is let go of, also if the batch stops and its refusal is kept.
    fault = stopped(Status.STALE, 0, world.remove_all, array.array("I", [99, 0]))
    grown = array.array("I", [0, 0, 99, 0])
    fault = stopped(Status.STALE, 1, world.remove_all, grown)
    grown.append(0)
    assert fault.done == 1 and len(grown) == 5


def nothing_is_copied(world):
    count = 1000
    boxes = array.array("i", [0, 0, 0, 1, 1, 1]) * count
    for kept in (boxes, memoryview(boxes).toreadonly(), boxes.tobytes()):
        names = bytearray(8 * count)
        tracemalloc.start()
        world.add_all_into(names, kept, sees=0)
        world.move_all(names, kept)
        world.remove_all(memoryview(names).toreadonly())
        _, most = tracemalloc.get_traced_memory()
        tracemalloc.stop()
        assert most < 8 * count, most


# Marks, the end of a world, and several threads.


def marks(world):
    refused(Status.NO_MARK, world.back)
    kept = world.add(cube(0))
    for _ in range(MOST_MARKS):
        world.mark()
    refused(Status.FULL, world.mark)
    assert world.info().marks == MOST_MARKS
    lost = world.add(cube(5))
    world.move(kept, cube(9))
    world.back()
    assert world.get(kept).box == cube(0) and world.info().marks == MOST_MARKS - 1
    refused(Status.STALE, world.get, lost)


def forgotten_marks(world):
    handles = []
    for x in range(3):
        world.mark()
        handles.append(world.add(cube(x * 50)))
    refused(Status.NO_MARK, world.forget, 4)
    raises(ValueError, world.forget, -1)
    world.forget(2)
    world.back()
    assert world.info().boxes == 2 and world.info().marks == 0
    refused(Status.STALE, world.get, handles[2])
    refused(Status.NO_MARK, world.forget)


def boxes_by_slots(world):
    first, second = world.add(cube(0)), world.add(cube(50), 1, 2, 7, True)
    third = world.add(cube(100))
    world.remove(first)
    assert list(world.boxes()) == [(second, world.get(second)), (third, world.get(third))]
    assert world.at(1) == (second, Live(cube(50), 1, 2, 7, True))
    for slot in (0, SLOTS, 2**32 - 1):
        refused(Status.STALE, world.at, slot)
    raises(ValueError, world.at, 2**32)


def regrouped(world):
    crate, wall = world.add(cube(0)), world.add(cube(0.5))
    world.end_frame()
    world.mark()
    world.regroup(crate, owner=3)
    world.regroup(wall, 3, True)
    world.end_frame()
    assert world.get(wall)[3:] == (3, True) and world.pairs() == []
    assert world.pair_changes() == [Told(OVER, crate, wall)]
    world.back()
    world.end_frame()
    assert world.get(wall)[3:] == (0, False) and len(world.pairs()) == 1
    raises(ValueError, world.regroup, crate, 2**32)
    world.remove(crate)
    refused(Status.STALE, world.regroup, crate)


def closed_worlds(world):
    handle = world.add(cube(0))
    raises(TypeError, copy.copy, world)
    raises(TypeError, pickle.dumps, world)
    assert not world.closed
    world.close()
    world.close()
    assert world.closed
    for call in (
        lambda: world.add(cube(0)), lambda: world.move(handle, cube(0)), lambda: world.remove(handle), lambda: world.get(handle),
        lambda: world.mask(handle, 1, 1), world.update, world.end_frame, world.events, world.changes, world.pairs, world.pair_events,
        world.pair_changes, lambda: world.pairs_into(bytearray(16)), lambda: world.hits(cube(0)),
        lambda: world.ray_hits((0, 0, 0), (1, 0, 0)), lambda: world.first_hit((0, 0, 0), (1, 0, 0)), lambda: world.cast_hits(cube(0), (0, 0, 0)), lambda: world.nearest((0, 0, 0)),
        lambda: world.ray_first((0, 0, 0), (1, 0, 0)), lambda: world.cast_first(cube(0), (0, 0, 0)),
        lambda: world.ray_meets((0, 0, 0), (1, 0, 0), handle), lambda: world.cast_meets(cube(0), (0, 0, 0), handle),
        lambda: world.square_to((0, 0, 0), handle), lambda: world.square_apart(cube(0), handle), world.share, world.pairs_now,
        lambda: world.pairs_now_into(bytearray(16)),
        lambda: world.hits_into(bytearray(16), cube(0)), world.mark, world.forget, world.back, world.info,
        lambda: world.at(0), lambda: list(world.boxes()), lambda: world.regroup(handle), lambda: world.nearest_box(cube(0)),
    ):  # fmt: skip
        refused(Status.CLOSED, call)
    for call in (
        lambda: world.add_all([cube(0)]), lambda: world.move_all([handle], [cube(0)]), lambda: world.remove_all([handle]),
        lambda: world.hits_each([cube(0)]), lambda: world.ray_first_each([]), lambda: world.cast_first_each([Cast(cube(0), (0, 0, 0))]),
    ):  # fmt: skip
        stopped(Status.CLOSED, 0, call)


def ends_of_worlds(world):
    class Mine(Exception):
        pass

    def raised_within():
        with World(TREE) as other:
            other.close()
            raise Mine

    raises(Mine, raised_within)
    # A closed world's words are zero.
    dropped = World(world.info().structure)
    dropped.add(cube(0))
    held = dropped._held
    assert held.state and held.held
    del dropped
    gc.collect()
    assert not held.state and not held.held
    dropped, of_itself = World(TREE), []
    of_itself.append((dropped, of_itself))
    held = dropped._held
    del dropped, of_itself
    gc.collect()
    assert not held.state
    World.__new__(World)


def played_at_once(play, count=4):
    """Runs a play in several threads, which begin together and change as often as they can."""
    faults, start, interval = [], threading.Barrier(count), sys.getswitchinterval()

    def played(number):
        try:
            start.wait()
            play(number)
        except BaseException as fault:
            faults.append(fault)

    sys.setswitchinterval(1e-6)
    try:
        players = [threading.Thread(target=played, args=(number,)) for number in range(count)]
        for player in players:
            player.start()
        for player in players:
            player.join()
    finally:
        sys.setswitchinterval(interval)
    assert not faults, faults


def threads(world):
    """Several threads add, ask, move and remove at once: each finds its own boxes as if it were alone."""

    def play(number):
        mask = 1 << number
        for _ in range(5):
            mine = [world.add(raw(1000 * number + k), groups=mask) for k in range(20)]
            mine += world.add_all([raw(1000 * number + k) for k in range(20, 30)], groups=mask)
            for k, handle in enumerate(mine):
                world.move(handle, raw(1000 * number + k + 5))
                assert world.get(handle).box == raw(1000 * number + k + 5)
            world.end_frame()
            everywhere = Box((1000 * number, 0, 0), (1000 * number + 999, 0, 0))
            assert world.hits(everywhere, mask) == sorted(mine)
            assert world.ray_handles((1000 * number, 0, 0), (1, 0, 0), mask) == mine
            assert world.first_hit((1000 * number, 0, 0), (1, 0, 0), mask) == mine[0]
            world.remove_all(mine)

    played_at_once(play)
    assert world.info().boxes == 0 and world.info().frames == 20


def threads_with_batches(world):
    """Long calls of several threads, which let the other threads run meanwhile."""
    boxes = array.array("i", [0, 0, 0, 1, 1, 1]) * 400
    given = [array.array("I", bytes(8 * 400)) for _ in range(4)]
    turn = threading.Barrier(4)

    def play(number):
        for _ in range(10):
            turn.wait()
            assert world.add_all_into(given[number], boxes, sees=0) == 400
            turn.wait()
            assert len({slot for one in given for slot in one[::2]}) == 1600 == world.info().boxes
            turn.wait()
            world.remove_all(given[number])

    played_at_once(play)
    assert world.info().boxes == 0


def turns(world):
    """A call of a world waits for the one before it, and not for one of another world."""
    within, most, both = [], [], threading.Barrier(2)
    module, mark = sys.modules[World.__module__], sys.modules[World.__module__]._pw_mark

    def alone(held):
        within.append(held)
        most.append(len(within))
        time.sleep(0.001)
        within.pop()
        return Status.OK

    def together(held):
        both.wait(30)
        return Status.OK

    try:
        module._pw_mark = alone
        played_at_once(lambda number: [world.mark() for _ in range(5)])
        assert most == [1] * 20
        module._pw_mark = together
        with World() as other:
            played_at_once(lambda number: (world, other)[number].mark(), 2)
    finally:
        module._pw_mark = mark


def finalizers(world):
    """A collector's finalizer calls the world in the middle of another call of the same thread, wherever that takes memory."""

    class Body:
        def __init__(self):
            self.handle, self.itself = world.add(raw(1000), groups=2), self

        def __del__(self):
            assert world.get(self.handle).box == raw(1000)
            assert world.hits(Point(1000, 0, 0), 2) == [self.handle] == [world.first_hit((1000, 0, 0), (0, 0, 0), 2)]
            world.remove(self.handle)
            ended.append(world.add(raw(2000)))
            world.remove(ended[-1])

    ended, kept = [], [world.add(raw(0)) for _ in range(8)]
    world.end_frame()
    pairs, limits = world.pairs(), gc.get_threshold()
    line = (world.hits, raw(0), 1), (world.ray_handles, (0, 0, 0), (1, 0, 0), 1)
    calls = [lambda call=call, arguments=arguments: call(*arguments) == kept for call, *arguments in line]
    calls.append(lambda: world.pairs() == pairs)
    calls.append(lambda: world.get(kept[1]) == (raw(0), 1, ALL, 0, False))
    calls.append(lambda: world.get(world.add(raw(3000), owner=7))[0::3] == (raw(3000), 7))
    calls.append(lambda: world.first_hit((0, 0, 0), (1, 0, 0), 1) == kept[0])
    calls.append(lambda: box_around((0, 0, 0), (1, 1, 1)) == cube(0) and world.info()[2] >= 8)
    # What there is already is looked at no more, since it would take most of the time.
    gc.freeze()
    try:
        for call in calls:
            for wait in range(1, 40):
                world.mark()
                gc.collect()
                gc.disable()
                Body()
                gc.set_threshold(wait)
                gc.enable()
                assert call()
                gc.set_threshold(*limits)
                gc.collect()
                world.back()
    finally:
        gc.set_threshold(*limits)
        gc.unfreeze()
    assert len(ended) == 39 * len(calls)


# What needs no world, or one.


def a_full_world():
    with World(TREE) as world:
        boxes = [raw(20 * k) for k in range(SLOTS + 1)]
        assert len(stopped(Status.FULL, SLOTS, world.add_all, boxes).handles) == SLOTS
        refused(Status.FULL, world.add, raw(0))
        assert len(world.hits(Box((0, 0, 0), (2**31 - 1, 0, 0)))) == SLOTS


def values():
    a, b = Handle(1, 2), Handle(1, 3)
    assert a == Handle(1, 2) != b and a < b and len({a, b, Handle(1, 2)}) == 2 and repr(a) == "Handle(slot=1, generation=2)"
    box = Box((1, 2, 3), Point(4, 5, 6))
    assert (box.lo, box.hi, box.lo.x, box.hi.z) == (Point(1, 2, 3), Point(4, 5, 6), 1, 6) and tuple(box) == (1, 2, 3, 4, 5, 6)
    assert box == Box(box.lo, box.hi) != Box() and hash(box) == hash(Box(box.lo, box.hi)) and repr(Box()).startswith("Box(lo=Point(")
    told = Told(OVER, a, b)
    assert told.pair == Pair(a, b) and told == Told(Event.OVER, *Pair(a, b))
    for value in (box, a, told, Pair(a, b), Point(1, 2, 3), Ray(box.lo, box.hi), Cast(box, box.lo), Live(box, 1, 2, 3, False)):
        assert pickle.loads(pickle.dumps(value)) == copy.deepcopy(value) == value and type(copy.copy(value)) is type(value)
        assert len({value, copy.copy(value)}) == 1
        for name in ("slot", "lo", "event", "a", "x", "origin", "box", "other"):
            raises(AttributeError, setattr, value, name, 0)


def refusals():
    for status in Status:
        fault = pickle.loads(pickle.dumps(Refused(status)))
        assert fault.status is status and str(fault) == status.name.lower().replace("_", " ")
    fault = pickle.loads(pickle.dumps(Stopped(Status.FULL, 3, [Handle(0, 0)])))
    assert (fault.status, fault.done, fault.handles) == (Status.FULL, 3, [Handle(0, 0)])
    refused(Status.ARGUMENT, World, 9)
    with World(3) as world:
        assert world.info().structure is Structure.GRID is pungwelair.GRID


def floats():
    assert box_around((0.1, -0.1, -0.0), (0.1, -0.1, 0.0)) == Box((6553, -6554, 0), (6554, -6553, 0))
    assert (fix_below(0.1), fix_above(0.1), fix_below(-0.0), fix_above(1)) == (6553, 6554, 0, 65536)
    assert (fix_below(30000.99999), fix_above(30000.99999)) == (1966145535, 1966145536)
    refused(Status.NOT_A_NUMBER, box_around, (float("nan"), 0, 0), (0, 0, 0))
    refused(Status.OUT_OF_RANGE, box_around, (0, 0, 0), (32768, 0, 0))
    refused(Status.INVERTED, box_around, (1, 0, 0), (0, 0, 0))
    endless, least, most = float("inf"), -(2**31), 2**31 - 1
    assert box_around_cut((-endless, -40000, 0.1), (endless, 0.1, 32768)) == Box((least, least, 6553), (most, 6554, most))
    assert box_around_cut((40000, -1e30, 0), (50000, -40000, 1)) == Box((most, least, 0), (most, least, 65536))
    refused(Status.INVERTED, box_around_cut, (50000, 0, 0), (40000, float("nan"), 0))
    refused(Status.NOT_A_NUMBER, box_around_cut, (0, float("nan"), 1), (0, 0, 0))
    raises(ValueError, box_around_cut, (0, 0), (1, 1))
    raises(TypeError, box_around_cut, ("0", 0, 0), (1, 1, 1))
    for call in (fix_below, fix_above):
        refused(Status.NOT_A_NUMBER, call, float("nan"))
        refused(Status.OUT_OF_RANGE, call, float("-inf"))
        raises(TypeError, call, None)
    raises(ValueError, box_around, (0, 0), (1, 1))
    raises(ValueError, box_around, (0, 0, 0, 0), (1, 1, 1))
    raises(TypeError, box_around, ("0", 0, 0), (1, 1, 1))
    raises(TypeError, box_around, 0, 1)


def types_of_the_library():
    """A wrong type is refused before the library reads it."""
    held, handle, count = pungwelair._library.RawWorld(), pungwelair._library.RawHandle(), ctypes.c_size_t()
    assert library.pw_open(held, TREE) == Status.OK
    box = pungwelair._library.RawBox()
    assert library.pw_add(held, box, 1, pungwelair._library.RawNew(), handle, 1, count) == Status.OK
    for wrong in (None, 0, b"x" * 24, box, ctypes.byref(box), ctypes.POINTER(type(handle))(), (ctypes.c_uint32 * 2)(), "handle"):
        raises(ctypes.ArgumentError, library.pw_move, held, wrong, 1, box, 1, count)
    raises(ctypes.ArgumentError, library.pw_move, held, handle, 1.0, box, 1, count)
    raises(ctypes.ArgumentError, library.pw_close, handle)
    assert library.pw_move(held, handle, 1, ctypes.byref(box), 1, ctypes.pointer(count)) == Status.OK and count.value == 1
    header = (Path(__file__).parent.parent / "c" / "pungwelair.h").read_text()
    for line in header.splitlines():
        if line.startswith("pw_status pw_"):
            function = getattr(library, line[len("pw_status ") : line.index("(")])
            assert function.argtypes and function.restype is ctypes.c_uint32, line
    major, minor, patch = (
        int(line.split()[2]) for line in header.splitlines() if line.startswith(("#define PW_VERSION_M", "#define PW_VERSION_PATCH"))
    )
    assert pungwelair.version() == major * 1_000_000 + minor * 1_000 + patch
    structs = "Point Box New Handle Live Pair Told Counts Query Ray Cast Near NearBox Hit Square Info World Reader".split()
    sizes = [ctypes.sizeof(getattr(pungwelair._library, f"Raw{name}")) for name in structs]
    assert sizes == [12, 24, 16, 8, 40, 16, 20, 24, 32, 28, 40, 20, 48, 32, 16, 32, 16, 16] or ctypes.sizeof(ctypes.c_void_p) != 8
    pungwelair.call("pw_close", held)
    refused(Status.CLOSED, pungwelair.call, "pw_close", held)


def imports():
    """A library that isn't there, or isn't one, is told with what makes it."""
    package = str(Path(pungwelair.__file__).parent.parent)

    def imported(place):
        named = {**os.environ, "PYTHONPATH": package, "PUNGWELAIR_LIB": str(place)}
        return subprocess.run([sys.executable, "-c", "import pungwelair"], env=named, capture_output=True, text=True)

    path = Path(library._name)
    assert imported(path).returncode == imported(path.parent).returncode == 0
    nowhere = path.parent / "nowhere"
    for wrong, said in ((nowhere, "run bindings/build"), (Path(package), "PUNGWELAIR_LIB"), (Path(__file__), "isn't a library")):
        ended = imported(wrong)
        last = ended.stderr.splitlines()[-1]
        assert ended.returncode and last.startswith("ImportError: ") and said in last and str(wrong) in last, ended.stderr


def docs_and_types():
    with warnings.catch_warnings():
        warnings.simplefilter("error")
        for path in Path(pungwelair.__file__).parent.glob("*.py"):
            assert compile(path.read_text(), str(path), "exec", dont_inherit=True)
    public = [getattr(pungwelair, name) for name in pungwelair.__all__]
    methods = [getattr(kind, name) for kind in (World, Reader) for name in dir(kind) if not name.startswith("_")]
    for one in [one for one in public if inspect.isfunction(one)] + [World.__init__, Reader.__init__] + methods:
        call = one.fget if isinstance(one, property) else one
        assert call.__doc__, call
        signature = inspect.signature(call)
        assert signature.return_annotation is not inspect.Signature.empty, call
        assert all(given.annotation is not given.empty for name, given in signature.parameters.items() if name != "self"), call
    for one in public:
        assert not inspect.isclass(one) or one.__doc__, one


def arrays_of_numpy():
    if numpy is None:
        print("verbs of Python: no numpy, so its arrays aren't tried")
        return
    corners = numpy.arange(10, dtype=numpy.int32)[:, None] * 20 + numpy.zeros(3, numpy.int32)
    boxes = numpy.hstack([corners, corners + 10])
    with World(TREE) as world:
        handles = numpy.zeros((10, 2), numpy.uint32)
        assert world.add_all_into(handles, boxes, groups=numpy.uint32(3)) == 10
        assert handles[:, 0].tolist() == list(range(10)) and world.get(Handle(*handles[4])).box == tuple(boxes[4])
        boxes[:, [0, 3]] += 1
        world.move_all(handles, boxes)
        assert world.get(Handle(4, 0)).box.lo == Point(81, 80, 80)
        found = numpy.zeros((4, 2), numpy.uint32)
        everywhere = Box(boxes[:, :3].min(axis=0), boxes[:, 3:].max(axis=0))
        assert world.hits_into(found, everywhere) == 10 and found.tolist() == handles[:4].tolist()
        assert world.ray_handles(boxes[2, :3], numpy.array([1, 1, 1]))[0] == Handle(2, 0)
        world.end_frame()
        raises(ValueError, world.move_all, handles[::2], boxes[:5])
        raises(ValueError, world.move_all, handles, boxes.T)
        raises(ValueError, world.add_all, boxes[:, :5].copy())
        for wrong in (numpy.int64, numpy.float32, numpy.uint32, ">i4"):
            raises(TypeError, world.add_all, boxes.astype(wrong))
        world.remove_all(handles[5:])
        assert world.info().boxes == 5
        same = world.add_all(numpy.array([raw(500)] * 3, numpy.int32))
        world.end_frame()
        told = numpy.zeros(3, [("event", "u4"), ("a", "u4", 2), ("b", "u4", 2)])
        assert world.pair_changes_into(told) == 3 and told["b"][2].tolist() == list(same[2])
        rays = numpy.array([[-1, 505, 900, 5, 0, -1, 0], [-1, 0, 0, -1, 0, 0, -1]], numpy.int32)
        hits = numpy.zeros(2, [("handle", "u4", 2), ("num", "i8"), ("den", "i8"), ("axis", "u4"), ("side", "u4")])
        assert world.ray_first_each_into(hits, rays) == 2 and hits["handle"].tolist() == [list(same[0]), list(NO_HANDLE)]
        assert hits[0].tolist()[1:] == world.ray_first_each(rays)[0][1:] and hits["axis"].tolist() == [1, 3]
        asked = numpy.zeros(2, [("kind", "u4"), ("mask", "u4"), ("a", "i4", 3), ("b", "i4", 3)])
        asked["mask"], asked["b"], ends = ALL, 2000, numpy.zeros(2, numpy.uintp)
        assert world.hits_each_into(handles, ends, asked) == 16 and ends.tolist() == [8, 16] and len(world.hits_each(asked)[1]) == 8
        pairs = numpy.zeros((3, 2, 2), numpy.uint32)
        assert world.pairs_into(pairs) == 3 and pairs[0].tolist() == [list(same[0]), list(same[1])]


OVER_EACH_STRUCTURE = (
    slots_of_frames, handles_of_frames, long_lists, pairs_within_a_frame, live_boxes, wrong_types, wrong_numbers, questions,
    nearest_to_boxes, many_questions, many_questions_of_buffers, readers_answer_as_worlds, the_last_reader, ends_of_shared_worlds,
    readers_at_once, readers_of_threads, batches_of_values, batches_of_buffers, wrong_buffers, nothing_is_copied, marks, forgotten_marks,
    boxes_by_slots, regrouped, closed_worlds, ends_of_worlds, threads, threads_with_batches, turns, finalizers,
)  # fmt: skip
ONCE = (a_full_world, values, refusals, floats, types_of_the_library, imports, docs_and_types, arrays_of_numpy)

for case in OVER_EACH_STRUCTURE:
    for structure in Structure:
        try:
            with World(structure) as world:
                case(world)
        except Exception:
            print(f"verbs of Python: {case.__name__} over {structure.name.lower()}: failed", flush=True)
            raise
for case in ONCE:
    case()
print("verbs of Python: passed")
