"""Questions as the library has them: packed, or a refusal of what isn't one."""

from __future__ import annotations

import struct
from operator import index
from typing import Any, Iterable, Tuple

from ._buffers import CASTS, QUESTIONS, RAYS, Casts, Kind, Questions, Rays, Rows, rows_of, view_of
from ._library import ALL, CAST, NEAR, NEAR_BOX, POINT, QUERY, RAY
from ._values import Box, Cast, Point, Question, Ray, Segment, refuse_kind, refuse_places, refuse_words

_pack_query, _pack_ray, _pack_cast, _pack_near = QUERY.pack, RAY.pack, CAST.pack, NEAR.pack


def packed_query(question: Question, mask: int) -> bytes:
    """A box, a point, a ray or a segment."""
    numbers: Tuple[int, ...]
    if isinstance(question, Box):
        kind, numbers = 0, question
    elif isinstance(question, Point):
        kind, numbers = 1, (*question, *question)
    elif isinstance(question, (Ray, Segment)):
        (x, y, z), (u, v, w) = question
        kind, numbers = 2 if isinstance(question, Ray) else 3, (x, y, z, u, v, w)
    else:
        raise TypeError(f"{question!r} isn't a Box, a Point, a Ray or a Segment")
    try:
        return _pack_query(kind, mask, *numbers)
    except struct.error:
        refuse_words(mask=mask)
        refuse_places(*numbers)
        raise


def packed_ray(origin: Iterable[int], direction: Iterable[int], mask: int) -> bytes:
    """A ray."""
    x, y, z = origin
    u, v, w = direction
    try:
        return _pack_ray(mask, x, y, z, u, v, w)
    except struct.error:
        refuse_words(mask=mask)
        refuse_places(x, y, z, u, v, w)
        raise


def packed_cast(box: Box, by: Iterable[int], mask: int) -> bytes:
    """A box that is moved."""
    if not isinstance(box, Box):
        refuse_kind(box, Box)
    x, y, z = by
    try:
        return _pack_cast(mask, *box, x, y, z)
    except struct.error:
        refuse_words(mask=mask)
        refuse_places(*box, x, y, z)
        raise


def packed_point(at: Iterable[int]) -> bytes:
    """A place."""
    x, y, z = at
    try:
        return POINT.pack(x, y, z)
    except struct.error:
        refuse_places(x, y, z)
        raise


def packed_near(at: Iterable[int], want: int, mask: int) -> bytes:
    """The nearest boxes to a place."""
    x, y, z = at
    try:
        return _pack_near(mask, want, x, y, z)
    except struct.error:
        refuse_words(mask=mask, want=want)
        refuse_places(x, y, z)
        raise


def packed_near_box(box: Box, want: int, mask: int, least: int) -> bytes:
    """The nearest boxes to a box, whose squared distance is `least` or more."""
    if not isinstance(box, Box):
        refuse_kind(box, Box)
    if not 0 <= index(least) < 2**128:
        raise ValueError(f"least is {least}: it must be from 0 to 2**128 - 1")
    try:
        return NEAR_BOX.pack(mask, want, *box, index(least) & (2**64 - 1), index(least) >> 64)
    except struct.error:
        refuse_words(mask=mask, want=want)
        refuse_places(*box)
        raise


def _ray_of(value: Any, mask: int) -> bytes:
    if not isinstance(value, Ray):
        refuse_kind(value, Ray)
    return packed_ray(*value, mask)


def _cast_of(value: Any, mask: int) -> bytes:
    if not isinstance(value, Cast):
        refuse_kind(value, Cast)
    return packed_cast(*value, mask)


def _asked(kind: Kind, items: Any, mask: int, pack: Any) -> Rows:
    refuse_words(mask=mask)
    if mask != ALL and view_of(items) is not None:
        raise ValueError(f"a mask is given beside a buffer of {kind.name}, whose rows have masks of their own")
    return rows_of(kind, items, lambda item: pack(item, mask))


def questions_of(items: Questions, mask: int) -> Rows:
    """The rows of a buffer of questions, or questions one by one, all of them with one mask."""
    return _asked(QUESTIONS, items, mask, packed_query)


def rays_of(items: Rays, mask: int) -> Rows:
    """The same of rays."""
    return _asked(RAYS, items, mask, _ray_of)


def casts_of(items: Casts, mask: int) -> Rows:
    """The same of boxes that are moved."""
    return _asked(CASTS, items, mask, _cast_of)
