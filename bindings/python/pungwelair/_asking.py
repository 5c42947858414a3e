"""The questions. A world and a reader answer the same, so each of them stands once."""

from __future__ import annotations

import struct
from ctypes import c_size_t
from types import SimpleNamespace
from typing import TYPE_CHECKING, Any, Iterable, List, Optional, Tuple

from ._buffers import ENDS, HANDLES, HITS, Casts, Questions, Rays, Rows, new_rows, packed_box, packed_handle, room_of
from ._library import (
    ALL, ASKS, HANDLE, HIT, MOST, SLOTS, SQUARE, RawCast, RawHandle, RawNear, RawNearBox, RawQuery, RawRay, Workspace, kept, library,
    unchecked, workspace,
)  # fmt: skip
from ._questions import (
    casts_of, packed_cast, packed_near, packed_near_box, packed_point, packed_query, packed_ray, questions_of, rays_of,
)  # fmt: skip
from ._telling import Teller, checked, counted
from ._values import LOWER, NO_HANDLE, UPPER, Box, Handle, Hit, Question, Refused, Side, Stopped, made

if TYPE_CHECKING:
    from typing_extensions import Buffer

_SIDES: Tuple[Side, ...] = (LOWER, UPPER)
_SLOT = struct.Struct("=I4x")


def handles_of(memory: bytearray, count: int) -> List[Handle]:
    """The first handles of a row of them."""
    return [made(Handle, numbers) for numbers in HANDLE.iter_unpack(memory[: 8 * count])]


def _hit(numbers: Tuple[int, ...]) -> Hit:
    slot, generation, num, den, axis, side = numbers
    handle = made(Handle, (slot, generation))
    return Hit(handle, num, den, axis, _SIDES[side]) if axis < 3 else Hit(handle, num, den, None, None)


def _hits(memory: bytearray) -> List[Optional[Hit]]:
    return [_hit(numbers) if numbers[:2] != NO_HANDLE else None for numbers in HIT.iter_unpack(memory)]


class Asker(Teller):
    """What asks a world: the `World` itself, or a `Reader` of it.

    With the mask 0 a question looks at no group: it finds every box, those in no group too. With any other mask it finds boxes that are
    in one of its groups.

    The calls that end in `_each` ask many questions at once, in order up to the first that is refused: that is `Stopped`, which tells how
    many were answered. Questions come as a list of values, all for the groups of one mask, or as a buffer, whose rows have a mask each:
    rows of eight numbers of 32 bits for questions (0 a box, 1 a point, 2 a ray, 3 a segment; the mask; two places), of seven for rays (the
    mask, the origin, the direction), of ten for casts (the mask, the box, the displacement). A buffer for hits has structs of two uint32,
    two int64 and two uint32: the handle, `num` and `den`, the axis (3 if there is none) and the side. One for ends has a size_t for each
    question.
    """

    def __init_subclass__(cls, calls: str = "", **others: Any) -> None:
        super().__init_subclass__(**others)
        if calls:
            cls._asks = SimpleNamespace(**{name: unchecked(calls + name) for name in ASKS})
            cls._careful = SimpleNamespace(**{name: getattr(library, calls + name) for name in ASKS})

    def hits(self, question: Question, mask: int = ALL) -> List[Handle]:
        """The live boxes that `mask` asks for and that meet a box, hold a point, or meet a ray or a segment, in order of their slots.

        ARGUMENT if a box is inverted, NO_MEMORY.
        """
        return self._found(self._asks.hits, packed_query(question, mask))

    def hits_into(self, out: Buffer, question: Question, mask: int = ALL) -> int:
        """Writes the first of them to a buffer, and tells how many there are, which may be more than it has room for."""
        return self._found_into(self._careful.hits, RawQuery.from_buffer_copy(packed_query(question, mask)), out)

    def hits_each(self, questions: Questions, mask: int = ALL) -> List[List[Handle]]:
        """What `hits` answers to each of many questions. `Stopped` with ARGUMENT if a box is inverted, or with NO_MEMORY."""
        status, done, answers = self._answers(questions, mask)
        if status:
            raise Stopped(status, done)
        return answers

    def _answers(self, questions: Questions, mask: int) -> Tuple[int, int, List[List[Handle]]]:
        asked, found = questions_of(questions, mask), SLOTS
        told, ends = new_rows(ENDS, asked.count)
        while True:
            room = found
            memory, out = new_rows(HANDLES, room)
            status, done, found = self._asked_each(asked, out, ends)
            if status:
                return status, done, []
            # Once more if they are more than there was room for, and again if another thread made them more meanwhile.
            if found <= room:
                break
        handles, start, answers = handles_of(memory, found), 0, []
        for end in memoryview(told)[: done * ENDS.size].cast("N"):
            answers.append(handles[start:end])
            start = end
        return status, done, answers

    def hits_each_into(self, out: Buffer, ends: Buffer, questions: Questions, mask: int = ALL) -> int:
        """Writes the handles that each of many questions finds to a buffer, one answer behind another, and tells how many they are.

        They may be more than there is room for. `ends` has room for a number for each question: how many handles there are up to the end
        of its answer, those without room too. `Stopped`, with the answers before it written: ARGUMENT if a box is inverted, and NO_MEMORY.
        With ARGUMENT nothing is asked if `ends` is too short.
        """
        status, done, count = self._asked_each(questions_of(questions, mask), room_of(HANDLES, out), room_of(ENDS, ends))
        if status:
            raise Stopped(status, done)
        return count

    def _asked_each(self, asked: Rows, out: Rows, ends: Rows) -> Tuple[int, int, int]:
        for rows in (asked, ends):
            rows.refuse_common(out)
        asked.refuse_common(ends)
        work = workspace()
        with self._lock:
            status = self._careful.hits_each(
                self._held, asked.first, asked.count, out.first, out.count, ends.first, ends.count, work.count
            )  # fmt: skip
        done = counted(work)
        return status, done, c_size_t.from_address(ends.start + (done - 1) * ENDS.size).value if done else 0

    def ray_hits(self, origin: Iterable[int], direction: Iterable[int], mask: int = ALL) -> List[int]:
        """The slots of the boxes that a ray of raw numbers meets, in the order in which it meets them. `ray_handles` gives handles."""
        work = self._asked(self._asks.ray_hits, packed_ray(origin, direction, mask))
        slots = [slot for (slot,) in _SLOT.iter_unpack(work.found[: 8 * work.count.value])]
        kept.append(work)
        return slots

    def ray_handles(self, origin: Iterable[int], direction: Iterable[int], mask: int = ALL) -> List[Handle]:
        """The boxes that a ray without end meets, in the order in which it first meets them, and then of their slots. NO_MEMORY."""
        return self._found(self._asks.ray_hits, packed_ray(origin, direction, mask))

    def ray_handles_into(self, out: Buffer, origin: Iterable[int], direction: Iterable[int], mask: int = ALL) -> int:
        """Writes the first of them to a buffer, and tells how many there are, which may be more than it has room for."""
        return self._found_into(self._careful.ray_hits, RawRay.from_buffer_copy(packed_ray(origin, direction, mask)), out)

    def ray_first(self, origin: Iterable[int], direction: Iterable[int], mask: int = ALL) -> Optional[Hit]:
        """The box that a ray meets first, where, and by which side, or None if it meets no box. It looks for no other hit. NO_MEMORY."""
        return self._first(self._asks.ray_first, packed_ray(origin, direction, mask))

    def ray_first_each(self, rays: Rays, mask: int = ALL) -> List[Optional[Hit]]:
        """What `ray_first` answers to each of many rays. `Stopped` with NO_MEMORY."""
        status, done, hits = self._firsts(self._careful.ray_first_each, rays_of(rays, mask))
        if status:
            raise Stopped(status, done)
        return hits

    def ray_first_each_into(self, out: Buffer, rays: Rays, mask: int = ALL) -> int:
        """Writes what each of many rays meets first to a buffer, and tells how many rays were answered.

        If a ray meets no box, its place has the handle NO_HANDLE. `Stopped`, with the hits before it written: NO_MEMORY. With ARGUMENT
        nothing is asked if `out` is too short.
        """
        status, done = self._firsts_into(self._careful.ray_first_each, rays_of(rays, mask), room_of(HITS, out))
        if status:
            raise Stopped(status, done)
        return done

    def cast_first_each(self, casts: Casts, mask: int = ALL) -> List[Optional[Hit]]:
        """What `cast_first` answers to each of many casts. `Stopped` with INVERTED or NO_MEMORY."""
        status, done, hits = self._firsts(self._careful.cast_first_each, casts_of(casts, mask))
        if status:
            raise Stopped(status, done)
        return hits

    def cast_first_each_into(self, out: Buffer, casts: Casts, mask: int = ALL) -> int:
        """The same as `ray_first_each_into` for boxes that are moved. `Stopped` also with INVERTED."""
        status, done = self._firsts_into(self._careful.cast_first_each, casts_of(casts, mask), room_of(HITS, out))
        if status:
            raise Stopped(status, done)
        return done

    def _firsts(self, asks: Any, asked: Rows) -> Tuple[int, int, List[Optional[Hit]]]:
        memory, out = new_rows(HITS, asked.count)
        status, done = self._firsts_into(asks, asked, out)
        return status, done, _hits(memory[: done * HITS.size])

    def _firsts_into(self, asks: Any, asked: Rows, out: Rows) -> Tuple[int, int]:
        asked.refuse_common(out)
        work = workspace()
        with self._lock:
            status = asks(self._held, asked.first, asked.count, out.first, out.count, work.count)
        return status, counted(work)

    def cast_first(self, box: Box, by: Iterable[int], mask: int = ALL) -> Optional[Hit]:
        """The same for a box that is moved by a displacement. INVERTED, NO_MEMORY."""
        return self._first(self._asks.cast_first, packed_cast(box, by, mask))

    def ray_meets(self, origin: Iterable[int], direction: Iterable[int], handle: Handle) -> Optional[Hit]:
        """Where a ray meets one live box, and by which side, or None if it doesn't meet it. STALE.

        The box may be in any group. With `ray_handles` it tells where each box is met.
        """
        return self._first(self._asks.ray_meets, packed_ray(origin, direction, ALL), RawHandle.from_buffer_copy(packed_handle(handle)))

    def cast_meets(self, box: Box, by: Iterable[int], handle: Handle) -> Optional[Hit]:
        """The same for a box that is moved by a displacement. INVERTED, which is asked first, STALE."""
        return self._first(self._asks.cast_meets, packed_cast(box, by, ALL), RawHandle.from_buffer_copy(packed_handle(handle)))

    def _first(self, asks: Any, *question: Any) -> Optional[Hit]:
        work = workspace()
        with self._lock:
            status = asks(self._held_at, *question, work.hit_at, work.count_at)
        hit = _hit(HIT.unpack_from(work.hit)) if not status and work.count.value else None
        kept.append(work)
        if status:
            raise Refused(status)
        return hit

    def square_to(self, at: Iterable[int], handle: Handle) -> int:
        """The square of the distance of a place from a live box, in raw units squared, exactly: 0 if the box holds it. STALE.

        Its root, over 65,536, is the distance in units.
        """
        return self._square(self._asks.square_to, packed_point(at), handle)

    def square_apart(self, box: Box, handle: Handle) -> int:
        """The same of a box: 0 if they have a common point. INVERTED, which is asked first, STALE."""
        return self._square(self._asks.square_apart, packed_box(box), handle)

    def _square(self, asks: Any, place: bytes, handle: Handle) -> int:
        name, work = RawHandle.from_buffer_copy(packed_handle(handle)), workspace()
        with self._lock:
            status = asks(self._held_at, place, name, work.square_at)
        low, high = SQUARE.unpack_from(work.square)
        kept.append(work)
        if status:
            raise Refused(status)
        return high << 64 | low

    def first_hit(self, origin: Iterable[int], direction: Iterable[int], mask: int = ALL) -> Optional[Handle]:
        """The box that a ray meets first, or None if it meets no box. NO_MEMORY."""
        first = self.ray_first(origin, direction, mask)
        return first.handle if first else None

    def cast_hits(self, box: Box, by: Iterable[int], mask: int = ALL) -> List[Handle]:
        """The boxes that a box meets while it is moved by a displacement, in the order in which it first meets them, and then of their
        slots. INVERTED, NO_MEMORY.
        """
        return self._found(self._asks.cast_hits, packed_cast(box, by, mask))

    def cast_hits_into(self, out: Buffer, box: Box, by: Iterable[int], mask: int = ALL) -> int:
        """Writes the first of them to a buffer, and tells how many there are, which may be more than it has room for."""
        return self._found_into(self._careful.cast_hits, RawCast.from_buffer_copy(packed_cast(box, by, mask)), out)

    def nearest(self, at: Iterable[int], want: int = 1, mask: int = ALL) -> List[Handle]:
        """The boxes that are nearest to a place, at most `want`, in order of their distance and then of their slots. NO_MEMORY."""
        return self._found(self._asks.nearest, packed_near(at, want, mask))

    def nearest_into(self, out: Buffer, at: Iterable[int], want: int = 1, mask: int = ALL) -> int:
        """Writes the first of them to a buffer, and tells how many there are, which may be more than it has room for."""
        return self._found_into(self._careful.nearest, RawNear.from_buffer_copy(packed_near(at, want, mask)), out)

    def nearest_box(self, box: Box, want: int = 1, mask: int = ALL, least: int = 0) -> List[Handle]:
        """The boxes that are nearest to a box, at most `want`, in order of their distance and then of their slots. INVERTED, NO_MEMORY.

        `least` is the least square of a distance that is looked at, in raw units squared. To go on behind an answer, ask from the square
        of its last box on, which `square_apart` tells: boxes that are just as near are told again.
        """
        return self._found(self._asks.nearest_box, packed_near_box(box, want, mask, least))

    def nearest_box_into(self, out: Buffer, box: Box, want: int = 1, mask: int = ALL, least: int = 0) -> int:
        """Writes the first of them to a buffer, and tells how many there are, which may be more than it has room for."""
        return self._found_into(self._careful.nearest_box, RawNearBox.from_buffer_copy(packed_near_box(box, want, mask, least)), out)

    def _asked(self, asks: Any, question: bytes) -> Workspace:
        work = workspace()
        with self._lock:
            status = asks(self._held_at, question, work.found_at, MOST, work.count_at)
        if status:
            raise Refused(status)
        return work

    def _found(self, asks: Any, question: bytes) -> List[Handle]:
        work = self._asked(asks, question)
        handles = handles_of(work.found, work.count.value)
        kept.append(work)
        return handles

    def _found_into(self, asks: Any, question: Any, out: Buffer) -> int:
        return checked(*self._asked_into(asks, question, room_of(HANDLES, out)))

    def _asked_into(self, asks: Any, question: Any, rows: Rows) -> Tuple[int, int]:
        work = workspace()
        with self._lock:
            status = asks(self._held, question, rows.first, rows.count, work.count)
        return status, counted(work)
