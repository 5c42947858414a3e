"""What is told without a search. A world and a reader tell the same, so each call stands once."""

from __future__ import annotations

import struct
from ctypes import c_uint32
from operator import index
from typing import TYPE_CHECKING, Any, Callable, Iterator, List, Tuple, TypeVar

from ._buffers import EVENTS, PAIRS, Kind, Rows, new_rows, packed_handle, room_of
from ._library import HANDLE, INFO, LIVE, NONE, PAIR, SLOTS, TOLD, RawHandle, Workspace, kept, workspace
from ._values import (
    BEGIN, OVER, STAY, Box, Event, Handle, Info, Live, Pair, Refused, Status, Structure, Told, made, refuse_words,
)  # fmt: skip

if TYPE_CHECKING:
    from typing_extensions import Buffer

_Value = TypeVar("_Value")

_EVENTS: Tuple[Event, ...] = (BEGIN, STAY, OVER)
_SLOTS_TOLD = struct.Struct("=II4xI4x")

_handle_from = HANDLE.unpack_from


def checked(status: int, count: int) -> int:
    """A count, if the call that told it wasn't refused. A frame that raises holds no buffer of the caller: its traceback would."""
    if status:
        raise Refused(status)
    return count


def counted(work: Workspace) -> int:
    """What a call counted, and its workspace is put back."""
    count = work.count.value
    kept.append(work)
    return count


def start_of(start: int) -> int:
    """A number to go on from. No list has as many as the number that stands for those that are larger."""
    if index(start) < 0:
        raise ValueError(f"start is {start}: it must be 0 or more")
    return min(index(start), 2**31)


class Teller:
    """What tells of a world: the `World` itself, or a `Reader` of it."""

    #: The two words that the library has, a pointer to them, and a lock for their call.
    _held: Any
    _held_at: Any
    _lock: Any

    #: The calls of pungwelair.h by such words: the functions as they are, and those that look at their arguments.
    _asks: Any
    _careful: Any

    #: What the last update told: how much room its lists take.
    _counts: Any

    def get(self, handle: Handle) -> Live:
        """The live box that has a handle. STALE."""
        name, work = RawHandle.from_buffer_copy(packed_handle(handle)), workspace()
        with self._lock:
            status = self._asks.get(self._held_at, name, work.live_at)
        numbers = LIVE.unpack_from(work.live)
        kept.append(work)
        if status:
            raise Refused(status)
        return _live(numbers)

    def at(self, slot: int) -> Tuple[Handle, Live]:
        """The live box in a slot, with its handle. STALE, as in each slot from SLOTS on."""
        refuse_words(slot=slot)
        work = workspace()
        with self._lock:
            status = self._asks.at(self._held_at, c_uint32(slot), work.handle_at, work.live_at)
        handle, numbers = made(Handle, _handle_from(work.handle)), LIVE.unpack_from(work.live)
        kept.append(work)
        if status:
            raise Refused(status)
        return handle, _live(numbers)

    def boxes(self) -> Iterator[Tuple[Handle, Live]]:
        """All live boxes with their handles, by their slots. Each slot is read when its turn comes, so the loop may change the world."""
        for slot in range(SLOTS):
            try:
                yield self.at(slot)
            except Refused as refusal:
                if refusal.status != Status.STALE:
                    raise

    def pairs(self) -> List[Pair]:
        """The pairs of the last frame that ended, in order of their slots. After `back` they are those before the mark."""
        return self._read(self._asks.pairs, self._careful.pairs, PAIRS, self._counts.pairs, pairs_of)

    def pair_events(self) -> List[Told]:
        """What became of each pair in the last frame that ended: each of its pairs, and then those that are over."""
        return self._read(self._asks.events, self._careful.events, EVENTS, self._counts.events, _told)

    def pair_changes(self) -> List[Told]:
        """The same without the pairs that stayed: those that began, and then those that are over."""
        return self._read(self._asks.changes, self._careful.changes, EVENTS, self._counts.changes, _told)

    def events(self) -> List[Tuple[int, int, int]]:
        """What became of each pair, as an event and the two slots. Take `pair_events`, which gives the handles."""
        return self._read(self._asks.events, self._careful.events, EVENTS, self._counts.events, _slots_told)

    def changes(self) -> List[Tuple[int, int, int]]:
        """The same without the pairs that stayed. Take `pair_changes`, which gives the handles."""
        return self._read(self._asks.changes, self._careful.changes, EVENTS, self._counts.changes, _slots_told)

    def _read(self, short: Any, long: Any, kind: Kind, expected: int, values: Callable[[bytearray], List[_Value]]) -> List[_Value]:
        """All of a list that the frame has: `short` and `long` are the same call."""
        room = kind.found
        if expected < room.value:
            work = workspace()
            with self._lock:
                status = short(self._held_at, NONE, work.found_at, room, work.count_at)
            if status:
                raise Refused(status)
            count = work.count.value
            if count < room.value:
                read = values(work.found[: count * kind.size]) if count else []
                kept.append(work)
                return read
        return self._read_long(long, kind, expected, values)

    def _read_long(self, copies: Any, kind: Kind, expected: int, values: Callable[[bytearray], List[_Value]]) -> List[_Value]:
        # A row more than is expected: if it stays free, all were read. Another thread or a way back may have made them more.
        start, room, parts = 0, expected + 1, []
        while True:
            memory, rows = new_rows(kind, room)
            copied = checked(*self._copied(copies, start, rows))
            parts.append(memory[: copied * kind.size])
            if copied < room:
                return values(bytearray().join(parts))
            start, room = start + copied, start + copied + 1

    def _copied(self, copies: Any, start: int, rows: Rows) -> Tuple[int, int]:
        work = workspace()
        with self._lock:
            status = copies(self._held, start, rows.first, rows.count, work.count)
        return status, counted(work)

    def pairs_into(self, out: Buffer, start: int = 0) -> int:
        """Writes the pairs from number `start` on, as many as there is room for, and tells how many those are."""
        return checked(*self._copied(self._careful.pairs, start_of(start), room_of(PAIRS, out)))

    def pair_events_into(self, out: Buffer, start: int = 0) -> int:
        """Writes the events from number `start` on, as many as there is room for, and tells how many those are."""
        return checked(*self._copied(self._careful.events, start_of(start), room_of(EVENTS, out)))

    def pair_changes_into(self, out: Buffer, start: int = 0) -> int:
        """Writes the changes from number `start` on, as many as there is room for, and tells how many those are."""
        return checked(*self._copied(self._careful.changes, start_of(start), room_of(EVENTS, out)))

    def info(self) -> Info:
        """What the world is."""
        work = workspace()
        with self._lock:
            status = self._asks.info(self._held_at, work.info_at)
        if status:
            raise Refused(status)
        structure, spent, *others = INFO.unpack_from(work.info)
        kept.append(work)
        return Info(Structure(structure), spent != 0, *others)


def _live(numbers: Tuple[int, ...]) -> Live:
    groups, sees, owner, fixed = numbers[6:]
    return Live(made(Box, numbers[:6]), groups, sees, owner, fixed != 0)


def pairs_of(read: bytearray) -> List[Pair]:
    return [made(Pair, (made(Handle, (a, b)), made(Handle, (c, d)))) for a, b, c, d in PAIR.iter_unpack(read)]


def _told(read: bytearray) -> List[Told]:
    return [made(Told, (_EVENTS[event], made(Handle, (a, b)), made(Handle, (c, d)))) for event, a, b, c, d in TOLD.iter_unpack(read)]


def _slots_told(read: bytearray) -> List[Tuple[int, int, int]]:
    return list(_SLOTS_TOLD.iter_unpack(read))  # type: ignore[arg-type]
