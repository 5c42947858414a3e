"""The owner of a world."""

from __future__ import annotations

import struct
import threading
from ctypes import byref, c_size_t, c_uint32
from operator import index
from typing import TYPE_CHECKING, Any, List, NoReturn, Tuple

from ._asking import Asker, handles_of
from ._buffers import BOXES, HANDLES, PAIRS, Boxes, Handles, Rows, new_rows, packed_handle, room_of, rows_of
from ._library import (
    ALL, BOX, HANDLE, NEW, ONE, RawCounts, RawGroup, RawHandle, RawMasks, RawNew, RawWorld, kept, library, unchecked, workspace,
)  # fmt: skip
from ._reader import Reader
from ._telling import checked, counted, pairs_of, start_of
from ._values import TREE, Box, Frame, Handle, Pair, Refused, Stopped, made, refuse_kind, refuse_places, refuse_words

if TYPE_CHECKING:
    from typing_extensions import Buffer

_pack_box, _pack_handle, _pack_new, _handle_from = BOX.pack, HANDLE.pack, NEW.pack, HANDLE.unpack_from

_pw_open, _pw_close, _pw_update = map(unchecked, ("pw_open", "pw_close", "pw_update"))
_pw_mark, _pw_forget, _pw_back = map(unchecked, ("pw_mark", "pw_forget", "pw_back"))
_pw_add, _pw_move, _pw_remove = map(unchecked, ("pw_add", "pw_move", "pw_remove"))
_pw_mask, _pw_regroup = map(unchecked, ("pw_mask", "pw_regroup"))


class World(Asker, calls="pw_"):
    """Moving boxes under handles, and what they meet.

    Calls of several threads take turns, and other worlds answer meanwhile. So that several threads ask one world at once, `share` gives it
    to readers. If a world isn't closed it ends with its last reference. A closed world refuses: CLOSED.

    Boxes and handles go in as values, or many at once as a list or a buffer, which is read where it stands: rows of six int32 for
    boxes, of two uint32 for handles. Answers are lists of values. The calls that end in `_into` write them to a buffer of the caller
    in place: rows of two uint32 for handles, of four for pairs, of five for events (the event, and the handles of both boxes). No
    other thread may write to a buffer while a call has it.
    """

    # Of a world that didn't come to be, for `__del__`: a closed one.
    _held_at: Any = byref(RawWorld())
    # Whether it is at its end, so that it isn't open again when its last reader leaves.
    _ended = False

    def __init__(self, structure: int = TREE) -> None:
        """An open world with no box, over one of the five structures. NO_MEMORY, or ARGUMENT if there is no such structure."""
        structure = index(structure)
        refuse_words(structure=structure)
        self._held = RawWorld()
        self._held_at = byref(self._held)
        # A lock that its holder may take again: a collector's finalizer may call in the middle of a call.
        self._lock = threading.RLock()
        # What the calls of one box write to and nobody reads, since it is 1 if they aren't refused.
        self._done = byref(c_size_t())
        self._counts = RawCounts()
        self._counts_at = byref(self._counts)
        status = _pw_open(self._held_at, c_uint32(structure))
        if status:
            raise Refused(status)

    def close(self) -> None:
        """Frees the world's memory. A world that is closed stays so. One that readers read answers them until the last one leaves."""
        with self._lock:
            self._ended = True
            _pw_close(self._held_at)

    def __del__(self, close: Any = _pw_close) -> None:
        # In a ring of garbage a reader may leave later.
        self._ended = True
        close(self._held_at)

    @property
    def closed(self) -> bool:
        """Whether it is closed, as it is while readers read it."""
        return not self._held.state

    def share(self) -> Reader:
        """Gives the world to its first reader, so that several threads ask it at once. CLOSED, NO_MEMORY.

        The world refuses every call, CLOSED, until its last reader leaves, and then goes on as it was.
        """
        return Reader(self)

    def __enter__(self) -> World:
        return self

    def __exit__(self, *_: object) -> None:
        self.close()

    def __reduce__(self) -> NoReturn:
        raise TypeError("a World can't be copied or pickled")

    def add(self, box: Box, groups: int = 1, sees: int = ALL, owner: int = 0, fixed: bool = False) -> Handle:
        """Adds a box under the least free slot. INVERTED, FULL, EXHAUSTED, NO_MEMORY.

        It is in the groups of one mask and sees those of another; two boxes pair if each sees a group that the other is in. Boxes of
        one owner (but 0) don't pair, nor do two fixed ones.
        """
        if not isinstance(box, Box):
            refuse_kind(box, Box)
        x, y, z, u, v, w = box
        try:
            body, how = _pack_box(x, y, z, u, v, w), _pack_new(groups, sees, owner, 1 if fixed else 0)
        except struct.error:
            refuse_words(groups=groups, sees=sees, owner=owner)
            refuse_places(*box)
            raise
        work = workspace()
        with self._lock:
            status = _pw_add(self._held_at, body, ONE, how, work.handle_at, ONE, self._done)
        handle: Handle = made(Handle, _handle_from(work.handle))
        kept.append(work)
        if status:
            raise Refused(status)
        return handle

    def move(self, handle: Handle, box: Box) -> None:
        """Gives a box another place. INVERTED, STALE, EXHAUSTED, NO_MEMORY."""
        if not isinstance(handle, Handle):
            refuse_kind(handle, Handle)
        if not isinstance(box, Box):
            refuse_kind(box, Box)
        x, y, z, u, v, w = box
        try:
            name, body = _pack_handle(handle.slot, handle.generation), _pack_box(x, y, z, u, v, w)
        except struct.error:
            refuse_words(slot=handle.slot, generation=handle.generation)
            refuse_places(*box)
            raise
        with self._lock:
            status = _pw_move(self._held_at, name, ONE, body, ONE, self._done)
        if status:
            raise Refused(status)

    def remove(self, handle: Handle) -> None:
        """Removes a box. STALE; NO_MEMORY, only while a mark is held."""
        if not isinstance(handle, Handle):
            refuse_kind(handle, Handle)
        try:
            name = _pack_handle(handle.slot, handle.generation)
        except struct.error:
            refuse_words(slot=handle.slot, generation=handle.generation)
            raise
        with self._lock:
            status = _pw_remove(self._held_at, name, ONE, self._done)
        if status:
            raise Refused(status)

    def mask(self, handle: Handle, groups: int, sees: int) -> None:
        """Gives a box other masks. STALE; NO_MEMORY, only while a mark is held."""
        name = RawHandle.from_buffer_copy(packed_handle(handle))
        refuse_words(groups=groups, sees=sees)
        with self._lock:
            status = _pw_mask(self._held_at, name, RawMasks(index(groups), index(sees)))
        if status:
            raise Refused(status)

    def regroup(self, handle: Handle, owner: int = 0, fixed: bool = False) -> None:
        """Gives a box another owner and fixed mark: the next update has its pairs by them. STALE; NO_MEMORY, only while a mark is held."""
        name = RawHandle.from_buffer_copy(packed_handle(handle))
        refuse_words(owner=owner)
        with self._lock:
            status = _pw_regroup(self._held_at, name, RawGroup(index(owner), bool(fixed)))
        if status:
            raise Refused(status)

    def add_all(self, boxes: Boxes, groups: int = 1, sees: int = ALL, owner: int = 0, fixed: bool = False) -> List[Handle]:
        """Adds boxes in order, all in one way, and gives their handles.

        `Stopped` if one is refused: its `handles` are those of the boxes before it.
        """
        status, handles = self._added(boxes, groups, sees, owner, fixed)
        if status:
            raise Stopped(status, len(handles), handles)
        return handles

    def _added(self, boxes: Boxes, *how: Any) -> Tuple[int, List[Handle]]:
        rows = rows_of(BOXES, boxes)
        memory, out = new_rows(HANDLES, rows.count)
        status, done = self._add_rows(rows, out, *how)
        return status, handles_of(memory, done)

    def add_all_into(self, out: Buffer, boxes: Boxes, groups: int = 1, sees: int = ALL, owner: int = 0, fixed: bool = False) -> int:
        """The same, with the handles written to a buffer, and how many boxes were added.

        `Stopped`: the handles of those that are done stand in the buffer. ARGUMENT, and no box is added, if it has less room than
        there are boxes.
        """
        status, done = self._add_rows(rows_of(BOXES, boxes), room_of(HANDLES, out), groups, sees, owner, fixed)
        if status:
            raise Stopped(status, done)
        return done

    def _add_rows(self, boxes: Rows, out: Rows, groups: int, sees: int, owner: int, fixed: bool) -> Tuple[int, int]:
        boxes.refuse_common(out)
        refuse_words(groups=groups, sees=sees, owner=owner)
        how = RawNew.from_buffer_copy(_pack_new(groups, sees, owner, 1 if fixed else 0))
        work = workspace()
        with self._lock:
            status = library.pw_add(self._held, boxes.first, boxes.count, how, out.first, out.count, work.count)
        return status, counted(work)

    def move_all(self, handles: Handles, boxes: Boxes) -> None:
        """Moves boxes in order, each with its handle. `Stopped` if one is refused, and with ARGUMENT if the lengths differ."""
        status, done = self._moved(handles, boxes)
        if status:
            raise Stopped(status, done)

    def _moved(self, handles: Handles, boxes: Boxes) -> Tuple[int, int]:
        bodies, places = rows_of(HANDLES, handles), rows_of(BOXES, boxes)
        bodies.refuse_common(places)
        work = workspace()
        with self._lock:
            status = library.pw_move(self._held, bodies.first, bodies.count, places.first, places.count, work.count)
        return status, counted(work)

    def remove_all(self, handles: Handles) -> None:
        """Removes boxes in order. `Stopped` if one is refused."""
        status, done = self._removed(handles)
        if status:
            raise Stopped(status, done)

    def _removed(self, handles: Handles) -> Tuple[int, int]:
        rows, work = rows_of(HANDLES, handles), workspace()
        with self._lock:
            status = library.pw_remove(self._held, rows.first, rows.count, work.count)
        return status, counted(work)

    def update(self) -> List[Tuple[int, int, int]]:
        """Ends the frame, and gives what became of each pair: an event and the two slots. Take `end_frame` and `pair_changes`."""
        with self._lock:
            self.end_frame()
            return self.events()

    def end_frame(self) -> None:
        """Ends the frame: finds the pairs of the boxes as they stand, and reads nothing of it.

        EXHAUSTED, NO_MEMORY: all is as before.
        """
        with self._lock:
            status = _pw_update(self._held_at, self._counts_at)
        if status:
            raise Refused(status)

    @property
    def frame(self) -> Frame:
        """How many pairs, events and changes the last call of `end_frame` or `update` told: 0 if it was refused."""
        with self._lock:
            return Frame(self._counts.pairs, self._counts.events, self._counts.changes)

    def pairs_now(self) -> List[Pair]:
        """The pairs that the frame would have if it ended now, in order of their slots. NO_MEMORY.

        The frame goes on, and `pairs`, `pair_events` and `pair_changes` tell what they told. It searches as `end_frame` does.
        """
        # They are mostly few more than those of the last frame. They may become more between two calls, too.
        room = self._counts.pairs + self._counts.pairs // 8 + 8
        while True:
            memory, rows = new_rows(PAIRS, room)
            count = checked(*self._copied(library.pw_pairs_now, 0, rows))
            if count <= room:
                return pairs_of(memory[: count * PAIRS.size])
            room = count

    def pairs_now_into(self, out: Buffer, start: int = 0) -> int:
        """Writes those of `pairs_now` from number `start` on, as many as there is room for, and tells how many all of them are."""
        return checked(*self._copied(library.pw_pairs_now, start_of(start), room_of(PAIRS, out)))

    def mark(self) -> None:
        """Marks the world as it stands, for rollback. FULL if MOST_MARKS are held."""
        with self._lock:
            status = _pw_mark(self._held_at)
        if status:
            raise Refused(status)

    def forget(self, count: int = 1) -> None:
        """Gives up the oldest marks, so many of them: the world as it stands and the newer marks are as before. NO_MARK if fewer are held."""
        refuse_words(count=count)
        with self._lock:
            status = _pw_forget(self._held_at, c_uint32(count))
        if status:
            raise Refused(status)

    def back(self) -> None:
        """Goes back to the newest mark, which is then gone: boxes, handles, the last frame's pairs and the numbers are what they were.

        NO_MARK, NO_MEMORY. Forget the handles of boxes that came since: they are given again. What `events` and `changes` tell stays.
        """
        with self._lock:
            status = _pw_back(self._held_at)
        if status:
            raise Refused(status)
