"""The readers of a world, by which several threads ask it at once."""

from __future__ import annotations

import threading
from ctypes import byref
from typing import TYPE_CHECKING, Any, NoReturn

from ._asking import Asker
from ._library import RawReader, unchecked
from ._values import Refused

if TYPE_CHECKING:
    from ._world import World

_pw_reader_open, _pw_reader_close = map(unchecked, ("pw_reader_open", "pw_reader_close"))
_pw_share, _pw_join, _pw_unshare, _pw_close = map(unchecked, ("pw_share", "pw_join", "pw_unshare", "pw_close"))


class Reader(Asker, calls="pw_reader_"):
    """One of the readers of a world: it asks, by the same calls as the world, while others ask on other threads.

    `World.share` makes the first one, and `join` makes others. Give each thread one of its own: a reader has room for the answers to its
    questions, and its calls take turns. Nobody changes the world until the last reader leaves; then it is open again, as it was. A reader
    leaves at the end of its `with`, or with its last reference. One that left refuses: CLOSED.
    """

    # Of a reader that didn't come to be, for `__del__`: a closed one, of no world.
    _held_at: Any = byref(RawReader())
    _world: Any = None

    def __init__(self, world: World) -> None:
        """The first reader of an open world: see `World.share`. CLOSED, NO_MEMORY."""
        self._open(world)
        with world._lock:
            status = _pw_share(world._held_at, self._held_at)
        if status:
            raise Refused(status)

    def _open(self, world: World) -> None:
        self._held = RawReader()
        self._held_at = byref(self._held)
        # A lock that its holder may take again: a collector's finalizer may call in the middle of a call.
        self._lock = threading.RLock()
        status = _pw_reader_open(self._held_at)
        if status:
            raise Refused(status)
        self._world = world
        self._counts = world._counts

    def join(self) -> Reader:
        """Another reader of the same world, for another thread. CLOSED if this one left, NO_MEMORY."""
        other: Reader = Reader.__new__(type(self))
        other._open(self._world)
        with self._lock:
            status = _pw_join(self._held_at, other._held_at)
        if status:
            raise Refused(status)
        return other

    def leave(self) -> bool:
        """Reads no more, and tells whether the world is open again by that: this was its last reader, and nobody closed it meanwhile.

        A reader that left stays so.
        """
        return self._left()

    def _left(self, unshare: Any = _pw_unshare, close_reader: Any = _pw_reader_close, close: Any = _pw_close) -> bool:
        world = self._world
        # Readers that leave at once have the words of their world in turn. A thread that has a world's lock waits for no reader's.
        with self._lock, world._lock:
            is_last = not unshare(self._held_at, world._held_at)
            close_reader(self._held_at)
            if world._ended:
                close(world._held_at)
            return is_last and not world._ended

    def __del__(self) -> None:
        if self._world is not None:
            self._left()

    @property
    def closed(self) -> bool:
        """Whether it left."""
        return not self._held.state

    def __enter__(self) -> Reader:
        return self

    def __exit__(self, *_: object) -> None:
        self.leave()

    def __reduce__(self) -> NoReturn:
        raise TypeError("a Reader can't be copied or pickled")
