"""Turns: a call that needs memory which another one is writing waits for it.

Nothing here has to be undone by a line of Python, which an interrupt could leave out. A turn lasts
as long as a lock is held, and the interpreter itself releases a lock at the end of its `with`.
"""

from __future__ import annotations

import os
import sys
from itertools import count
from threading import Lock, RLock, get_ident
from typing import Any, Callable, Iterable, List, Optional, Sequence, Set, Tuple

from pix._memory import Memory

# The most seconds that a call waits before it checks again whether the other one is over.
_WAIT = 0.1

# Numbers for the order in which turns begin.
_numbers = count()


def _spans(memories: Iterable[Memory]) -> List[Tuple[int, int]]:
    """The first address of each memory, and the one after its last."""
    return [
        (memory.address, memory.address + memory.length) for memory in memories if memory.length
    ]


def _meet(some: Sequence[Tuple[int, int]], others: Sequence[Tuple[int, int]]) -> bool:
    """Whether a span of one list and a span of the other share a byte."""
    return any(first < end and start < last for first, last in some for start, end in others)


class _Turn:
    """A call that runs: its thread, and the spans that it writes, and that it reads or writes.

    It runs as long as its lock `runs` is held, which nobody else takes. Others wait for its lock
    `over`, which it releases last. It holds only numbers, so that a turn that is over pins nothing.
    """

    __slots__ = ("thread", "number", "written", "touched", "runs", "over")

    def __init__(self, written: Sequence[Memory], read: Sequence[Memory]) -> None:
        self.thread, self.number = get_ident(), next(_numbers)
        self.written = _spans(written)
        self.touched = self.written + _spans(read)
        self.runs, self.over = Lock(), Lock()

    def clashes(self, other: _Turn) -> bool:
        """Whether one of the calls writes what the other one reads or writes."""
        return _meet(self.written, other.touched) or _meet(self.touched, other.written)


class _Wait:
    """A thread that waits for a turn, or, without one, to begin; as long as its lock is held."""

    __slots__ = ("thread", "number", "turn", "lasts")

    def __init__(self, turn: Optional[_Turn]) -> None:
        self.thread, self.number = get_ident(), next(_numbers)
        self.turn, self.lasts = turn, Lock()


def _called(
    function: Any, arguments: Sequence[Any], copies: Sequence[Any], is_long: bool = False
) -> int:
    """Makes the copies, and then calls a function."""
    for copy in copies:
        copy.make(is_long)
    return function(*arguments)


class Turns:
    """The calls that run now without the interpreter's lock.

    Calls of one thread never clash: one that begins inside another, as in a signal handler, runs
    before the outer one has reached the library, or after it has left it. In two threads such calls
    may each wait for the other one's outer call: then one of them raises an error.
    """

    def __init__(self) -> None:
        self._forget()
        if hasattr(os, "register_at_fork"):
            os.register_at_fork(after_in_child=self._forget)

    def _forget(self) -> None:
        """Starts with no call: a child process has none of its parent's threads."""
        # Held while a call looks for others and begins, and during a short call. The thread that
        # holds it may take it again.
        self._begins = RLock()
        self.running: Set[_Turn] = set()
        self.waits: Set[_Wait] = set()

    def take(
        self,
        is_long: bool,
        function: Any,
        arguments: Sequence[Any],
        written: Sequence[Memory],
        read: Sequence[Memory],
        copies: Sequence[Any] = (),
    ) -> int:
        """Makes the copies, calls a function in its turn, and returns its status.

        A short function keeps the interpreter's lock, so that no other call begins before it ends.
        """
        if sys.is_finalizing():
            self._begins = RLock()  # a thread that no longer runs may hold the other one
        if is_long:
            return self._take_long(_Turn(written, read), function, arguments, copies)
        if not self.running:
            with self._begins:
                if not self.running:
                    return _called(function, arguments, copies)
        mine = _Turn(written, read)
        return self._begin(lambda: self._clash(mine) or _called(function, arguments, copies))

    def _take_long(
        self, mine: _Turn, function: Any, arguments: Sequence[Any], copies: Sequence[Any]
    ) -> int:
        """Calls a function that releases the interpreter's lock."""
        with mine.over, mine.runs:
            try:
                self._begin(lambda: self._clash(mine) or self.running.add(mine))
                return _called(function, arguments, copies, True)
            finally:
                self.running.discard(mine)

    def _begin(self, act: Callable[[], Any]) -> Any:
        """Repeats a function until it returns no other call; waits for each call that it returns.

        No other call begins while the function runs.
        """
        while True:
            if any(turn.thread == get_ident() for turn in tuple(self.running)):
                done = self._noted(None, lambda: self._act(act))
            else:
                done = self._act(act)
            if type(done) is not _Turn:
                return done
            self._noted(done, lambda turn=done: self._wait(turn))

    def _act(self, act: Callable[[], Any]) -> Any:
        """Runs a function; no other call begins meanwhile."""
        with self._begins:
            return act()

    def _noted(self, turn: Optional[_Turn], act: Callable[[], Any]) -> Any:
        """Runs a function while this thread is listed as waiting for a turn, or to begin."""
        wait = _Wait(turn)
        self.waits.add(wait)
        try:
            with wait.lasts:
                return act()
        finally:
            self.waits.discard(wait)

    def _wait(self, other: _Turn) -> None:
        """Waits until a call is over. An interrupt may come anywhere: only `runs` tells the end."""
        seen: List[_Wait] = []
        while other.runs.locked():
            if sys.is_finalizing():
                raise RuntimeError("the interpreter ends, and another thread was painting there")
            circle = self._circle(other)
            if circle and circle == seen:  # seen twice, since the waits change meanwhile
                raise RuntimeError(
                    "this call runs inside another one, as in a handler or a finalizer, and would"
                    " wait for ever: another thread paints there, and waits for the outer one"
                )
            seen = circle
            if other.over.acquire(timeout=_WAIT):
                other.over.release()

    def _circle(self, turn: Optional[_Turn]) -> List[_Wait]:
        """The chain of waits by which a call, or all that can't begin, waits for this thread."""
        circle: List[_Wait] = []
        while turn is None or turn.thread != get_ident():
            if turn is None:
                return circle if self._begins._is_owned() else []  # type: ignore[attr-defined]
            waits = [
                wait
                for wait in tuple(self.waits)
                if wait.thread == turn.thread and wait.number > turn.number and wait.lasts.locked()
            ]
            last = max(waits, key=lambda wait: wait.number, default=None)
            if last is None or last in circle:
                return []
            circle.append(last)
            turn = last.turn
        return circle

    def _clash(self, mine: _Turn) -> Optional[_Turn]:
        """A call of another thread that runs and clashes with this one."""
        for other in tuple(self.running):
            if not other.runs.locked():  # an interrupt came before it was removed
                self.running.discard(other)
            elif other.thread != mine.thread and mine.clashes(other):
                return other
        return None


turns = Turns()
