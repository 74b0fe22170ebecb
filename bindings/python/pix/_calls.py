"""The calls of the library: each takes turns by the memory it reads and writes, as the table says."""

from __future__ import annotations

import ctypes
from typing import Any, List

from pix._library import CALLS, LONG, libraries
from pix._memory import Memory, Span, refuse_gone
from pix._turns import turns
from pix._values import PixError, Status

# The most colors that a table has. One more stands for any longer table, since the library refuses them alike.
ENTRIES = 256
LONGER = ENTRIES + 1
# The memory that they take, by the bytes of each.
_TABLES = {size: ctypes.c_ubyte * (size * LONGER) for size in (3, 4)}

# Copies bytes, and keeps the interpreter's lock or releases it.
_MOVES = [kind(None).memmove for kind in (ctypes.PyDLL, ctypes.CDLL)]
for _move in _MOVES:
    _move.argtypes, _move.restype = [ctypes.c_void_p, ctypes.c_void_p, ctypes.c_size_t], None


class Copy:
    """A copy of a caller's memory in a buffer of its own, which a call makes in its turn and reads.

    The call is passed a length of `length` bytes.
    """

    __slots__ = ("source", "room", "address", "length")

    def __init__(self, source: Memory, room: Any, length: int) -> None:
        self.source, self.room, self.length = source, room, length
        self.address = ctypes.addressof(room)

    def make(self, is_long: bool) -> None:
        """Copies as many bytes as the buffer has room for."""
        _MOVES[is_long](
            self.address, self.source.address, min(self.source.length, ctypes.sizeof(self.room))
        )


class RowsCopy(Copy):
    """A copy of rows of `wide` bytes, which begin `apart` bytes apart, without the gaps."""

    __slots__ = ("rows", "wide", "apart")

    def __init__(self, source: Memory, rows: int, wide: int, apart: int) -> None:
        super().__init__(source, (ctypes.c_ubyte * (rows * wide))(), rows * wide)
        self.rows, self.wide, self.apart = rows, wide, apart

    def make(self, is_long: bool) -> None:
        """Copies the rows."""
        move_rows(is_long, self.address, self.source.address, self.rows, self.wide, self.apart)


def move_rows(
    is_long: bool, target: int, source: int, rows: int, wide: int, apart: int
) -> int:
    """Copies rows of `wide` bytes, which begin `apart` bytes apart, to an address, without gaps."""
    if wide == apart:
        wide, rows = wide * rows, 1
    for row in range(rows):
        _MOVES[is_long](target + row * wide, source + row * apart, wide)
    return 0


def padded(table: Memory, length: int, size: int = 3) -> Copy:
    """A copy of a table, with room for an entry of every index from 0 to 255.

    A call is passed a length of `length` bytes, and at most that of one color too many. So an index
    that changes during the call, after the library has tested it, gives a wrong color, but reads no
    other memory.
    """
    return Copy(table, _TABLES[size](), min(length, size * LONGER))


def copied_rows(memory: Memory, wide: int, apart: int, rows: int, first: int = 0) -> bytearray:
    """A copy of rows of `wide` bytes, which begin `apart` bytes apart, without the gaps.

    It is made in a turn of its own.
    """
    copy = bytearray(wide * rows)
    if not copy:
        return copy
    refuse_gone(memory)
    is_long, target = len(copy) > LONG, Memory(copy)
    how = is_long, target.address, memory.address + first, rows, wide, apart
    turns.take(is_long, move_rows, how, [], [memory])
    return copy


def packed(view: memoryview) -> memoryview:
    """A copy of a buffer of any strides, in order and without gaps, made in a turn of its own."""
    made: List[bytes] = []
    is_long = view.nbytes > LONG
    copy = lambda: made.append(view.tobytes()) or 0  # type: ignore[func-returns-value]
    turns.take(is_long, copy, (), [], [Span(view)])
    return memoryview(made[0]).cast("B" if view.itemsize == 1 else "H", view.shape)


class Call:
    """A function of the library, in its turn.

    You call it with the number of pixels that it works on, and the arguments in its row of CALLS. An
    argument of memory is a Memory, or a Copy of one that is read.
    """

    __slots__ = ("name", "both", "takes", "cost")

    def __init__(self, name: str) -> None:
        self.name = name
        self.cost, takes = CALLS[name]
        self.both = tuple(getattr(library, name) for library in libraries)
        self.takes = [
            (role, int(size or 0))
            for role, _, size in (word.partition(":") for word in takes.split())
        ]

    def __call__(self, pixels: int, *given: Any) -> None:
        """Calls it; raises PixError if it fails."""
        arguments: List[Any] = []
        read: List[Memory] = []
        written: List[Memory] = []
        copies: List[Copy] = []
        for (role, size), one in zip(self.takes, given):
            if not size:
                arguments.append(one)
                continue
            if role == "table" and type(one) is Memory:
                one = padded(one, one.length, size)
            if isinstance(one, Copy):
                copies.append(one)
                read.append(one.source)
            else:
                (written if role == "write" else read).append(one)
            arguments += (one.address, one.length // size)
        refuse_gone(*written, *read)
        is_long = pixels * self.cost > LONG
        status = turns.take(is_long, self.both[is_long], arguments, written, read, copies)
        if status:
            raise PixError(Status(status))
