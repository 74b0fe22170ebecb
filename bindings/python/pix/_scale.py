"""Pictures at another size."""

from __future__ import annotations

import ctypes
from typing import Any, Callable, Iterable, Optional, SupportsIndex, Tuple

from pix._calls import Call
from pix._library import libraries
from pix._memory import is_held
from pix._values import Filter, PixError, Region, Status, Weights, i32, region_of, u32
from pix._views import Rows

_CALLS = {
    "RGBA8": Call("pix_raw_scale"), "RGBA16": Call("pix_raw_scale_rgba16"), "GRAYA8": Call("pix_raw_scale_graya8"),
}  # fmt: skip
_BY_CALLS = {
    "RGBA8": Call("pix_raw_scale_by"), "RGBA16": Call("pix_raw_scale_by_rgba16"), "GRAYA8": Call("pix_raw_scale_by_graya8"),
}  # fmt: skip


def _taps(side: int, new: int) -> int:
    """How many places of a side count for one of the new side, by the filters that take most."""
    return 6 * max(side, new) // new + 2


def _work(rows: Rows, across: int, down: int, part: Region, filter: int) -> int:
    """How many words of work memory a window takes; raises PixError if it is refused."""
    words, type = ctypes.c_uint64(), rows.type
    assert type is not None
    status = libraries[0].pix_raw_scale_work(
        part.width, part.height, across, down, rows.width, rows.height, type.channels, type.max.bit_length(), filter,
        ctypes.byref(words),
    )  # fmt: skip
    if status:
        raise PixError(Status(status))
    if part.x < 0 or part.y < 0 or part.x + part.width > across or part.y + part.height > down:
        raise PixError(Status.OUTSIDE)
    return words.value


def scaled_rows(
    rows: Rows, width: SupportsIndex, height: SupportsIndex, filter: Filter, window: Optional[Iterable[SupportsIndex]],
    new: Callable[[int, int], Any],
) -> Any:  # fmt: skip
    """A window of the picture at another size, in an image that `new` makes."""
    across, down, kind = u32(width, "width"), u32(height, "height"), Filter(filter)
    part = Region(0, 0, across, down) if window is None else region_of(window)
    words = _work(rows, across, down, part, kind)
    if not is_held(rows.elements, rows.width, rows.height, rows.stride):
        raise PixError(Status.BAD_SOURCE)
    made = new(part.width, part.height)
    if part.width and part.height:
        # The rows under the window, and then its pixels.
        columns = min(rows.width, rows.width * part.width // across + _taps(rows.width, across))
        steps = part.height * (columns * _taps(rows.height, down) + part.width * _taps(rows.width, across))
        assert rows.type is not None
        _CALLS[rows.type.name](
            steps, made._rows.memory, part.x, part.y, part.width, part.height, part.width, across, down, rows.memory,
            rows.width, rows.height, rows.stride, kind, (ctypes.c_uint32 * words)(), words,
        )  # fmt: skip
    return made


def _own(table: Weights) -> Tuple[Any, int, int, Any, int]:
    """The numbers of a table in memory that nobody else knows, as the library takes them."""
    firsts, taps, weights = table
    places = [u32(first, "first") for first in firsts]
    numbers = [i32(weight, "weight") for weight in weights]
    # One more than there are, so that there is an address for none too.
    return (
        (ctypes.c_uint32 * (len(places) + 1))(*places), len(places), u32(taps, "taps"),
        (ctypes.c_int32 * (len(numbers) + 1))(*numbers), len(numbers),
    )  # fmt: skip


def scaled_by_rows(rows: Rows, across: Weights, down: Weights, new: Callable[[int, int], Any]) -> Any:
    """The picture at another size by two tables, in an image that `new` makes."""
    columns, lines = _own(across), _own(down)
    words, type = ctypes.c_uint64(), rows.type
    assert type is not None
    wide, high, taps, high_taps = columns[1], lines[1], columns[2], lines[2]
    status = libraries[0].pix_raw_scale_by_work(
        wide, high, rows.width, rows.height, taps, high_taps, type.channels, type.max.bit_length(), ctypes.byref(words)
    )
    if status:
        raise PixError(Status(status))
    if not is_held(rows.elements, rows.width, rows.height, rows.stride):
        raise PixError(Status.BAD_SOURCE)
    if columns[4] != wide * taps or lines[4] != high * high_taps:
        raise PixError(Status.BAD_WEIGHTS)
    made = new(wide, high)
    # For each row some rows of the source, and then its pixels.
    steps = high * (rows.width * high_taps + wide * taps)
    _BY_CALLS[type.name](
        steps, made._rows.memory, wide, high, wide, rows.memory, rows.width, rows.height, rows.stride, *columns, *lines,
        (ctypes.c_uint32 * max(words.value, 1))(), words.value,
    )  # fmt: skip
    return made
