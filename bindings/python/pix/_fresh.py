"""Fresh memory, and levels of 16 bits."""

from __future__ import annotations

import importlib
import mmap
from array import array
from functools import lru_cache
from typing import Any, Union

# From this many bytes on, memory comes from the system in large pages. The first write to it takes
# a third of the time.
LARGE = 4 << 20


def zeros(size: int) -> Union[bytearray, mmap.mmap]:
    """A writable buffer of `size` bytes, all 0."""
    if size < LARGE or not hasattr(mmap, "MADV_HUGEPAGE"):
        return bytearray(size)
    try:
        memory = mmap.mmap(-1, size, mmap.MAP_PRIVATE | mmap.MAP_ANONYMOUS)
    except (OSError, OverflowError, ValueError) as fault:
        raise MemoryError(f"no room for {size} bytes") from fault
    try:
        memory.madvise(mmap.MADV_HUGEPAGE)
    except OSError:  # a system without large pages
        pass
    return memory


@lru_cache(maxsize=None)
def light_table() -> array[int]:
    """The light, from 0 to 65535, of each level of sRGB from 0 to 65535."""
    most, low = 65535, int(65535 * 0.04045)
    dark = [round(level / 12.92) for level in range(low + 1)]
    bright = [
        round(most * ((level / most + 0.055) / 1.055) ** 2.4) for level in range(low + 1, most + 1)
    ]
    return array("H", dark + bright)


@lru_cache(maxsize=None)
def level_table() -> array[int]:
    """The level of sRGB, from 0 to 65535, that is nearest to each light from 0 to 65535."""
    most, low = 65535, int(65535 * 0.04045 / 12.92)
    dark = [round(light * 12.92) for light in range(low + 1)]
    bright = [
        round(most * (1.055 * (light / most) ** (1 / 2.4) - 0.055))
        for light in range(low + 1, most + 1)
    ]
    return array("H", dark + bright)


def looked_up(table: array[int], levels: array[int]) -> Any:
    """The entry of a table of 65536 words for each level, as an array, or a numpy array if there is
    numpy."""
    try:
        numpy = importlib.import_module("numpy")
    except ImportError:
        return array("H", map(table.__getitem__, levels))
    return numpy.frombuffer(table, "u2").take(numpy.frombuffer(levels, "u2"))


def lit(levels: array[int]) -> Any:
    """The light of levels of sRGB from 0 to 65535."""
    return looked_up(light_table(), levels)


def levels_of(light: array[int]) -> Any:
    """The levels of sRGB of light from 0 to 65535."""
    return looked_up(level_table(), light)


def scaled(numbers: Any, white: float) -> array[int]:
    """Numbers from 0 to `white` as levels from 0 to 65535. Others are clamped, and NaN becomes
    0."""
    factor = 65535 / white
    return array(
        "H",
        [
            0 if not number > 0 else 65535 if number >= white else int(number * factor + 0.5)
            for number in numbers
        ],
    )
