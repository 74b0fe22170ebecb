"""Conversions between the formats of picture files."""

from __future__ import annotations

from typing import Any, TypeVar, overload

from pix._calls import Call
from pix._memory import Buffer, Memory
from pix._values import Format, PixError, Status

_convert = Call("pix_raw_convert")

_GAPS = "the buffer has gaps between its rows: convert them one by one"

Target = TypeVar("Target", bound=Buffer)


@overload
def convert(from_: Format, src: Buffer, to: Format, dst: None = None) -> bytearray: ...


@overload
def convert(from_: Format, src: Buffer, to: Format, dst: Target) -> Target: ...


def convert(from_: Format, src: Any, to: Format, dst: Any = None) -> Any:
    """Converts all pixels of the buffer `src` to the format of `dst`, with room for just as many, and returns `dst`.

    Both are buffers of bytes without gaps, and the formats are those up to SGRAY8. Without `dst` a new bytearray is
    returned. If `from_` has no alpha, it is 255. If `to` has none, the alpha is dropped. Colors that were multiplied
    by it stay so from RGBA8P and SRGBA8P to RGB8 and SRGB8; to all other formats they are divided by it. Raises
    PixError if the lengths don't fit, TypeError if `dst` is read-only, and ValueError if the two overlap.

    >>> pix.convert(pix.SRGBA8, bytes([188, 188, 188, 255]), pix.Format.RGBA8P).hex()
    '808080ff'
    """
    from_, to = Format(from_), Format(to)
    if max(from_, to) > Format.SGRAY8:
        raise PixError(Status.BAD_FORMAT)
    source = Memory(src)
    if source.has_gaps:
        raise ValueError(_GAPS)
    count = source.length // from_.size
    if source.length != count * from_.size:
        raise PixError(Status.BAD_LENGTH)
    if dst is None:
        dst = bytearray(count * to.size)
    target = Memory(dst)
    if target.has_gaps:
        raise ValueError(_GAPS)
    if target.is_readonly and target.length:
        raise TypeError("the buffer is read-only")
    if not target.is_apart(source):
        raise ValueError("the two buffers share memory")
    if target.length != count * to.size:
        raise PixError(Status.BAD_LENGTH)
    _convert(count, from_, to, source, target, count)
    return dst
