"""Bitmaps: images of any format in buffers, as files, windows and other libraries hold them."""

from __future__ import annotations

import importlib
from typing import Any, Optional, SupportsIndex, Tuple

from pix._calls import Call, RowsCopy, packed
from pix._memory import Gaps, Memory, is_held
from pix._values import Format, PixError, Status, u32
from pix._views import Rows

_convert_bitmap = Call("pix_raw_convert_bitmap")


class Bitmap:
    """Rows of pixels of a format in a buffer: of (height, width * samples) or (height, width, samples) elements, or of bytes.

    There may be gaps between rows, and they may go from bottom to top, as in a window of a numpy array or a flipped one. The
    elements are bytes, or words of 16 bits if the format has 16 bits. If the rows aren't whole, this may view a copy.
    """

    def __init__(
        self, buffer: Any, format: Format, width: Optional[SupportsIndex] = None, height: Optional[SupportsIndex] = None,
        may_copy: bool = False,
    ) -> None:  # fmt: skip
        self.format = Format(format)
        given = None if width is None or height is None else (u32(width, "width"), u32(height, "height"))
        try:
            memory = Memory(buffer, self.format.bits == 16, turned=True)
        except Gaps as gaps:
            if not may_copy:
                raise
            memory = Memory(packed(gaps.view), self.format.bits == 16)
        shape, size = memory.shape, self.format.size
        if given is None:
            wide = memory.row
            count = shape[1] * shape[2] if len(shape) > 2 else 0
            if len(shape) < 2 or wide % size or (count and wide // count * shape[2] != size):
                raise TypeError(f"a buffer of shape {shape} has no rows of {self.format.name}: pass width and height")
            given = u32(wide // size, "width"), u32(shape[0], "height")
        self.width, self.height = given
        if memory.step != memory.row or len(shape) > 1:
            if (memory.rows, memory.row) != (self.height, self.width * size):
                raise ValueError(f"{memory.rows} rows of {memory.row} bytes are not {self.height} of {self.width * size}")
            self.stride = memory.step
        else:
            self.stride = self.width * size
        self.memory = memory

    @classmethod
    def of_rows(cls, rows: Rows, format: Format) -> Bitmap:
        """An image that commands paint, as a bitmap."""
        it = cls.__new__(cls)
        it.format, it.memory, it.width, it.height = format, rows.memory, rows.width, rows.height
        it.stride = rows.stride * format.size
        return it

    @property
    def pixels(self) -> int:
        """How many pixels it has."""
        return self.width * self.height

    @property
    def is_held(self) -> bool:
        """Whether its memory is long enough for the rows, and no two rows share a byte."""
        return is_held(self.memory.length, self.width, self.height, abs(self.stride), self.format.size)

    def refuse_unheld(self, status: Status) -> None:
        """Raises a PixError if its memory is too short. Call this before allocating any other memory."""
        if not self.is_held:
            raise PixError(status)


def write(target: Bitmap, source: Bitmap) -> None:
    """Writes each pixel of a bitmap from the same point of another one, in its own format."""
    if (target.width, target.height) != (source.width, source.height):
        raise ValueError(f"{source.width} x {source.height} pixels are not {target.width} x {target.height}")
    if target.memory.is_readonly and target.memory.length:
        raise TypeError("the buffer is read-only")
    if not target.memory.is_apart(source.memory):
        raise ValueError("the two buffers share memory")
    target.refuse_unheld(Status.BAD_SIZE)
    source.refuse_unheld(Status.BAD_SOURCE)
    if target.pixels:
        _convert_bitmap(
            target.pixels, source.format, target.format, source.memory, target.memory, source.stride, target.stride,
            target.width, target.height,
        )  # fmt: skip


def write_in_place(image: Bitmap, to: Format) -> None:
    """Converts each pixel of a bitmap in place, from a copy of its rows, to a format with no more bytes a pixel."""
    if to.size > image.format.size:
        raise PixError(Status.BAD_FORMAT)
    if image.memory.is_readonly and image.memory.length:
        raise TypeError("the buffer is read-only")
    image.refuse_unheld(Status.BAD_SIZE)
    memory, wide = image.memory, image.width * image.format.size
    if image.pixels:
        copy = RowsCopy(memory, image.height, wide, abs(image.stride))
        stride = wide if image.stride > 0 else -wide
        _convert_bitmap(image.pixels, image.format, to, copy, memory, stride, image.stride, image.width, image.height)


def convert_bitmap(
    from_: Format, src: Any, to: Format, dst: Any = None, size: Optional[Tuple[SupportsIndex, SupportsIndex]] = None
) -> Any:
    """Converts the picture in the buffer `src` to the format of `dst`, and returns `dst`.

    The sizes are the buffers' shapes: (height, width, samples) or (height, width * samples). For a buffer of one dimension
    pass `size` as (width, height). There may be gaps between rows, and they may go from bottom to top. Without `dst` a new
    bytearray is returned. If `dst` is `src` itself, the pixels are converted in place.

    Between sRGB formats of 8 bits and linear ones of 16 bits, a pixel with an alpha of at least 13 comes back unchanged.
    Below that, colors that are multiplied by the alpha may change: at an alpha of 0 they are 0. All other pairs are
    converted as by convert().

    >>> light = pix.convert_bitmap(pix.SRGBA8, bytes([200, 120, 40, 255]), pix.Format.RGBA16P, size=(1, 1))
    >>> pix.convert_bitmap(pix.Format.RGBA16P, light, pix.SRGBA8, size=(1, 1)).hex()
    'c87828ff'
    """
    from_, to = Format(from_), Format(to)
    width, height = (None, None) if size is None else size
    if dst is src and src is not None:
        write_in_place(Bitmap(src, from_, width, height), to)
        return src
    source = Bitmap(src, from_, width, height)
    if size is not None or dst is None:
        width, height = source.width, source.height
    if dst is None:
        source.refuse_unheld(Status.BAD_SOURCE)
        dst = bytearray(source.pixels * to.size)
    write(Bitmap(dst, to, width, height), source)
    return dst


def new_array(width: int, height: int, format: Format) -> Any:
    """A numpy array of the pixels of a format, or a bytearray without numpy."""
    try:
        numpy = importlib.import_module("numpy")
    except ImportError:
        return bytearray(width * height * format.size)
    shape = (height, width) if format.samples == 1 else (height, width, format.samples)
    return numpy.zeros(shape, "u2" if format.bits == 16 else "u1")
