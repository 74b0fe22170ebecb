"""Views of rows in a buffer, and masks."""

from __future__ import annotations

import ctypes
import sys
from typing import Any, Dict, NamedTuple, Optional, SupportsIndex, Tuple

from pix._calls import copied_rows
from pix._memory import MOST, Buffer, Memory, is_held, refuse_gone
from pix._pixels import PixelType
from pix._values import PixError, Status, u32


# The types of a mask's values.
MASK8, MASK16 = ctypes.c_uint8, ctypes.c_uint16


class Rows(NamedTuple):
    """The fields of a view: the place of its elements, their number, and the sizes in elements."""

    memory: Memory
    element: Any
    elements: int
    width: int
    height: int
    stride: int
    type: Optional[PixelType]


def rows_of(buffer: Any, width: Any, height: Any, stride: Any, element: Any, type: Optional[PixelType] = None) -> Rows:
    """Finds rows of elements in a buffer, and tests what the library can't."""
    size = ctypes.sizeof(element)
    width, height, stride = (
        None if number is None else u32(number, what)
        for number, what in ((width, "width"), (height, "height"), (stride, "stride"))
    )
    memory = Memory(buffer, ctypes.alignment(element) == 2)
    if width is None and height is None and len(memory.shape) > 1 and memory.row == memory.shape[1] * size:
        width, height = memory.shape[1], memory.shape[0]
    if width is None or height is None:
        raise TypeError(f"width and height are missing, and {untold(memory.shape, type)}")
    width, height = u32(width, "width"), u32(height, "height")
    taken = width if stride is None else stride
    if memory.has_gaps:
        if (memory.rows, memory.row) != (height, width * size):
            raise ValueError(f"{memory.rows} rows of {memory.row} bytes are not {height} of {width * size}")
        if memory.step % size or stride is not None and taken != memory.step // size:
            raise ValueError(f"rows that start {memory.step} bytes apart have no such stride")
        taken = u32(memory.step // size, "stride")
    elif len(memory.shape) > 1 and memory.row == memory.shape[1] * size:
        high, wide = memory.shape[:2]
        if height > high or width > wide or (height > 1 and taken != wide):
            said = f"{width} x {height}, {taken} apart"
            raise ValueError(f"an array of {wide} x {high} elements is not one of {said}")
    if memory.address % ctypes.alignment(element):
        raise ValueError("the buffer is not aligned to channels of 16 bits")
    rows = Rows(memory, element, memory.length // size, width, height, taken, type)
    if width and height and not is_held(rows.elements, width, height, taken):
        raise PixError(Status.BAD_SIZE, why=unheld(rows))
    return rows


def unheld(rows: Rows) -> str:
    """The error text for a buffer that doesn't hold the rows: why, and what to pass."""
    memory, element, count, width, height, stride, type = rows
    what = "values" if type is None else f"pixels of {type}"
    if max(width, height) > MOST:
        return f"{width} x {height} {what} have a side above {MOST}"
    if stride < width:
        return f"rows of {width} {what} can't begin {stride} apart: the stride is counted in {what.split()[0]}, and is at least the width"
    wanted, size = (height - 1) * stride + width, ctypes.sizeof(element)
    apart = "" if stride == width else f" in rows {stride} apart"
    return f"the buffer is too short: it has {memory.length} bytes, and {width} x {height} {what}{apart} take {wanted * size}"


def untold(shape: Tuple[int, ...], type: Optional[PixelType]) -> str:
    """The error text for a buffer with a shape that doesn't tell the width and the height."""
    formats = {1: "pix.SGRAY8", 2: "pix.SGRAYA8", 3: "pix.SRGB8", 4: "pix.SRGBA8"}
    samples = 1 if len(shape) == 2 else shape[-1] if len(shape) == 3 else 0
    if type is None or samples not in formats:
        return "the shape of the buffer doesn't tell them"
    instead = f"pix.Image.from_array(array, {formats[samples]})"
    return f"an array of shape {shape} has no pixels of {type}: write {instead} for one of sRGB"


class View:
    """Rows of elements in a buffer: `width` and `height` in elements, and `stride` from a row
    to the next."""

    _rows: Rows

    def __init__(self, rows: Rows) -> None:
        # Set all at once and only once, so that no other size ever goes with this memory.
        if self.__dict__.setdefault("_rows", rows) is not rows:
            raise TypeError("a view is made once")

    @property
    def width(self) -> int:
        """The width in pixels or values."""
        return self._rows.width

    @property
    def height(self) -> int:
        """The height in rows."""
        return self._rows.height

    @property
    def size(self) -> Tuple[int, int]:
        """The width and the height."""
        return self._rows.width, self._rows.height

    @property
    def stride(self) -> int:
        """The distance from a row to the next, in pixels or values."""
        return self._rows.stride

    @property
    def __array_interface__(self) -> Dict[str, Any]:
        """For numpy: np.asarray(image) is the image's own memory, of (height, width, channels)
        elements, or (height, width) for a matte. You may write to it if the buffer is writable. It
        pins the buffer as the view does.
        """
        memory, element, _, width, height, stride, type = self._rows
        refuse_gone(memory)
        size = ctypes.sizeof(element)
        channel = size if type is None else size // type.channels
        step = stride * size
        shape, strides = (height, width), (step, size)
        if type is not None:
            shape, strides = (*shape, type.channels), (*strides, channel)
        order = "|" if channel == 1 else {"little": "<", "big": ">"}[sys.byteorder]
        data = memory.address, memory.is_readonly
        kind = f"{order}u{channel}"
        return {"version": 3, "shape": shape, "typestr": kind, "data": data, "strides": strides}

    def _value(self) -> bytearray:
        """A copy of the rows without the padding between them."""
        memory, element, elements, width, height, stride, _ = self._rows
        if not is_held(elements, width, height, stride):
            raise PixError(Status.BAD_SIZE)
        size = ctypes.sizeof(element)
        return copied_rows(memory, width * size, stride * size, height)


class Matte(View):
    """A mask: the fraction of a color that is composited at each point, from 0 (none) to 255
    (all).

    It goes with all images. With `bits` 16 its values are from 0 to 65535, and it goes only with
    RGBA16. `values` is any buffer of (height - 1) * stride + width values, and may be read-only;
    `stride` is counted in values. You may leave out width and height if the buffer's shape is
    (height, width). There may be gaps between rows, as in a window of a numpy array.

    A pickle or a copy of it has values of its own, without the padding between rows.

    >>> pix.Matte(bytes([0, 128, 255, 64]), 2, 2)
    <pix.Matte 2 x 2, 8 bits>
    """

    def __init__(
        self, values: Buffer, width: Optional[SupportsIndex] = None, height: Optional[SupportsIndex] = None,
        stride: Optional[SupportsIndex] = None, bits: int = 8,
    ) -> None:  # fmt: skip
        if bits not in (8, 16):
            raise ValueError(f"{bits} bits are not 8 or 16")
        super().__init__(rows_of(values, width, height, stride, MASK8 if bits == 8 else MASK16))

    @property
    def bits(self) -> int:
        """The bits of a value: 8 or 16."""
        return 8 * ctypes.sizeof(self._rows.element)

    def __repr__(self) -> str:
        return f"<pix.Matte {self.width} x {self.height}, {self.bits} bits>"

    def __reduce__(self) -> tuple:
        return Matte, (self._value(), self.width, self.height, None, self.bits)
