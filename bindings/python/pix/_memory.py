"""The one way in: a caller's buffer becomes an address, a length and a kind.

A buffer is asked for its memory once, by the buffer protocol. From then on no method, attribute or
conversion of the caller's object runs: it is only read at the address.
"""

from __future__ import annotations

import ctypes
import os
import sys
from pickle import PickleBuffer
from typing import TYPE_CHECKING, Any

if TYPE_CHECKING:
    from typing_extensions import Buffer
else:
    Buffer = Any  # an object with the buffer protocol: only a type checker tells

_NOTHING = (ctypes.c_uint64 * 1)()
# An address for buffers of no elements, aligned for all of them. It is never read.
NOWHERE = ctypes.addressof(_NOTHING)

# The interpreter's record of a buffer; the address of the memory comes first.
_record_of = ctypes.pythonapi.PyPickleBuffer_GetBuffer
_record_of.argtypes = [ctypes.py_object]
_record_of.restype = ctypes.c_void_p

# The format codes of bytes, and of words of 16 bits, and the signs of the machine's order.
_BYTES, _WORD = ("B", "c"), "H"
_ORDER = "@=" + {"little": "<", "big": ">"}[sys.byteorder]


# The greatest width and height of a picture.
MOST = 2**31 - 1


def is_held(length: int, width: int, height: int, apart: int, size: int = 1) -> bool:
    """Whether `length` elements hold the rows of `width` pixels of `size` each, without overlap.

    Rows begin `apart` elements apart.
    """
    wide = width * size
    if width > MOST or height > MOST or wide > apart:
        return False
    return height == 0 or wide <= length and apart * (height - 1) <= length - wide


def is_a(given: Any, kind: type) -> bool:
    """Whether an object is of a class: by its real type, and not by what it or a registry says."""
    return type(given) is kind or type.__subclasscheck__(kind, type(given))


def name_of(given: Any) -> str:
    """The name of an object's class."""
    return type(given).__name__


class Gaps(ValueError):
    """A buffer with gaps inside its rows, which can only be copied."""

    def __init__(self, view: memoryview, why: str) -> None:
        super().__init__(why)
        self.view = view


def of_pillow(given: Any) -> bool:
    """Whether an object is a picture of Pillow."""
    return any(str(kind.__module__).startswith("PIL.") for kind in type.mro(type(given)))


def instead_of(given: Any, matte: bool = False) -> str:
    """The error text for an object that is no buffer and no image: its kind, and what to write."""
    kind = type(given)
    if issubclass(kind, (str, os.PathLike)):
        path = os.fspath(given)
        return f"{path!r} is a text: for a picture file write pix.Image.open({path!r})"
    if of_pillow(given):
        return "this is a picture of Pillow: write pix.Image.from_pillow(picture)"
    try:
        memoryview(given).release()
    except (TypeError, ValueError, BufferError):
        return f"{name_of(given)} is no buffer: pass bytes, a bytearray or an array"
    made = "pix.Matte(array)" if matte else "pix.Image.from_array(array, pix.SRGBA8)"
    return f"{name_of(given)} is a buffer: write {made}"


def elements_instead(code: str) -> str:
    """The hint for an array with elements of the wrong type."""
    if code[-1:] in "efdg":
        return "; for fractions from 0 to 1 write (255 * array).round().astype('uint8')"
    return "; for numbers from 0 to 255 write array.astype('uint8')"


class Alive(list):
    """Tells whether an object is whole: it is true until the object is collected.

    A collection calls the `__del__` of all objects of a cycle before it clears the first one. So a
    weak reference or its callback never finds an object that is half cleared, with memory that is
    used by another one. This `__del__` is no line of Python, which an interrupt could leave out.
    """

    __slots__ = ()
    __del__ = list.clear


def refuse_gone(*given: Any) -> None:
    """Raises a ReferenceError for an object that a collection has begun to clear."""
    for one in given:
        if not getattr(one, "alive", None):
            raise ReferenceError("a collection has let go of its memory")


class Span:
    """Memory of any shape: the first and the last address of a view."""

    __slots__ = ("address", "length")

    def __init__(self, view: memoryview) -> None:
        held = PickleBuffer(view)
        first = ctypes.c_void_p.from_address(_record_of(held)).value or NOWHERE
        ends = [(count - 1) * step for count, step in zip(view.shape, view.strides)]
        before = -sum(end for end in ends if end < 0)
        self.address = first - before
        self.length = before + sum(end for end in ends if end > 0) + view.itemsize
        if not view.nbytes:
            self.length = 0


class Memory:
    """The memory of a buffer: `rows` stretches of `row` bytes, `step` bytes apart.

    If `turned` allows it, the first row may be the last one in memory, and then `step` is negative.
    The memory is pinned as long as this object lives: its owner neither moves nor frees it. The
    interpreter itself unpins it, and not a line of Python, which an interrupt could leave out.
    """

    __slots__ = (
        "is_readonly",
        "shape",
        "row",
        "rows",
        "step",
        "length",
        "address",
        "alive",
        "_view",
        "_held",
    )

    def __init__(self, buffer: Any, words: bool = False, turned: bool = False) -> None:
        try:
            self._view = view = memoryview(buffer)
        except TypeError as fault:
            raise TypeError(instead_of(buffer)) from fault
        self._held = PickleBuffer(view)
        self.alive = Alive((True,))
        self.is_readonly = view.readonly
        self.shape = shape = view.shape
        size, code = view.itemsize, view.format
        if not (size == 1 and code[-1:] in _BYTES) and not (words and code.lstrip(_ORDER) == _WORD):
            what = "bytes, or words of 16 bits in the machine's order" if words else "bytes"
            instead = elements_instead(code)
            raise TypeError(f"the buffer has elements of format {code!r}: pass {what}{instead}")
        if len(shape) == 1 and view.c_contiguous:
            self.rows, self.row, self.step = shape[0], size, size
        else:
            self._take_rows(view, turned)
        before = (self.rows - 1) * abs(self.step)
        self.length = before + self.row if view.nbytes else 0
        self.address = NOWHERE
        if self.length:
            first = ctypes.c_void_p.from_address(_record_of(self._held)).value
            self.address = first - before if self.step < 0 else first

    def _take_rows(self, view: memoryview, turned: bool) -> None:
        """Takes the rows of a buffer of any shape, which have no gaps inside."""
        shape, strides, held = view.shape, view.strides, view.nbytes
        if any(offset >= 0 for offset in view.suboffsets):
            raise ValueError(
                "the rows of the buffer are found by pointers: only rows of one stride are taken"
            )
        self.row = view.itemsize
        for i in range(len(shape) - 1, 0, -1):
            if shape[i] > 1 and strides[i] != self.row and held:
                why = "the buffer has gaps inside its rows: only whole rows may lie apart"
                raise Gaps(view, why)
            self.row *= shape[i]
        self.rows = shape[0] if shape else 1
        self.step = strides[0] if self.rows > 1 and held else self.row
        if self.step != self.row and len(shape) == 1:
            raise Gaps(view, "the buffer has gaps: pass all of it, with a stride")
        if (abs(self.step) if turned else self.step) < self.row:
            raise Gaps(view, "the rows of the buffer run backwards, or share memory")

    @property
    def has_gaps(self) -> bool:
        """Whether there are gaps between rows."""
        return self.step != self.row

    def is_apart(self, other: Memory) -> bool:
        """Whether the two share no byte."""
        if not self.length or not other.length:
            return True
        return (
            self.address + self.length <= other.address
            or other.address + other.length <= self.address
        )

    def view(self) -> memoryview:
        """A view of the buffer, of bytes if it has no gaps.

        Releasing it releases nothing of this object.
        """
        refuse_gone(self)
        view = memoryview(self._view)
        if self.has_gaps or not self.length:
            return view
        try:
            return view.cast("B")
        except ValueError:  # a format that no memoryview casts, such as the ones of ctypes
            return PickleBuffer(view).raw()
