"""Operators, formats, statuses and the exception."""

from __future__ import annotations

from enum import IntEnum
from typing import Iterable, NamedTuple, Optional, Sequence, SupportsIndex, Tuple

from pix._numbers import index

class Region(NamedTuple):
    """A region in pixels: x grows to the right and y downwards. You can also pass a tuple (x, y,
    width, height).

    >>> pix.copy_color(pix.Region(8, 8, 16, 16), pix.srgb("tomato")).to
    (8, 8, 16, 16)
    """

    x: int
    y: int
    width: int
    height: int

    def __repr__(self) -> str:
        return tuple.__repr__(self)


class Weights(NamedTuple):
    """A table of weights for the columns, or the rows, of a picture at another size.

    Column i is made of `taps` columns of the source, from firsts[i] on, all of which are in the source. Their weights
    begin at weights[i * taps], in 2^14ths. They add up to 16384, and the negative ones among them to more than -8192.
    You can also pass a tuple (firsts, taps, weights).
    """

    firsts: Sequence[SupportsIndex]
    taps: int
    weights: Sequence[SupportsIndex]


class Op(IntEnum):
    """An operator of Porter and Duff, or the sum.

    The term next to each operator gives each channel of the result, the alpha too. s and d are the channels of source
    and destination, and sa and da the alphas as fractions. Products are rounded to the nearest, and a sum saturates at
    the maximum.

        SRC        s
        DEST       d
        SRC_OVER   s + d * (1 - sa): the usual one
        DEST_OVER  s * (1 - da) + d
        SRC_OUT    s * (1 - da)
        DEST_OUT   d * (1 - sa)
        SRC_IN     s * da
        DEST_IN    d * sa
        SRC_ATOP   s * da + d * (1 - sa)
        DEST_ATOP  s * (1 - da) + d * sa
        XOR        s * (1 - da) + d * (1 - sa)
        CLEAR      0
        PLUS       s + d

    >>> image = pix.Image.new(1, 1, pix.RGBA8)
    >>> image.run(pix.copy_color((0, 0, 1, 1), (0, 0, 200, 255)))
    >>> image.run(pix.composite_color((0, 0, 1, 1), (100, 0, 0, 128), op=pix.Op.SRC_OVER))
    >>> image[0, 0]
    pix.Color((100, 0, 100, 255), pix.RGBA8)
    """

    # made by tools/names: operators
    SRC = 0  # s
    DEST = 1  # d
    SRC_OVER = 2  # s + d * (1 - sa): the usual one
    DEST_OVER = 3  # s * (1 - da) + d
    SRC_OUT = 4  # s * (1 - da)
    DEST_OUT = 5  # d * (1 - sa)
    SRC_IN = 6  # s * da
    DEST_IN = 7  # d * sa
    SRC_ATOP = 8  # s * da + d * (1 - sa)
    DEST_ATOP = 9  # s * (1 - da) + d * sa
    XOR = 10  # s * (1 - da) + d * (1 - sa)
    CLEAR = 11  # 0
    PLUS = 12  # s + d
    # made by tools/names: end


class Format(IntEnum):
    """A format of bytes: the channels of a pixel in the order of the name, of 8 or 16 bits.

    S: the colors are encoded by the sRGB curve, as in most files; without it they are linear. P at the end: the colors
    are multiplied by the alpha. X: a byte that is not read, and is written as 255. A channel of 16 bits is a word in the
    machine's order. RGBA8P, RGBA16P and GRAYA8P are the formats of the pixels RGBA8, RGBA16 and GRAYA8. convert() takes
    only the formats up to SGRAY8.
    """

    # made by tools/names: formats
    SRGBA8 = 0
    SRGBA8P = 1
    RGBA8 = 2
    RGBA8P = 3
    BGRA8 = 4
    BGRA8P = 5
    RGB8 = 6
    GRAY8 = 7
    SBGRA8 = 8
    SBGRA8P = 9
    SRGB8 = 10
    SGRAY8 = 11
    RGBA16 = 12
    RGBA16P = 13
    RGB16 = 14
    BGRA16 = 15
    BGRA16P = 16
    BGR16 = 17
    BGR8 = 18
    SBGR8 = 19
    GRAYA8 = 20
    GRAYA8P = 21
    SGRAYA8 = 22
    SGRAYA8P = 23
    GRAY16 = 24
    GRAYA16 = 25
    GRAYA16P = 26
    MATTE8 = 27
    MATTE16 = 28
    CMY8 = 29
    CMYA8 = 30
    CMYA8P = 31
    CMY16 = 32
    CMYA16 = 33
    CMYA16P = 34
    SCMY8 = 35
    SCMYA8 = 36
    SCMYA8P = 37
    HSV8 = 38
    HSVA8 = 39
    HSVA8P = 40
    HSV16 = 41
    HSVA16 = 42
    HSVA16P = 43
    SHSV8 = 44
    SHSVA8 = 45
    SHSVA8P = 46
    HSL8 = 47
    HSLA8 = 48
    HSLA8P = 49
    HSL16 = 50
    HSLA16 = 51
    HSLA16P = 52
    SHSL8 = 53
    SHSLA8 = 54
    SHSLA8P = 55
    HWB8 = 56
    HWBA8 = 57
    HWBA8P = 58
    HWB16 = 59
    HWBA16 = 60
    HWBA16P = 61
    SHWB8 = 62
    SHWBA8 = 63
    SHWBA8P = 64
    YCBCR8 = 65
    YCBCRA8 = 66
    YCBCRA8P = 67
    YCBCR16 = 68
    YCBCRA16 = 69
    YCBCRA16P = 70
    XYZ8 = 71
    XYZA8 = 72
    XYZA8P = 73
    XYZ16 = 74
    XYZA16 = 75
    XYZA16P = 76
    SRGBX8 = 77
    SBGRX8 = 78
    RGBX8 = 79
    BGRX8 = 80
    # made by tools/names: end

    @classmethod
    def _missing_(cls, value: object) -> None:
        """Raises an error with a hint for a value that is no format."""
        if isinstance(value, str) and value.upper() in cls.__members__:
            raise TypeError(f"{value!r} is a text: write pix.Format.{value.upper()}")
        if type(value).__name__ == "PixelType":
            straight = f"pix.Format.{value}"
            raise TypeError(f"{value} is a kind of pixels: write {straight}P, or {straight} where the alpha is straight")
        raise ValueError(f"{value!r} is no format: write one as pix.SRGBA8 or pix.Format.RGBA16P")

    @property
    def bits(self) -> int:
        """How many bits a channel has: 8 or 16."""
        return 16 if "16" in self.name else 8

    @property
    def samples(self) -> int:
        """How many numbers of `bits` bits a pixel has in memory, from 1 to 4."""
        model = self.name.rstrip("P").rstrip("0123456789")
        alone = {"GRAY": 1, "SGRAY": 1, "GRAYA": 2, "SGRAYA": 2, "MATTE": 1}
        return alone.get(model, 4 if model[-1] in "AX" else 3)

    @property
    def size(self) -> int:
        """How many bytes a pixel has."""
        return self.samples * self.bits // 8


class Filter(IntEnum):
    """How a pixel of a picture at another size is made of those of the source.

    Columns and rows are weighed apart, in whole numbers. A pixel is the sum of all products of pixels and weights, divided by
    the sum of the weights. It is rounded once, to the nearest, ties up. The last three have weights below 0: an alpha is cut at
    0 and at the greatest channel, and a color at 0 and at the new alpha. A side that keeps its length is not filtered by them.
    """

    # made by tools/names: filters
    NEAREST = 0  # the pixel under its center: for sprites
    AREA = 1  # the mean of the area that it covers: for photographs, and for sharp enlarged pixels
    LINEAR = 2  # by the distance of centers, as far as one pixel, of the source or of the result: smooth
    CATMULL_ROM = 3  # a cubic as far as two pixels, with weights below 0: sharp
    MITCHELL = 4  # such a cubic that is softer, with less of a rim around edges
    LANCZOS = 5  # a windowed sine as far as three pixels: the sharpest
    # made by tools/names: end

    @classmethod
    def _missing_(cls, value: object) -> None:
        """Raises an error with a hint for a value that is no filter."""
        if isinstance(value, str):
            name = value.upper() if value.upper() in cls.__members__ else "AREA"
            raise TypeError(f"{value!r} is a text: write pix.Filter.{name}")
        raise ValueError(f"{value!r} is no filter: write one as pix.Filter.AREA")


class Status(IntEnum):
    """The statuses that the library returns."""

    # made by tools/names: statuses
    OK = 0  # done
    BAD_SIZE = 1  # the written image: a side above 2147483647, a stride below the width, or more pixels than its memory has
    BAD_KIND = 2  # no such kind of command
    BAD_REGION = 3  # a region of a command has a side above 2147483647
    BAD_OP = 4  # no such operator
    BAD_SOURCE = 5  # a source, a matte, a mask or a bitmap that is read: as BAD_SIZE
    BAD_FORMAT = 6  # no such format, or one that the call doesn't take
    BAD_LENGTH = 7  # more pixels, indices or commands than memory holds, or lengths that don't match
    BAD_TABLE = 11  # a table has no entry, or more than 256
    BAD_INDEX = 12  # an index is past the end, or takes more bits than the depth has
    BAD_DEPTH = 13  # the depth of indices is not 1, 2, 4 or 8 bits
    FULL_TABLE = 14  # a table has no room for a color
    BAD_STRENGTH = 15  # the strength of error diffusion is above 16
    NO_SIDE = 16  # a side of the source or of the new picture is 0
    TOO_LARGE = 17  # a side of the source is above 65535, or the new picture has larger sides than its sums allow
    OUTSIDE = 18  # the window is not all in the new picture
    SMALL_WORK = 19  # the work memory has fewer words than scale_work says
    BAD_FILTER = 20  # no such filter
    BAD_WEIGHTS = 21  # a table of weights doesn't fit the image or the source, or a row of it doesn't add up
    # made by tools/names: end


_TEXTS = {
    # made by tools/names: texts
    Status.BAD_SIZE: "the image has a bad size or stride, or its buffer is too short",
    Status.BAD_KIND: "no such kind of command",
    Status.BAD_REGION: "a region has a side above 2147483647",
    Status.BAD_OP: "no such operator",
    Status.BAD_SOURCE: "its source has a bad size or stride, or a buffer that is too short",
    Status.BAD_FORMAT: "no such format",
    Status.BAD_LENGTH: "the lengths of the buffers don't match",
    Status.BAD_TABLE: "a table must have 1 to 256 entries",
    Status.BAD_INDEX: "an index is past the end, or needs more bits than it has",
    Status.BAD_DEPTH: "indices take 1, 2, 4 or 8 bits",
    Status.FULL_TABLE: "a table has no room for a color",
    Status.BAD_STRENGTH: "errors are diffused with a strength of 0 to 16",
    Status.NO_SIDE: "a side of the source or of the new picture is 0",
    Status.TOO_LARGE: "a side of the source is above 65535, or the new picture is too large for its sums",
    Status.OUTSIDE: "the window is not all in the new picture",
    Status.SMALL_WORK: "the work memory is too small",
    Status.BAD_FILTER: "no such filter",
    Status.BAD_WEIGHTS: "a table of weights doesn't fit the image or the source, or a row of it doesn't add up",
    # made by tools/names: end
}


class PixError(ValueError):
    """A call that failed and has changed nothing.

    `status` says why. `index` is the place of the bad command, or None if the error is in the image itself or in the
    arguments of convert(). `why` is a text in place of the usual one.
    """

    def __init__(self, status: Status, index: Optional[int] = None, why: Optional[str] = None) -> None:
        text = _TEXTS.get(status, f"status {int(status)}") if why is None else why
        super().__init__(text if index is None else f"command {index}: {text}")
        self.status = status
        self.index = index
        self._why = why

    def __reduce__(self) -> tuple:
        return type(self), (self.status, self.index, self._why)


def u32(number: SupportsIndex, what: str) -> int:
    """The number, if it fits in 32 bits."""
    taken = index(number)
    if not 0 <= taken < 2**32:
        raise ValueError(f"{what} {taken} is not from 0 to {2**32 - 1}")
    return taken


def i32(number: SupportsIndex, what: str) -> int:
    """The number, if it fits in 32 bits with a sign."""
    taken = index(number)
    if not -(2**31) <= taken < 2**31:
        raise ValueError(f"{what} {taken} is not from {-(2**31)} to {2**31 - 1}")
    return taken


def origin_of(origin: Iterable[SupportsIndex]) -> Tuple[int, int]:
    """The numbers of the place (left, top) of a window."""
    left, top = origin
    return u32(left, "left"), u32(top, "top")


def region_of(region: Iterable[SupportsIndex]) -> Region:
    """The numbers of a region (x, y, width, height)."""
    sides = tuple(region) if hasattr(region, "__iter__") else ()
    if len(sides) != 4:
        raise (ValueError if sides else TypeError)(f"{region!r} is no region (x, y, width, height)")
    x, y, width, height = map(index, sides)
    for corner in (x, y):
        if not -(2**31) <= corner < 2**31:
            raise ValueError(f"coordinate {corner} is not from {-(2**31)} to {2**31 - 1}")
    return Region(x, y, u32(width, "side"), u32(height, "side"))


def op_of(op: SupportsIndex) -> int:
    """The number of an operator."""
    if issubclass(type(op), str):
        names = {each.name.replace("_", ""): each.name for each in Op}
        said = "".join(letter for letter in str(op).upper() if letter.isalnum())
        raise TypeError(f"{op!r} is a text: write pix.Op.{names.get(said, 'SRC_OVER')}")
    return u32(op, "operator")
