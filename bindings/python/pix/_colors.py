"""Colors: of one kind of pixels, of sRGB, and the ambiguous ones."""

from __future__ import annotations

import ctypes
from array import array
from functools import lru_cache
from typing import Any, Iterable, Optional, SupportsIndex, Tuple, Union

from pix._bitmap import Bitmap, write
from pix._names import NAMES
from pix._numbers import index
from pix._pixels import RGBA16, PixelType, kind_of
from pix._values import Format


class Color(tuple):
    """A color of one kind of pixels: its channels, premultiplied and linear, the alpha last.

    It goes only with images of its `type`, so that no channels of 8 bits are taken for ones of 16.
    A command takes it as it is. A plain tuple that may be of another kind raises an error.

    >>> pix.Color((0, 0, 64, 255), pix.RGBA8)
    pix.Color((0, 0, 64, 255), pix.RGBA8)
    """

    _type: PixelType

    def __new__(cls, channels: Iterable[SupportsIndex], type: PixelType) -> Color:
        """Makes a color of as many channels as the pixels have, each from 0 to 255 or 65535."""
        kind = kind_of(type)
        color = super().__new__(cls, map(index, channels))
        refuse_another(color, kind)
        color._type = kind
        return color

    @property
    def type(self) -> PixelType:
        """The kind of pixels that it goes with."""
        return self._type

    @property
    def srgb(self) -> Srgb:
        """The nearest color of sRGB.

        >>> pix.srgb("#c87828").of(pix.RGBA16).srgb
        pix.srgb("#c87828")
        """
        made, wide = bytearray(4), "H" if self._type.max > 255 else "B"
        source = Bitmap(array(wide, self), Format[f"{self._type}P"], 1, 1)
        write(Bitmap(made, Format.SRGBA8, 1, 1), source)
        return Srgb(*made)

    def __repr__(self) -> str:
        return f"pix.Color({tuple(self)}, pix.{self._type})"

    def __reduce__(self) -> tuple:
        return Color, (tuple(self), self._type)


class Srgb:
    """A color of sRGB with a straight alpha, as pix.srgb() makes it; it goes with images of all
    kinds.

    `red`, `green`, `blue` and `alpha` are from 0 to 255.
    """

    __slots__ = ("_bytes",)

    def __init__(
        self,
        red: SupportsIndex,
        green: SupportsIndex,
        blue: SupportsIndex,
        alpha: SupportsIndex = 255,
    ) -> None:
        channels = tuple(map(index, (red, green, blue, alpha)))
        if not all(0 <= channel <= 255 for channel in channels):
            raise ValueError(f"{channels} are not four channels from 0 to 255")
        self._bytes = bytes(channels)

    @property
    def red(self) -> int:
        """The level of red."""
        return self._bytes[0]

    @property
    def green(self) -> int:
        """The level of green."""
        return self._bytes[1]

    @property
    def blue(self) -> int:
        """The level of blue."""
        return self._bytes[2]

    @property
    def alpha(self) -> int:
        """The alpha; the others are not multiplied by it."""
        return self._bytes[3]

    def of(self, type: PixelType) -> Color:
        """Its light, as a color of a kind of pixels."""
        return _light(Format.SRGBA8, tuple(self._bytes), kind_of(type))

    def __eq__(self, other: object) -> bool:
        return self._bytes == other._bytes if isinstance(other, Srgb) else NotImplemented

    def __hash__(self) -> int:
        return hash(self._bytes)

    def __repr__(self) -> str:
        shown = self._bytes if self.alpha < 255 else self._bytes[:3]
        return f'pix.srgb("#{shown.hex()}")'

    def __reduce__(self) -> tuple:
        return Srgb, tuple(self._bytes)


# The types that a command takes as a color.
AnyColor = Union[Iterable[SupportsIndex], Color, Srgb]


def srgb(
    *color: Any, alpha: Optional[SupportsIndex] = None, opacity: Optional[float] = None
) -> Srgb:
    """A color of sRGB to paint with, on images of all kinds. Pass a text such as "#c87828",
    "#c8782880", "#fa0" or "#fa08", a CSS name such as "tomato", three or four numbers from 0 to
    255, or a tuple of them.

    The alpha is straight: the colors aren't multiplied by it. It is the fourth number, or `alpha`,
    from 0 to 255, or `opacity`, from 0 to 1. Without an alpha the color is opaque.

    >>> pix.srgb("#c87828") == pix.srgb(200, 120, 40) == pix.srgb((200, 120, 40, 255))
    True
    >>> image = pix.Image.new(2, 2, pix.RGBA16)
    >>> image.run(pix.copy_color((0, 0, 1, 1), pix.srgb("#c87828")))
    >>> pix.srgb("#c87828", opacity=0.5)
    pix.srgb("#c8782880")
    """
    if len(color) == 1:
        channels = _of_text(color[0]) if isinstance(color[0], str) else tuple(color[0])
    else:
        channels = color
    if len(channels) not in (3, 4):
        raise ValueError(
            f'{channels} are no color of sRGB: write srgb(200, 120, 40) or srgb("#c87828")'
        )
    if opacity is not None:
        if alpha is not None:
            raise TypeError("alpha and opacity are two names of one thing: give one")
        alpha = round(fraction_of(opacity) * 255)
    if alpha is not None:
        if len(channels) == 4:
            raise TypeError("the color has an alpha already")
        channels = (*channels, alpha)
    if any(isinstance(channel, float) for channel in channels):
        raise TypeError(
            f"{channels} has fractions: a channel is a whole number from 0 to 255, and opacity=0.5"
            " a fraction"
        )
    return Srgb(*channels)


def _of_text(text: str) -> Tuple[int, ...]:
    """The channels of a text such as "#c87828" or "tomato"."""
    name = text.replace(" ", "").lower()
    digits = NAMES.get(name, text[1:])
    try:
        if (text[:1] != "#" and name not in NAMES) or len(digits) not in (3, 4, 6, 8) or not digits.isalnum():
            raise ValueError
        return tuple(
            bytes.fromhex("".join(2 * digit for digit in digits) if len(digits) < 5 else digits)
        )
    except ValueError:
        raise ValueError(
            f'{text!r} is no color of sRGB: write one as "#c87828", "#c8782880" with an alpha, or a'
            ' name of CSS, as "tomato"'
        ) from None


def fraction_of(opacity: Any) -> float:
    """The fraction, if it is one from 0 to 1."""
    if not 0 <= opacity <= 1:
        raise ValueError(f"opacity {opacity} is not from 0 to 1")
    return float(opacity)


def color_of(format: Format, pixel: Iterable[SupportsIndex], type: PixelType = RGBA16) -> Color:
    """The pixel with these numbers in a format, as a color to paint with.

    >>> pix.color_of(pix.SRGBA8, (200, 120, 40, 255))  # the light of a color of sRGB
    pix.Color((37852, 12309, 1391, 65535), pix.RGBA16)
    """
    format, given = Format(format), tuple(map(index, pixel))
    if len(given) != format.samples or not all(0 <= number < 1 << format.bits for number in given):
        raise ValueError(f"{given} are not {format.samples} numbers of {format.bits} bits")
    return _light(format, given, kind_of(type))


@lru_cache(maxsize=1024)
def _light(format: Format, given: Tuple[int, ...], type: PixelType) -> Color:
    """A pixel in a format as a color of a kind of pixels."""
    source = Bitmap(array("H" if format.bits == 16 else "B", given), format, 1, 1)
    made = bytearray(ctypes.sizeof(type._color))
    write(
        Bitmap(memoryview(made).cast("H") if type.max > 255 else made, Format[f"{type}P"], 1, 1),
        source,
    )
    return Color(memoryview(made).cast("H" if type.max > 255 else "B"), type)


def taken(color: Any) -> Any:
    """The part of a color that a command keeps: only numbers, so that no user code runs later."""
    if color is None or type(color) in (Color, Srgb):
        return color
    if isinstance(color, str):
        raise TypeError(f"{color!r} is a text: write pix.srgb({color!r})")
    channels = tuple(color)
    try:
        return tuple(map(index, channels))
    except TypeError:
        if not any(isinstance(channel, float) for channel in channels):
            raise
    raise TypeError(f"{channels} has fractions: write whole numbers, as pix.srgb(200, 120, 40)")


def refuse_another(color: Tuple[int, ...], kind: PixelType) -> None:
    """Raises an error if the numbers aren't channels of a kind of pixels."""
    most = kind.max
    if len(color) != kind.channels or min(color) < 0 or max(color) > most:
        what = f"{kind.channels} channels from 0 to {most}"
        raise ValueError(
            f"{tuple(color)} is not a color of {kind}, which has {what}: "
            "pix.srgb(200, 120, 40) goes with all images"
        )


def fitted(color: Any, kind: PixelType) -> Tuple[int, ...]:
    """The channels of a color that a command keeps, for an image of this kind of pixels.

    Raises an error for an ambiguous tuple.
    """
    if type(color) is Srgb:
        return color.of(kind)
    if type(color) is not Color:
        refuse_another(color, kind)
        refuse_mistaken(color, kind)
    elif color.type is not kind:
        raise TypeError(f"a color of {color.type} doesn't go with {kind}")
    return color


def refuse_mistaken(color: Tuple[int, ...], kind: PixelType) -> None:
    """Raises an error if plain numbers on an image of 16 bits may be of 8 bits, or if they aren't
    multiplied by their alpha."""
    most, alpha = max(color), color[-1]
    if kind.max > 255 and 0 < most <= 255:
        why = f"may be of 8 bits, and is hardly seen where channels go to {kind.max}"
    elif most > alpha > 0:
        why = "has a channel above its alpha, so that it isn't multiplied by it"
    else:
        return
    if most <= 255:
        straight = color if len(color) == 4 else (*color[:1] * 3, alpha)
        instead = f"pix.srgb{straight} for a color of sRGB"
    else:
        instead = f"pix.color_of(pix.Format.RGBA16, {color}) for one with a straight alpha"
    meant = f"pix.Color({color}, pix.{kind}) where just this is meant"
    raise ValueError(f"{color} {why}: write {instead}, or {meant}")


def table_of(table: Any, size: int = 3) -> bytes:
    """The bytes of a table of at most 256 colors. It is given as a buffer with three bytes each, or
    four with an alpha, or as texts and tuples as srgb() takes them."""
    try:
        entries = memoryview(table).tobytes()
    except TypeError:
        colors = [color if type(color) is Srgb else srgb(color) for color in table]
        entries = b"".join(color._bytes[:size] for color in colors)
    if not entries or len(entries) % size or len(entries) > 256 * size:
        word = {3: "three", 4: "four"}[size]
        raise ValueError(f"{len(entries)} bytes are no table of 1 to 256 colors of {word} bytes")
    return entries
