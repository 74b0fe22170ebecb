"""The functions that make commands."""

from __future__ import annotations

from typing import Any, Iterable, List, Optional, SupportsIndex

from pix._colors import AnyColor, fraction_of
from pix._command import Command
from pix._image import Image
from pix._memory import instead_of, is_a
from pix._numbers import index
from pix._values import Op, region_of
from pix._views import Matte, View

_Region = Iterable[SupportsIndex]
_Color = AnyColor


def _source(source: Any, wanted: Any) -> Any:
    """The source, if it is of the wanted class."""
    if not is_a(source, wanted):
        if is_a(source, View):
            raise TypeError(f"{type(source).__name__} is not {'an Image' if wanted is Image else 'a Matte'}")
        raise TypeError(instead_of(source, wanted is Matte))
    return source


def clear() -> Command:
    """Makes all pixels of the image transparent: all channels 0.

    >>> image = pix.Image(bytearray([255] * 8), 2, 1)
    >>> image.run(pix.clear())
    >>> image.pixels.hex()
    '0000000000000000'
    """
    return Command(0)


def copy_color(to: _Region, color: _Color) -> Command:
    """Replaces the pixels of the region `to` by a color: one of pix.srgb(), or a tuple of as many
    channels as the image's pixels have, premultiplied and linear.

    A region is (x, y, width, height) in pixels. A channel is from 0 to 255, or to 65535 in RGBA16.
    An ambiguous tuple raises an error when the command runs: one on RGBA16 with no channel above
    255, and one with a channel above its alpha.

    >>> image = pix.Image.new(2, 1, pix.RGBA16)
    >>> image.run(pix.copy_color((0, 0, 1, 1), pix.srgb("#c87828")))
    >>> image.run(pix.copy_color((1, 0, 1, 1), (37852, 12309, 1391, 65535)))  # the same
    """
    return Command(1, to, color)


def copy_image(to: _Region, source: Image, from_: Optional[_Region] = None) -> Command:
    """Replaces the pixels of `to` by those of the region `from_` of another image; None is all of
    it.

    The corners are paired: a point of `to` gets the pixel of `from_` at the same distance from the
    upper left corner.

    >>> sheet, image = pix.Image.new(8, 8), pix.Image.new(4, 4)
    >>> sheet.run(pix.copy_color((5, 5, 2, 2), pix.srgb("tomato")))
    >>> image.run(pix.copy_image((1, 1, 2, 2), sheet, (5, 5, 2, 2)))
    >>> image[1, 1].srgb, image[0, 0].srgb
    (pix.srgb("#ff6347"), pix.srgb("#00000000"))
    """
    return Command(2, to, source=_source(source, Image), from_=from_)


def composite_color(to: _Region, color: _Color, op: Op = Op.SRC_OVER) -> Command:
    """Composites a color with the pixels of `to`, by an operator, which is pix.Op.SRC_OVER by
    default.

    >>> image = pix.Image.new(1, 1)
    >>> image.run(pix.copy_color((0, 0, 1, 1), pix.srgb("white")))
    >>> image.run(pix.composite_color((0, 0, 1, 1), pix.srgb("#c87828", opacity=0.5)))
    >>> image[0, 0].srgb
    pix.srgb("#e6cabd")
    """
    return Command(3, to, color, op)


def composite_image(to: _Region, source: Image, from_: Optional[_Region] = None, op: Op = Op.SRC_OVER) -> Command:
    """Composites the pixels of `from_` in another image with those of `to`: a sprite.

    >>> sprite, image = pix.Image.new(2, 1), pix.Image.new(4, 1)
    >>> sprite.run(pix.copy_color((1, 0, 1, 1), pix.srgb("tomato")))
    >>> image.run(pix.copy_color((0, 0, 4, 1), pix.srgb("navy")))
    >>> image.run(pix.composite_image((1, 0, 2, 1), sprite))
    >>> [image[x, 0].srgb for x in range(1, 4)]
    [pix.srgb("#000080"), pix.srgb("#ff6347"), pix.srgb("#000080")]
    """
    return Command(4, to, op=op, source=_source(source, Image), from_=from_)


def composite_matte(
    to: _Region, matte: Matte, color: _Color, from_: Optional[_Region] = None, op: Op = Op.SRC_OVER
) -> Command:
    """Composites a color, multiplied by the values of `from_` in a matte, with the pixels of
    `to`: a glyph.

    >>> glyph = pix.Matte(bytes([0, 128, 255]), 3, 1)
    >>> image = pix.Image.new(3, 1, pix.RGBA8)
    >>> image.run(pix.composite_matte((0, 0, 3, 1), glyph, (200, 100, 0, 255)))
    >>> image.pixels.hex(" ", 4)
    '00000000 64320080 c86400ff'
    """
    return Command(5, to, color, op, _source(matte, Matte), from_)


def composite_image_matte(
    to: _Region, source: Image, mask: Matte, from_: Optional[_Region] = None, mask_from: Optional[_Region] = None,
    op: Op = Op.SRC_OVER,
) -> Command:  # fmt: skip
    """Composites the pixels of `from_` in another image, multiplied by the values of `mask_from`
    in a matte, with those of `to`: soft edges.

    All three corners are paired. A point is changed if it is inside all three regions, and inside
    image, source and mask.

    >>> edge = pix.Matte(bytes([0, 102, 255]), 3, 1)
    >>> photo, image = pix.Image.new(3, 1, pix.RGBA8), pix.Image.new(3, 1, pix.RGBA8)
    >>> photo.run(pix.copy_color((0, 0, 3, 1), (200, 100, 0, 255)))
    >>> image.run(pix.composite_image_matte((0, 0, 3, 1), photo, edge))
    >>> image.pixels.hex(" ", 4)
    '00000000 50280066 c86400ff'
    """
    return Command(6, to, None, op, _source(source, Image), from_, _source(mask, Matte), mask_from)


def composite_image_alpha(
    to: _Region, source: Image, alpha: Optional[SupportsIndex] = None,
    from_: Optional[_Region] = None, op: Op = Op.SRC_OVER, *,
    opacity: Optional[float] = None, alpha8: Optional[SupportsIndex] = None,
) -> Command:  # fmt: skip
    """Composites the pixels of `from_` in another image, multiplied by an opacity, with those of
    `to`: a fade.

    Give the opacity by one of three names. `opacity` is a fraction from 0 to 1, and `alpha8` a byte
    from 0 to 255, for images of all kinds. `alpha` is a channel of the image: from 0 to 255, or to
    65535 in RGBA16. At full opacity this is composite_image.

    >>> pix.composite_image_alpha((0, 0, 9, 9), pix.Image.new(9, 9, pix.RGBA16), opacity=0.5).alpha
    32768
    """
    _source(source, Image)
    given = [name for name in (alpha, opacity, alpha8) if name is not None]
    if len(given) != 1:
        names = "opacity=0.5, a fraction, or alpha8=128, a byte, or alpha, a channel of the image"
        raise TypeError(f"give one opacity: {names}")
    if isinstance(alpha, float):
        raise TypeError(f"alpha {alpha} is no whole number: write opacity={alpha} for a fraction")
    if opacity is not None:
        if opacity > 1:
            raise ValueError(f"opacity {opacity} is above 1: write alpha8={opacity} for a byte")
        alpha = round(fraction_of(opacity) * source.type.max)
    elif alpha8 is not None:
        if not 0 <= index(alpha8) <= 255:
            raise ValueError(f"alpha8 {alpha8} is not from 0 to 255")
        alpha = index(alpha8) * (source.type.max // 255)
    return Command(7, to, op=op, source=source, from_=from_, alpha=alpha)


def repeat_image(to: _Region, source: Image, from_: Optional[_Region] = None, op: Op = Op.SRC_OVER) -> List[Command]:
    """A pattern: the commands that composite copies of `from_` in another image over all of `to`.
    They are side by side from its upper left corner on, row by row, and cut at its other sides.
    image.run(*repeat_image(..)) paints it.

    A copy that begins past 2147483647 can't be in any image, and is left out.

    >>> tile, image = pix.Image.new(2, 2), pix.Image.new(5, 4)
    >>> len(pix.repeat_image((0, 0, 5, 4), tile))
    6
    >>> image.run(*pix.repeat_image((0, 0, 5, 4), tile))
    """
    x, y, width, height = region_of(to)
    _source(source, Image)
    left, top, wide, high = (0, 0, source.width, source.height) if from_ is None else region_of(from_)
    if not (wide and high and width and height):
        return []
    return [
        composite_image(
            (x + column, y + row, min(wide, width - column), min(high, height - row)), source, (left, top, wide, high), op
        )
        for row in range(0, min(height, 2**31 - y), high)
        for column in range(0, min(width, 2**31 - x), wide)
    ]
