"""PNG files of 16 bits. They are read through Pillow in two passes, since it keeps only the upper
byte of each sample; and they are written here."""

from __future__ import annotations

import sys
from array import array
from typing import Any, Callable, Optional

from pix._bitmap import Bitmap, write
from pix._fresh import levels_of, lit
from pix._pillow import STRIP
from pix._png import png_of_rows
from pix._values import Format

# The modes in which Pillow reads the upper bytes of samples, and the lower ones in their place; and
# the format of the light.
_LOWER = {"RGB;16B": "RGB;16L", "RGBA;16B": "RGBA;16L"}
_FORMATS = {"RGB": Format.RGB16, "RGBA": Format.RGBA16}


def kept_as(picture: Any) -> str:
    """Pillow's name for the packing of a PNG's pixels; empty for other files."""
    tiles = getattr(picture, "tile", None)
    return str(tiles[0][3]) if tiles and picture.format == "PNG" else ""


def lower_of(picture: Any, again: Callable[[], Any]) -> Optional[Any]:
    """A picture of the lower bytes of a picture of 16 bits, which is opened again."""
    lower = _LOWER.get(kept_as(picture))
    if lower is None or picture.info.get("transparency") is not None:
        return None
    other = again()
    other.tile = [(*tile[:3], lower) for tile in other.tile]
    other.load()
    return other


def image_of_both(upper: Any, lower: Any, new: Callable[[int, int], Any]) -> Any:
    """An image, made by `new`, of the upper and the lower bytes of colors."""
    (width, height), samples = upper.size, len(upper.mode)
    image = new(width, height)
    target = image._bitmap()
    row, rows = width * target.format.size, max(1, STRIP // (8 * width or 1))
    for top in range(0, height, rows):
        end = min(height, top + rows)
        box = 0, top, width, end
        both = bytearray(2 * samples * width * (end - top))
        first = int(sys.byteorder == "little")
        both[first::2], both[1 - first :: 2] = upper.crop(box).tobytes(), lower.crop(box).tobytes()
        levels = array("H", bytes(both))
        light = lit(levels)
        if samples == 4:
            light = array("H", bytes(light))
            light[3::4] = levels[3::4]
        band = Bitmap(image.pixels[top * row : end * row], target.format, width, end - top)
        write(band, Bitmap(light, _FORMATS[upper.mode], width, end - top))
    return image


def deep_png(width: int, height: int, data: Any, samples: int) -> bytes:
    """The bytes of a PNG of 16 bits, from words of light with a straight alpha. If all pixels are
    opaque, it has no alpha."""
    light = array("H", bytes(data))
    alphas = light[samples - 1 :: samples]
    levels = array("H", bytes(levels_of(light)))
    levels[samples - 1 :: samples] = alphas
    if alphas.count(65535) == len(alphas):
        kept = array("H", bytes(2 * (samples - 1) * len(alphas)))
        for i in range(samples - 1):
            kept[i :: samples - 1] = levels[i::samples]
        levels, samples = kept, samples - 1
    if sys.byteorder == "little":
        levels.byteswap()
    return png_of_rows(width, height, 16, samples, levels.tobytes())
