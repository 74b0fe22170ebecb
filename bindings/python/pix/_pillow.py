"""Pictures of Pillow: images are made from them strip by strip, and pictures are made over memory
that belongs to Pillow from then on."""

from __future__ import annotations

import sys
from array import array
from typing import Any, Callable, NamedTuple, Optional, Tuple

from pix._bitmap import Bitmap, write
from pix._colors import table_of
from pix._fresh import lit, looked_up, scaled, zeros
from pix._indexed import (
    diffuse_indexed,
    diffuse_indexed_rgba,
    map_indexed,
    map_indexed_rgba,
    quantize,
    quantize_rgba,
)
from pix._values import Format, Status

# How many bytes of a picture are read at once. The first fits in a core's own cache. The other, if
# Pillow copies them first, is a size of block that malloc keeps.
STRIP, COPIED = 384 << 10, 96 << 10

# The modes that are packed without a copy, and how. Pixels of four bytes become light the fastest,
# so gray is packed like that too.
_PACKED = {"RGBA": "RGBA", "RGB": "RGBX", "RGBX": "RGBX", "L": "L"}

# The modes that become images of gray directly.
_GRAY = {"L": Format.SGRAY8, "LA": Format.SGRAYA8}

# The last byte of a pixel of four.
_ALPHA = int.from_bytes(b"\0\0\0\xff", sys.byteorder)

# The modes that to_pillow() makes.
_MADE = {"RGBA": Format.SRGBA8, "RGB": Format.SRGBX8, "L": Format.SGRAY8, "LA": Format.SGRAYA8}

# Pixels whose alpha is below this are clear in a picture of indices.
CLEAR = 128


class Facts(NamedTuple):
    """The facts that a picture's pixels don't tell: which number is white in gray of many bits, and
    which level or color is clear."""

    white: Optional[float]
    clear: Any


def facts_of(picture: Any, white: Optional[float]) -> Facts:
    """These facts of a picture, before its pixels are loaded."""
    mode, clear = picture.mode, picture.info.get("transparency")
    # How a file packs its pixels. Pillow converts them to 8 bits, but not the number that the file
    # gives for a clear one.
    tiles = getattr(picture, "tile", None)
    kept = str(tiles[0][3]) if tiles else ""
    if mode == "L" and isinstance(clear, int):
        clear *= {"L;2": 85, "L;4": 17}.get(kept, 1)
    elif mode == "1" and isinstance(clear, int):
        clear = 255 if clear else 0
    elif mode == "RGB" and isinstance(clear, tuple) and (max(clear) > 255 or kept == "RGB;16B"):
        clear = tuple(level >> 8 for level in clear)
    if white is not None and not 0 < white < float("inf"):
        raise ValueError(f"white {white} is not above 0")
    if white is None and (
        mode.startswith("I;16") or mode == "I" and picture.format in ("PNG", "PPM")
    ):
        white = 65535
    if white is None and mode in ("I", "F"):
        raise ValueError(
            f"a picture of mode {mode} doesn't tell which number is white: write white=65535 for"
            " gray of 16 bits, white=255 for numbers of 8 bits, or white=1 for fractions"
        )
    return Facts(white, clear)


def image_of(picture: Any, facts: Facts, new: Callable[[int, int], Any]) -> Any:
    """An image, made by `new`, of a picture: strip by strip, so that no second copy of all of it is
    made."""
    width, height = picture.size
    picture.load()
    image = new(width, height)
    target, target_format = image.pixels, image._bitmap().format
    row = width * target_format.size
    core, is_gray = plain_core(picture, facts), image.type.channels == 2
    rows = max(1, (COPIED if core is None else STRIP) // (4 * width or 1))
    for top in range(0, height if width else 0, rows):
        end = min(height, top + rows)
        box = 0, top, width, end
        if core is None:
            data, format = read_strip(picture.crop(box), facts, is_gray)
        else:
            data, format = read_packed(core, box, is_gray)
        band = Bitmap(target[top * row : end * row], target_format, width, end - top)
        write(band, Bitmap(data, format, width, end - top))
    return image


def plain_core(picture: Any, facts: Facts) -> Any:
    """The core of a picture, if Pillow's own packer can pack its rows into bytes."""
    from PIL import Image as pillow

    core = picture.im
    # The core's own mode counts: a packer reads four bytes a pixel, even if there is only one.
    is_plain = core.mode == picture.mode and core.mode in _PACKED and facts.clear is None
    return core if is_plain and hasattr(pillow, "_getencoder") else None


def read_packed(core: Any, box: Tuple[int, int, int, int], is_gray: bool) -> Tuple[Any, Format]:
    """The pixels of some rows of a core for an image, of gray or of colors, and their format."""
    from PIL import Image as pillow

    mode = core.mode
    packer = pillow._getencoder(mode, "raw", _PACKED[mode])
    packer.setimage(core, box)
    size, parts, status = 4 * (box[2] - box[0]) * (box[3] - box[1]), [], 0
    while not status:
        _, status, part = packer.encode(max(size, 1 << 16))
        parts.append(part)
    if status < 0:
        raise OSError(f"Pillow packs no rows of mode {mode}: status {status}")
    data = parts[0] if len(parts) == 1 else b"".join(parts)
    if mode == "L":
        return (data, Format.SGRAY8) if is_gray else (colored(data), Format.SRGBA8)
    return data if mode == "RGBA" else opaque(data), Format.SRGBA8


def opaque(data: bytes) -> Any:
    """Pixels of four bytes with any last byte, now with an alpha of 255."""
    numpy = sys.modules.get("numpy")
    if numpy is not None:
        return (numpy.frombuffer(data, "u4") | numpy.uint32(_ALPHA)).view("u1")
    pixels = bytearray(data)
    pixels[3::4] = b"\xff" * (len(data) // 4)
    return pixels


def colored(data: bytes) -> Any:
    """Pixels of gray as opaque ones of four bytes."""
    numpy = sys.modules.get("numpy")
    if numpy is not None:
        pixels = numpy.frombuffer(data, "u1").astype("u4") * numpy.uint32(~_ALPHA & 0x1010101)
        return (pixels | numpy.uint32(_ALPHA)).view("u1")
    pixels = bytearray(b"\xff") * (4 * len(data))
    for channel in range(3):
        pixels[channel::4] = data
    return pixels


def read_strip(strip: Any, facts: Facts, is_gray: bool) -> Tuple[Any, Format]:
    """The pixels of a few rows for an image, of gray or of colors, and their format."""
    mode, clear = strip.mode, facts.clear
    if mode[:1] in "IF":
        return read_levels(strip, facts)
    if mode in ("1", "L") and isinstance(clear, int):
        from PIL import Image as pillow

        gray = strip.convert("L")
        alpha = gray.point([0 if level == clear else 255 for level in range(256)])
        strip = pillow.merge("LA", (gray, alpha))
    elif mode == "RGB" and clear is not None:
        strip.info["transparency"] = clear
    if is_gray and strip.mode in _GRAY:
        return strip.tobytes(), _GRAY[strip.mode]
    try:
        pixels = strip.convert("RGBA")
    except ValueError as fault:
        said = f"Pillow converts no mode {mode} to RGBA: convert the picture first"
        raise ValueError(said) from fault
    return pixels.tobytes(), Format.SRGBA8


def read_levels(strip: Any, facts: Facts) -> Tuple[Any, Format]:
    """The light of gray of more than 8 bits, and its format."""
    white, mode = facts.white or 65535, strip.mode
    if mode == "I" and white == 65535:
        strip, mode = strip.convert("I;16"), "I;16"
    order = "big" if mode == "I;16B" else sys.byteorder if mode == "I;16N" else "little"
    numbers = array({"I": "i", "F": "f"}.get(mode, "H"))
    numbers.frombytes(strip.tobytes())
    if mode.startswith("I;16") and order != sys.byteorder:
        numbers.byteswap()
    levels = numbers if numbers.typecode == "H" and white == 65535 else scaled(numbers, white)
    if not isinstance(facts.clear, int) or not 0 <= facts.clear <= 65535:
        return lit(levels), Format.GRAY16
    alphas = array("H", [65535]) * 65536
    alphas[facts.clear] = 0
    both = array("H", bytes(4 * len(levels)))
    both[::2] = array("H", bytes(lit(levels)))
    both[1::2] = array("H", bytes(looked_up(alphas, levels)))
    return both, Format.GRAYA16


def picture_of(
    image: Any, mode: str, table: Any = None, diffuse: bool = False, keep_alpha: bool = False
) -> Any:
    """A picture of Pillow of an image."""
    from PIL import Image as pillow

    if mode == "P":
        return (indexed_rgba if keep_alpha else indexed)(image, table, diffuse)
    if mode not in _MADE:
        raise ValueError(
            f"mode {mode!r} is none of {', '.join(_MADE)} and P: make RGB, and convert that by"
            " Pillow"
        )
    if table is not None or keep_alpha:
        raise ValueError(f"a picture of mode {mode} has no table: write to_pillow('P', ..)")
    size, format = (image.width, image.height), _MADE[mode]
    if not image.width or not image.height:
        return pillow.new(mode, size)
    data = pixels_of(image, format)
    if mode == "LA":
        return pillow.frombytes(mode, size, bytes(data))
    if mode == "RGB":
        return mapped_rgb(size, data)
    return pillow.frombuffer(mode, size, data, "raw", mode, 0, 1)


def pixels_of(image: Any, format: Format) -> Any:
    """The pixels of an image in a format, in new memory of bytes."""
    source = image._bitmap()
    source.refuse_unheld(Status.BAD_SOURCE)
    data = zeros(source.pixels * format.size)
    rows: Any = memoryview(data).cast("H") if format.bits == 16 else data
    write(Bitmap(rows, format, source.width, source.height), source)
    return data


def mapped_rgb(size: Tuple[int, int], data: Any) -> Any:
    """A picture RGB over memory of four bytes a pixel, as Pillow itself keeps them.

    Pillow's frombuffer() doesn't take this mode, so this calls Pillow as that function does. If a
    version of Pillow has other names, a copy is made.
    """
    from PIL import Image as pillow

    try:
        core = pillow.core.map_buffer(data, size, "raw", 0, ("RGB", 0, 1))
        picture = pillow.new("RGB", (1, 1))._new(core)
        if (picture.mode, picture.size) == ("RGB", size):
            picture.readonly = 1
            return picture
    except (AttributeError, TypeError, ValueError):
        pass
    return pillow.frombuffer("RGBX", size, data, "raw", "RGBX", 0, 1).convert("RGB")


def indexed(image: Any, table: Any, diffuse: bool) -> Any:
    """A picture of indices into a table of colors, which is made if none is given. One more entry
    is for clear pixels."""
    from PIL import Image as pillow

    entries = b"" if table is None else table_of(table)
    size, pixels = (image.width, image.height), pixels_of(image, Format.SRGBA8)
    alphas = bytes(memoryview(pixels)[3::4])
    has_clear = any(alphas.count(alpha) for alpha in range(CLEAR))
    if table is None:
        entries = bytes(quantize(pixels, 255 if has_clear else 256, Format.SRGBA8, CLEAR))
    clear = len(entries) // 3
    if has_clear and clear == 256:
        raise ValueError(
            "a table of 256 colors has no room for clear pixels, which this image has: pass 255 at"
            " most"
        )
    how = {"format": Format.SRGBA8, "alpha": CLEAR, "transparent_index": clear if has_clear else 0}
    if not image.width or not image.height:
        return pillow.new("P", size)
    known = entries or bytes(3)
    indices = (
        diffuse_indexed(known, pixels, image.width, **how)
        if diffuse
        else map_indexed(known, pixels, **how)
    )
    picture = pillow.frombuffer("P", size, indices, "raw", "P", 0, 1)
    picture.putpalette(entries + bytes(3) if has_clear else entries)
    if has_clear:
        picture.info["transparency"] = clear
    return picture


def indexed_rgba(image: Any, table: Any, diffuse: bool) -> Any:
    """A picture of indices into a table of colors with an alpha, which is made if none is given.
    Then the colors that are not opaque come first, since a PNG stores alphas up to the last of
    them."""
    from PIL import Image as pillow

    entries = b"" if table is None else table_of(table, 4)
    size, pixels = (image.width, image.height), pixels_of(image, Format.SRGBA8)
    if not image.width or not image.height:
        return pillow.new("P", size)
    if table is None:
        made = quantize_rgba(pixels)
        each = [bytes(made[i : i + 4]) for i in range(0, len(made), 4)]
        entries = b"".join(sorted(each, key=lambda entry: entry[3] == 255))
    indices = (
        diffuse_indexed_rgba(entries, pixels, image.width)
        if diffuse
        else map_indexed_rgba(entries, pixels)
    )
    picture = pillow.frombuffer("P", size, indices, "raw", "P", 0, 1)
    picture.putpalette(bytes(n for i, n in enumerate(entries) if i % 4 < 3))
    alphas = entries[3::4].rstrip(b"\xff")
    if alphas:
        picture.info["transparency"] = alphas
    return picture
