#!/usr/bin/env python3
"""Makes picture files that programs stumble over, and tells what each of them shows.

    odd_files.py FOLDER

writes them into the folder, and prints a line for each: its name, its size or "no picture", and
what is odd. PNG and PPM files are written by this script itself, from pixels that it knows; JPEG,
GIF, WebP and TIFF need Pillow, and are left out without it.

A test calls make(folder), which answers an OddFile for each, and compares what a program shows
with `rgba`, where that is known, or with pillow_picture(path), which is what Pillow makes of the
file.
"""

import pathlib
import struct
import sys
import zlib
from typing import Callable, Iterator, List, NamedTuple, Optional, Sequence, Tuple

try:
    from PIL import Image, ImageOps
except ImportError:
    Image = None

# A pixel of 16 bits a channel: red, green, blue and alpha, straight, as the file has them.
Pixel = Tuple[int, int, int, int]
MOST = 65535


class OddFile(NamedTuple):
    """A file: where it is, what is odd, and what it shows.

    `size` is the width and the height of its picture, turned as it is to be shown, and None where
    it has none and is to be refused. `rgba` is the picture in bytes of red, green, blue and
    straight alpha, in sRGB, where it is known without a decoder; a pixel of 16 bits is rounded, so
    that a reader that keeps the upper byte of each differs by 1.
    """

    path: pathlib.Path
    what: str
    size: Optional[Tuple[int, int]] = None
    rgba: Optional[bytes] = None


# What a PNG's kinds of color have in a pixel.
GRAY, COLOR, PALETTE, GRAY_ALPHA, COLOR_ALPHA = 0, 2, 3, 4, 6
SAMPLES = {GRAY: 1, COLOR: 3, PALETTE: 1, GRAY_ALPHA: 2, COLOR_ALPHA: 4}
# The passes of an interlaced PNG: the first column and row, and the steps.
PASSES = (
    (0, 0, 8, 8),
    (4, 0, 8, 8),
    (0, 4, 4, 8),
    (2, 0, 4, 4),
    (0, 2, 2, 4),
    (1, 0, 2, 2),
    (0, 1, 1, 2),
)


def chunk(kind: bytes, data: bytes) -> bytes:
    """A chunk of a PNG."""
    return struct.pack(">I", len(data)) + kind + data + struct.pack(">I", zlib.crc32(kind + data))


def packed(samples: Sequence[int], bits: int) -> bytes:
    """Samples of a row as bytes, the most significant bits first."""
    if bits == 16:
        return struct.pack(f">{len(samples)}H", *samples)
    if bits == 8:
        return bytes(samples)
    word = 0
    for sample in samples:
        word = word << bits | sample
    spare = -len(samples) * bits % 8
    return (word << spare).to_bytes((len(samples) * bits + 7) // 8, "big")


def predicted(kind: int, left: int, up: int, corner: int) -> int:
    """What a filter of a PNG expects of a byte, by those beside it."""
    if kind == 4:
        aims = [abs(up - corner), abs(left - corner), abs(left + up - 2 * corner)]
        return (left, up, corner)[aims.index(min(aims))]
    return (0, left, up, (left + up) // 2)[kind]


def filtered(rows: Sequence[bytes], step: int) -> bytes:
    """Rows of bytes by the five filters of a PNG in turn; a pixel has `step` bytes."""
    out, above = bytearray(), bytes(len(rows[0]) if rows else 0)
    for y, row in enumerate(rows):
        kind = y % 5
        out.append(kind)
        for x, byte in enumerate(row):
            left, corner = (row[x - step], above[x - step]) if x >= step else (0, 0)
            out.append((byte - predicted(kind, left, above[x], corner)) & 255)
        above = row
    return bytes(out)


def png(
    size: Tuple[int, int],
    color: int,
    bits: int,
    samples_at: Callable[[int, int], Sequence[int]],
    more: bytes = b"",
    interlaced: bool = False,
) -> bytes:
    """The bytes of a PNG whose samples a function tells; `more` are chunks before its pixels."""
    width, height = size
    data, step = b"", max(1, SAMPLES[color] * bits // 8)
    for left, top, right, down in PASSES if interlaced else [(0, 0, 1, 1)]:
        columns, lines = range(left, width, right), range(top, height, down)
        rows = (
            [packed([s for x in columns for s in samples_at(x, y)], bits) for y in lines]
            if columns
            else []
        )
        data += filtered(rows, step)
    head = struct.pack(">IIBBBBB", width, height, bits, color, 0, 0, int(interlaced))
    parts = [chunk(b"IHDR", head), more, chunk(b"IDAT", zlib.compress(data)), chunk(b"IEND", b"")]
    return b"\x89PNG\r\n\x1a\n" + b"".join(parts)


def pixel_at(x: int, y: int, width: int, height: int) -> Pixel:
    """The pixel of the usual odd picture: gradients across, down and along, with all alphas."""
    red, green = x * MOST // max(1, width - 1), y * MOST // max(1, height - 1)
    return red, green, (x * 37 + y * 91) * 257 % (MOST + 1), (x * 7919 + y * 15013) % (MOST + 1)


def rounded(sample: int, most: int) -> int:
    """A sample of 0 to `most` as a byte."""
    return (sample * 255 + most // 2) // most


class Kind(NamedTuple):
    """A kind of PNG, and how a pixel is written in it."""

    name: str
    what: str
    color: int
    bits: int
    interlaced: bool = False
    clear: Optional[Tuple[int, ...]] = None  # the samples of the pixels that its tRNS makes clear


KINDS = [
    Kind("gray1.png", "gray of 1 bit", GRAY, 1),
    Kind("gray2.png", "gray of 2 bits", GRAY, 2),
    Kind("gray4.png", "gray of 4 bits", GRAY, 4),
    Kind("gray8.png", "gray of 8 bits", GRAY, 8),
    Kind("gray16.png", "gray of 16 bits", GRAY, 16),
    Kind("gray-alpha8.png", "gray and alpha of 8 bits", GRAY_ALPHA, 8),
    Kind("gray-alpha16.png", "gray and alpha of 16 bits", GRAY_ALPHA, 16),
    Kind("color8.png", "color of 8 bits", COLOR, 8),
    Kind("color16.png", "color of 16 bits", COLOR, 16),
    Kind("color-alpha8.png", "color and alpha of 8 bits", COLOR_ALPHA, 8),
    Kind("color-alpha16.png", "color and alpha of 16 bits", COLOR_ALPHA, 16),
    Kind("interlaced-gray1.png", "gray of 1 bit, interlaced", GRAY, 1, True),
    Kind("interlaced-gray16.png", "gray of 16 bits, interlaced", GRAY, 16, True),
    Kind("interlaced-color8.png", "color of 8 bits, interlaced", COLOR, 8, True),
    Kind(
        "interlaced-color-alpha16.png",
        "color and alpha of 16 bits, interlaced",
        COLOR_ALPHA,
        16,
        True,
    ),
    Kind("clear-gray8.png", "gray of 8 bits, one of which is clear", GRAY, 8, False, (113,)),
    Kind("clear-gray2.png", "gray of 2 bits, one of which is clear", GRAY, 2, False, (1,)),
    Kind("clear-gray16.png", "gray of 16 bits, one of which is clear", GRAY, 16, False, (29126,)),
    Kind(
        "clear-color8.png",
        "color of 8 bits, one of which is clear",
        COLOR,
        8,
        False,
        (113, 170, 4),
    ),
    Kind(
        "clear-color16.png",
        "color of 16 bits, one of which is clear",
        COLOR,
        16,
        False,
        (29126, 43690, 1024),
    ),
]


def samples_of(kind: Kind, pixel: Pixel) -> List[int]:
    """The samples of a pixel in a PNG of a kind."""
    red, green, blue, alpha = pixel
    by_color = {
        GRAY: [red],
        COLOR: [red, green, blue],
        GRAY_ALPHA: [red, alpha],
        COLOR_ALPHA: [*pixel],
    }
    return [sample >> 16 - kind.bits for sample in by_color[kind.color]]


def shown(kind: Kind, samples: Sequence[int]) -> bytes:
    """What the samples of a pixel show, as bytes of red, green, blue and alpha."""
    most = (1 << kind.bits) - 1
    levels = [rounded(sample, most) for sample in samples]
    alpha = levels.pop() if kind.color in (GRAY_ALPHA, COLOR_ALPHA) else 255
    colors = levels * 3 if len(levels) == 1 else levels
    return bytes((*colors, 0 if kind.clear == tuple(samples) else alpha))


def make_kinds(folder: pathlib.Path) -> Iterator[OddFile]:
    """A PNG of each kind."""
    width, height = size = 19, 13
    for kind in KINDS:

        def at(x: int, y: int, kind: Kind = kind) -> List[int]:
            return samples_of(kind, pixel_at(x, y, width, height))

        more = (
            b""
            if kind.clear is None
            else chunk(b"tRNS", struct.pack(f">{len(kind.clear)}H", *kind.clear))
        )
        path = folder / kind.name
        path.write_bytes(png(size, kind.color, kind.bits, at, more, kind.interlaced))
        rgba = b"".join(shown(kind, at(x, y)) for y in range(height) for x in range(width))
        yield OddFile(path, kind.what, size, rgba)


def make_palettes(folder: pathlib.Path) -> Iterator[OddFile]:
    """PNGs of indices into a palette, some of whose colors are clear or half clear."""
    width, height = size = 21, 10
    for bits in (1, 2, 4, 8):
        count = min(1 << bits, 210)
        colors = [bytes((i * 67 % 256, i * 131 % 256, 255 - i * 29 % 256)) for i in range(count)]
        alphas = bytes((0, 128, 255, 77)[i % 4] for i in range(count))[: max(1, count - 3)]
        for interlaced in (False, True) if bits == 4 else (False,):

            def at(x: int, y: int) -> List[int]:
                return [(x + width * y) % count]

            more = chunk(b"PLTE", b"".join(colors)) + chunk(b"tRNS", alphas)
            path = folder / f"{'interlaced-' if interlaced else ''}palette{bits}.png"
            path.write_bytes(png(size, PALETTE, bits, at, more, interlaced))
            entries = [color + (alphas[i : i + 1] or b"\xff") for i, color in enumerate(colors)]
            rgba = b"".join(entries[at(x, y)[0]] for y in range(height) for x in range(width))
            yield OddFile(
                path,
                f"a palette of {bits} bits with alphas{', interlaced' * interlaced}",
                size,
                rgba,
            )


def make_sizes(folder: pathlib.Path) -> Iterator[OddFile]:
    """PNGs of odd sizes, and the ramp of 16 bits whose rows are known: row y is y * 65535 /
    399."""
    colors = [(i * 7 & 255, i * 31 & 255, i * 101 & 255) for i in range(509)]

    def at(x: int, y: int) -> Tuple[int, ...]:
        return colors[(3 * x + 5 * y) % len(colors)]

    for name, width, height in (("wide.png", 20000, 2), ("tall.png", 2, 20000), ("one.png", 1, 1)):
        path = folder / name
        path.write_bytes(png((width, height), COLOR, 8, at))
        rgba = b"".join(bytes(at(x, y)) + b"\xff" for y in range(height) for x in range(width))
        yield OddFile(path, f"{width} by {height}", (width, height), rgba)
    ramp = Kind("ramp16.png", "a ramp of gray from black, of 16 bits", GRAY, 16)
    path = folder / ramp.name
    path.write_bytes(png((5, 400), GRAY, 16, lambda x, y: [y * MOST // 399]))
    yield OddFile(
        path, ramp.what, (5, 400), b"".join(shown(ramp, [y * MOST // 399]) * 5 for y in range(400))
    )


def make_plain(folder: pathlib.Path) -> Iterator[OddFile]:
    """Portable pixmaps: of bytes, of 16 bits, of another white than 255, and in gray."""
    for name, what, kind, most in (
        ("color.ppm", "a portable pixmap", b"P6", 255),
        ("color16.ppm", "a portable pixmap of 16 bits", b"P6", MOST),
        ("color100.ppm", "a portable pixmap whose white is 100", b"P6", 100),
        ("gray.pgm", "a portable graymap", b"P5", 255),
        ("gray16.pgm", "a portable graymap of 16 bits", b"P5", MOST),
    ):
        data, rgba = bytearray(), bytearray()
        for y in range(8):
            for x in range(11):
                levels = [
                    level * most // MOST
                    for level in pixel_at(x, y, 11, 8)[: 3 if kind == b"P6" else 1]
                ]
                data += b"".join(level.to_bytes(2 if most > 255 else 1, "big") for level in levels)
                rgba += bytes(rounded(level, most) for level in (levels * 3)[:3]) + b"\xff"
        path = folder / name
        path.write_bytes(kind + b"\n# odd\n11 8\n%d\n" % most + data)
        yield OddFile(path, what, (11, 8), bytes(rgba))


def make_no_pictures(folder: pathlib.Path) -> Iterator[OddFile]:
    """Files that are to be refused: cut, empty, a folder, and no picture at all."""
    whole = (folder / "color8.png").read_bytes()
    wrong = bytearray(whole)
    wrong[-20] ^= 1  # in the checksum of the pixels
    for name, what, data in (
        ("cut.png", "a PNG that ends in its pixels", whole[: len(whole) - 90]),
        ("cut-head.png", "a PNG that ends in its head", whole[:20]),
        ("wrong.png", "a PNG of which a byte of the pixels' checksum is wrong", bytes(wrong)),
        ("empty.png", "an empty file", b""),
        ("text.png", "a text", b"This is no picture.\n"),
        ("cut.ppm", "a portable pixmap that ends in its pixels", b"P6 4 4 255\n" + bytes(40)),
    ):
        path = folder / name
        path.write_bytes(data)
        yield OddFile(path, what)
    (folder / "folder.png").mkdir(exist_ok=True)
    yield OddFile(folder / "folder.png", "a folder")
    yield OddFile(folder / "missing.png", "no file")


def blocks() -> "Image.Image":
    """A picture whose four quarters differ, in blocks of 8 pixels, so that a JPEG loses little:
    48 by 32."""
    picture = Image.new("RGB", (48, 32), (230, 230, 230))
    for left, top, width, height, color in (
        (0, 0, 24, 16, (200, 40, 40)),
        (24, 0, 24, 16, (40, 160, 60)),
        (0, 16, 24, 16, (40, 60, 190)),
        (8, 0, 8, 8, (20, 20, 20)),
        (40, 24, 8, 8, (250, 220, 30)),
    ):
        picture.paste(color, (left, top, left + width, top + height))
    return picture


def make_turned(folder: pathlib.Path) -> Iterator[OddFile]:
    """The same picture turned in eight ways, whose EXIF says so: all are shown upright; and one
    in a PNG."""
    upright, back = blocks(), (None, None, 0, 3, 1, 5, 2, 6, 4)
    for orientation in range(1, 9):
        turn = back[orientation]
        stored = upright if turn is None else upright.transpose(turn)
        exif = Image.Exif()
        exif[0x0112] = orientation
        path = folder / f"exif-{orientation}.jpg"
        stored.save(path, quality=95, subsampling=0, exif=exif)
        yield OddFile(path, f"a JPEG whose EXIF has the orientation {orientation}", upright.size)
    exif[0x0112] = 6
    path = folder / "exif-6.png"
    upright.transpose(back[6]).save(path, exif=exif)
    yield OddFile(
        path,
        "a PNG whose EXIF has the orientation 6",
        upright.size,
        upright.convert("RGBA").tobytes(),
    )


def make_jpegs(folder: pathlib.Path) -> Iterator[OddFile]:
    """JPEGs: gray, progressive, of four inks, and cut."""
    picture = blocks()
    for name, what, kind, options in (
        ("gray.jpg", "a gray JPEG", picture.convert("L"), {}),
        ("progressive.jpg", "a progressive JPEG", picture, {"progressive": True}),
        ("cmyk.jpg", "a JPEG of four inks", picture.convert("CMYK"), {}),
    ):
        kind.save(folder / name, quality=95, **options)
        yield OddFile(folder / name, what, picture.size)
    noisy = Image.effect_noise((64, 64), 90)
    noisy.save(folder / "cut.jpg", quality=95)
    data = (folder / "cut.jpg").read_bytes()
    (folder / "cut.jpg").write_bytes(data[: len(data) // 2])
    yield OddFile(folder / "cut.jpg", "a JPEG that ends in its pixels")


def make_others(folder: pathlib.Path) -> Iterator[OddFile]:
    """Animated files, of which the first picture counts, and WebP, GIF and TIFF as they come."""
    first = blocks()
    second = ImageOps.mirror(first)
    motion = {"save_all": True, "append_images": [second], "duration": 100}
    clear = first.convert("RGBA")
    clear.putpixel((3, 3), (10, 200, 30, 90))
    indexed = first.convert("P")
    indexed.putpixel((0, 0), 255)
    words = Image.frombytes("I;16", (9, 7), struct.pack("<63H", *(i * 1040 for i in range(63))))
    for name, what, picture, options in (
        ("animated.gif", "an animated GIF", first, motion),
        ("animated.png", "an animated PNG", first, motion),
        ("animated.webp", "an animated WebP", first, {**motion, "lossless": True}),
        ("clear.gif", "a GIF with a clear color", indexed, {"transparency": 255}),
        ("clear.webp", "a WebP with alphas", clear, {"lossless": True, "exact": True}),
        ("lossy.webp", "a WebP that loses a little", first, {"quality": 90}),
        ("gray16.tif", "a TIFF of gray of 16 bits", words, {}),
    ):
        try:
            picture.save(folder / name, **options)
        except (KeyError, OSError):  # this Pillow has no such format
            (folder / name).unlink(missing_ok=True)
            continue
        rgba = picture.convert("RGBA").tobytes() if name.endswith(".png") else None
        yield OddFile(folder / name, what, picture.size, rgba)


def make(folder: pathlib.Path) -> List[OddFile]:
    """Writes the files into a folder, which it makes where it is missing, and tells of each."""
    folder = pathlib.Path(folder)
    folder.mkdir(parents=True, exist_ok=True)
    makers = [make_kinds, make_palettes, make_sizes, make_plain, make_no_pictures]
    if Image is not None:
        makers += [make_turned, make_jpegs, make_others]
    return [file for maker in makers for file in maker(folder)]


def scale_of_clear(file: "Image.Image") -> Callable[[int], int]:
    """How a level of a PNG's tRNS becomes one of Pillow's pixels: Pillow gives it as the file
    has it, of other bits than those."""
    raw = str(file.tile[0][3]) if file.format == "PNG" and file.tile else ""
    scales = {
        "L;2": lambda level: level * 85,
        "L;4": lambda level: level * 17,
        "RGB;16B": lambda level: level >> 8,
    }
    return scales.get(raw, lambda level: level)


def pillow_picture(path: pathlib.Path) -> "Image.Image":
    """What Pillow makes of a file, as a picture of the mode RGBA: its first picture, turned as its
    EXIF says, with 16 bits made 8.

    Pillow has no kind of pixels of 16 bits but a gray one, which it would convert by cutting off
    what is above 255.
    """
    with Image.open(path) as file:
        scale = scale_of_clear(file)
        picture = ImageOps.exif_transpose(file)
    clear = picture.info.get("transparency")
    if not picture.mode.startswith("I"):
        if picture.mode in ("L", "RGB") and clear is not None:
            picture.info["transparency"] = (
                tuple(map(scale, clear)) if isinstance(clear, tuple) else scale(clear)
            )
        return picture.convert("RGBA")
    levels = picture.convert("I").getdata()
    alphas = bytes(0 if level == clear else 255 for level in levels)
    gray = Image.frombytes("L", picture.size, bytes(rounded(level, MOST) for level in levels))
    return Image.merge("RGBA", (gray, gray, gray, Image.frombytes("L", picture.size, alphas)))


def main(words: List[str]) -> int:
    if len(words) != 1 or words[0].startswith("-"):
        is_asked = words in (["--help"], ["-h"])
        print(__doc__, file=sys.stdout if is_asked else sys.stderr)
        return 0 if is_asked else 2
    for file in make(pathlib.Path(words[0])):
        size = "%d x %d" % file.size if file.size else "no picture"
        print(f"{file.path.name:30}{size:15}{file.what}")
    return 0


if __name__ == "__main__":
    sys.exit(main(sys.argv[1:]))
