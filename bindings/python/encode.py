"""Makes a PNG or a GIF of indices of a picture, and reads it back.

    PYTHONPATH=bindings/python python3 bindings/python/encode.py PICTURE FILE [COLORS] [OPTION]..

FILE ends in .png or .gif. COLORS is how many a table has at most, 2 to 256 (256). A PNG keeps alphas: its table has them too. In a
GIF a pixel is opaque or clear: those that are more clear than opaque get one entry, which is transparent. A picture of several
frames becomes a GIF with all of them and their times, and one table.

--nearest         each pixel has the nearest color; else errors are diffused
--strength=N      so many sixteenths of an error are passed on, 0 to 16 (12)
--left-to-right   all rows go from left to right; else every other row goes from right to left
--rounds=N        so many rounds refine the table, 0 to 255 (6)

The file is written by this program itself, and the library makes its table, its indices and its rows; Pillow reads the picture,
and then the file, whose pixels are compared. Needs Pillow. Prints what was made, with the mean squared error of its pixels as they
are seen: that over black and that over white, averaged. Answers 1 where the pixels differ, and 2 after a wrong use, or without Pillow.
"""

import os
import struct
import sys
import zlib
from typing import Any, Dict, List, NamedTuple, Optional, Tuple

try:
    from PIL import Image, ImageChops, ImageSequence, ImageStat
except ImportError:
    print("encode.py: it needs Pillow: pip install Pillow", file=sys.stderr)
    sys.exit(2)

import pix
from pix._put import put  # how the package writes its own files

# A pixel whose alpha is below this is transparent in a GIF.
CLEAR = 128
# What is taken where nothing is named, as the library's calls do.
ROUNDS, STRENGTH = 6, 12
# How hard zlib tries. Level 9 takes three times as long and more, for one or two hundredths of the size.
LEVEL = 6


class Moving(NamedTuple):
    """The frames of a picture, how many milliseconds each is shown, and how often all are: 0 is for ever."""

    frames: List[Image.Image]
    times: List[int]
    loop: Optional[int]


def read(name: str) -> Moving:
    """What a file has: a still picture is one frame."""
    frames, times = [], []
    with Image.open(name) as file:
        loop = file.info.get("loop")
        for frame in ImageSequence.Iterator(file):
            frames.append(frame.convert("RGBA"))
            times.append(int(frame.info.get("duration", 100)))
    return Moving(frames, times, loop)


def with_alphas(picture: Image.Image, colors: int, rounds: int, diffusion: Optional[Dict[str, Any]]) -> Tuple[bytes, bytes]:
    """The table of a picture, four bytes a color, and the indices of its pixels. The colors that are not opaque come first."""
    if picture.getextrema()[3] == (255, 255):  # the same, and sooner
        table, [indices] = with_clear([picture], colors, rounds, diffusion)
        return table, indices
    pixels = picture.tobytes()
    made = pix.quantize_rgba(pixels, colors, rounds)
    entries = sorted((bytes(made[i : i + 4]) for i in range(0, len(made), 4)), key=lambda entry: entry[3] == 255)
    table = b"".join(entries)
    if diffusion is None:
        return table, bytes(pix.map_indexed_rgba(table, pixels))
    return table, bytes(pix.diffuse_indexed_rgba(table, pixels, picture.width, **diffusion))


def with_clear(frames: List[Image.Image], colors: int, rounds: int, diffusion: Optional[Dict[str, Any]]) -> Tuple[bytes, List[bytes]]:
    """One table for all frames, four bytes a color, and the indices of each. Where a frame has clear pixels, the last is clear."""
    pixels = [frame.tobytes() for frame in frames]
    has_clear = any(alpha < CLEAR for frame in pixels for alpha in set(frame[3::4]))
    table = bytes(pix.quantize(b"".join(pixels), colors - has_clear, pix.SRGBA8, CLEAR, rounds))
    how: Dict[str, Any] = {"format": pix.SRGBA8, "alpha": CLEAR, "transparent_index": len(table) // 3 if has_clear else 0}
    if diffusion is None:
        indices = [bytes(pix.map_indexed(table, frame, **how)) for frame in pixels]
    else:
        indices = [bytes(pix.diffuse_indexed(table, frame, frames[0].width, **how, **diffusion)) for frame in pixels]
    entries = [table[i : i + 3] + b"\xff" for i in range(0, len(table), 3)]
    return b"".join(entries) + bytes(4 * has_clear), indices


def mean_squared_error(frames: List[Image.Image], shown: List[Image.Image]) -> float:
    """The mean of the squared errors in red, green and blue, added, over black and over white."""
    sums = []
    for one, other in zip(frames, shown):
        for level in (0, 255):
            ground = Image.new("RGBA", one.size, (level, level, level, 255))
            over = [Image.alpha_composite(ground, it).convert("RGB") for it in (one, other)]
            stat = ImageStat.Stat(ImageChops.difference(*over))
            sums.append(sum(stat.sum2) / stat.count[0])
    return sum(sums) / len(sums)


def colors_of(table: bytes) -> bytes:
    """Red, green and blue of the entries of a table."""
    return bytes(level for i, level in enumerate(table) if i % 4 < 3)


def bits_of(count: int) -> int:
    """How many bits an index below a count takes, at least one."""
    return max(1, (count - 1).bit_length())


def png(size: Tuple[int, int], table: bytes, indices: bytes) -> bytes:
    """The bytes of a PNG of indices, each row packed."""
    width, height = size
    bits = next(depth for depth in (1, 2, 4, 8) if depth >= bits_of(len(table) // 4))
    rows = b"".join(b"\0" + pix.pack_row(bits, indices[y * width : (y + 1) * width]) for y in range(height))

    def chunk(kind: bytes, data: bytes) -> bytes:
        return struct.pack(">I", len(data)) + kind + data + struct.pack(">I", zlib.crc32(kind + data))

    # The alphas up to the last one that is not opaque.
    alphas = table[3::4].rstrip(b"\xff")
    head = chunk(b"IHDR", struct.pack(">IIBBBBB", width, height, bits, 3, 0, 0, 0)) + chunk(b"PLTE", colors_of(table))
    head += chunk(b"tRNS", alphas) if alphas else b""
    return b"\x89PNG\r\n\x1a\n" + head + chunk(b"IDAT", zlib.compress(rows, LEVEL)) + chunk(b"IEND", b"")


def lzw(bits: int, indices: bytes) -> bytes:
    """Indices by the compression of GIF: codes of growing width, the least significant bits first."""
    clear, end = 1 << bits, (1 << bits) + 1
    codes = {bytes([i]): i for i in range(clear)}
    width, word, filled, out = bits + 1, 0, 0, bytearray()

    def put(code: int) -> None:
        nonlocal word, filled
        word |= code << filled
        filled += width
        while filled >= 8:
            out.append(word & 255)
            word >>= 8
            filled -= 8

    put(clear)
    known = b""
    for i in indices:
        longer = known + bytes([i])
        if longer in codes:
            known = longer
            continue
        put(codes[known])
        following = len(codes) + 2
        if following == 4096:
            put(clear)
            codes = {bytes([i]): i for i in range(clear)}
            width = bits + 1
        else:
            codes[longer] = following
            width += following == 1 << width
        known = bytes([i])
    if known:
        put(codes[known])
    put(end)
    if filled:
        out.append(word & 255)
    return bytes(out)


def blocks(data: bytes) -> bytes:
    """Bytes as a GIF has them, in blocks of at most 255."""
    return b"".join(bytes([len(data[i : i + 255])]) + data[i : i + 255] for i in range(0, len(data), 255)) + b"\0"


def gif(size: Tuple[int, int], table: bytes, frames: List[bytes], times: List[int], loop: Optional[int]) -> bytes:
    """The bytes of a GIF, with a global table of colors. Each frame covers all of the one before it, which is cleared first where
    there is a clear color."""
    bits = bits_of(len(table) // 4)
    depth, colors, has_clear = max(2, bits), colors_of(table), table[-1] == 0
    parts = [b"GIF89a", struct.pack("<HHBBB", *size, 0x80 | 7 << 4 | bits - 1, 0, 0), colors.ljust(3 << bits, b"\0")]
    if len(frames) > 1 and loop is not None:
        parts.append(b"\x21\xff\x0bNETSCAPE2.0" + struct.pack("<BBHB", 3, 1, loop & 0xFFFF, 0))
    for indices, time in zip(frames, times):
        if has_clear or len(frames) > 1:
            shown = min(0xFFFF, (time + 5) // 10) if len(frames) > 1 else 0
            parts.append(struct.pack("<BBBBHBB", 0x21, 0xF9, 4, 9 if has_clear else 4, shown, len(table) // 4 - 1 if has_clear else 0, 0))
        parts += [struct.pack("<BHHHHBB", 0x2C, 0, 0, *size, 0, depth), blocks(lzw(depth, indices))]
    return b"".join(parts) + b";"


def options(words: List[str]) -> Tuple[List[str], int, Optional[Dict[str, Any]]]:
    """The names among the words, the rounds, and how errors are diffused, or None."""
    names, numbers, most = [], {"--rounds": ROUNDS, "--strength": STRENGTH}, {"--rounds": 255, "--strength": 16}
    for word in words:
        option, _, number = word.partition("=")
        if number.isdecimal() and int(number) <= most.get(option, -1):
            numbers[option] = int(number)
        elif word not in ("--nearest", "--left-to-right"):
            names.append(word)
    wrong = [word for word in names if word.startswith("--")] + names[3:]
    wrong += [word for word in names[2:3] if not word.isdecimal() or not 2 <= int(word) <= 256]
    if wrong or len(names) < 2 or not names[1].endswith((".gif", ".png")):
        print(__doc__, file=sys.stderr)
        sys.exit(2)
    diffusion = {"strength": numbers["--strength"], "serpentine": "--left-to-right" not in words}
    return names, numbers["--rounds"], None if "--nearest" in words else diffusion


def made(words: List[str]) -> Tuple[bool, str]:
    """Makes the file; answers whether Pillow reads the same pixels, and what there is to say."""
    names, rounds, diffusion = options(words)
    name, colors = names[1], int(names[2]) if len(names) == 3 else 256
    picture = read(names[0])
    size = picture.frames[0].size
    if name.endswith(".gif"):
        table, indices = with_clear(picture.frames, colors, rounds, diffusion)
        data = gif(size, table, indices, picture.times, picture.loop)
    elif len(picture.frames) > 1:
        print(f"{names[0]} has {len(picture.frames)} frames, and a PNG has one: name a FILE that ends in .gif", file=sys.stderr)
        sys.exit(2)
    else:
        table, index = with_alphas(picture.frames[0], colors, rounds, diffusion)
        indices, data = [index], png(size, table, index)
    put(name, data)

    # Each pixel as Pillow reads it, beside the entry of its index; and how long each frame is shown.
    shown = [Image.frombytes("RGBA", size, bytes(pix.look_up_rgba(table, each))) for each in indices]
    back = read(name)
    same = [frame.tobytes() for frame in back.frames] == [frame.tobytes() for frame in shown]
    same = same and (len(shown) == 1 or back.times == [(time + 5) // 10 * 10 for time in picture.times])
    frames = f", {len(shown)} frames" if len(shown) > 1 else ""
    return same, (
        f"{name}: {size[0]}x{size[1]}{frames}, {len(table) // 4} colors, {len(data)} bytes, mean squared error"
        f" {mean_squared_error(picture.frames, shown):.1f}, Pillow reads {'the same' if same else 'OTHER'} pixels"
    )


def main(words: List[str]) -> int:
    """Makes the file, and prints what was made, or why not."""
    try:
        same, said = made(words)
    except OSError as fault:
        print(f"encode.py: {fault}", file=sys.stderr)
        return 1
    why = "it is closed"
    try:
        if sys.stdout is not None:
            print(said, flush=True)
            return not same
    except OSError as fault:
        why = str(fault.strerror)
        os.dup2(os.open(os.devnull, os.O_WRONLY), 1)  # no rest of it is written at the end
    print(f"encode.py: the standard output: {why}", file=sys.stderr)
    return 1


if __name__ == "__main__":
    sys.exit(main(sys.argv[1:]))
