"""PNG files without another package, by zlib."""

from __future__ import annotations

import struct
import sys
import zlib
from array import array
from typing import Any, Dict, Iterator, List, NamedTuple, Optional, Sequence, Tuple

from pix._fresh import lit
from pix._indexed import row_size, unpack_row
from pix._profile import of_chunks
from pix._values import Format

SIGNATURE = b"\x89PNG\r\n\x1a\n"

# The color types: how many samples a pixel has, and how many bits a sample may have.
_GRAY, _COLOR, _PALETTE, _GRAY_ALPHA, _COLOR_ALPHA = 0, 2, 3, 4, 6
_SAMPLES = {_GRAY: 1, _COLOR: 3, _PALETTE: 1, _GRAY_ALPHA: 2, _COLOR_ALPHA: 4}
_BITS = {
    _GRAY: (1, 2, 4, 8, 16),
    _COLOR: (8, 16),
    _PALETTE: (1, 2, 4, 8),
    _GRAY_ALPHA: (8, 16),
    _COLOR_ALPHA: (8, 16),
}

# The passes of an interlaced file: the first column and row, and the steps.
_PASSES = (
    (0, 0, 8, 8),
    (4, 0, 8, 8),
    (0, 4, 4, 8),
    (2, 0, 4, 4),
    (0, 2, 2, 4),
    (1, 0, 2, 2),
    (0, 1, 1, 2),
)


class Pixels(NamedTuple):
    """A picture that was read: a buffer in a format, and the file's colors if they aren't sRGB."""

    width: int
    height: int
    format: Format
    data: Any
    said: Optional[str] = None


class Fault(Exception):
    """An error in a file."""


# The most pixels that a picture in a file may have, if no other limit is given: as in Pillow.
LIMIT = 178_956_970


def refuse_many(width: int, height: int, limit: Optional[int]) -> None:
    """Raises a Fault for a picture of too many pixels."""
    if limit is not None and width * height > limit:
        said = f"{width} x {height}, or {width * height} pixels are more than {limit}"
        raise Fault(f"{said}: limit={width * height} allows so many")


class _Head(NamedTuple):
    """How a file stores its pixels."""

    width: int
    height: int
    bits: int
    color: int
    is_interlaced: bool

    @property
    def passes(self) -> List[Tuple[range, range]]:
        """The columns and the rows of each pass that has pixels."""
        steps = _PASSES if self.is_interlaced else ((0, 0, 1, 1),)
        passes = [
            (range(x, self.width, right), range(y, self.height, down))
            for x, y, right, down in steps
        ]
        return [(columns, rows) for columns, rows in passes if columns and rows]

    def row(self, columns: int) -> int:
        """How many bytes a row of `columns` pixels has."""
        samples = _SAMPLES[self.color] * columns
        return row_size(self.bits, samples) if self.bits < 8 else samples * self.bits // 8


def chunk(kind: bytes, data: bytes) -> bytes:
    """A chunk: its length, its kind, its data, and a checksum."""
    return (
        struct.pack(">I", len(data))
        + kind
        + data
        + struct.pack(">I", zlib.crc32(data, zlib.crc32(kind)))
    )


def png(width: int, height: int, format: Format, data: Any) -> bytes:
    """The bytes of a file of these pixels, which are SRGB8, SRGBA8, SGRAY8 or SGRAYA8."""
    return png_of_rows(width, height, 8, format.samples, data)


def png_of_rows(width: int, height: int, bits: int, samples: int, data: Any) -> bytes:
    """The bytes of a file of these rows, of 8 or 16 bits a sample."""
    color = (_GRAY, _GRAY_ALPHA, _COLOR, _COLOR_ALPHA)[samples - 1]
    row, pack = width * samples * bits // 8, zlib.compressobj(6)
    parts = []
    with memoryview(data) as view:
        for y in range(height):
            parts += [pack.compress(b"\0"), pack.compress(view[y * row : (y + 1) * row])]
    head = struct.pack(">IIBBBBB", width, height, bits, color, 0, 0, 0)
    pixels = b"".join([*parts, pack.flush()])
    return SIGNATURE + chunk(b"IHDR", head) + chunk(b"IDAT", pixels) + chunk(b"IEND", b"")


def chunks(file: bytes) -> Iterator[Tuple[bytes, bytes]]:
    """The chunks of a file in order, up to its end."""
    at, kind = len(SIGNATURE), b""
    while kind != b"IEND":
        if at + 12 > len(file):
            raise Fault("the file ends before its picture does")
        length, kind = struct.unpack_from(">I4s", file, at)
        data = file[at + 8 : at + 8 + length]
        if at + 12 + length > len(file):
            raise Fault("the file ends before its picture does")
        if (
            struct.pack(">I", zlib.crc32(data, zlib.crc32(kind)))
            != file[at + 8 + length : at + 12 + length]
        ):
            raise Fault("a checksum is wrong")
        yield kind, data
        at += 12 + length


def read_png(file: bytes, limit: Optional[int] = LIMIT) -> Pixels:
    """The picture of a file: SRGBA8, or RGBA16 if it has 16 bits; turned as its EXIF says."""
    found: Dict[bytes, bytes] = {}
    packed: List[bytes] = []
    for kind, data in chunks(file):
        if kind == b"IDAT":
            packed.append(data)
        elif kind[:1].isupper() and kind not in (b"IHDR", b"PLTE", b"IEND"):
            raise Fault(f"a chunk {kind!r} is not known")
        else:
            found.setdefault(kind, data)
        if kind == b"IHDR" and len(data) == 13:
            refuse_many(*struct.unpack_from(">II", data), limit)
    head = head_of(found)
    rows = rows_of(head, b"".join(packed))
    code = "I" if head.bits < 16 else "Q"
    pixels = array(code)
    for columns, lines in head.passes:
        if not pixels:
            # Only after the first rows were unpacked, and if all rows are there.
            rows = iter(list(rows))
            pixels = array(code, bytes(pixels.itemsize)) * (head.width * head.height)
        for y in lines:
            line = array(code, bytes(painted(head, next(rows), len(columns), found)))
            pixels[y * head.width + columns.start : (y + 1) * head.width : columns.step] = line
    format = Format.SRGBA8 if code == "I" else Format.RGBA16
    width, height, pixels = turned(
        head.width, head.height, pixels, orientation(found.get(b"eXIf", b""))
    )
    return Pixels(width, height, format, pixels, of_chunks(found))


def head_of(found: Dict[bytes, bytes]) -> _Head:
    """How the file stores its pixels, by its head, if the head is valid."""
    if len(found.get(b"IHDR", b"")) != 13:
        raise Fault("the file has no head")
    width, height, bits, color, packing, filters, interlaced = struct.unpack(
        ">IIBBBBB", found[b"IHDR"]
    )
    if not 0 < width < 2**31 or not 0 < height < 2**31:
        raise Fault(f"a picture of {width} x {height} pixels is none")
    if bits not in _BITS.get(color, ()) or packing or filters or interlaced > 1:
        raise Fault("the head of the file is none that a PNG may have")
    palette = found.get(b"PLTE", b"")
    if color == _PALETTE and (not palette or len(palette) % 3 or len(palette) > 768):
        raise Fault("the palette is missing, or none")
    return _Head(width, height, bits, color, bool(interlaced))


def rows_of(head: _Head, packed: bytes) -> Iterator[bytearray]:
    """The rows of all passes, unpacked and unfiltered."""
    sizes = [(head.row(len(columns)), len(rows)) for columns, rows in head.passes]
    size = sum((row + 1) * count for row, count in sizes)
    try:
        data = zlib.decompressobj().decompress(packed, size)
    except (zlib.error, MemoryError, OverflowError) as fault:
        raise Fault(f"its pixels can't be unpacked: {fault}") from fault
    if len(data) < size:
        raise Fault("the file ends before its picture does")
    step, at = max(1, _SAMPLES[head.color] * head.bits // 8), 0
    for row, count in sizes:
        above = bytearray(row)
        for _ in range(count):
            above = unfiltered(data[at], bytearray(data[at + 1 : at + 1 + row]), above, step)
            yield above
            at += row + 1


def unfiltered(kind: int, line: bytearray, above: bytearray, step: int) -> bytearray:
    """A row without its filter: each byte was stored as the difference from a prediction. A pixel
    has `step` bytes."""
    if kind > 4:
        raise Fault("a row has a filter that is none")
    if kind == 1:
        for i in range(step, len(line)):
            line[i] = (line[i] + line[i - step]) & 255
    elif kind == 2:
        line = bytearray([(byte + up) & 255 for byte, up in zip(line, above)])
    elif kind == 3:
        for i, up in enumerate(above):
            line[i] = (line[i] + ((line[i - step] if i >= step else 0) + up) // 2) & 255
    elif kind == 4:
        corners = bytes(step) + above
        for i, (up, corner) in enumerate(zip(above, corners)):
            left = line[i - step] if i >= step else 0
            a, b, c = abs(up - corner), abs(left - corner), abs(left + up - 2 * corner)
            line[i] = (line[i] + (left if a <= b and a <= c else up if b <= c else corner)) & 255
    return line


def painted(head: _Head, row: bytearray, width: int, found: Dict[bytes, bytes]) -> Any:
    """A row as pixels SRGBA8, or RGBA16."""
    clear = found.get(b"tRNS", b"")
    if head.color == _PALETTE:
        samples = row if head.bits == 8 else unpack_row(head.bits, row, count=width)
        return with_colors(samples, found[b"PLTE"], clear)
    levels: Any = row
    if head.bits == 16:
        levels = array("H", bytes(row))
        if sys.byteorder == "little":
            levels.byteswap()
    elif head.bits < 8:
        levels = unpack_row(head.bits, row, count=width)
    count = _SAMPLES[head.color]
    planes = [levels[i::count] for i in range(count)]
    alpha = planes.pop() if count in (2, 4) else alpha_of(head, planes, clear)
    if head.bits < 8:
        most = (1 << head.bits) - 1
        planes = [
            planes[0].translate(bytes(min(level, most) * 255 // most for level in range(256)))
        ]
    if head.bits == 16:
        planes = [array("H", bytes(lit(plane))) for plane in planes]
    return woven([*(planes * 3)[:3], alpha])


def woven(planes: Sequence[Any]) -> Any:
    """The samples of some planes side by side."""
    first, count = planes[0], len(planes)
    pixels: Any = bytearray(count * len(first))
    if isinstance(first, array):
        pixels = array("H", bytes(2 * count * len(first)))
    for i, plane in enumerate(planes):
        pixels[i::count] = plane
    return pixels


def with_colors(indices: bytearray, palette: bytes, alphas: bytes) -> Any:
    """The pixels of indices into a palette; one past its end is black, as in most readers."""
    entries = [palette[i::3].ljust(256, b"\0") for i in range(3)] + [
        alphas.ljust(256, b"\xff")[:256]
    ]
    return woven([indices.translate(entry) for entry in entries])


def alpha_of(head: _Head, planes: Sequence[Any], clear: bytes) -> Any:
    """The alphas of pixels without one: all are opaque, except those of the color that the file
    marks as clear."""
    opaque = array("H", [65535]) if head.bits == 16 else bytearray(b"\xff")
    alpha = opaque * len(planes[0])
    if len(clear) == 2 * len(planes):
        color = struct.unpack(f">{len(planes)}H", clear)
        for i, pixel in enumerate(zip(*planes)):
            if pixel == color:
                alpha[i] = 0
    return alpha


def orientation(exif: bytes) -> int:
    """How a picture is turned, from 1, upright, to 8, as its EXIF says."""
    order = {b"II": "<", b"MM": ">"}.get(exif[:2])
    try:
        if order is None:
            return 1
        (at,) = struct.unpack_from(f"{order}I", exif, 4)
        (count,) = struct.unpack_from(f"{order}H", exif, at)
        for i in range(count):
            tag, kind, _, value = struct.unpack_from(f"{order}HHIH", exif, at + 2 + 12 * i)
            if (tag, kind) == (0x0112, 3) and 1 <= value <= 8:
                return value
    except struct.error:  # it ends early: nothing is known
        pass
    return 1


def turned(width: int, height: int, pixels: Any, how: int) -> Tuple[int, int, Any]:
    """A picture that is stored turned, as it is shown."""
    if how == 1:
        return width, height, pixels
    rows = [pixels[y * width : (y + 1) * width] for y in range(height)]
    if how > 4:
        rows = [pixels[x::width] for x in range(width)]
        width, height = height, width
    # What is reversed afterwards: the order of the rows, and each row.
    if how in (3, 4, 7, 8):
        rows.reverse()
    if how in (2, 3, 6, 7):
        rows = [row[::-1] for row in rows]
    return width, height, array(pixels.typecode, b"".join(row.tobytes() for row in rows))
