"""Images of indices into a table of colors, and rows of packed indices."""

from __future__ import annotations

import ctypes
from typing import Any, List, Optional, SupportsIndex, Tuple

from pix._calls import ENTRIES, LONGER, Call, padded
from pix._memory import Buffer, Memory
from pix._numbers import index
from pix._values import Format, PixError, Status

_quantize, _quantize_alpha = Call("pix_raw_quantize_refined"), Call("pix_raw_quantize_refined_alpha")
_map, _map_alpha = Call("pix_raw_map_indexed"), Call("pix_raw_map_indexed_alpha")
_diffuse, _diffuse_alpha = Call("pix_raw_diffuse_indexed_by"), Call("pix_raw_diffuse_indexed_by_alpha")
_quantize_rgba, _map_rgba = Call("pix_raw_quantize_rgba"), Call("pix_raw_map_indexed_rgba")
_diffuse_rgba, _look_up_rgba = Call("pix_raw_diffuse_indexed_rgba"), Call("pix_raw_look_up_rgba")
_index, _look_up, _count_indices = Call("pix_raw_index_pixels"), Call("pix_raw_look_up"), Call("pix_raw_count_indices")
_pack, _unpack = Call("pix_raw_pack_row"), Call("pix_raw_unpack_row")
_COUNTS = ctypes.c_size_t * ENTRIES

# How many rounds refine a table, and how many sixteenths of an error are passed on, unless a call says it.
_ROUNDS, _STRENGTH = 6, 12

# The formats of pixels that go with a table of colors: sRGB, and not multiplied by an alpha.
_PIXELS = {Format.SRGB8: 3, Format.SRGBA8: 4}


def _read(buffer: Any) -> Memory:
    """The memory of a buffer of bytes without gaps."""
    memory = Memory(buffer)
    if memory.has_gaps:
        raise ValueError("the buffer has gaps between its rows: pass them one by one")
    return memory


def _written(buffer: Any, *read: Memory) -> Memory:
    """The memory of a buffer that is written, which must not overlap those that are read."""
    memory = _read(buffer)
    if memory.is_readonly and memory.length:
        raise TypeError("the buffer is read-only")
    if not all(memory.is_apart(other) for other in read):
        raise ValueError("two buffers share memory")
    return memory


def _count(memory: Memory, size: int) -> int:
    """How many elements of a size the memory has."""
    count = memory.length // size
    if memory.length != count * size:
        raise PixError(Status.BAD_LENGTH)
    return count


def _byte(number: SupportsIndex, what: str) -> int:
    """The number, if it fits in a byte."""
    taken = index(number)
    if not 0 <= taken < 256:
        raise ValueError(f"{what} {taken} is not from 0 to 255")
    return taken


def _pixel_size(format: Any) -> int:
    """How many bytes a pixel takes that goes with a table of colors."""
    size = _PIXELS.get(Format(format))
    if size is None:
        raise PixError(Status.BAD_FORMAT)
    return size


def _table(buffer: Any, size: int) -> Memory:
    """The memory of a table of colors of so many bytes each."""
    memory = _read(buffer)
    _count(memory, size)
    return memory


def _room(length: SupportsIndex) -> int:
    """The room of a table as it is passed: that of one color too many stands for any more, and none for less."""
    return min(max(index(length), 0), LONGER)


def _indices(indices: Any, count: int, *read: Memory) -> Tuple[Any, Memory]:
    """The buffer for `count` indices, which is made if there is none, and its memory."""
    if indices is None:
        indices = bytearray(count)
    return indices, _written(indices, *read)


def _share(strength: SupportsIndex) -> int:
    """The strength as it is passed, in a byte: 255 stands for any other that is none."""
    taken = index(strength)
    return taken if 0 <= taken < 256 else 255


def _across(width: int, count: int) -> int:
    """The width of rows as it is passed: rows that are longer than all pixels are alike, whatever their width is."""
    return min(max(width, 0), count + 1)


def map_indexed(
    table: Buffer,
    pixels: Buffer,
    indices: Any = None,
    format: Format = Format.SRGB8,
    alpha: SupportsIndex = 0,
    transparent_index: SupportsIndex = 0,
) -> Any:
    """Writes for each pixel the index of the nearest entry of `table`, and returns `indices`, without which it makes a bytearray.

    The table has from 1 to 256 colors of three bytes: red, green and blue in sRGB. The pixels are of the format SRGB8, or of
    SRGBA8. The nearest entry has the least sum of the squared differences in red, green and blue; if several are equal, it is the
    first. A pixel with an alpha below `alpha` gets the index `transparent_index`; for all others the alpha is ignored. If all
    pixels are below it, the table may be empty, as quantize() makes it. For a table with alphas use map_indexed_rgba().

    Raises PixError if the table or the lengths don't fit, and leaves `indices` as they were.

    >>> table = bytes([0, 0, 0, 255, 255, 255])  # black and white
    >>> list(pix.map_indexed(table, bytes([200, 190, 180, 30, 20, 10])))
    [1, 0]
    """
    size = _pixel_size(format)
    alpha, transparent_index = _byte(alpha, "alpha"), _byte(transparent_index, "index")
    entries, source = _table(table, 3), _read(pixels)
    count = _count(source, size)
    indices, target = _indices(indices, count, entries, source)
    if size == 3:
        _map(count, entries, source, target)
    else:
        _map_alpha(count, entries, source, alpha, transparent_index, target)
    return indices


def quantize(
    pixels: Buffer,
    length: SupportsIndex = 256,
    format: Format = Format.SRGB8,
    alpha: SupportsIndex = 0,
    rounds: SupportsIndex = _ROUNDS,
) -> bytearray:
    """Makes a table of at most `length` colors of the pixels, three bytes each: red, green and blue in sRGB.

    The pixels are of the format SRGB8, or of SRGBA8; pixels with an alpha below `alpha` don't count. If there are at most
    `length` distinct colors, they are the table, in order of first place. Otherwise, if all are grays, no table of at most
    `length` colors has a smaller squared error. Otherwise, the colors are split into boxes, always by the split that reduces the
    squared error most. Then the pairs of boxes that raise it least are merged, and the entries are the means of the boxes. Errors
    are compared by quotients rounded down, so of nearly equal ones another may be chosen. It allocates work memory of three bytes
    a pixel; for a large picture pass a sample, such as every tenth pixel.

    `rounds`, 0 to 255, is how often such means of boxes are then refined: six times, unless it says another number. In a round
    each color goes to its nearest entry, the first if several are equal. Each entry goes to the mean of its colors, rounded, and
    stays if it has none. No round makes the sum of the squared errors greater.

    The table is empty if no pixel counts. Raises PixError if `length` is not from 1 to 256, or the pixels don't fit.

    >>> red, blue = bytes([255, 0, 0]), bytes([0, 0, 255])
    >>> pix.quantize(red + blue + red, 16).hex(" ", 3)
    'ff0000 0000ff'
    """
    size = _pixel_size(format)
    alpha, rounds, most = _byte(alpha, "alpha"), _byte(rounds, "number of rounds"), _room(length)
    source = _read(pixels)
    count = _count(source, size)
    entries, made = bytearray(3 * most), ctypes.c_size_t()
    target, room = Memory(entries), Memory(bytearray(3 * count))
    own = room.address, count, target.address, most, made
    if size == 3:
        _quantize(count * (1 + rounds), source, rounds, *own)
    else:
        _quantize_alpha(count * (1 + rounds), source, alpha, rounds, *own)
    return entries[: 3 * made.value]


def diffuse_indexed(
    table: Buffer,
    pixels: Buffer,
    width: SupportsIndex,
    indices: Any = None,
    format: Format = Format.SRGB8,
    alpha: SupportsIndex = 0,
    transparent_index: SupportsIndex = 0,
    strength: SupportsIndex = _STRENGTH,
    serpentine: bool = True,
) -> Any:
    """Writes the index of an entry for each pixel of a picture of rows of `width` pixels, by error diffusion. Returns `indices`,
    without which it makes a bytearray. Pixels, alphas and indices are those of map_indexed().

    The error of a pixel is its target color less its entry. 7/16 of it go to the pixel on the right, 3/16 to the one below on the
    left, 5/16 to the one below, and 1/16 to the one below on the right (Floyd and Steinberg). The target is a whole number in each
    channel: a half is rounded up, and it is clamped to 0..255. A pixel with an alpha below `alpha` passes on no error.

    `strength` is how many sixteenths of the errors are passed on: 12 unless it says another number. 16 are all of them, and with 0
    each pixel has the nearest entry. With `serpentine`, which is the default, every other row, from the second on, goes from right
    to left, and the shares are mirrored there. Rows are whole then; if all go one way, the last one may be short.

    Raises PixError if the table, the strength, the width or the lengths don't fit, and leaves `indices` as they were.

    >>> table, gray = bytes([0, 0, 0, 255, 255, 255]), bytes([128, 128, 128])
    >>> list(pix.diffuse_indexed(table, 8 * gray, 4))  # two rows of four
    [1, 0, 1, 0, 0, 1, 0, 1]
    """
    size, share, across = _pixel_size(format), _share(strength), index(width)
    alpha, transparent_index, back = _byte(alpha, "alpha"), _byte(transparent_index, "index"), int(bool(serpentine))
    entries, source = _table(table, 3), _read(pixels)
    count = _count(source, size)
    across = _across(across, count)
    indices, target = _indices(indices, count, entries, source)
    room = Memory(bytearray(3 * 4 * across))
    how = share, back, room.address, 4 * across
    if size == 3:
        _diffuse(count, entries, source, across, *how, target)
    else:
        _diffuse_alpha(count, entries, source, across, alpha, transparent_index, *how, target)
    return indices


def quantize_rgba(pixels: Buffer, length: SupportsIndex = 256, rounds: SupportsIndex = _ROUNDS) -> bytearray:
    """Makes a table of at most `length` colors with an alpha of the pixels, four bytes each, for pictures whose alphas are kept.

    The pixels and the entries are of the format SRGBA8: red, green and blue, not multiplied by the alpha. They are compared by
    their look over black and over white. So all transparent pixels are one color, and the color of a nearly transparent pixel
    hardly counts. If there are at most `length` distinct looks, the table has the first pixel of each, unchanged and in order.
    Otherwise, it is made by cuts and refined by `rounds` rounds, like a table of quantize(). Then an entry whose alpha is at
    least 250 becomes opaque if more than half of its pixels are. For opaque pixels it has the same colors as quantize(), which
    alone makes the table of least error for grays. It allocates work memory of four bytes a pixel.

    Raises PixError if `length` is not from 1 to 256, or the pixels don't fit.

    >>> clear, red = bytes(4), bytes([255, 0, 0, 255])
    >>> pix.quantize_rgba(clear + red + clear, 16).hex(" ", 4)
    '00000000 ff0000ff'
    """
    rounds, most = _byte(rounds, "number of rounds"), _room(length)
    source = _read(pixels)
    count = _count(source, 4)
    entries, made = bytearray(4 * most), ctypes.c_size_t()
    target, room = Memory(entries), Memory(bytearray(4 * count))
    _quantize_rgba(count * (1 + rounds), source, rounds, room.address, count, target.address, most, made)
    return entries[: 4 * made.value]


def map_indexed_rgba(table: Buffer, pixels: Buffer, indices: Any = None) -> Any:
    """Writes for each pixel the index of the entry that looks nearest to it, and returns `indices`, without which it makes a
    bytearray.

    The table has from 1 to 256 colors with an alpha, as quantize_rgba() makes them, and the pixels are of the format SRGBA8. The
    nearest entry has the least sum of the squared differences in red, green and blue, over black and over white. If several are
    equal, it is the first.

    Raises PixError if the table or the lengths don't fit, and leaves `indices` as they were.

    >>> table = bytes([0, 0, 0, 0, 255, 0, 0, 255])  # transparent and red
    >>> list(pix.map_indexed_rgba(table, bytes([200, 20, 10, 250, 9, 9, 9, 3])))
    [1, 0]
    """
    entries, source = _table(table, 4), _read(pixels)
    count = _count(source, 4)
    indices, target = _indices(indices, count, entries, source)
    _map_rgba(count, entries, source, target)
    return indices


def diffuse_indexed_rgba(
    table: Buffer,
    pixels: Buffer,
    width: SupportsIndex,
    indices: Any = None,
    strength: SupportsIndex = _STRENGTH,
    serpentine: bool = True,
) -> Any:
    """Writes the index of an entry for each pixel of a picture of rows of `width` pixels, by error diffusion to a table of colors
    with an alpha. Returns `indices`, without which it makes a bytearray.

    Errors in the alpha, and in the colors multiplied by it, are passed on like the errors of diffuse_indexed(). A transparent pixel
    takes no errors and passes on none.

    Raises PixError if the table, the strength, the width or the lengths don't fit, and leaves `indices` as they were.

    >>> table, half = bytes([0, 0, 0, 0, 0, 0, 0, 255]), bytes([0, 0, 0, 128])  # transparent and black
    >>> list(pix.diffuse_indexed_rgba(table, 8 * half, 4))  # two rows of four
    [1, 0, 1, 0, 0, 1, 0, 1]
    """
    share, across, back = _share(strength), index(width), int(bool(serpentine))
    entries, source = _table(table, 4), _read(pixels)
    count = _count(source, 4)
    across = _across(across, count)
    indices, target = _indices(indices, count, entries, source)
    room = Memory(bytearray(4 * 4 * across))
    _diffuse_rgba(count, entries, source, across, share, back, room.address, 4 * across, target)
    return indices


def index_pixels(
    table: Buffer,
    pixels: Buffer,
    length: SupportsIndex = 256,
    threshold: Tuple[SupportsIndex, SupportsIndex, SupportsIndex] = (0, 0, 0),
) -> Tuple[bytearray, bytearray]:
    """Sets the color of each pixel in a table, one after the other, and returns the table afterwards and the indices.

    A color gets the index of its match, if that differs from it by no more than `threshold` in each of red, green and blue. With a
    threshold of 0 that is the color itself. Otherwise, the color is added as the next entry. `table` may be empty, and a returned
    table may be used for the next picture. The match is the last candidate: entry 0 is the first candidate, and each later entry
    replaces it that is no worse in each channel and better in one.

    Raises PixError with FULL_TABLE if a color has no room among `length` entries. It raises PixError too if `length` is not from 1
    to 256 or the lengths don't fit.

    >>> table, indices = pix.index_pixels(b"", bytes([9, 9, 9, 200, 200, 200, 9, 9, 9]))
    >>> table.hex(" ", 3), list(indices)
    ('090909 c8c8c8', [0, 1, 0])
    """
    limits = bytes([_byte(channel, "threshold") for channel in threshold])
    if len(limits) != 3:
        raise ValueError("a threshold has three numbers")
    most = _room(length)
    entries, source = _read(table), _read(pixels)
    used, count = ctypes.c_size_t(_count(entries, 3)), _count(source, 3)
    made, indices = padded(entries, 3 * most), bytearray(count)
    near, written = Memory(limits), Memory(indices)
    # Each entry of the table may be a candidate for each pixel.
    _index(count * (1 + most // 2), made, used, near.address, source, written.address, count)
    return bytearray(made.room)[: 3 * used.value], indices


def look_up(table: Buffer, indices: Buffer, pixels: Any = None) -> Any:
    """Writes the entry of `table` for each index, three bytes each, and returns `pixels`, without which it makes a bytearray.

    Raises PixError if an index is past the end of the table, or the lengths don't fit, and leaves `pixels` as they were.

    >>> pix.look_up(bytes([0, 0, 0, 255, 0, 0]), bytes([1, 0])).hex(" ", 3)
    'ff0000 000000'
    """
    return _looked_up(_look_up, 3, table, indices, pixels)


def look_up_rgba(table: Buffer, indices: Buffer, pixels: Any = None) -> Any:
    """Writes the entry of `table` for each index, four bytes each: a color with its alpha. Returns `pixels`, without which it makes
    a bytearray.

    Raises PixError if an index is past the end of the table, or the lengths don't fit, and leaves `pixels` as they were.

    >>> pix.look_up_rgba(bytes([0, 0, 0, 0, 255, 0, 0, 255]), bytes([1, 0])).hex(" ", 4)
    'ff0000ff 00000000'
    """
    return _looked_up(_look_up_rgba, 4, table, indices, pixels)


def _looked_up(call: Call, size: int, table: Buffer, indices: Buffer, pixels: Any) -> Any:
    """Writes the entry for each index."""
    entries, source = _table(table, size), _read(indices)
    if pixels is None:
        pixels = bytearray(size * source.length)
    target = _written(pixels, entries, source)
    _count(target, size)
    call(source.length, entries, source, target)
    return pixels


def count_indices(indices: Buffer, length: SupportsIndex = 256) -> List[int]:
    """How often each number below `length` is among the indices. Raises PixError if an index is not below it.

    >>> pix.count_indices(bytes([0, 2, 2, 3]), 4)
    [1, 0, 2, 1]
    """
    size = index(length)
    if size < 0:
        raise ValueError(f"length {size} is below 0")
    source, counts = _read(indices), _COUNTS()
    _count_indices(source.length, source, ctypes.addressof(counts), min(size, ENTRIES))
    return counts[:size] + [0] * (size - ENTRIES)


def _bits(bits: SupportsIndex) -> int:
    """The number of bits that an index takes."""
    taken = index(bits)
    if taken not in (1, 2, 4, 8):
        raise PixError(Status.BAD_DEPTH)
    return taken


def row_size(bits: SupportsIndex, count: SupportsIndex) -> int:
    """How many bytes a row of `count` indices of 1, 2, 4 or 8 bits takes. Raises ValueError if `count` is below 0.

    >>> pix.row_size(2, 9)
    3
    """
    depth, many = _bits(bits), index(count)
    if many < 0:
        raise ValueError(f"count {many} is below 0")
    return -(-many * depth // 8)


def pack_row(bits: SupportsIndex, indices: Buffer, row: Any = None) -> Any:
    """Packs indices of 1, 2, 4 or 8 bits into the bytes of a row, and returns `row`, without which it makes a bytearray.

    The indices are in order, in each byte from its most significant bits on. Unused bits of the last byte are 0. Raises PixError if
    an index takes more bits or the lengths don't fit, and leaves `row` as it was.

    >>> row = pix.pack_row(2, bytes([3, 0, 1, 2, 3]))
    >>> row.hex(), list(pix.unpack_row(2, row, count=5))
    ('c6c0', [3, 0, 1, 2, 3])
    """
    depth = _bits(bits)
    source = _read(indices)
    if row is None:
        row = bytearray(row_size(depth, source.length))
    target = _written(row, source)
    _pack(source.length, depth, source, target)
    return row


def unpack_row(bits: SupportsIndex, row: Buffer, indices: Any = None, count: Optional[SupportsIndex] = None) -> Any:
    """Unpacks `count` indices of 1, 2, 4 or 8 bits from the bytes of a row, or fills `indices`, and returns them.

    Raises PixError if the row is not exactly as long as they take, and leaves `indices` as they were.

    >>> list(pix.unpack_row(4, bytes([0x3F]), count=2))
    [3, 15]
    """
    depth, many = _bits(bits), None if count is None else index(count)
    source = _read(row)
    if indices is None:
        many = source.length * 8 // depth if many is None else many
        if row_size(depth, many) != source.length:
            raise PixError(Status.BAD_LENGTH)
        indices = bytearray(many)
    target = _written(indices, source)
    _unpack(target.length, depth, source, target)
    return indices
