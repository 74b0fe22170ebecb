"""Pictures of 16 bits: all levels are read, with Pillow and without, and written."""

import io
import random
import struct
import tempfile
import unittest
from unittest import mock
import zlib

import odd_files
import pix
from pix import _files, _fresh
from test_files import alone, pillow

try:
    import numpy  # before `alone`, which would let it be imported again
except ImportError:
    numpy = None

GRAY, COLOR, GRAY_ALPHA, COLOR_ALPHA = 0, 2, 4, 6
SAMPLES = {GRAY: 1, COLOR: 3, GRAY_ALPHA: 2, COLOR_ALPHA: 4}
SIZE = (37, 11)


def deep(color, clear=None, size=SIZE, before=b""):
    """A PNG of 16 bits of random levels, each row by another filter, and its pixels as light."""
    chance, count = random.Random(color), SAMPLES[color]
    rows = [[chance.randrange(65536) for _ in range(count * size[0])] for _ in range(size[1])]
    if clear:
        rows[1][:count] = clear
    packed, above, step = b"", bytes(2 * count * size[0]), 2 * count
    for y, row in enumerate(rows):
        line = struct.pack(f">{len(row)}H", *row)
        packed += bytes([y % 5]) + filtered(y % 5, line, above, step)
        above = line
    head = struct.pack(">IIBBBBB", *size, 16, color, 0, 0, 0)
    chunks = odd_files.chunk(b"IHDR", head) + before
    if clear:
        chunks += odd_files.chunk(b"tRNS", struct.pack(f">{count}H", *clear))
    chunks += odd_files.chunk(b"IDAT", zlib.compress(packed)) + odd_files.chunk(b"IEND", b"")
    return b"\x89PNG\r\n\x1a\n" + chunks, rows


def filtered(kind, line, above, step):
    """A row as differences from what a filter expects."""
    made = bytearray()
    for i, byte in enumerate(line):
        left, corner = (line[i - step], above[i - step]) if i >= step else (0, 0)
        guess = left + above[i] - corner
        near = min((left, above[i], corner), key=lambda each: abs(guess - each))
        made.append((byte - (0, left, above[i], (left + above[i]) // 2, near)[kind]) & 255)
    return bytes(made)


def light_of(rows, color, clear=None):
    """The light of rows of levels: red, green, blue and a straight alpha."""
    table, count, made = _fresh.light_table(), SAMPLES[color], []
    for row in rows:
        for i in range(0, len(row), count):
            pixel = row[i : i + count]
            alpha = pixel[-1] if count in (2, 4) else 0 if pixel == clear else 65535
            levels = pixel[:1] * 3 if count < 3 else pixel[:3]
            made.append(([table[level] for level in levels], alpha))
    return made


class Deep(unittest.TestCase):
    def is_read(self, data, wanted):
        """A file is read as this light, with Pillow and without."""
        for is_alone in (True, False):
            with alone(is_alone):
                image = pix.Image.open(io.BytesIO(data))
            values = memoryview(bytes(image.pixels)).cast("H")
            self.assertEqual(len(values), 4 * len(wanted))
            for i, (levels, alpha) in enumerate(wanted):
                light = [(2 * level * alpha + 65535) // 131070 for level in levels]
                self.assertEqual([*values[4 * i : 4 * i + 4]], [*light, alpha], (is_alone, i))

    def test_each_kind(self):
        for color in SAMPLES:
            data, rows = deep(color)
            self.is_read(data, light_of(rows, color))

    def test_a_clear_color(self):
        for color, clear in ((GRAY, [513]), (COLOR, [513, 7, 65534])):
            data, rows = deep(color, clear)
            self.is_read(data, light_of(rows, color, clear))

    def test_it_is_turned(self):
        exif = b"II*\0\x08\0\0\0\1\0\x12\1\3\0\1\0\0\0\6\0\0\0\0\0\0\0"
        data, rows = deep(COLOR, before=odd_files.chunk(b"eXIf", exif))
        straight = light_of(rows, COLOR)
        width, height = SIZE
        turned = [straight[(height - 1 - x) * width + y] for y in range(width) for x in range(height)]
        self.is_read(data, turned)

    @unittest.skipIf(pillow is None, "Pillow is not there")
    def test_pillow_reads_it_as_fast(self):
        """The rows are unpacked by Pillow, in two goes."""
        data, rows = deep(COLOR, size=(7, 5))
        with tempfile.NamedTemporaryFile(suffix=".png") as file:
            file.write(data)
            file.flush()
            with mock.patch.object(_files, "read_png", side_effect=AssertionError):
                image = pix.Image.open(file.name)
        self.assertEqual(image.size, (7, 5))

    def test_it_is_written(self):
        for color in (COLOR, COLOR_ALPHA, GRAY):
            data, rows = deep(color)
            for kind in (pix.RGBA16, pix.RGBA8, pix.GRAYA8):
                for is_alone in (True, False):
                    with alone(is_alone):
                        image, file = pix.Image.open(io.BytesIO(data), kind), io.BytesIO()
                        image.save(file, "PNG", bits=16)
                        self.assertEqual(file.getvalue()[24], 16)
                        again = pix.Image.open(file, kind)
                        self.assertLessEqual(farthest(image, again), 2)


def farthest(one, other):
    """The greatest difference of the channels of two images, where they are opaque enough."""
    code = "H" if one.type.max > 255 else "B"
    pairs = zip(memoryview(one.pixels).cast(code), memoryview(other.pixels).cast(code))
    return max(abs(a - b) for a, b in pairs)


if __name__ == "__main__":
    unittest.main()
