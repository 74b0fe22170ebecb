"""The interpreter's lock: a call that keeps it is short, whatever it is given."""

import ctypes
import math
import random
import time
import unittest
from unittest import mock

import pix
from pix import Format
from pix._turns import turns

# How many seconds a call may keep it, on a machine that adds up ADDITIONS in ADDED seconds. A
# slower one, or one that does other things too, may take longer.
SHORT = 0.004
ADDITIONS, ADDED = range(1 << 17), 0.0026
TRIES = 5
CHANCE = random.Random(8)


def noise(count):
    return CHANCE.getrandbits(8 * count).to_bytes(count, "little")


def sphere():
    """A table of 256 colors of which all are nearly as far from gray."""
    colors = bytearray()
    for _ in range(256):
        turn, tilt = CHANCE.random() * math.tau, math.acos(2 * CHANCE.random() - 1)
        at = math.sin(tilt) * math.cos(turn), math.sin(tilt) * math.sin(turn), math.cos(tilt)
        colors += bytes(128 + round(120 * side) for side in at)
    return bytes(colors)


def pace():
    """How many times as long as ADDED the additions take here and now, and at least once."""
    before = time.thread_time()
    sum(ADDITIONS)
    return max(1, (time.thread_time() - before) / ADDED)


class Keeping(unittest.TestCase):
    def seconds(self, call, is_done=True):
        """How long a call of the library kept the interpreter's lock: 0 where it let it go, and 1
        where it would keep it and isn't done."""
        taken, take = [], turns.take

        def seen(is_long, *more):
            before = time.thread_time()
            status = take(is_long, *more) if is_done else 0
            kept = time.thread_time() - before if is_done else 1
            taken.append(0 if is_long else kept)
            return status

        with mock.patch.object(turns, "take", seen):
            call()
        return max(taken)

    def is_short(self, name, call, most=1 << 19):
        """The longest call that keeps it is short: it is looked for by halves."""
        low, high = 1, most
        while low < high:
            middle = (low + high + 1) // 2
            kept = self.seconds(lambda: call(middle), False)
            low, high = (middle, high) if kept else (low, middle - 1)
        times = [self.seconds(lambda: call(low)) / pace() for _ in range(TRIES)]
        self.assertLess(min(times), SHORT, f"{name} of {low}")

    def test_tables(self):
        colors, four, table, alphas = noise(3 << 17), noise(4 << 17), sphere(), noise(1024)
        rgba = pix.SRGBA8
        for name, call in (
            ("map", lambda n: pix.map_indexed(table, colors[: 3 * n])),
            ("map with alpha", lambda n: pix.map_indexed(table, four[: 4 * n], format=rgba)),
            ("map rgba", lambda n: pix.map_indexed_rgba(alphas, four[: 4 * n])),
            ("diffuse", lambda n: pix.diffuse_indexed(table, colors[: 3 * n], n)),
            ("diffuse rgba", lambda n: pix.diffuse_indexed_rgba(alphas, four[: 4 * n], n)),
            ("quantize", lambda n: pix.quantize(colors[: 3 * n])),
            ("refine", lambda n: pix.quantize(colors[: 3 * n], rounds=1)),
            ("refine alpha", lambda n: pix.quantize(four[: 4 * n], 256, rgba, 9, 1)),
            ("quantize rgba", lambda n: pix.quantize_rgba(four[: 4 * n])),
        ):
            self.is_short(name, call, 1 << 17)

    def test_candidates_one_after_the_other(self):
        """Each entry of the table is nearer to each pixel than the one before it."""
        pixels = bytes(CHANCE.randrange(20) for _ in range(3 << 15))
        table = bytes(max(255 - i // 3, 21) for i in range(768))
        wide = (255, 255, 255)
        self.is_short("index", lambda n: pix.index_pixels(table, pixels[: 3 * n], 256, wide), 1 << 15)

    def test_rows_and_formats(self):
        zeros, table, some = bytes(1 << 20), noise(768), noise(1 << 20)
        for name, call in (
            ("look up", lambda n: pix.look_up(table, some[:n])),
            ("count", lambda n: pix.count_indices(some[:n])),
            ("pack", lambda n: pix.pack_row(2, zeros[:n])),
            ("unpack", lambda n: pix.unpack_row(2, zeros[:n])),
            ("convert", lambda n: pix.convert(Format.RGBA8P, some[: 4 * n], pix.SRGBA8)),
        ):
            self.is_short(name, call)
        words = memoryview(some).cast("H")
        for to in (Format.SHSLA8, Format.HSLA16, pix.SRGBA8):
            bitmap = lambda n, to=to: pix.convert_bitmap(
                Format.HWBA16P, words[: 4 * n], to, room(n, to), (n, 1)
            )
            self.is_short(f"convert_bitmap to {to.name}", bitmap, 1 << 17)

    def test_sizes(self):
        for type in pix.PixelType:
            size = ctypes.sizeof(type._color)
            source = pix.Image(bytearray(noise(size << 14)), 128, 128, type=type)
            for filter in pix.Filter:
                for name, call in (
                    ("larger", lambda n: source.scaled(3 * n, 256, filter)),
                    ("smaller", lambda n: source.part((0, 0, 128, min(n, 128))).scaled(9, 7, filter)),
                ):
                    self.is_short(f"{filter!r}, {name}, {type}", call, 1 << 9)

    def test_commands(self):
        for type in pix.PixelType:
            size = ctypes.sizeof(type._color)
            source = pix.Image(bytearray(noise(size << 16)), 256, 256, type=type)
            image, to = pix.Image.new(256, 256, type), (0, 0, 256, 256)
            one = pix.composite_image_alpha(to, source, alpha8=77, op=pix.Op.XOR)
            self.is_short(f"{type} of {size}", lambda n: image.run(*[one] * n), 1 << 5)
            many = [one] * 20_000  # which take more than a millisecond on no pixel at all
            for size in ((1, 1), (0, 5), (5, 0)):
                small = pix.Image.new(*size, type)
                self.assertEqual(self.seconds(lambda: small.run(*many), False), 0)
            self.assertEqual(self.seconds(lambda: pix.CommandList(*many, type=type), False), 0)


def room(count, format):
    """Room for so many pixels."""
    made = memoryview(bytearray(count * format.size))
    return made.cast("H") if format.bits == 16 else made


if __name__ == "__main__":
    unittest.main()
