"""Pictures at another size by tables of weights: beside their definition, in threads, and what is refused."""

import random
import threading
import unittest

import pix
from pix import Filter, PixError, Status, Weights

try:
    import numpy
except ImportError:
    numpy = None

CHANCE = random.Random(12)
CHANNELS = {"RGBA8": 4, "RGBA16": 4, "GRAYA8": 2}


def noise(width, height, type=pix.RGBA8):
    """An image of random numbers."""
    size = {"RGBA8": 4, "RGBA16": 8, "GRAYA8": 2}[type.name] * width * height
    return pix.Image(bytearray(CHANCE.getrandbits(8 * size).to_bytes(size, "little")), width, height, type=type)


def numbers_of(image):
    """The channels of an image, one after the other."""
    wide = image.type is pix.RGBA16
    return list(memoryview(bytes(image.pixels)).cast("H" if wide else "B"))


def picked(firsts):
    """A table that takes one place for each."""
    return Weights(firsts, 1, [16384] * len(firsts))


def any_weights(count, places):
    """A table of random weights that add up."""
    taps = CHANCE.randint(1, min(places, 7))
    weights = []
    for _ in range(count):
        row = [0] * taps
        away = CHANCE.choice([0, 8191, CHANCE.randrange(8192)])
        row[CHANCE.randrange(taps)] -= away
        for _ in range(4):
            row[CHANCE.randrange(taps)] += (16384 + away) // 4
        row[CHANCE.randrange(taps)] += (16384 + away) % 4
        weights += row
    return Weights([CHANCE.randint(0, places - taps) for _ in range(count)], taps, weights)


def by_definition(image, across, down):
    """The channels of the new picture: each is one rounding of a double sum, cut at 0 and at the new alpha."""
    count, made, top = CHANNELS[image.type.name], [], 65535 if image.type is pix.RGBA16 else 255
    numbers, (wide, _) = numbers_of(image), image.size
    for y, above in enumerate(down.firsts):
        for x, left in enumerate(across.firsts):
            pixel, limit = [0] * count, top
            for channel in reversed(range(count)):
                total = sum(
                    down.weights[y * down.taps + v] * across.weights[x * across.taps + u]
                    * numbers[((above + v) * wide + left + u) * count + channel]
                    for v in range(down.taps) for u in range(across.taps)
                )  # fmt: skip
                pixel[channel] = min(max((total + 2**27) // 2**28, 0), limit)
                if channel == count - 1:
                    limit = pixel[channel]
            made += pixel
    return made


class Weighted(unittest.TestCase):
    def test_beside_the_definition(self):
        for type in pix.PixelType:
            for _ in range(8):
                image = noise(CHANCE.randint(1, 12), CHANCE.randint(1, 12), type)
                across, down = any_weights(CHANCE.randint(0, 9), image.size[0]), any_weights(CHANCE.randint(0, 9), image.size[1])
                made = image.scaled_by(across, down)
                self.assertEqual((made.type, made.size), (type, (len(across.firsts), len(down.firsts))))
                self.assertEqual(numbers_of(made), by_definition(image, across, down))

    def test_means_and_mirrors(self):
        image = noise(8, 6)
        halves = lambda count: Weights(range(0, 2 * count, 2), 2, [8192] * 2 * count)
        image.run(pix.composite_color((0, 0, 8, 6), pix.srgb("#fff8"), pix.Op.SRC_IN))
        self.assertEqual(bytes(image.scaled_by(halves(4), halves(3)).pixels), bytes(image.scaled(4, 3, Filter.AREA).pixels))
        mirrored = image.scaled_by(picked(range(7, -1, -1)), picked(range(6)))
        self.assertEqual([mirrored[x, 2] for x in range(8)], [image[7 - x, 2] for x in range(8)])
        self.assertEqual(bytes(mirrored.scaled_by(picked(range(7, -1, -1)), picked(range(6))).pixels), bytes(image.pixels))

    def test_tuples_and_arrays(self):
        image = noise(4, 1)
        plain = bytes(image.scaled_by(Weights([0, 2], 2, [8192] * 4), picked([0])).pixels)
        self.assertEqual(bytes(image.scaled_by(((0, 2), 2, (8192,) * 4), ([0], 1, [16384])).pixels), plain)
        if numpy is not None:
            table = numpy.array([0, 2], "u4"), numpy.int64(2), numpy.full(4, 8192, "i4")
            self.assertEqual(bytes(image.scaled_by(table, picked([0])).pixels), plain)

    def test_strides(self):
        memory = bytearray(CHANCE.getrandbits(8 * 400).to_bytes(400, "little"))
        apart = pix.Image(memory, 7, 9, 11)
        across, down = any_weights(5, 7), any_weights(6, 9)
        self.assertEqual(bytes(apart.scaled_by(across, down).pixels), bytes(apart.copy().scaled_by(across, down).pixels))


class BadWeights(unittest.TestCase):
    def refused(self, status, across, down=picked([0]), image=None):
        with self.assertRaises(PixError) as caught:
            (image or noise(8, 8)).scaled_by(across, down)
        self.assertEqual(caught.exception.status, status)

    def test_statuses(self):
        bad = Status.BAD_WEIGHTS
        for firsts, taps, weights in (
            ([7], 2, [8192, 8192]), ([2**32 - 1], 1, [16384]), ([0], 0, []), ([0], 2, [16384]), ([0], 1, [8192, 8192]),
            ([0], 9, [16384] + [0] * 8), ([0], 2**32 - 1, [16384]), ([0], 1, [16383]), ([0], 2, [16384 + 8192, -8192]),
            ([0], 2, [-(2**31), 16384 - 2**31]), ([0, 1], 1, [16384, 16385]),
        ):  # fmt: skip
            self.refused(bad, Weights(firsts, taps, weights))
            self.refused(bad, picked([0]), Weights(firsts, taps, weights))
        self.refused(Status.NO_SIDE, picked([0]), image=pix.Image.new(0, 9))
        self.refused(Status.TOO_LARGE, picked([0]), image=pix.Image.new(65536, 1, pix.GRAYA8))
        text = "a table of weights doesn't fit the image or the source, or a row of it doesn't add up"
        self.assertEqual(str(PixError(bad)), text)

    def test_arguments(self):
        image = noise(4, 4)
        for table in (([-1], 1, [16384]), ([2**32], 1, [16384]), ([0], -1, []), ([0], 1, [2**31]), ([0], 1, [-(2**31) - 1])):
            self.assertRaises(ValueError, image.scaled_by, table, picked([0]))
        for table in (([0.5], 1, [16384]), ([0], 1.0, [16384]), ([0], 1, [16384.0]), (0, 1, 16384)):
            self.assertRaises(TypeError, image.scaled_by, table, picked([0]))


class WeightedBands(unittest.TestCase):
    def test_tiles_in_threads(self):
        image, made = noise(300, 200), {}
        across, down = any_weights(256, 300), any_weights(256, 200)
        whole = bytes(image.scaled_by(across, down).pixels)

        def make(top):
            rows = slice(top * down.taps, (top + 64) * down.taps)
            band = Weights(down.firsts[top : top + 64], down.taps, down.weights[rows])
            made[top] = bytes(image.scaled_by(across, band).pixels)

        threads = [threading.Thread(target=make, args=[top]) for top in range(0, 256, 64)]
        for thread in threads:
            thread.start()
        for thread in threads:
            thread.join()
        self.assertEqual(b"".join(made[top] for top in sorted(made)), whole)


if __name__ == "__main__":
    unittest.main()
