"""Pictures at another size: windows, threads, and what is refused. scaled_model.py compares the pixels with a model."""

import random
import threading
import unittest
from unittest import mock

import pix
from pix import Filter, PixError, Status
from pix._library import libraries
from pix._turns import turns

try:
    import numpy
except ImportError:
    numpy = None

CHANCE = random.Random(11)


def noise(width, height, type=pix.RGBA8):
    """An image of random numbers."""
    size = {"RGBA8": 4, "RGBA16": 8, "GRAYA8": 2}[type.name] * width * height
    return pix.Image(bytearray(CHANCE.getrandbits(8 * size).to_bytes(size, "little")), width, height, type=type)


def bytes_of(image):
    return bytes(image.pixels)


class Sizes(unittest.TestCase):
    def test_by_hand(self):
        corner = pix.Image(bytearray(b"\xff\xff\xff\xff" + b"\0\0\0\xff" * 3), 2, 2)
        reds = lambda *of: [bytes_of(corner.scaled(*of))[i] for i in range(0, 4 * of[0] * of[1], 4)]
        self.assertEqual(reds(1, 1), [64])  # 63.75
        self.assertEqual(reds(3, 1, Filter.AREA), [128, 64, 0])  # 127.5 goes up, and 63.75
        self.assertEqual(reds(4, 2, Filter.NEAREST), [255, 255, 0, 0, 0, 0, 0, 0])
        self.assertEqual(reds(4, 2, Filter.LINEAR), [255, 191, 64, 0, 0, 0, 0, 0])
        gray = pix.Image(bytearray(b"\0\xff\xff\xff"), 2, 1, type=pix.GRAYA8)
        self.assertEqual(bytes_of(gray.scaled(1, 1)), b"\x80\xff")

    def test_the_same_size_is_a_copy(self):
        for type in pix.PixelType:
            image = noise(9, 5, type)
            image.run(pix.composite_color((0, 0, 9, 5), pix.srgb("#fff8"), pix.Op.SRC_IN))
            for filter in Filter:
                made = image.scaled(9, 5, filter)
                self.assertEqual((made.type, made.size), (type, (9, 5)))
                self.assertEqual(bytes_of(made), bytes_of(image))

    def test_premultiplied_stays_so(self):
        for filter in Filter:
            image = noise(12, 9)
            image.run(pix.composite_color((0, 0, 12, 9), pix.srgb("#fff8"), pix.Op.SRC_IN))
            made = bytes_of(image.scaled(31, 5, filter))
            for at in range(0, len(made), 4):
                self.assertLessEqual(max(made[at : at + 3]), made[at + 3])

    def test_windows_are_the_whole(self):
        for filter in Filter:
            image = noise(13, 11)
            whole = image.scaled(37, 29, filter)
            for window in ((0, 0, 37, 29), (30, 20, 7, 9), (5, 0, 1, 29), (36, 28, 1, 1)):
                self.assertEqual(bytes_of(image.scaled(37, 29, filter, window)), bytes_of(whole.part(window).copy()))
            for empty in ((37, 29, 0, 0), (0, 3, 0, 20), (9, 29, 5, 0)):
                self.assertEqual(image.scaled(37, 29, filter, empty).size, empty[2:])

    def test_strides(self):
        memory = bytearray(CHANCE.getrandbits(8 * 400).to_bytes(400, "little"))
        apart = pix.Image(memory, 7, 9, 11)
        together = apart.copy()
        self.assertEqual(bytes_of(apart.scaled(5, 20)), bytes_of(together.scaled(5, 20)))
        if numpy is not None:
            array = numpy.frombuffer(memory, "u1")[:396].reshape(9, 11, 4)[2:8, 3:8]
            rows = pix.Image(array, type=pix.RGBA8)
            self.assertEqual(bytes_of(rows.scaled(9, 4)), bytes_of(rows.copy().scaled(9, 4)))

    def test_a_window_of_a_huge_picture(self):
        dots = pix.Image(bytearray(b"\0\xff\xff\xff"), 2, 1, type=pix.GRAYA8)
        across = 2**31 - 2
        border = dots.scaled(across, 1, Filter.NEAREST, (across // 2 - 1, 0, 2, 1))
        self.assertEqual(bytes_of(border), b"\0\xff\xff\xff")

    def test_light_goes_there_and_back(self):
        light = pix.Image.from_array(bytes(3) + b"\xff\xff\xff", pix.SRGB8, size=(2, 1)).scaled(1, 1)
        self.assertEqual(bytes(light.to_array(pix.SRGB8)), b"\xbc\xbc\xbc")  # half the light, and not 128


class Refused(unittest.TestCase):
    def refused(self, status, *given, **named):
        with mock.patch.object(pix.Image, "new", side_effect=AssertionError("memory is made")):
            with self.assertRaises(PixError) as caught:
                noise(8, 8).scaled(*given, **named)
        self.assertEqual(caught.exception.status, status)

    def test_statuses(self):
        for size in ((0, 8), (8, 0), (0, 0)):
            self.refused(Status.NO_SIDE, *size)
        self.refused(Status.TOO_LARGE, 2**32 - 1, 8, Filter.LINEAR)
        for window in ((-1, 0, 2, 2), (0, -1, 2, 2), (7, 0, 2, 1), (0, 8, 1, 1), (9, 0, 0, 0), (0, 0, 2**32 - 1, 1)):
            self.refused(Status.OUTSIDE, 8, 8, window=window)
        self.assertRaises(PixError, pix.Image.new(0, 9).scaled, 1, 1)
        with self.assertRaises(PixError) as caught:
            pix.Image.new(65536, 1, pix.GRAYA8).scaled(1, 1)
        self.assertEqual(caught.exception.status, Status.TOO_LARGE)
        self.assertEqual(str(PixError(Status.SMALL_WORK)), "the work memory is too small")

    def test_arguments(self):
        image = noise(4, 4)
        self.assertRaisesRegex(TypeError, r"write pix\.Filter\.LINEAR", image.scaled, 2, 2, "linear")
        self.assertRaisesRegex(TypeError, r"write pix\.Filter\.AREA", image.scaled, 2, 2, "box")
        self.assertRaisesRegex(ValueError, r"no filter", image.scaled, 2, 2, 99)
        self.assertRaises(TypeError, image.scaled, 2.5, 2)
        self.assertRaises(ValueError, image.scaled, -1, 2)
        self.assertRaises(ValueError, image.scaled, 2, 2, Filter.AREA, (0, 0, 1))

    def test_too_little_work_memory(self):
        asked, call = [], libraries[0].pix_raw_scale_work
        with mock.patch.object(libraries[0], "pix_raw_scale_work", lambda *given: asked.append(1) or 0):
            with self.assertRaises(PixError) as caught:
                noise(8, 8).scaled(3, 3)
        self.assertEqual((caught.exception.status, len(asked)), (Status.SMALL_WORK, 1))
        self.assertIs(libraries[0].pix_raw_scale_work, call)


class Threading(unittest.TestCase):
    def test_tiles_in_threads(self):
        image, made = noise(200, 300), {}
        whole = image.scaled(311, 256, Filter.LINEAR)

        def make(top):
            made[top] = bytes_of(image.scaled(311, 256, Filter.LINEAR, (0, top, 311, 64)))

        threads = [threading.Thread(target=make, args=[top]) for top in range(0, 256, 64)]
        for thread in threads:
            thread.start()
        for thread in threads:
            thread.join()
        self.assertEqual(b"".join(made[top] for top in sorted(made)), bytes_of(whole))

    def test_a_long_call_releases_the_lock(self):
        taken, take = [], turns.take
        with mock.patch.object(turns, "take", lambda is_long, *more: taken.append(is_long) or take(is_long, *more)):
            noise(400, 400).scaled(100, 100)
            noise(4, 4).scaled(3, 3)
        self.assertEqual(taken, [True, False])


if __name__ == "__main__":
    unittest.main()
