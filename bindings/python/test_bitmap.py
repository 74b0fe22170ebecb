"""Pictures as files, arrays and Pillow hold them: they come back from light as they were; and what is refused."""

import random
import unittest

import pix
from pix import Format, PixError, Status
from pix._library import libraries

try:
    import numpy
except ImportError:
    numpy = None
try:
    from PIL import Image as pillow
except ImportError:
    pillow = None

WIDTH, HEIGHT = 160, 120


def photograph(samples):
    """A photograph of no camera: gradients, edges and noise, of pixels that are clear or have an alpha of 13 or more."""
    noise = random.Random(1)
    picture = bytearray()
    for y in range(HEIGHT):
        for x in range(WIDTH):
            alpha = (x + y) % 256
            levels = [x * 256 // WIDTH, y * 256 // HEIGHT, (x ^ y) & 255][: samples if samples > 2 else 1]
            pixel = [min(255, level + noise.randrange(17)) for level in levels]
            if samples in (2, 4):
                pixel = [0] * samples if alpha < 13 else pixel + [alpha]
            picture += bytes(pixel)
    return picture


class Formats(unittest.TestCase):
    def test_sizes_are_those_of_the_library(self):
        for format in Format:
            self.assertEqual(libraries[0].pix_raw_format_size(format), format.size, format)
        self.assertEqual(libraries[0].pix_raw_format_size(len(Format)), 0)


class Bitmaps(unittest.TestCase):
    def test_photographs_come_back(self):
        for format in (pix.SRGBA8, pix.SBGRA8, pix.SRGB8, pix.SBGR8):
            photo = photograph(format.samples)
            shaped = memoryview(photo).cast("B", (HEIGHT, WIDTH, format.samples))
            light = pix.Image.from_array(shaped, format)
            light.run(pix.composite_color((40, 30, 64, 64), (9000, 0, 0, 30000)))
            back = bytes(light.to_array(format))
            changed = 0
            for at in range(0, len(photo), format.samples):
                x, y = at // format.samples % WIDTH, at // format.samples // WIDTH
                if photo[at : at + format.samples] != back[at : at + format.samples]:
                    self.assertTrue(40 <= x < 104 and 30 <= y < 94, (x, y))
                    changed += 1
            self.assertGreater(changed, 4000)

    def test_rows_from_bottom_to_top(self):
        picture = memoryview(bytes([1, 2, 3, 4, 5, 6])).cast("B", (2, 3))
        turned = pix.convert_bitmap(pix.SBGR8, picture[::-1], pix.SRGB8)
        self.assertEqual(turned, bytes([6, 5, 4, 3, 2, 1]))
        rows = memoryview(bytes(range(12))).cast("B", (4, 3))[::-2]
        self.assertEqual(pix.convert_bitmap(pix.SRGB8, rows, pix.SRGB8), bytes([9, 10, 11, 3, 4, 5]))
        target = bytearray(6)
        pix.convert_bitmap(pix.SBGR8, picture, pix.SRGB8, memoryview(target).cast("B", (2, 3))[::-1])
        self.assertEqual(target, bytes([6, 5, 4, 3, 2, 1]))

    def test_in_place(self):
        picture = bytearray([200, 100, 50, 128, 255, 0, 255, 0])
        self.assertIs(pix.convert_bitmap(Format.RGBA8, picture, Format.RGBA8P, picture, (2, 1)), picture)
        self.assertEqual(picture, bytes([100, 50, 25, 128, 0, 0, 0, 0]))
        with self.assertRaises(PixError) as refused:
            pix.convert_bitmap(Format.RGBA8, picture, Format.RGBA16, picture, (2, 1))
        self.assertEqual(refused.exception.status, Status.BAD_FORMAT)

    def test_opaque_pixels_and_words(self):
        wide = pix.convert_bitmap(Format.RGBX8, bytes([10, 20, 30, 77]), Format.RGBA16, None, (1, 1))
        self.assertEqual(memoryview(wide).cast("H").tolist(), [10 * 257, 20 * 257, 30 * 257, 65535])
        self.assertEqual(pix.convert_bitmap(Format.RGBA16, wide, pix.SBGRX8, None, (1, 1))[3], 255)

    def test_colors(self):
        self.assertEqual(pix.color_of(pix.SRGBA8, (255, 255, 255, 128)), (32896,) * 4)
        self.assertEqual(pix.color_of(pix.SRGB8, (188, 0, 0)), (32957, 0, 0, 65535))
        self.assertEqual(pix.color_of(Format.RGBA8, [200, 100, 50, 128], pix.RGBA8), (100, 50, 25, 128))
        self.assertEqual(pix.color_of(Format.GRAYA16, (65535, 257 * 128), pix.GRAYA8), (128, 128))
        for wrong in ((1, 2, 3), (1, 2, 3, 4, 5), (1, 2, 3, 256), (-1, 2, 3, 4)):
            self.assertRaises(ValueError, pix.color_of, pix.SRGBA8, wrong)
        self.assertRaises(TypeError, pix.color_of, pix.SRGBA8, (1, 2, 3, 4.0))

    def test_bytes_without_a_shape(self):
        photo = bytes(photograph(3))
        image = pix.Image.from_array(photo, pix.SRGB8, size=(WIDTH, HEIGHT))
        self.assertEqual(bytes(image.to_array(pix.SRGB8)), photo)
        with self.assertRaises(PixError) as refused:
            pix.Image.from_array(photo, pix.SRGB8, size=(WIDTH, HEIGHT + 1))
        self.assertEqual(refused.exception.status, Status.BAD_SOURCE)

    def test_refusals(self):
        picture, image = bytes(16), bytearray(16)
        with self.assertRaises(PixError) as refused:
            pix.convert_bitmap(pix.SRGBA8, picture, pix.SRGBA8, bytearray(15), (2, 2))
        self.assertEqual(refused.exception.status, Status.BAD_SIZE)
        with self.assertRaises(PixError) as refused:
            pix.convert_bitmap(pix.SRGBA8, picture[:15], pix.SRGBA8, image, (2, 2))
        self.assertEqual(refused.exception.status, Status.BAD_SOURCE)
        with self.assertRaises(TypeError):
            pix.convert_bitmap(pix.SRGBA8, picture, pix.SRGBA8, bytes(16), (2, 2))
        with self.assertRaises(ValueError):
            pix.convert_bitmap(pix.SRGBA8, image, pix.SRGBA8, memoryview(image), (2, 2))
        with self.assertRaises(TypeError):
            pix.convert_bitmap(pix.SRGBA8, picture, pix.SRGBA8)
        with self.assertRaises(TypeError):
            pix.Image.from_array(memoryview(image).cast("B", (2, 2, 4)), Format.RGBA16P)
        with self.assertRaises(TypeError):
            pix.Image.from_array(memoryview(image).cast("B", (2, 2, 4)), pix.SRGB8)
        with self.assertRaises(ValueError):
            pix.Image.from_array(memoryview(image).cast("B", (2, 2, 4)), len(pix.Format))
        for size in ((2**31, 1), (1, 2**31)):
            with self.assertRaises(PixError) as refused:
                pix.convert_bitmap(pix.SRGBA8, picture, pix.SRGBA8, image, size)
            self.assertEqual(refused.exception.status, Status.BAD_SIZE)
        for size in ((-1, 2), (2**32, 0)):
            with self.assertRaises(ValueError):
                pix.convert_bitmap(pix.SRGBA8, picture, pix.SRGBA8, image, size)
        self.assertEqual(image, bytes(16))


class Patterns(unittest.TestCase):
    def test_each_pixel_stands_at_its_place(self):
        tile = bytes(channel for i in range(30) for channel in (8 * i, 0, 0, 255))
        source = pix.Image(tile, 6, 5)
        regions = [(-3, -5, 20, 18, 2, 3), (4, 2, 7, 8, 3, 3), (30, 0, 5, 5, 1, 1), (0, 0, 9, 9, 0, 2), (0, 0, 0, 9, 2, 2)]
        for x, y, width, height, wide, high in regions:
            image = pix.Image.new(15, 11, pix.RGBA8)
            image.run(*pix.repeat_image((x, y, width, height), source, (1, 2, wide, high)))
            for row in range(11):
                for column in range(15):
                    wanted = bytes(4)
                    if wide * high and 0 <= column - x < width and 0 <= row - y < height:
                        place = (2 + (row - y) % high) * 6 + 1 + (column - x) % wide
                        wanted = tile[4 * place : 4 * place + 4]
                    place = 4 * (row * 15 + column)
                    self.assertEqual(bytes(image.pixels[place : place + 4]), wanted, (x, y, column, row))

    def test_ends(self):
        source = pix.Image(bytes(4 * 30), 6, 5)
        self.assertEqual(len(pix.repeat_image((0, 0, 13, 11), source)), 9)
        self.assertEqual(len(pix.repeat_image((2**31 - 2, -(2**31), 2**31 - 1, 7), source, (0, 0, 1, 3))), 6)
        with self.assertRaises(TypeError):
            pix.repeat_image((0, 0, 1, 1), pix.Matte(b"1", 1, 1))
        with self.assertRaises(ValueError):
            pix.repeat_image((2**31, 0, 1, 1), source)


@unittest.skipIf(numpy is None, "numpy is not there")
class Arrays(unittest.TestCase):
    def test_windows_turned_over(self):
        photo = numpy.frombuffer(bytes(photograph(4)), "u1").reshape(HEIGHT, WIDTH, 4)
        for part in (photo, photo[::-1], photo[10:90, 5:70], photo[90:10:-1, 5:70], photo[::3]):
            back = pix.Image.from_array(part, pix.SRGBA8).to_array(pix.SRGBA8)
            self.assertEqual(back.shape, part.shape)
            self.assertTrue((back == part).all())

    def test_windows_that_share_memory(self):
        both = numpy.zeros((4, 4, 4), "u1")
        for one, two in ((both[:2], both[1:3]), (both[::2], both[1::2]), (both[:, :2], both[:, 2:]), (both, both[::-1])):
            with self.assertRaises(ValueError):
                pix.convert_bitmap(pix.SRGBA8, one, pix.SRGBA8, two)
        for rows in (numpy.broadcast_to(both[:1], (4, 4, 4)), both[:, ::-1], both[:, ::2], numpy.asfortranarray(both[:3])):
            with self.assertRaises(ValueError):
                pix.convert_bitmap(pix.SRGBA8, rows, pix.SRGBA8)
            with self.assertRaises(ValueError):
                pix.Image(rows, type=pix.RGBA8)
        for other in (both.astype("i1"), both.astype("f4"), both.astype(">u2"), both.astype("u2")):
            with self.assertRaises(TypeError):
                pix.Image.from_array(other, pix.SRGBA8)

    def test_words(self):
        wide = numpy.arange(24, dtype="u2").reshape(2, 3, 4) * 1000
        image = pix.Image.from_array(wide, Format.RGBA16P)
        self.assertTrue((image.to_array(Format.RGBA16P) == wide).all())
        gray = pix.Image.from_array(photograph_array()[..., 0].copy(), pix.SGRAY8)
        self.assertEqual(gray.to_array(pix.SGRAY8).shape, (HEIGHT, WIDTH))


def photograph_array():
    return numpy.frombuffer(bytes(photograph(4)), "u1").reshape(HEIGHT, WIDTH, 4)


@unittest.skipIf(pillow is None, "Pillow is not there")
class Pictures(unittest.TestCase):
    def test_they_come_back(self):
        for mode, samples in (("RGBA", 4), ("RGB", 3)):
            picture = pillow.frombytes(mode, (WIDTH, HEIGHT), bytes(photograph(samples)))
            back = pix.Image.from_pillow(picture).to_pillow(mode)
            self.assertEqual((back.mode, back.size, back.tobytes()), (mode, picture.size, picture.tobytes()))
        gray = pillow.frombytes("L", (WIDTH, HEIGHT), bytes(photograph(1)))
        self.assertEqual(pix.Image.from_pillow(gray).to_pillow("L").tobytes(), gray.tobytes())
        palette = pillow.new("P", (2, 2))
        self.assertEqual(pix.Image.from_pillow(palette).type, pix.RGBA16)
        self.assertEqual(pix.Image.from_pillow(pillow.new("RGBA", (0, 3))).to_pillow().size, (0, 3))
        with self.assertRaises(ValueError):
            pix.Image.new(1, 1, pix.RGBA8).to_pillow("CMYK")


if __name__ == "__main__":
    unittest.main()
