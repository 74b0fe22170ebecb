"""Colors, opacities and arrays: what they become, and that one whose kind may be mistaken is
refused with what to write."""

import copy
import doctest
import pickle
import unittest

import pix
from pix import _colors, _image, _makers

try:
    import numpy
except ImportError:
    numpy = None

ALL = (0, 0, 9, 9)
KINDS = (pix.RGBA8, pix.RGBA16, pix.GRAYA8)


def painted(color, kind):
    """The channels of a pixel that was painted by a color."""
    image = pix.Image.new(1, 1, kind)
    image.run(pix.copy_color(ALL, color))
    return tuple(image.pixels.cast("H") if kind is pix.RGBA16 else image.pixels)


class Colors(unittest.TestCase):
    def test_of_srgb(self):
        for color in (
            pix.srgb("#c87828"),
            pix.srgb(200, 120, 40),
            pix.srgb((200, 120, 40)),
            pix.srgb([200, 120, 40, 255]),
        ):
            self.assertEqual(color, pix.srgb("#C87828FF"))
            for kind in KINDS:
                self.assertEqual(
                    painted(color, kind), pix.color_of(pix.SRGBA8, (200, 120, 40, 255), kind)
                )
        self.assertEqual(pix.srgb("#f80"), pix.srgb(255, 136, 0))
        half = pix.srgb("#f808")
        self.assertEqual((half.red, half.green, half.blue, half.alpha), (255, 136, 0, 136))
        self.assertEqual(pix.srgb("#ff8800", opacity=136 / 255), half)
        self.assertEqual(pix.srgb(255, 136, 0, alpha=136), half)
        self.assertEqual(
            painted(half, pix.RGBA16), tuple(pix.color_of(pix.SRGBA8, (255, 136, 0, 136)))
        )
        self.assertEqual(
            (pix.srgb(0, 0, 0, opacity=0).alpha, pix.srgb(0, 0, 0, opacity=1).alpha), (0, 255)
        )
        self.assertEqual(
            repr([pix.srgb("#f80"), half]), '[pix.srgb("#ff8800"), pix.srgb("#ff880088")]'
        )

    def test_what_is_no_color(self):
        for wrong in (
            "reddish",
            "c87828",
            "#c8782",
            "#c8782g",
            "#c87828ff00",
            "# c7828",
            "#",
            "",
            "#\u0661\u0661\u0661",
        ):
            with self.assertRaisesRegex(ValueError, 'write one as "#c87828"'):
                pix.srgb(wrong)
        for wrong in ((1, 2), (1, 2, 3, 4, 5), (), (256, 0, 0), (-1, 0, 0), (0, 0, 0, 256)):
            self.assertRaises(ValueError, pix.srgb, *wrong)
        self.assertRaises(ValueError, pix.srgb, ())
        self.assertRaises(ValueError, pix.srgb, 0, 0, 0, alpha=256)
        for opacity in (-0.1, 1.1, 128, float("nan")):
            self.assertRaises(ValueError, pix.srgb, "#000", opacity=opacity)
        for again in ({"alpha": 1, "opacity": 1}, {"alpha": 1}):
            self.assertRaises(TypeError, pix.srgb, 0, 0, 0, 9, **again)
        self.assertRaisesRegex(TypeError, "has fractions", pix.srgb, 0.5, 0.5, 0.5)
        self.assertRaises(TypeError, pix.srgb, None)

    def test_a_text_or_fractions_without_the_call(self):
        self.assertRaisesRegex(
            TypeError, "write pix.srgb\\('#c87828'\\)", pix.copy_color, ALL, "#c87828"
        )
        self.assertRaisesRegex(
            TypeError, "write whole numbers", pix.copy_color, ALL, (0.5, 0.5, 0.5, 1.0)
        )

    def test_eight_bits_on_sixteen(self):
        """It was painted, and nothing of it was seen."""
        image = pix.Image.new(1, 1, pix.RGBA16)
        for color in ((200, 120, 40, 255), (0, 0, 0, 255), (1, 0, 0, 0), (255, 255, 255, 255)):
            with self.assertRaisesRegex(
                ValueError, r"write pix.srgb\(.*, or pix.Color\(.*, pix.RGBA16\)"
            ):
                image.run(pix.copy_color(ALL, color))
            with self.assertRaisesRegex(ValueError, "may be of 8 bits"):
                pix.CommandList(pix.composite_color(ALL, color), type=pix.RGBA16)
            self.assertEqual(painted(pix.Color(color, pix.RGBA16), pix.RGBA16), color)
        for color in ((0, 0, 0, 0), (256, 0, 0, 256), (0, 0, 0, 65535)):
            self.assertEqual(painted(color, pix.RGBA16), color)

    def test_a_straight_alpha(self):
        for kind, color in (
            (pix.RGBA8, (200, 120, 40, 128)),
            (pix.RGBA16, (60000, 0, 0, 30000)),
            (pix.GRAYA8, (200, 128)),
        ):
            with self.assertRaisesRegex(ValueError, "a channel above its alpha.*write pix"):
                painted(color, kind)
            self.assertEqual(painted(pix.Color(color, kind), kind), color)
        with self.assertRaisesRegex(ValueError, r"write pix.srgb\(200, 200, 200, 128\)"):
            painted((200, 128), pix.GRAYA8)
        self.assertEqual(
            painted((90, 40, 0, 0), pix.RGBA8), (90, 40, 0, 0)
        )  # light that covers nothing

    def test_what_a_sentence_says_to_write(self):
        """Each piece of code that a refusal names does what it says."""
        for kind, color in (
            (pix.RGBA16, (200, 120, 40, 255)),
            (pix.RGBA16, (60000, 9, 9, 30000)),
            (pix.RGBA8, (200, 120, 40, 128)),
        ):
            with self.assertRaises(ValueError) as caught:
                painted(color, kind)
            said = str(caught.exception).split(": write ")[1]
            straight, meant = said.split(" for ")[0], said.split(", or ")[-1].split(" where ")[0]
            for code in (straight, meant):
                painted(eval(code, {"pix": pix}), kind)
            self.assertEqual(eval(meant, {"pix": pix}), color)

    def test_of_one_kind(self):
        color = pix.color_of(pix.SRGBA8, (200, 120, 40, 255))
        self.assertEqual((color.type, len(color), color[3]), (pix.RGBA16, 4, 65535))
        self.assertEqual(painted(pix.color_of(pix.SRGBA8, (1, 1, 1, 255)), pix.RGBA16)[0], 20)
        with self.assertRaisesRegex(TypeError, "a color of RGBA16 doesn't go with RGBA8"):
            painted(color, pix.RGBA8)
        for channels in ((1, 2, 3), (0, 0, 0, 256), (-1, 0, 0, 0)):
            self.assertRaises(ValueError, pix.Color, channels, pix.RGBA8)
        self.assertRaises(TypeError, pix.Color, (0.5, 0, 0, 1), pix.RGBA8)
        self.assertRaises(TypeError, pix.Color, (0, 0, 0, 0), "RGBA8")

    def test_values(self):
        for color in (pix.Color((1, 2, 3, 4), pix.RGBA16), pix.srgb("#12345678")):
            for again in (pickle.loads(pickle.dumps(color)), copy.deepcopy(color)):
                self.assertEqual(
                    (again, repr(again), hash(again)), (color, repr(color), hash(color))
                )
            self.assertEqual(eval(repr(color), {"pix": pix}), color)
            command = pickle.loads(pickle.dumps(pix.copy_color(ALL, color)))
            self.assertEqual((command.color, type(command.color)), (color, type(color)))
            self.assertEqual(painted(command.color, pix.RGBA16), painted(color, pix.RGBA16))
        self.assertNotEqual(pix.srgb("#123"), pix.srgb("#124"))
        self.assertNotEqual(pix.srgb("#123"), (0x11, 0x22, 0x33, 255))


class Opacities(unittest.TestCase):
    def test_three_names(self):
        for kind in KINDS:
            source = pix.Image.new(3, 3, kind)
            for fraction, byte in ((0, 0), (1, 255), (0.2, 51), (0.8, 204)):
                by_fraction = pix.composite_image_alpha(ALL, source, opacity=fraction)
                by_byte = pix.composite_image_alpha(ALL, source, alpha8=byte)
                self.assertEqual(
                    (by_fraction.alpha, by_byte.alpha), (byte * (kind.max // 255),) * 2
                )
        self.assertEqual(pix.composite_image_alpha(ALL, source, 77).alpha, 77)

    def test_what_is_no_opacity(self):
        source = pix.Image.new(3, 3, pix.RGBA16)
        self.assertRaisesRegex(
            TypeError, "write opacity=0.5", pix.composite_image_alpha, ALL, source, 0.5
        )
        self.assertRaisesRegex(
            ValueError, "write alpha8=128", pix.composite_image_alpha, ALL, source, opacity=128
        )
        for wrong in (
            {},
            {"opacity": 0.5, "alpha8": 128},
            {"alpha": 1, "opacity": 1},
            {"alpha8": 0.5},
            {"opacity": "1"},
        ):
            self.assertRaises(TypeError, pix.composite_image_alpha, ALL, source, **wrong)
        for wrong in (
            {"opacity": -0.1},
            {"opacity": float("nan")},
            {"alpha8": 256},
            {"alpha8": -1},
        ):
            self.assertRaises(ValueError, pix.composite_image_alpha, ALL, source, **wrong)


class Names(unittest.TestCase):
    """A kind of pixels, a format and a text are taken for each other: each refusal says what to
    write."""

    def test_kinds(self):
        pixels = bytearray(64)
        for wrong, instead in (
            ("RGBA8", "write pix.RGBA8"),
            ("rgba16", "write pix.RGBA16"),
            (pix.SRGBA8, "write pix.Image.from_array"),
            (None, "write pix.RGBA8, pix.RGBA16"),
            ("RGB", "write pix.RGBA8, pix.RGBA16"),
        ):
            with self.assertRaisesRegex(TypeError, instead):
                pix.Image(pixels, 2, 2, type=wrong)

    def test_formats(self):
        for wrong, instead in (
            ("SRGBA8", "write pix.Format.SRGBA8"),
            ("rgb8", "write pix.Format.RGB8"),
            (pix.RGBA8, "write pix.Format.RGBA8P, or pix.Format.RGBA8 where"),
        ):
            with self.assertRaisesRegex(TypeError, instead):
                pix.Image.from_array(bytes(16), wrong, size=(2, 2))
        for wrong in (99, "RGBA", None):
            with self.assertRaisesRegex(ValueError, "no format: write one as pix.SRGBA8"):
                pix.convert(wrong, bytes(16), pix.SRGBA8)


class Arrays(unittest.TestCase):
    def test_an_array_whose_kind_is_not_told(self):
        """Its pixels would be taken as premultiplied and linear."""
        shaped = memoryview(bytearray(4 * 3 * 2)).cast("B", (2, 3, 4))
        for sizes in ((), (3, 2), (3, 2, 3)):
            with self.assertRaisesRegex(
                TypeError, r"write pix.Image.from_array\(array, pix.SRGBA8\)"
            ):
                pix.Image(shaped, *sizes)
            image = pix.Image(shaped, *sizes, type=pix.RGBA8)
            self.assertEqual((image.width, image.height), (3, 2))

    def test_a_size_that_is_not_the_arrays(self):
        shaped = memoryview(bytearray(6 * 10 * 4)).cast("B", (6, 10, 4))
        for sizes in ((6, 10), (10, 7), (11, 6), (9, 6), (9, 6, 9)):
            with self.assertRaisesRegex(ValueError, "an array of 10 x 6 elements is not one of"):
                pix.Image(shaped, *sizes, type=pix.RGBA8)
        for sizes in ((10, 6), (10, 3), (9, 6, 10), (4, 1)):
            self.assertEqual(pix.Image(shaped, *sizes, type=pix.RGBA8).width, sizes[0])

        values = memoryview(bytes(60)).cast("B", (6, 10))
        self.assertRaisesRegex(ValueError, "10 x 6 elements", pix.Matte, values, 6, 10)
        self.assertEqual(pix.Matte(values, 10, 6).width, 10)

    def test_an_array_of_other_pixels(self):
        for shape, format in (((2, 3, 3), "SRGB8"), ((2, 9), "SGRAY8"), ((2, 3, 2), "SGRAYA8")):
            array = memoryview(bytes(18 if shape != (2, 3, 2) else 12)).cast("B", shape)
            with self.assertRaises(TypeError) as caught:
                pix.Image(array)
            code = str(caught.exception).split(": write ")[1].split(" for ")[0]
            self.assertIn(format, code)
            self.assertEqual(eval(code, {"pix": pix, "array": array}).height, 2)
        for shape in ((18,), (2, 3, 1, 3), (1, 2, 9)):
            with self.assertRaisesRegex(TypeError, "the shape of the buffer doesn't tell them"):
                pix.Image(memoryview(bytes(18)).cast("B", shape))

    @unittest.skipIf(numpy is None, "no numpy")
    def test_the_pixels_themselves(self):
        """numpy.asarray() was an array of objects."""
        for kind, code in ((pix.RGBA8, "u1"), (pix.RGBA16, "u2"), (pix.GRAYA8, "u1")):
            image = pix.Image.new(5, 4, kind)
            array = numpy.asarray(image)
            self.assertEqual(
                (array.shape, array.dtype), ((4, 5, kind.channels), numpy.dtype(code))
            )
            image.run(pix.copy_color((1, 2, 1, 1), pix.srgb("#fff")))
            self.assertEqual(array.sum(), array[2, 1].sum())
            array[:] = 7
            self.assertEqual(set(image.pixels.cast("H") if code == "u2" else image.pixels), {7})
        pixels = bytearray(4)
        array = numpy.asarray(pix.Image(pixels, 1, 1))
        self.assertRaises(BufferError, pixels.append, 1)  # the array pins it
        del array
        pixels.append(1)

    @unittest.skipIf(numpy is None, "no numpy")
    def test_windows_mattes_and_readers(self):
        pixels = numpy.zeros((6, 8, 4), "u1")
        window = pix.Image(pixels[1:5, 2:7], type=pix.RGBA8)
        numpy.asarray(window)[...] = 9
        self.assertEqual((pixels.sum(), pixels[1:5, 2:7].min()), (9 * 80, 9))
        strided = pix.Image(bytearray(range(52)), 3, 3, 5)
        self.assertEqual(
            numpy.asarray(strided)[:, :, 0].tolist(), [[0, 4, 8], [20, 24, 28], [40, 44, 48]]
        )
        matte = numpy.asarray(pix.Matte(memoryview(bytes(12)).cast("H"), 3, 2, bits=16))
        self.assertEqual(
            (matte.shape, matte.dtype, matte.flags.writeable), ((2, 3), numpy.dtype("u2"), False)
        )
        self.assertEqual(numpy.asarray(pix.Image.new(0, 7, pix.RGBA8)).shape, (7, 0, 4))
        for sizes in ((4, 5), (4, 4, 5), (4, 4, 3), (2**31, 2**31)):
            with self.assertRaises(pix.PixError):
                numpy.asarray(pix.Image(bytearray(64), *sizes))


def load_tests(loader, tests, pattern):
    """The examples of the docstrings, too."""
    for module in (_colors, _image, _makers):
        tests.addTests(doctest.DocTestSuite(module, {"pix": pix}))
    return tests


if __name__ == "__main__":
    unittest.main()
