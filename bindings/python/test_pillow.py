"""Pictures of Pillow: what becomes of each mode, and pictures of indices."""

import io
import struct
import sys
import tempfile
import threading
import unittest
from unittest import mock

import odd_files
import pix
from pix import _fresh, _pillow

try:
    from PIL import Image as pillow
except ImportError:
    pillow = None
try:
    import numpy
except ImportError:
    numpy = None

SIZE = (23, 17)


def gradient(mode):
    """A picture of a mode in which colors, levels and alphas differ from pixel to pixel."""
    width, height = SIZE
    places = [(x, y) for y in range(height) for x in range(width)]
    data = bytes(
        part for x, y in places for part in (x * 11, y * 15, (x * y * 3) & 255, 255 - (x * 5 + y))
    )
    return pillow.frombytes("RGBA", SIZE, data).convert(mode)


def words(mode, levels, order="<"):
    """A picture of gray of 16 bits."""
    return pillow.frombytes(mode, (len(levels), 1), struct.pack(f"{order}{len(levels)}H", *levels))


def light(image):
    """The first channel of each pixel of an image of RGBA16, and the alphas."""
    channels = image.pixels.cast("H").tolist()
    return channels[::4], channels[3::4]


def strip(packer, picture, raw):
    """What Pillow's tobytes() answers."""
    encoder = packer(picture.mode, "raw", raw)
    encoder.setimage(picture.im)
    return encoder.encode(1 << 20)[2]


@unittest.skipIf(pillow is None, "Pillow is not there")
class Modes(unittest.TestCase):
    def same(self, picture, other, most=0):
        """The two pictures differ by `most` at most in each channel, but for the colors of
        pixels that are nearly clear."""
        self.assertEqual((picture.mode, picture.size), (other.mode, other.size))
        for one, two in zip(picture.getdata(), other.getdata()):
            if picture.mode == "RGBA" and one[3] == two[3] < 13:
                continue
            one, two = (one, two) if isinstance(one, tuple) else ((one,), (two,))
            self.assertLessEqual(max(abs(a - b) for a, b in zip(one, two)), most, (one, two))

    def test_each_mode_is_what_pillow_makes_of_it(self):
        for mode in ("1", "L", "LA", "P", "RGB", "RGBA", "CMYK", "YCbCr", "HSV", "RGBX", "PA"):
            try:
                picture = gradient(mode)
            except ValueError:
                continue  # this Pillow doesn't make one
            wanted = (
                picture.convert("RGBA")
                if mode != "RGBX"
                else picture.convert("RGB").convert("RGBA")
            )
            self.same(pix.Image.from_pillow(picture).to_pillow(), wanted)
            self.assertEqual(pix.Image.from_pillow(picture, pix.GRAYA8).type, pix.GRAYA8)
        self.same(
            pix.Image.from_pillow(gradient("RGBA").convert("RGBa")).to_pillow(),
            gradient("RGBA"),
            20,
        )
        with mock.patch.object(
            pillow.Image, "convert", side_effect=ValueError("no such conversion")
        ):
            with self.assertRaisesRegex(
                ValueError, "no mode HSV to RGBA: convert the picture first"
            ):
                pix.Image.from_pillow(pillow.new("HSV", (2, 2)))

    def test_a_ramp_of_sixteen_bits(self):
        """It was white but for the first row."""
        with tempfile.TemporaryDirectory() as folder:
            ramp = next(
                file
                for file in odd_files.make_sizes(odd_files.pathlib.Path(folder))
                if file.path.name == "ramp16.png"
            )
            with pillow.open(ramp.path) as picture:
                shown = pix.Image.from_pillow(picture).to_pillow("L")
        self.assertEqual([shown.getpixel((0, y)) for y in (0, 100, 200, 399)], [0, 64, 128, 255])
        self.assertEqual(shown.tobytes(), ramp.rgba[::4])

    def test_all_levels_of_sixteen_bits_are_kept(self):
        levels = [*range(0, 65536, 251), 65535]
        wanted = [_fresh.light_table()[level] for level in levels]
        for mode, order in (("I;16", "<"), ("I;16L", "<"), ("I;16B", ">"), ("I;16N", "=")):
            try:
                picture = words(mode, levels, order)
            except (KeyError, ValueError):
                continue  # this Pillow has no such mode
            self.assertEqual(
                light(pix.Image.from_pillow(picture)), (wanted, [65535] * len(levels)), mode
            )
        wide = pillow.frombytes("I", (len(levels), 1), struct.pack(f"={len(levels)}i", *levels))
        self.assertEqual(light(pix.Image.from_pillow(wide, white=65535))[0], wanted)
        self.assertGreater(len(set(wanted)), 200)

    def test_the_table_of_light_is_the_library_s(self):
        table = _fresh.light_table()
        self.assertEqual(len(table), 65536)
        for level in range(256):
            self.assertEqual(table[257 * level], pix.color_of(pix.SGRAY8, (level,))[0], level)

    def test_the_white_of_wide_numbers(self):
        """A number of the mode I or F may be white or nearly black: it has to be told."""
        for mode in ("I", "F"):
            with self.assertRaisesRegex(ValueError, "write white=65535"):
                pix.Image.from_pillow(pillow.new(mode, (2, 2)))
            for white in (0, -1, float("inf"), float("nan")):
                self.assertRaises(
                    ValueError, pix.Image.from_pillow, pillow.new(mode, (2, 2)), white=white
                )
        gray = gradient("L")
        for mode, factor, white in (
            ("I", 1, 255),
            ("F", 1, 255),
            ("F", 1 / 255, 1.0),
            ("I", 1000, 255000),
        ):
            picture = gray.convert(mode).point(lambda level: level * factor + 0)
            self.same(pix.Image.from_pillow(picture, white=white).to_pillow("L"), gray)
        odd = pillow.frombytes(
            "F", (5, 1), struct.pack("=5f", float("nan"), float("inf"), -float("inf"), 2, -1)
        )
        self.assertEqual(light(pix.Image.from_pillow(odd, white=1))[0], [0, 65535, 0, 65535, 0])
        odd = pillow.frombytes("I", (3, 1), struct.pack("=3i", -5, 70000, 2**31 - 1))
        self.assertEqual(light(pix.Image.from_pillow(odd, white=65535))[0], [0, 65535, 65535])

    def test_a_clear_color(self):
        """What a PNG calls transparent was opaque."""
        for mode, clear in (("RGB", (121, 60, 132)), ("L", None), ("1", 1), ("P", None)):
            picture = gradient("RGB").convert(mode)
            picture.info["transparency"] = clear = (
                picture.getpixel((11, 4)) if clear is None else clear
            )
            alphas = pix.Image.from_pillow(picture).to_pillow().getchannel("A")
            level = (clear, 255)[mode == "1"]
            wanted = [0 if pixel == level else 255 for pixel in picture.getdata()]
            self.assertEqual(list(alphas.getdata()), wanted, mode)
            self.assertIn(0, wanted)
        picture = gradient("RGB")
        picture.info["transparency"] = tuple(
            257 * level for level in picture.getpixel((11, 4))
        )  # of a file of 16 bits
        self.assertEqual(
            pix.Image.from_pillow(picture).to_pillow().getpixel((11, 4)), (0, 0, 0, 0)
        )
        for mode in ("I;16", "I"):
            picture = words("I;16", [7, 30000, 7, 65535]).convert(mode)
            picture.info["transparency"] = 7
            image = pix.Image.from_pillow(picture, white=65535)
            self.assertEqual(light(image)[1], [0, 65535, 0, 65535])
            for wrong in (-1, 65536, "x", (1, 2)):
                picture.info["transparency"] = wrong
                self.assertEqual(
                    set(light(pix.Image.from_pillow(picture, white=65535))[1]), {65535}
                )

    def test_many_strips_are_one_picture(self):
        for size in ((50001, 3), (3, 4001), (300, 1000)):
            noise = pillow.effect_noise(size, 80)
            picture = pillow.merge("RGB", (noise, noise.transpose(pillow.ROTATE_180), noise))
            back = pix.Image.from_pillow(picture)
            self.assertEqual(back.to_pillow("RGB").tobytes(), picture.tobytes())
        for size in ((0, 3), (3, 0), (0, 0)):
            for mode in ("RGBA", "RGB", "L", "LA", "P"):
                image = pix.Image.from_pillow(pillow.new(mode, size))
                self.assertEqual(
                    (image.to_pillow(mode).size, image.to_pillow(mode).mode), (size, mode)
                )

    def test_a_picture_is_its_own(self):
        """What is painted afterwards is not in a picture that was made, nor the other way
        round."""
        image = pix.Image.from_pillow(gradient("RGB"))
        for mode in ("RGBA", "RGB", "L", "LA", "P"):
            picture = image.to_pillow(mode)
            before, pixels = picture.tobytes(), bytes(image.pixels)
            image.run(pix.copy_color((0, 0, 9, 9), pix.srgb("#c87828")))
            self.assertEqual(picture.tobytes(), before)
            painted = bytes(image.pixels)
            picture.paste(picture.resize((4, 4)), (0, 0))
            picture.putpixel((22, 16), 5 if mode in ("L", "P") else (5,) * len(mode))
            self.assertNotEqual(picture.tobytes(), before)
            self.assertEqual(picture.copy().tobytes(), picture.tobytes())
            self.assertEqual(bytes(image.pixels), painted)
            image.run(
                pix.clear(),
                pix.copy_image((0, 0, *SIZE), pix.Image(pixels, *SIZE, type=pix.RGBA16)),
            )

    def test_a_byte_that_is_no_alpha(self):
        """The fourth byte of RGB and RGBX is whatever it is, with numpy and without."""
        data, wanted = bytes(range(1, 25)), bytes(255 if i % 4 == 3 else i + 1 for i in range(24))
        for without in ({}, {"numpy": None}):
            with mock.patch.dict(sys.modules, without):
                self.assertEqual(bytes(_pillow.opaque(data)), wanted)
                grays = b"".join(bytes((level, level, level, 255)) for level in data)
                self.assertEqual(bytes(_pillow.colored(data)), grays)
        picture = pillow.frombytes("RGBX", (3, 2), data)
        self.assertEqual(pix.Image.from_pillow(picture).to_pillow().tobytes(), wanted)

    def test_a_picture_that_lies(self):
        """Pillow itself would read four bytes a pixel of a picture that has one."""
        picture = gradient("L")
        wanted = pix.Image.from_pillow(picture).pixels
        try:
            picture.mode = "RGBA"
        except AttributeError:
            picture._mode = "RGBA"
        self.assertEqual(pix.Image.from_pillow(picture).pixels, wanted)
        for size in ((23, 18), (24, 17), (1, 1000)):
            lying = gradient("RGB")
            lying._size = size
            self.assertRaises((ValueError, SystemError), pix.Image.from_pillow, lying)

    def test_another_pillow(self):
        """Where Pillow has other names inside, the pictures are the same."""
        image = pix.Image.from_pillow(gradient("RGB"))
        with mock.patch.object(
            pillow.core, "map_buffer", side_effect=[TypeError, mock.DEFAULT]
        ) as f:
            f.return_value = pillow.new("RGBX", SIZE).im
            self.assertEqual(image.to_pillow("RGB").mode, "RGB")
            self.assertEqual(f.call_count, 2)
        packer = pillow._getencoder
        with mock.patch.object(pillow, "_getencoder"):
            del pillow._getencoder
            with mock.patch.object(
                pillow.Image, "tobytes", lambda self: strip(packer, self, self.mode)
            ):
                again = pix.Image.from_pillow(gradient("RGB"))
        self.assertEqual(again.pixels, image.pixels)

    def test_a_size_that_malloc_does_not_keep(self):
        """Memory of large pages is as any other: writable, zero at first, and let go."""
        image = pix.Image.new(1100, 1000, pix.RGBA8)
        self.assertIsNot(type(image.pixels.obj), bytearray)
        self.assertEqual((len(image.pixels), any(image.pixels)), (4_400_000, False))
        image.run(pix.copy_color((0, 0, 1100, 1000), pix.srgb("#fff")))
        self.assertEqual(image.to_pillow("RGB").getextrema(), ((255, 255),) * 3)
        self.assertRaises((MemoryError, OverflowError), pix.Image.new, 2**31 - 1, 2**31 - 1)

    def test_two_threads(self):
        """Pictures are read in several threads at once."""
        picture, made = gradient("P").resize((900, 700)), []
        threads = [
            threading.Thread(target=lambda: made.append(pix.Image.from_pillow(picture)))
            for _ in range(4)
        ]
        for thread in threads:
            thread.start()
        for thread in threads:
            thread.join()
        self.assertEqual({bytes(image.pixels) for image in made}, {bytes(made[0].pixels)})
        self.assertEqual(len(made), 4)

    @unittest.skipIf(numpy is None, "no numpy")
    def test_without_numpy_it_is_the_same(self):
        picture = words("I;16", list(range(0, 65536, 99)))
        picture.info["transparency"] = 99
        fast = bytes(pix.Image.from_pillow(picture).pixels)
        kept, sys.modules["numpy"] = sys.modules["numpy"], None
        try:
            slow = bytes(pix.Image.from_pillow(picture).pixels)
        finally:
            sys.modules["numpy"] = kept
        self.assertEqual(fast, slow)


@unittest.skipIf(pillow is None, "Pillow is not there")
class Indexed(unittest.TestCase):
    def test_a_table_that_is_given(self):
        image = pix.Image.from_pillow(gradient("RGB"))
        table = bytes((0, 0, 0, 255, 255, 255, 200, 30, 90))
        indices = pix.map_indexed(table, gradient("RGB").tobytes())
        for colors in (
            table,
            [(0, 0, 0), "#fff", pix.srgb(200, 30, 90)],
            memoryview(table).cast("B", (3, 3)),
        ):
            picture = image.to_pillow("P", colors)
            self.assertEqual(
                (picture.mode, picture.tobytes(), "transparency" in picture.info),
                ("P", bytes(indices), False),
            )
            self.assertEqual(picture.convert("RGB").tobytes(), bytes(pix.look_up(table, indices)))
        diffused = image.to_pillow("P", table, diffuse=True)
        self.assertEqual(
            diffused.tobytes(),
            bytes(pix.diffuse_indexed(table, gradient("RGB").tobytes(), SIZE[0])),
        )

    def test_a_table_of_its_own(self):
        few = gradient("RGB").quantize(40).convert("RGB")
        picture = pix.Image.from_pillow(few).to_pillow("P")
        self.assertEqual(picture.convert("RGB").tobytes(), few.tobytes())
        many = pix.Image.from_pillow(gradient("RGB")).to_pillow("P")
        self.assertEqual((many.mode, many.size), ("P", SIZE))

    def test_clear_pixels(self):
        source = gradient("RGB").quantize(9).convert("RGBA")
        source.putalpha(gradient("L").point(lambda level: 255 if level > 90 else 0))
        picture = pix.Image.from_pillow(source).to_pillow("P")
        shown = picture.convert("RGBA")
        self.assertEqual(shown.getchannel("A").tobytes(), source.getchannel("A").tobytes())
        back = pix.Image.from_pillow(picture)
        self.assertEqual(
            back.to_pillow().getchannel("A").tobytes(), source.getchannel("A").tobytes()
        )
        for color, level in zip(shown.getdata(), source.getdata()):
            self.assertTrue(level[3] == 0 or color == level)
        clear = pix.Image.new(3, 2, pix.RGBA8)
        self.assertEqual(
            list(clear.to_pillow("P").convert("RGBA").getchannel("A").getdata()), [0] * 6
        )
        self.assertRaisesRegex(
            ValueError, "no room for clear pixels", clear.to_pillow, "P", bytes(768)
        )

    def test_alphas_that_are_kept(self):
        """Few colors come back with their alphas, through a PNG too; many become the nearest."""
        few = gradient("RGB").quantize(9).convert("RGBA")
        few.putalpha(gradient("L").point(lambda level: 255 if level > 90 else level // 30 * 20))
        image = pix.Image.from_pillow(few)
        picture = image.to_pillow("P", keep_alpha=True)
        self.assertEqual(picture.mode, "P")
        over_black = lambda it: [
            (*((2 * level * pixel[3] + 255) // 510 for level in pixel[:3]), pixel[3])
            for pixel in it.convert("RGBA").getdata()
        ]
        self.assertEqual(over_black(picture), over_black(image.to_pillow()))
        alphas = picture.info["transparency"]
        self.assertTrue(alphas and all(alpha < 255 for alpha in alphas))
        file = io.BytesIO()
        picture.save(file, "PNG")
        with pillow.open(file) as read:
            self.assertEqual(read.info["transparency"], alphas)
            back = pix.Image.from_pillow(read)
        self.assertEqual(back.pixels, pix.Image.from_pillow(picture).pixels)
        table = bytes((200, 30, 90, 255, 0, 0, 0, 0, 255, 255, 255, 128))
        pixels = image.to_array(pix.SRGBA8)
        for diffuse, indices in (
            (False, pix.map_indexed_rgba(table, pixels)),
            (True, pix.diffuse_indexed_rgba(table, pixels, SIZE[0])),
        ):
            for colors in (table, ["#c81e5a", (0, 0, 0, 0), "#ffffff80"]):
                picture = image.to_pillow("P", colors, diffuse, keep_alpha=True)
                self.assertEqual(picture.tobytes(), bytes(indices))
                shown = bytes(pix.look_up_rgba(table, indices))
                self.assertEqual(picture.convert("RGBA").tobytes(), shown)
        opaque = pix.Image.from_pillow(gradient("RGB")).to_pillow("P", keep_alpha=True)
        self.assertNotIn("transparency", opaque.info)
        self.assertEqual(pix.Image.new(0, 3, pix.RGBA8).to_pillow("P", keep_alpha=True).size, (0, 3))
        for wrong in (b"", bytes(3), bytes(4 * 257), []):
            self.assertRaises(ValueError, image.to_pillow, "P", wrong, keep_alpha=True)
        self.assertRaises(ValueError, image.to_pillow, "RGBA", keep_alpha=True)

    def test_what_is_refused(self):
        image = pix.Image.new(2, 2, pix.RGBA8)
        for wrong in (b"", bytes(4), bytes(771), [], ["reddish"], [(1, 2)]):
            self.assertRaises(ValueError, image.to_pillow, "P", wrong)
        made = mock.patch.object(_pillow, "pixels_of", side_effect=AssertionError("all pixels"))
        for more in ({}, {"keep_alpha": True}):
            with made:
                self.assertRaises(ValueError, image.to_pillow, "P", b"12", **more)
        for mode in ("CMYK", "p", "", None, "I"):
            with self.assertRaisesRegex(ValueError, "is none of RGBA, RGB, L, LA and P"):
                image.to_pillow(mode)
        self.assertRaisesRegex(ValueError, "has no table", image.to_pillow, "RGB", bytes(3))


if __name__ == "__main__":
    unittest.main()
