"""Picture files: each odd one is what Pillow makes of it, with Pillow and without; what is
saved comes back; refusals say why."""

import io
import os
import pathlib
import struct
import subprocess
import sys
import tempfile
import time
import unittest
import warnings
import zlib
from unittest import mock

import odd_files
import pix
from pix import Format, _png

try:
    from PIL import Image as pillow
except ImportError:
    pillow = None


def alone(is_alone=True):
    """A context in which Pillow isn't there, or in which all is as it is."""
    return mock.patch.dict(sys.modules, {"PIL": None} if is_alone else {})


def straight(image):
    """The picture of an image as bytes of red, green, blue and alpha."""
    return bytes(image.to_array(pix.SRGBA8))


def fan(size=(40, 30), kind=pix.RGBA16, opacity=1.0):
    """An image of colors that differ from place to place, over a ground."""
    image = pix.Image.new(*size, kind)
    image.run(pix.copy_color((0, 0, *size), pix.srgb("#203040", opacity=opacity)))
    for i in range(0, size[0], 4):
        image.run(
            pix.composite_color(
                (i, i // 2, 9, 9), pix.srgb(i * 6 % 256, 255 - i % 256, i * 37 % 256, 200)
            )
        )
    return image


class Trial(unittest.TestCase):
    def setUp(self):
        folder = tempfile.TemporaryDirectory()
        self.addCleanup(folder.cleanup)
        self.folder = pathlib.Path(folder.name)

    def alike(self, one, other, most=0):
        """Two pictures of bytes differ by `most` at most, but where their pixels are nearly
        clear."""
        self.assertEqual(len(one), len(other))
        if one == other:
            return
        for i in range(0, len(one), 4):
            a, b = one[i : i + 4], other[i : i + 4]
            if a != b and max(a[3], b[3]) > 13:
                self.assertLessEqual(max(abs(x - y) for x, y in zip(a, b)), most, (i // 4, a, b))


class OddFiles(Trial):
    """Files that programs stumble over."""

    @classmethod
    def setUpClass(cls):
        folder = tempfile.TemporaryDirectory()
        cls.addClassCleanup(folder.cleanup)
        cls.files = odd_files.make(pathlib.Path(folder.name))

    def refused(self, file):
        """The file is refused by an OSError with a sentence that names it."""
        with self.assertRaises(OSError) as caught:
            pix.Image.open(file.path)
        self.assertIn(file.path.name, str(caught.exception))
        self.assertGreater(len(str(caught.exception)), len(str(file.path)) + 10)

    def test_there_are_many(self):
        self.assertGreaterEqual(len(self.files), 40)

    @unittest.skipIf(pillow is None, "Pillow is not there")
    def test_each_is_what_pillow_makes_of_it(self):
        for file in self.files:
            with self.subTest(file.path.name):
                if file.size is None:
                    self.refused(file)
                    continue
                image, wanted = pix.Image.open(file.path), odd_files.pillow_picture(file.path)
                self.assertEqual((image.width, image.height), file.size)
                # Of 16 bits Pillow cuts the lower ones off, and this package rounds.
                deep = file.path.suffix == ".pgm" or "16" in file.path.name
                self.alike(straight(image), wanted.tobytes(), 1 if deep else 0)
                if file.rgba:
                    self.alike(straight(image), file.rgba, 1)

    def test_each_without_pillow(self):
        for file in self.files:
            with self.subTest(file.path.name), alone():
                if file.rgba is None:
                    self.refused(file)
                    continue
                image = pix.Image.open(file.path)
                self.assertEqual((image.width, image.height), file.size)
                self.alike(straight(image), file.rgba, 1 if "16" in file.path.name else 0)

    @unittest.skipIf(pillow is None, "Pillow is not there")
    def test_eight_ways_to_turn_a_photograph(self):
        """Its EXIF was not looked at."""
        files = [file for file in self.files if file.path.name.startswith("exif-")]
        self.assertEqual(len(files), 9)
        for file in files:
            image = pix.Image.open(file.path, pix.RGBA8)
            self.assertEqual((image.width, image.height), (48, 32))
            self.alike(straight(image), odd_files.blocks().convert("RGBA").tobytes(), 12)

    @unittest.skipIf(pillow is None, "Pillow is not there")
    def test_an_exif_that_is_none(self):
        """A picture whose EXIF can't be read is shown as it is stored."""
        for exif in (b"Exif\0\0", b"Exif\0\0nothing at all", b"Exif\0\0II*\0\xff\xff\xff\xff"):
            file = io.BytesIO()
            odd_files.blocks().save(file, "JPEG", quality=95, exif=exif)
            with warnings.catch_warnings():
                warnings.simplefilter("ignore")
                image = pix.Image.open(file)
            self.assertEqual((image.width, image.height), (48, 32))

    def test_what_else_is_no_picture(self):
        good = next(
            file.path for file in self.files if file.path.name == "color8.png"
        ).read_bytes()
        head = good[16:29]
        for name, data in {
            "no-pixels": (
                b"\x89PNG\r\n\x1a\n"
                + odd_files.chunk(b"IHDR", head)
                + odd_files.chunk(b"IEND", b"")
            ),
            "no-head": b"\x89PNG\r\n\x1a\n" + odd_files.chunk(b"IEND", b""),
            "huge": (
                b"\x89PNG\r\n\x1a\n"
                + odd_files.chunk(b"IHDR", struct.pack(">II", 2**31 - 1, 2**31 - 1) + head[8:])
                + odd_files.chunk(b"IDAT", zlib.compress(bytes(100)))
                + odd_files.chunk(b"IEND", b"")
            ),
            "no-bits": good.replace(head, head[:8] + b"\3" + head[9:]),
            "no-palette": odd_files.png((3, 3), odd_files.PALETTE, 8, lambda x, y: [x]),
            "unknown": odd_files.png(
                (3, 3), odd_files.GRAY, 8, lambda x, y: [x], odd_files.chunk(b"ABCD", b"")
            ),
            "filter": odd_files.png((1, 1), odd_files.GRAY, 8, lambda x, y: [x]).replace(
                odd_files.chunk(b"IDAT", zlib.compress(b"\0\0")),
                odd_files.chunk(b"IDAT", zlib.compress(b"\5\0")),
            ),
            "ppm-white": b"P6 1 1 0\n" + bytes(6),
            "ppm-size": b"P6 99999999999 1 255\n" + bytes(6),
            "ppm-huge": b"P5 2147483647 2147483647 65535\n" + bytes(6),
        }.items():
            with self.subTest(name), alone():
                self.assertRaises(OSError, pix.Image.open, io.BytesIO(data))


    def test_what_pillow_stumbles_over(self):
        """All of it is an OSError, whatever Pillow raises."""
        good = next(file.path for file in self.files if file.path.name == "color8.png")
        good = good.read_bytes()
        huge = odd_files.chunk(b"IHDR", struct.pack(">II", 100_000, 100_000) + good[24:29])
        for name, data in {
            "ppm-word": b"P6 x 1 255\n" + bytes(6),
            "ppm-end": b"P6 1",
            "ppm-none": b"P6\n",
            "short-head": good[:8] + odd_files.chunk(b"IHDR", good[16:20]),
            "huge": good[:8] + huge + good[33:],
            "cut": good[:60],
        }.items():
            for is_alone in (True, False):
                with self.subTest(name, is_alone=is_alone), alone(is_alone):
                    with self.assertRaises(OSError) as caught:
                        pix.Image.open(io.BytesIO(data))
                    self.assertRegex(str(caught.exception), "^the picture: ....")


class Limits(Trial):
    """A picture of more pixels than are allowed is refused at its head."""

    def heads(self, width, height):
        """Files of so many pixels, of which there is the head and little more."""
        head = struct.pack(">IIBBBBB", width, height, 8, 2, 0, 0, 0)
        data = odd_files.chunk(b"IHDR", head) + odd_files.chunk(b"IDAT", zlib.compress(bytes(9999)))
        yield b"\x89PNG\r\n\x1a\n" + data + odd_files.chunk(b"IEND", b"")
        yield b"P6 %d %d 255\n" % (width, height) + bytes(99)

    def test_it_is_refused_at_the_head(self):
        for size in ((30_000, 30_000), (100_000, 100_000), (2**31 - 1, 2**31 - 1), (13378, 13378)):
            for data in self.heads(*size):
                for is_alone in (True, False):
                    started = time.process_time()
                    with alone(is_alone), self.assertRaises(OSError) as caught:
                        pix.Image.open(io.BytesIO(data))
                    self.assertLess(time.process_time() - started, 1)
                    self.assertRegex(str(caught.exception), "pixels.*limit=")

    def test_it_can_be_set(self):
        file = io.BytesIO()
        fan((40, 30)).save(file, "PNG")
        for is_alone in (True, False):
            with alone(is_alone):
                with self.assertRaisesRegex(OSError, "1200 pixels are more than 1199.*limit="):
                    pix.Image.open(file, limit=1199)
                for limit in (1200, 10**12, None):
                    self.assertEqual(pix.Image.open(file, limit=limit).width, 40)

    @unittest.skipIf(pillow is None, "Pillow is not there")
    def test_beyond_what_pillow_allows(self):
        file = io.BytesIO()
        fan((40, 30)).save(file, "PNG")
        with mock.patch.object(pillow, "MAX_IMAGE_PIXELS", 100):
            self.assertRaisesRegex(OSError, "limit=", pix.Image.open, file)
            for limit in (1200, None):
                self.assertEqual(pix.Image.open(file, limit=limit).width, 40)
                self.assertEqual(pillow.MAX_IMAGE_PIXELS, 100)


class Saved(Trial):
    def comes_back(self, image, name, **options):
        path = self.folder / name
        image.save(path, **options)
        again = pix.Image.open(path)
        self.assertEqual(straight(again), straight(image), name)
        if pillow is not None:
            with pillow.open(path) as picture:
                self.assertEqual(picture.convert("RGBA").tobytes(), straight(image))
            with alone():
                self.assertEqual(straight(pix.Image.open(path)), straight(image))

    def test_a_picture_comes_back(self):
        opaque = [fan(), fan((1, 1)), fan((301, 7), pix.RGBA8)]
        for image in opaque:
            for name in ("a.png", "a.ppm", "A.PNG"):
                self.comes_back(image, name)
                with alone():
                    self.comes_back(image, name)
        gray = fan(kind=pix.GRAYA8)
        for image, name in (
            (gray, "gray.pgm"),
            (gray, "gray.png"),
            (fan(kind=pix.GRAYA8, opacity=0.4), "alpha.png"),
            (fan(opacity=0.4), "alpha.png"),
        ):
            self.comes_back(image, name)
            with alone():
                self.comes_back(image, name)

    def test_the_kind_of_png(self):
        for image, color in (
            (fan(), 2),
            (fan(opacity=0.5), 6),
            (fan(kind=pix.GRAYA8), 0),
            (fan(kind=pix.GRAYA8, opacity=0.5), 4),
        ):
            for is_alone in (True, False):
                file = io.BytesIO()
                with alone(is_alone):
                    image.save(file, "PNG")
                self.assertEqual(file.getvalue()[24:26], bytes((8, color)))

    def test_by_a_path_a_text_and_an_open_file(self):
        image, path = fan(), self.folder / "a.png"
        for name in (path, str(path), os.fsencode(path)):
            for is_alone in (True, False):
                with alone(is_alone):
                    image.save(name)
                    self.assertEqual(straight(pix.Image.open(name)), straight(image))
                    path.unlink()
        for is_alone in (True, False):
            with alone(is_alone), open(path, "w+b") as file:
                image.save(file, format="png")
                file.seek(0)
                self.assertEqual(straight(pix.Image.open(file)), straight(image))

    @unittest.skipIf(pillow is None, "Pillow is not there")
    def test_what_pillow_writes(self):
        for name, options, most in (
            ("a.jpg", {"quality": 95, "subsampling": 0}, 40),
            ("a.bmp", {}, 0),
            ("a.tif", {}, 0),
            ("a.gif", {}, 255),
        ):
            image = fan()
            image.save(self.folder / name, **options)
            self.alike(straight(pix.Image.open(self.folder / name)), straight(image), most)

    def test_a_file_without_an_alpha(self):
        """It is refused with what to write, which does it."""
        for name in ("a.jpg", "a.ppm", "a.pgm")[pillow is None :]:
            image = fan(opacity=0.5)
            with self.assertRaisesRegex(
                ValueError, "has no alpha.*paint a ground behind it first"
            ) as caught:
                image.save(self.folder / name)
            exec(str(caught.exception).split(", as ")[-1], {"pix": pix, "image": image})
            image.save(self.folder / name)

    def test_refusals(self):
        image = fan()
        self.assertRaisesRegex(
            ValueError, "0 x 3 pixels is no file", pix.Image.new(0, 3, pix.RGBA8).save, self.folder / "a.png"
        )
        self.assertRaises(ValueError, image.save, self.folder / "a.nothing")
        self.assertRaises(OSError, image.save, self.folder / "none" / "a.png")
        self.assertRaises(TypeError, image.save, self.folder / "a.ppm", quality=3)
        self.assertRaises(TypeError, pix.Image.open, self.folder / "a.png", "RGBA8")
        for wrong in (None, 3.5, {}, 5, object()):
            for is_alone in (True, False):
                with alone(is_alone):
                    said = "neither a path nor a file that is open"
                    self.assertRaisesRegex(TypeError, said, pix.Image.open, wrong)
                    self.assertRaisesRegex(TypeError, said, image.save, wrong, "PNG")
                    file, said = io.BytesIO(), "write format='PNG'"
                    self.assertRaisesRegex(TypeError, said, image.save, file, 5)
                    for named in ({"format": "none"}, {"format": "JPG"}, {}):
                        self.assertRaises(ValueError, image.save, file, **named)
        with alone():
            self.assertRaisesRegex(ValueError, "write format='PNG'", image.save, io.BytesIO())
            self.assertRaisesRegex(ValueError, "without Pillow", image.save, self.folder / "a.jpg")
        self.assertEqual(sorted(path.name for path in self.folder.iterdir()), [])

    @unittest.skipIf(pillow is None, "Pillow is not there")
    def test_numbers_whose_white_is_not_told(self):
        path = self.folder / "wide.tif"
        pillow.new("F", (3, 2), 0.5).save(path)
        self.assertRaisesRegex(ValueError, "write white=65535", pix.Image.open, path)
        self.assertEqual(
            straight(pix.Image.open(path, white=1.0))[:4], bytes((128, 128, 128, 255))
        )

    def test_notebooks(self):
        for is_alone in (True, False):
            with alone(is_alone):
                shown = fan()._repr_png_()
                self.assertEqual(straight(pix.Image.open(io.BytesIO(shown))), straight(fan()))
                self.assertIsNone(pix.Image.new(0, 4, pix.RGBA8)._repr_png_())


class Readme(Trial):
    """What bindings/README.md shows."""

    @unittest.skipIf(pillow is None, "Pillow is not there")
    def test_the_example_of_files(self):
        text = (pathlib.Path(__file__).resolve().parent.parent / "README.md").read_text()
        code = next(part for part in text.split("```python\n") if "Image.open" in part).split(
            "```"
        )[0]
        pillow.effect_noise((90, 60), 60).convert("RGB").save(self.folder / "photo.jpg")
        ran = subprocess.run(
            [sys.executable, "-c", code],
            cwd=self.folder,
            capture_output=True,
            text=True,
            env={**os.environ, "PYTHONPATH": str(pathlib.Path(pix.__file__).parent.parent)},
        )
        self.assertEqual((ran.returncode, ran.stderr), (0, ""))
        with pillow.open(self.folder / "badged.png") as made:
            self.assertEqual((made.size, made.mode), ((90, 60), "RGB"))
            self.assertNotEqual(made.getpixel((20, 20)), made.getpixel((80, 50)))


class Png(Trial):
    """The reader of this package."""

    def test_all_filters_of_all_widths(self):
        for width in (1, 2, 3, 7, 8, 9, 17):
            for interlaced in (False, True):

                def at(x, y):
                    return (x * 67 + y * 3) & 255, (y * 129 + x) & 255, (x * y) & 255, 255 - x - y

                data = odd_files.png((width, 11), odd_files.COLOR_ALPHA, 8, at, b"", interlaced)
                wanted = b"".join(bytes(at(x, y)) for y in range(11) for x in range(width))
                read = _png.read_png(data)
                self.assertEqual(
                    (read.width, read.height, read.format, read.data.tobytes()),
                    (width, 11, Format.SRGBA8, wanted),
                )

    def test_each_turn(self):
        pixels = list("abcdef")
        codes = [ord(letter) for letter in pixels]
        for how, rows in (
            (1, ["abc", "def"]),
            (2, ["cba", "fed"]),
            (3, ["fed", "cba"]),
            (4, ["def", "abc"]),
            (5, ["ad", "be", "cf"]),
            (6, ["da", "eb", "fc"]),
            (7, ["fc", "eb", "da"]),
            (8, ["cf", "be", "ad"]),
        ):
            width, height, turned = _png.turned(3, 2, _png.array("I", codes), how)
            self.assertEqual((width, height), (len(rows[0]), len(rows)))
            self.assertEqual("".join(map(chr, turned)), "".join(rows), how)

    def test_an_exif_that_is_cut(self):
        exif = b"II*\0\x08\0\0\0\1\0\x12\1\3\0\1\0\0\0\6\0\0\0"
        self.assertEqual(_png.orientation(exif), 6)
        for end in range(len(exif) - 2):
            self.assertEqual(_png.orientation(exif[:end]), 1)
        self.assertEqual(_png.orientation(exif.replace(b"\6", b"\x09")), 1)


class Colors(unittest.TestCase):
    """What a PNG says of its colors is told, with Pillow and without, and changes no number."""

    PROFILE = zlib.compress(b"a profile of Adobe RGB" * 9)
    OWN = struct.pack(">8I", 31270, 32900, 64000, 33000, 30000, 60000, 15000, 6000)
    FILES = [
        ([], None),
        ([(b"sRGB", b"\0"), (b"gAMA", struct.pack(">I", 45455)), (b"cHRM", OWN)], None),
        ([(b"gAMA", struct.pack(">I", 45455)), (b"cHRM", OWN)], None),
        ([(b"gAMA", struct.pack(">I", 100000))], "gAMA 1.00000"),
        ([(b"cHRM", struct.pack(">8I", 31270, 32900, 64000, 33000, 21000, 71000, 15000, 6000))], "a cHRM of their own"),
        ([(b"sRGB", b"\0"), (b"gAMA", struct.pack(">I", 100000))], None),
        ([(b"iCCP", b"other\0\0" + PROFILE)], "(iCCP)"),
        ([(b"iCCP", b"s\0\0" + zlib.compress(b"sRGB IEC61966-2.1" * 9))], None),
    ]
    # What Pillow refuses.
    BROKEN = [([(b"gAMA", b"\0")], None)]

    def test_told(self):
        for is_alone in (True, False) if pillow else (True,):
            for chunks, wanted in [*self.FILES, *self.BROKEN * is_alone]:
                with self.subTest(chunks=chunks, is_alone=is_alone), alone(is_alone), warnings.catch_warnings(record=True) as said:
                    warnings.simplefilter("always")
                    file = io.BytesIO(self.file_of(chunks))
                    image = pix.Image.open(file)
                    said = [it for it in said if it.category is pix.ColorWarning]
                    self.assertEqual(len(said), int(wanted is not None))
                    self.assertTrue(all(wanted in str(it.message) for it in said), [str(it.message) for it in said])
                    self.assertTrue(all(it.filename == __file__ for it in said), [it.filename for it in said])
                    self.assertEqual(straight(image), bytes([200, 120, 40, 255]))

    @staticmethod
    def file_of(chunks):
        """A file of one pixel with these chunks."""
        head = struct.pack(">IIBBBBB", 1, 1, 8, 2, 0, 0, 0)
        parts = [(b"IHDR", head), *chunks, (b"IDAT", zlib.compress(b"\0\xc8\x78\x28")), (b"IEND", b"")]
        return _png.SIGNATURE + b"".join(_png.chunk(*part) for part in parts)


if __name__ == "__main__":
    unittest.main()
