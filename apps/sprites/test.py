#!/usr/bin/env python3
"""Tries the sprites: that they are painted in place and move, that bands by threads are the whole, and the errors.

    apps/sprites/test.py [TEST..]

Needs Pillow and apps/out/sprites: tools/apps builds it. APPS in the environment
names another folder than apps/out. A TEST is a name, as
Sprites.test_help; without one all are tried.
"""

import pathlib
import re
import sys

sys.path.insert(0, str(pathlib.Path(__file__).resolve().parent.parent / "common"))
from trial import PICTURES, PROGRAMS, Image, Trial, main, open_picture  # noqa: E402

ATLAS = PICTURES / "atlas.png"
WAYS = ([], ["--light"])
LINE = re.compile(r"(\d+) sprites, (\d+) x (\d+), (bytes|16 bit light), (\d+) threads?: (\d+) frames, [\d.]+ a second; .*\n")


class Sprites(Trial):
    """In a window that no screen shows."""

    program = (PROGRAMS / "sprites",)

    def frame(self, atlas, count, frames, *more, size=(60, 40)):
        """Returns the last of so many frames, and the words of the line at the end."""
        saved = self.folder / "frame.png"
        words = ["--count", count, "--frames", frames, "--size", "%dx%d" % size, "--save", saved, *more]
        line = LINE.fullmatch(self.run_program(*words, atlas).stdout)
        self.assertEqual([int(n) for n in line.group(1, 2, 3, 6)], [count, *size, frames])
        return open_picture(saved), line

    def cells(self, *colors, side=8):
        """Returns an atlas of squares of these colors."""
        atlas = Image.new("RGBA", (side * len(colors), side))
        for number, color in enumerate(colors):
            atlas.paste(color, (side * number, 0, side * number + side, side))
        return self.picture("cells.png", atlas)

    def test_squares_over_the_sky(self):
        """Opaque sprites are seen in their own color, each whole where it lies inside, and the sky is as it was around them."""
        red = (250, 3, 7, 255)
        for way in WAYS:
            sky, _ = self.frame(self.cells((0, 0, 0, 0)), 4, 1, *way)
            seen, _ = self.frame(self.cells(red), 4, 1, *way)
            count = 0
            for painted, under in zip(seen.getdata(), sky.getdata()):
                self.assertIn(painted, (red, under))
                count += painted == red
            self.assertTrue(64 <= count <= 4 * 64, count)

    def test_sprites_move(self):
        """After some frames a sprite is a square elsewhere."""
        boxes = []
        for frames in (1, 4, 9):
            sky, _ = self.frame(self.cells((0, 0, 0, 0)), 1, frames, size=(200, 200))
            seen, _ = self.frame(self.cells((255, 255, 255, 255)), 1, frames, size=(200, 200))
            white = seen.convert("L").point(lambda level: 255 if level == 255 else 0)
            self.assertIsNone(sky.convert("L").point(lambda level: 255 if level == 255 else 0).getbbox())
            boxes.append(white.getbbox())
        for places in zip(*boxes):
            self.assertEqual(len(set(places)), 3)
        self.assertEqual(len({(right - left, bottom - top) for left, top, right, bottom in boxes}), 1)

    def test_bands_are_the_whole(self):
        for way in WAYS:
            whole, line = self.frame(ATLAS, 50, 2, *way, size=(150, 101))
            self.assertEqual(line[4], "16 bit light" if way else "bytes")
            for threads in (2, 3, 7, 150):
                bands, line = self.frame(ATLAS, 50, 2, "--threads", threads, *way, size=(150, 101))
                self.assertEqual(int(line[5]), threads)
                self.assert_same(bands, whole)

    def test_light_is_another_way(self):
        """The rim of a white sprite is lighter in light, and the sprite's middle is the same."""
        soft = Image.new("RGBA", (16, 16), (255, 255, 255, 128))
        soft.paste((255, 255, 255, 255), (4, 4, 12, 12))
        path = self.picture("soft.png", soft)
        in_bytes, _ = self.frame(path, 9, 1)
        in_light, _ = self.frame(path, 9, 1, "--light")
        lighter = sum(light[0] > byte[0] + 20 for light, byte in zip(in_light.getdata(), in_bytes.getdata()))
        self.assertGreater(lighter, 100)
        for light, byte in zip(in_light.getdata(), in_bytes.getdata()):
            self.assertEqual(light == (255, 255, 255, 255), byte == (255, 255, 255, 255))

    def sky(self, *way, size):
        """Returns the rows of the sky alone, each as its points."""
        picture = self.frame(self.cells((0, 0, 0, 0)), 1, 1, *way, size=size)[0].convert("RGB")
        points = list(picture.getdata())
        return [points[at : at + size[0]] for at in range(0, len(points), size[0])]

    def test_the_sky_has_no_bands(self):
        """No row changes all its points at once, no row is far from the one above it, and points of a row are near each other."""
        for way in WAYS:
            for size in ((240, 540), (100, 1600), (150, 400)):
                rows = self.sky(*way, size=size)
                edges = sum(len(set(above)) == len(set(row)) == 1 and above != row for above, row in zip(rows, rows[1:]))
                means = [[sum(channel) / len(row) for channel in zip(*row)] for row in rows]
                bands = sum(max(abs(a - b) for a, b in zip(*pair)) > 2 for pair in zip(means, means[1:]))
                spread = max(max(channel) - min(channel) for row in rows for channel in zip(*row))
                self.assertEqual((edges, bands), (0, 0), f"{way} {size}: rows that end a color, and rows far from the one above")
                self.assertLessEqual(spread, 8)
                self.assertGreater(means[-1][0] - means[0][0], 100)

    def test_help(self):
        self.has_help()
        self.says_no_room("--help")
        self.says_no_room("--frames", 1, "--count", 1, "--size", "8x8", ATLAS)

    def test_wrong_uses(self):
        for sentence, *words in [
            ("name an atlas",), ("there is one atlas", ATLAS, ATLAS), ("there is no option --wide", "--wide", "3", ATLAS),
            ("its value is missing", ATLAS, "--count"), ("--count takes a number from 1", "--count", "0", ATLAS),
            ("and not -3", "--count", "-3", ATLAS), ("and not 3x", "--count", "3x", ATLAS), ("and not many", "--count", "many", ATLAS),
            ("and not 99999999999999999999", "--count", "99999999999999999999", ATLAS), ("--frames takes", "--frames", "0", ATLAS),
            ("--threads takes a number from 1 to 256", "--threads", "257", ATLAS), ("takes a width and a height", "--size", "9", ATLAS),
            ("--size takes a number", "--size", "9x", ATLAS), ("--size takes a number", "--size", "9x9x9", ATLAS),
        ]:  # fmt: skip
            self.refuses(2, sentence, *words)

    def test_files(self):
        for file in (self.folder / "none.png", self.folder, self.file("words.png", b"words")):
            self.refuses(1, str(file), "--frames", "1", file)
        for file in (self.folder, self.folder / "none/out.png", "/dev/full"):
            self.refuses(1, str(file), "--frames", "1", "--count", "1", "--size", "8x8", "--save", file, ATLAS)
        self.keeps_old("--frames", 1, "--count", 99, "--size", "300x200", "--save", "OLD", ATLAS)


if __name__ == "__main__":
    main()
