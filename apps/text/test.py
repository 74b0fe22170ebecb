#!/usr/bin/env python3
"""Tries the text: kerning, shaping, directions, rows, other fonts, the atlas, thin letters in each mode, and the errors.

    apps/text/test.py [TEST..]

Needs Pillow, DejaVu's fonts and apps/out/text: tools/apps builds it. APPS in the environment
names another folder than apps/out. A TEST is a name, as
Text.test_help; without one all are tried.
"""

import pathlib
import re
import sys

sys.path.insert(0, str(pathlib.Path(__file__).resolve().parent.parent / "common"))
import boxes  # noqa: E402
from trial import PICTURES, PROGRAMS, Image, ImageChops, Trial, main, open_picture  # noqa: E402

LAKE = PICTURES / "lake.jpg"
SANS = "/usr/share/fonts/truetype/dejavu/DejaVuSans.ttf"
LINE = re.compile(r"(.*): (\d+) masks, (\d+) pixels wide at a size of (\d+)(?:, in (\d+) rows)?")
# The heights of the boxes of a font, in tenths of its size: letters from left to right, from right to left, and of Chinese.
HEIGHTS = {"a": 1, "b": 2, "1": 3, "\u05d0": 4, "\u05d1": 5, "\u05d2": 6, "\u4e2d": 7, "\u3002": 8, " ": 0}
SIZE, STEP, MARGIN = 40, 16, 14
# A list of fonts for fontconfig: those of one folder.
FONTS = '<?xml version="1.0"?><!DOCTYPE fontconfig SYSTEM "urn:fontconfig:fonts.dtd"><fontconfig><dir>%s</dir><cachedir>%s</cachedir></fontconfig>'


class Text(Trial):
    """Pictures by files alone."""

    program = (PROGRAMS / "text",)

    def write(self, *words, photo=LAKE, **more):
        """Returns both halves of the picture, and for each line how many masks it has, and how wide it is."""
        saved = self.folder / "text.png"
        self.ran = self.run_program("--report", "--photo", photo, "--save", saved, *words, **more)
        lines = self.ran.stdout.splitlines()
        last = lines.pop().split()
        self.masks, self.fonts = int(last[0]), int(last[3])
        picture = open_picture(saved)
        half = picture.width // 2
        parts = [picture.crop((0, 0, half, picture.height)), picture.crop((picture.width - half, 0, picture.width, picture.height))]
        return parts, [(int(line[2]), int(line[3])) for line in map(LINE.fullmatch, lines)]

    def ground(self, color, size=(640, 60)):
        """Returns the path of a picture of one color."""
        return self.picture("ground.png", Image.new("RGB", size, color))

    def font(self, name, characters):
        """Returns the path of a new font file with boxes for these characters."""
        (self.folder / "fonts").mkdir(exist_ok=True)
        return self.file(f"fonts/{name}.ttf", boxes.font(name, {one: 100 * HEIGHTS[one] for one in characters}))

    def boxes(self, text, *words, height=300, font=None, **more):
        """Returns for each row of a text which characters are seen in it from left to right, and where it begins and ends."""
        font = font or self.font("all", HEIGHTS)
        photo = self.ground((0, 0, 0), size=(2 * 320, height))
        (left, _), _ = self.write("--font", font, "--size", SIZE, *words, text, photo=photo, **more)
        left, rows = left.convert("L").point(lambda level: 255 * (level > 127)), []
        for bottom in range(SIZE + SIZE // 4, height, SIZE + SIZE // 4):
            row = left.crop((0, bottom - SIZE, left.width, bottom))
            highs = [sum(row.crop((x, 0, x + 1, SIZE)).tobytes()) // 255 for x in range(row.width)]
            starts = [x for x, high in enumerate(highs) if high and not highs[x - 1]]
            kinds = {height * SIZE // 10: one for one, height in HEIGHTS.items()}
            seen = "".join(kinds.get(highs[x + 2], "?") for x in starts)
            rows += [(seen, starts[0], max(x for x, high in enumerate(highs) if high) + 1)] if seen else []
        return rows

    def seen(self, text, *words, **more):
        """Returns which characters are seen in each row."""
        return [row for row, _, _ in self.boxes(text, *words, **more)]

    def built_with(self, library):
        """Skips a test where the program was built without a library."""
        if f"with {library}" not in self.run_program("--help").stdout:
            self.skipTest(f"the program was built without {library}")

    def built_without(self, library):
        """Skips a test where the program was built with a library."""
        if f"without {library}" not in self.run_program("--help").stdout:
            self.skipTest(f"the program was built with {library}")

    def fonts_of(self, *names):
        """Returns an environment in which fontconfig knows these fonts of boxes alone, each with its characters."""
        other = self.folder / "others"
        other.mkdir()
        for name, characters in names:
            self.font(name, characters).rename(other / f"{name}.ttf")
        return {"FONTCONFIG_FILE": str(self.file("fonts.conf", (FONTS % (other, other)).encode()))}

    def test_right_to_left(self):
        """The first letter of Hebrew stands on the right, and a line of it ends at the right margin."""
        [(seen, left, right)] = self.boxes("\u05d0\u05d1 \u05d2")
        self.assertEqual(seen, "\u05d2\u05d1\u05d0")
        self.assertTrue(320 - MARGIN <= right <= 320 - 1, right)
        [(seen, left, right)] = self.boxes("ab")
        self.assertEqual((seen, left), ("ab", MARGIN))

    def test_directions_in_one_line(self):
        """Letters from right to left in a line from left to right, and the other way round; numbers go from left to right in both."""
        self.built_with("FriBidi")
        for text, seen in [
            ("ab \u05d0\u05d1\u05d2 b", "ab\u05d2\u05d1\u05d0b"), ("\u05d0\u05d1 ab \u05d2", "\u05d2ab\u05d1\u05d0"),
            ("\u05d01aaa\u05d1", "\u05d11aaa\u05d0"), ("a \u05d0 1b \u05d1", "a1\u05d0b\u05d1"), ("\u05d0 1", "1\u05d0"),
        ]:  # fmt: skip
            self.assertEqual(self.seen(text), [seen], text)

    def test_directions_of_rows(self):
        """A line from right to left that is broken has its beginning in the first row, each row from right to left."""
        first, second = self.boxes(" ".join(["\u05d0\u05d1"] * 5 + ["\u05d2\u05d2"] * 5))
        self.assertEqual((first[0], second[0]), ("\u05d2\u05d2" + "\u05d1\u05d0" * 5, "\u05d2\u05d2" * 4))
        self.assertEqual(first[2], second[2])

    def test_spaces_at_the_end_of_a_row(self):
        """A space at which a row is broken isn't seen, and stands in no place: not between letters of two directions either."""
        self.built_with("FriBidi")
        first, second = self.boxes("aaaa " + "\u05d0" * 4 + " " + "\u05d0" * 12)
        self.assertEqual(first, ("aaaa" + "\u05d0" * 4, MARGIN, MARGIN + 9 * STEP - 4))
        self.assertEqual(second[1], MARGIN)

    def test_without_directions(self):
        """A program that can't put directions in order says so where they are mixed."""
        self.built_without("FriBidi")
        self.assertEqual(len(self.boxes("ab \u05d0", warns=True)), 1)
        self.assertIn("ab \u05d0: its parts stand in one direction", self.ran.stderr)
        self.boxes("\u05d0 \u05d1")

    def test_rows(self):
        """A long line is broken between words, a long word between letters, and nothing is cut or lost; a newline begins a row."""
        for text, seen in [
            ("aaaa bbbb aaaa bbbb aaaa", ["aaaabbbbaaaa", "bbbbaaaa"]), ("a" * 30, ["a" * 18, "a" * 12]), ("a" * 18, ["a" * 18]),
            ("a" * 18 + "   b", ["a" * 18, "b"]), ("a\nb", ["a", "b"]), ("aaa " + "b" * 18, ["aaa", "b" * 18]),
            ("bb " + "a" * 40, ["bb", "a" * 18, "a" * 18, "aaaa"]),
        ]:  # fmt: skip
            rows = self.boxes(text)
            self.assertEqual([row for row, _, _ in rows], seen, text)
            for _, left, right in rows:
                self.assertGreaterEqual(left, MARGIN)
                self.assertLess(right, 320)

    def test_rows_of_chinese(self):
        """A line without spaces is broken between its letters, and no row begins with a full stop."""
        zhong, stop = "\u4e2d", "\u3002"
        self.assertEqual(self.seen(zhong * 20), [zhong * 18, zhong * 2])
        self.assertEqual(self.seen(zhong * 18 + stop), [zhong * 17, zhong + stop])

    def test_rows_below_each_other(self):
        """What stands below a line that was broken is lower, and what is too low to be seen is said."""
        photo = self.ground((0, 0, 0), size=(640, 400))
        lines = self.write("--font", self.font("all", HEIGHTS), "--size", SIZE, "a" * 30, "b", photo=photo)[1]
        self.assertEqual(lines[0][1], 18 * STEP - 4)
        self.boxes("a" * 30, height=90, warns=True)
        self.assertIn("it is too low for the text", self.ran.stderr)

    def test_other_fonts(self):
        """What the font lacks is taken from fonts that have it, and the rest from the font itself."""
        self.built_with("fontconfig")
        known = self.fonts_of(("Hebrew", "\u05d0\u05d1"), ("Chinese", "\u4e2d"))
        font = self.font("latin", "ab ")
        self.assertEqual(self.seen("a\u4e2db \u05d0\u05d1", font=font, env=known), ["a\u4e2db\u05d1\u05d0"])
        self.assertEqual(self.fonts, 3)
        self.boxes("ab", font=font, env=known)
        self.assertEqual(self.fonts, 1)

    def test_a_family(self):
        """A font is named by its family too, and one that is not there is named."""
        self.built_with("fontconfig")
        known = self.fonts_of(("Hebrew", "\u05d0\u05d1"))
        self.assertEqual(self.seen("\u05d0", font="hebrew", env=known), ["\u05d0"])
        self.assertEqual(self.fonts, 1)
        self.refuses(1, "Hebrews: there is no such font: name a file or a family", "--photo", LAKE, "--save", self.folder / "out.png", "--font", "Hebrews", "a")

    def test_the_default_font_and_others(self):
        """Letters of Hebrew and Arabic, which the default font lacks, are no boxes, and Arabic's are joined."""
        self.built_with("fontconfig")
        self.write("\u05e9\u05dc\u05d5\u05dd")
        [(masks, _)] = self.write("\u0644\u0627")[1]
        self.assertEqual((masks, self.fonts), (1, 2))

    def test_what_no_font_has(self):
        """Characters that no font has are named, each once, and others are not."""
        self.built_with("fontconfig")
        known, font = self.fonts_of(("Hebrew", "\u05d0")), self.font("latin", "ab ")
        self.boxes("a\u4e2da\u05d2\u4e2d b\u200d\ufe0f", font=font, env=known, warns=True)
        [said] = self.ran.stderr.splitlines()
        self.assertTrue(said.startswith("text: U+4E2D, U+05D2: "), said)
        self.assertIn("a box stands for it", said)
        self.boxes("".join(map(chr, range(0x5000, 0x5014))), font=font, env=known, warns=True)
        self.assertIn("U+5007 and 12 more: ", self.ran.stderr)

    def test_without_other_fonts(self):
        """A program that can't look for other fonts says so where one is needed."""
        self.built_without("fontconfig")
        self.boxes("\u05d0", font=self.font("latin", "ab "), warns=True)
        self.assertIn("U+05D0: ", self.ran.stderr)
        self.assertIn("name a font that has one by --font, since this program was built without fontconfig", self.ran.stderr)

    def test_kerning(self):
        (masks, kerned), (_, wide) = self.write("AVAVAVA")[1][0], self.write("--no-kerning", "AVAVAVA")[1][0]
        self.assertEqual(masks, 7)
        self.assertLess(kerned, wide - 10)

    def test_shaping(self):
        """Two letters of Arabic become one glyph, a ligature of f and i one, and a line from right to left has its end on the left."""
        for text, masks in (("\u0644\u0627", 1), ("\u0628\u0628", 2), ("fi", 1), ("f i", 3), ("", 0)):
            lines = self.write("--font", SANS, text)[1]
            self.assertEqual([line[0] for line in lines], [masks] if masks else [], text)

    def test_the_atlas_has_each_mask_once(self):
        self.write("--no-kerning", "llllllllllllllllllllllllllllll")
        self.assertIn(self.masks, (2, 3, 4))
        self.write("--no-kerning", "abcdefghijklmnop")
        self.assertEqual(self.masks, 16)
        atlas = self.folder / "atlas.png"
        self.write("--atlas", atlas, "ab")
        self.assertEqual(self.masks, 2)
        self.assertEqual(open_picture(atlas).width, 1024)

    def test_no_text_leaves_the_photograph(self):
        """The bytes come back where nothing is written, in both ways."""
        photo = open_picture(LAKE)
        for half in self.write(" ")[0]:
            self.assert_same(half, photo.crop((160, 0, 480, 400)), most=3)

    def test_where_the_text_is(self):
        """Both ways change the same points, but for those where a mask is faint, and no others than those of the text."""
        (left, right), [(_, width)] = self.write("HHH", photo=self.ground((10, 60, 200)))
        for half in (left, right):
            box = ImageChops.difference(half.convert("RGB"), Image.new("RGB", half.size, (10, 60, 200))).getbbox()
            self.assertAlmostEqual(box[2] - box[0], width, delta=3)

    def test_weights(self):
        """White letters on black are bolder in light, black ones on white thinner; in the middle of a stem both are the color."""
        colors = ("lll", "lll", "lll")
        for ground in (0, 255):
            photo = self.ground((ground,) * 3, size=(800, 200))
            (left, right), _ = self.write("--size", "40", *colors, photo=photo)
            row = (0, 0, 400, 50) if ground == 0 else (0, 92, 400, 130)
            sums = [sum(half.crop(row).convert("L").getdata()) for half in (left, right)]
            self.assertGreater(sums[1], sums[0] + 400, f"on {ground}")
        self.assertEqual(right.getpixel((399, 199)), (255, 255, 255, 255))

    def test_colors(self):
        """The middle of a wide stem has the line's own color."""
        for half in self.write("--size", "120", "\u2588", photo=self.ground((9, 9, 9), size=(640, 300)))[0]:
            self.assertEqual(half.getpixel((90, 110)), (255, 255, 255, 255))

    def test_help(self):
        self.has_help()
        self.says_no_room("--help")
        self.says_no_room("--report", "--photo", LAKE, "--save", self.folder / "out.png", "a")

    def test_wrong_uses(self):
        out = self.folder / "out.png"
        for sentence, *words in [
            ("name a photograph",), ("name a photograph", "--photo", LAKE, "a"), ("give a line", "--photo", LAKE, "--save", out),
            ("--wide: there is no such option", "--wide", "a"), ("--photo: a value is missing", "--photo"),
            ("a size is a number", "--size", "3", "a"), ("a size is a number", "--size", "9q", "a"), ("a size is a number", "--size", "-9", "a"),
        ]:  # fmt: skip
            self.refuses(2, sentence, *words)
        self.write("--", "--size")

    def test_files(self):
        words = self.file("words.ttf", b"words")
        out = self.folder / "out.png"
        for file, *use in [
            (f"{words}: this is no font file", "--photo", LAKE, "--save", out, "--font", words),
            (f"{self.folder / 'none'}: there is no such font:", "--photo", LAKE, "--save", out, "--font", self.folder / "none"),
            (words, "--photo", words, "--save", out), (self.folder / "none", "--photo", self.folder / "none", "--save", out),
            (self.folder, "--photo", LAKE, "--save", self.folder), ("/dev/full", "--photo", LAKE, "--save", "/dev/full"),
            ("/dev/full", "--photo", LAKE, "--save", out, "--atlas", "/dev/full"),
        ]:  # fmt: skip
            self.refuses(1, str(file), *use, "a")
        self.keeps_old("--photo", LAKE, "--save", "OLD", "a")
        self.keeps_old("--photo", LAKE, "--save", "/dev/null", "--atlas", "OLD", "--size", 90, "abcdefgh")


if __name__ == "__main__":
    main()
