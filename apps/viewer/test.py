#!/usr/bin/env python3
"""Tries the viewer: its picture, how much of it is painted, and the errors.

    apps/viewer/test.py [TEST..]

Needs Pillow, Xvfb and apps/out/viewer: tools/apps builds it. APPS in the environment
names another folder than apps/out. A TEST is a name, as
Viewer.test_help; without one all are tried.
"""

import contextlib
import itertools
import os
import pathlib
import random
import re
import struct
import subprocess
import sys
import time

sys.path.insert(0, str(pathlib.Path(__file__).resolve().parent.parent / "common"))
from trial import PICTURES, PROGRAMS, Image, Trial, main, open_picture  # noqa: E402

GROUND, LIGHT, DARK, CELL = (40, 40, 44, 255), (204, 204, 204, 255), (153, 153, 153, 255), 16
LEAF, LAKE = PICTURES / "leaf.png", PICTURES / "lake.jpg"
REPORT = re.compile(r"(\d+) x (\d+), zoom (1/)?(\d+|exact), at (-?\d+),(-?\d+): painted (\d+) of (\d+) pixels, \d+\.\d ms")


def board(width, height):
    """Returns the checkerboard under a picture of this size."""
    picture = Image.new("RGBA", (width, height), LIGHT)
    for y in range(0, height, CELL):
        for x in range(0, width, CELL):
            if (x + y) // CELL % 2:
                picture.paste(DARK, (x, y, min(x + CELL, width), min(y + CELL, height)))
    return picture


def light_of(level):
    """Returns the light of a level of sRGB, from 0 to 1."""
    return level / 255 / 12.92 if level <= 10 else ((level / 255 + 0.055) / 1.055) ** 2.4


def covered(count, all_of):
    """Returns for each of `count` equal parts of a line of `all_of` pixels the pixels that it covers, and how much of each."""
    for number in range(count):
        start, end = number * all_of / count, (number + 1) * all_of / count
        pixels = range(int(start), min(all_of, int(end) + 1))
        yield [(at, (min(at + 1, end) - max(at, start)) * count / all_of) for at in pixels if min(at + 1, end) > max(at, start)]


def mean_picture(picture, size):
    """Returns an opaque picture at another size: each pixel has the mean light of what it covers."""
    made = Image.new("RGBA", size)
    columns, rows = list(covered(size[0], picture.width)), list(covered(size[1], picture.height))
    light = [[[light_of(level) for level in picture.getpixel((x, y))[:3]] for x in range(picture.width)] for y in range(picture.height)]
    for (i, column), (j, row) in itertools.product(enumerate(columns), enumerate(rows)):
        parts = [(light[y][x], part * share) for x, part in column for y, share in row]
        made.putpixel((i, j), (*(level_of(sum(color[n] * part for color, part in parts)) for n in range(3)), 255))
    return made


def level_of(light):
    """Returns the level of sRGB that is nearest to a light."""
    return round(255 * (12.92 * light if light <= 0.0031308 else 1.055 * light ** (1 / 2.4) - 0.055))


class Viewer(Trial):
    """Without a window manager, the program is played by --play."""

    program = (PROGRAMS / "viewer",)

    def shown(self, file, size, words="", options=(), **more):
        """Returns what the window shows after these words, and the lines of the report."""
        saved = self.folder / "shown.png"
        ran = self.run_program("--size", "%dx%d" % size, "--report", "--play", words, "--save", saved, *options, file, **more)
        lines = [REPORT.fullmatch(line) for line in ran.stdout.splitlines()]
        self.assertTrue(all(lines), ran.stdout)
        zooms = [0 if line[4] == "exact" else (-1 if line[3] else 1) * int(line[4]) for line in lines]
        places = [([int(n) for n in line.group(1, 2, 5, 6, 7)], zoom) for line, zoom in zip(lines, zooms)]
        return open_picture(saved), places

    def noisy(self, width, height, alpha=255):
        """Returns a picture of random colors."""
        rng = random.Random(width * height)
        return Image.frombytes("RGBA", (width, height), b"".join(bytes((*rng.randbytes(3), alpha)) for _ in range(width * height)))

    def test_a_picture_comes_back(self):
        """Nothing of an opaque picture is lost on its way to the window and back."""
        noisy = self.noisy(90, 70)
        picture, _ = self.shown(self.picture("noisy.png", noisy), (90, 70))
        self.assert_same(picture, noisy)

    def test_a_photograph_comes_back(self):
        picture, _ = self.shown(LAKE, (640, 400))
        self.assert_same(picture, open_picture(LAKE), most=3)

    def test_all_kinds_of_files(self):
        noisy = self.noisy(40, 30)
        gray = noisy.convert("L")
        wide = gray.convert("I").point(lambda level: level * 257)
        for name, kind in [("gray.png", gray), ("wide.png", wide), ("table.png", noisy.convert("P")), ("gray.jpg", gray)]:
            path = self.picture(name, kind)
            wanted = gray.convert("RGBA") if name == "wide.png" else open_picture(path)
            self.assert_same(self.shown(path, (40, 30))[0], wanted, most=2)

    def test_over_the_checkerboard(self):
        """Where a picture is clear the board is seen, and around it the ground."""
        clear = Image.new("RGBA", (70, 50))
        wanted = Image.new("RGBA", (100, 80), GROUND)
        wanted.paste(board(70, 50), (15, 15))
        picture, places = self.shown(self.picture("clear.png", clear), (100, 80))
        self.assertEqual(places, [([100, 80, 15, 15, 8000], 1)])
        self.assert_same(picture, wanted)

    def test_zoomed_by_whole_factors(self):
        noisy = self.noisy(20, 15)
        path = self.picture("noisy.png", noisy)
        for zoom in range(2, 6):
            picture, places = self.shown(path, (20 * zoom, 15 * zoom), "f")
            self.assertEqual(places[-1][1], zoom)
            self.assert_same(picture, noisy.resize(picture.size, Image.NEAREST))

    def test_made_smaller(self):
        """Each pixel is the mean light of what it covers."""
        for width, height, zoom in ((24, 15, 3), (23, 16, 2), (50, 31, 7)):
            noisy = self.noisy(width, height)
            size = (-(-width // zoom), -(-height // zoom))
            picture, places = self.shown(self.picture("noisy.png", noisy), size)
            self.assertEqual(places[-1], ([*size, 0, 0, size[0] * size[1]], -zoom))
            self.assert_same(picture, mean_picture(noisy, size), most=1)

    def test_fitted_exactly(self):
        """A picture is as large as the window in one direction, and each pixel is the mean light of what it covers."""
        for size, window, fitted in (((24, 15), (31, 40), (31, 19)), ((50, 31), (23, 9), (15, 9)), ((3, 2), (20, 20), (20, 13)), ((9, 9), (9, 9), (9, 9))):
            noisy = self.noisy(*size)
            picture, places = self.shown(self.picture("noisy.png", noisy), window, "e")
            left, top = (window[0] - fitted[0]) // 2, (window[1] - fitted[1]) // 2
            self.assertEqual(places[-1][0][2:4], [left, top])
            wanted = Image.new("RGBA", window, GROUND)
            wanted.paste(mean_picture(noisy, fitted), (left, top))
            self.assert_same(picture, wanted, most=1)

    def test_a_fit_follows_the_window(self):
        """What fits exactly goes on to fit, and zooming goes on to the whole factors beside it."""
        path = self.picture("noisy.png", self.noisy(20, 10))
        _, places = self.shown(path, (50, 50), "e 30x30 +")
        self.assertEqual([(place[:4], zoom) for place, zoom in places[-3:]], [([50, 50, 0, 12], 0), ([30, 30, 0, 7], 0), ([30, 30, -5, 5], 2)])
        _, places = self.shown(path, (50, 50), "e -")
        self.assertEqual(places[-1][1], 2)
        picture, places = self.shown(path, (50, 50), "e Left Up + -")
        self.assertEqual([zoom for _, zoom in places], [1, 0, 3, 2])
        again, _ = self.shown(path, (50, 50), "", options=["--exact"])
        self.assert_same(again, self.shown(path, (50, 50), "e")[0])

    def test_turned_by_keys(self):
        noisy = self.noisy(20, 15)
        path = self.picture("noisy.png", noisy)
        for words, ways in (
            ("r", [Image.ROTATE_270]), ("l", [Image.ROTATE_90]), ("m", [Image.FLIP_LEFT_RIGHT]), ("r r", [Image.ROTATE_180]), ("r l", []),
            ("r m", [Image.ROTATE_270, Image.FLIP_LEFT_RIGHT]), ("m r", [Image.FLIP_LEFT_RIGHT, Image.ROTATE_270]),
        ):  # fmt: skip
            wanted = noisy
            for way in ways:
                wanted = wanted.transpose(way)
            with self.subTest(words=words):
                self.assert_same(self.shown(path, (20, 15), words + " %dx%d" % wanted.size)[0], wanted)
        # A turn keeps the zoom, or the fit, and the middle.
        self.assertEqual(self.shown(path, (50, 50), "f r")[1][-1][0][2:4], [10, 5])
        self.assertEqual(self.shown(path, (50, 50), "e r")[1][-1], ([50, 50, 6, 0, 2500], 0))
        self.assertEqual(self.shown(path, (20, 20), "+ + r")[1][-1], ([20, 20, -12, -20, 400], 3))

    def plain(self, name, color):
        """Returns the path of a picture of one color, as large as the window of the tests below."""
        return self.picture(name, Image.new("RGBA", (8, 8), color), format="PNG")

    def color_after(self, words, *files, said=""):
        """Returns the color that the window shows after these words."""
        saved = self.folder / "shown.out"
        command = [*self.program, "--size", "8x8", "--play", words, "--save", saved, *files]
        environment = {"SDL_VIDEODRIVER": "dummy", **os.environ}
        ran = subprocess.run(list(map(str, command)), capture_output=True, text=True, env=environment)
        self.assertEqual((ran.returncode, ran.stdout), (0, ""), ran.stderr)
        self.assertEqual([line for line in ran.stderr.splitlines() if line.startswith("viewer: ") and not said], [])
        self.assertIn(said, ran.stderr)
        return open_picture(saved).getpixel((4, 4))

    def test_the_next_picture(self):
        """Next and previous go round the pictures of the folder, in the order of numbers, and past what can't be read."""
        colors = [(250, 10, 20, 255), (30, 240, 50, 255), (60, 70, 230, 255)]
        first, second, third = map(self.plain, ("a1.png", "a2.png", "a10.PNG"), colors)
        self.file("a.txt", b"no picture")
        (self.folder / "a5.png").mkdir()
        self.addCleanup(os.chdir, os.getcwd())
        os.chdir(self.folder)
        for words, start, number in (
            ("n", first, 1), ("Space", second, 2), ("PageDown", third, 0), ("p", first, 2), ("Backspace", second, 0), ("PageUp", third, 1),
            ("Home", third, 0), ("End", first, 2), ("n n n", second, 1), ("n p", second, 1), ("", second, 1), ("n", second.name, 2),
            ("n r n l", first, 2), ("Home", first, 0), ("n", "./a2.png", 2),
        ):  # fmt: skip
            with self.subTest(words=words, start=start):
                self.assertEqual(self.color_after(words, start), colors[number])
        self.file("a3.png", b"no picture")
        self.assertEqual(self.color_after("n", second, said="a3.png: this is neither"), colors[2])
        self.assertEqual(self.color_after("p", third, said="a3.png: this is neither"), colors[1])

    def test_named_pictures(self):
        """Files that are named are the only ones, in their order; and of a folder all are shown, from the first one."""
        colors = [(250, 10, 20, 255), (30, 240, 50, 255), (60, 70, 230, 255)]
        first, second, third = map(self.plain, ("a1.png", "a2.png", "other"), colors)
        for words, files, number in (
            ("", [third, first], 2), ("n", [third, first], 0), ("n n", [third, first], 2), ("", [self.folder], 0), ("End", [self.folder], 1),
            ("n n", [self.folder], 0), ("n", [third, self.folder], 0), ("p", [third, self.folder], 1), ("n", [third], 0), ("p", [third], 1),
        ):  # fmt: skip
            with self.subTest(words=words, files=files):
                self.assertEqual(self.color_after(words, *files), colors[number])
        (self.folder / "empty").mkdir()
        self.refuses(1, "there is no picture in this folder", self.folder / "empty")
        self.file("a0.png", b"no picture")
        self.assertEqual(self.color_after("", self.folder, said="a0.png: this is neither"), colors[0])

    def test_the_next_picture_fits(self):
        """Where a picture fitted the next one does, and else it is shown as one is that is opened."""
        self.picture("1.png", self.noisy(20, 10))
        self.picture("2.png", self.noisy(10, 30))
        for words, zooms in (("n", [1, 1]), ("f n", [1, 2, 1]), ("e n", [1, 0, 0]), ("+ + + n", [1, 2, 3, 4, 1]), ("e n p", [1, 0, 0, 0])):
            with self.subTest(words=words):
                self.assertEqual([zoom for _, zoom in self.shown(self.folder / "1.png", (40, 40), words)[1]], zooms)

    def test_full_screen(self):
        """The window is as large as the screen, and then as before; Escape goes back, and ends the program from there."""
        path = self.picture("noisy.png", self.noisy(20, 10))
        with self.x_server(24) as environment:
            for words, options, sizes in (
                ("F11", [], [(50, 40), (400, 300)]), ("F11 Return", [], [(50, 40), (400, 300), (50, 40)]),
                ("F11 Escape Left e", [], [(50, 40), (400, 300), (50, 40), (50, 40)]), ("Escape F11", [], [(50, 40)]),
                ("Escape", ["--full"], [(400, 300), (50, 40)]),
            ):  # fmt: skip
                with self.subTest(words=words, options=options):
                    _, places = self.shown(path, (50, 40), words, options=options, env=environment)
                    self.assertEqual([tuple(place[:2]) for place, _ in places], sizes)

    def test_half_over_the_board(self):
        """What is half transparent lets half of the board's light through."""
        picture, _ = self.shown(self.picture("half.png", Image.new("RGBA", (40, 40), (250, 20, 90, 128))), (40, 40))
        wanted = Image.new("RGBA", (40, 40))
        for x, y in itertools.product(range(40), repeat=2):
            under = DARK if (x // CELL + y // CELL) % 2 else LIGHT
            mixed = [light_of(a) * 128 / 255 + light_of(b) * 127 / 255 for a, b in zip((250, 20, 90), under)]
            wanted.putpixel((x, y), (*map(level_of, mixed), 255))
        self.assert_same(picture, wanted, most=1)

    def test_only_what_changed_is_painted(self):
        """After any words the window shows what it would show if it were painted anew; and what moved is not painted."""
        rng = random.Random(5)
        words = ["Left", "Right", "Up", "Down", "drag=13,-7", "drag=-40,3", "130x90", "90x120", "wheel=1@10,20", "+", "-", "f", "1"]
        for number in range(8):
            chosen = " ".join(rng.choice(words) for _ in range(6))
            picture, places = self.shown(LEAF, (120, 100), chosen)
            (width, height, x, y, _), zoom = places[-1]
            sides = [side * zoom if zoom > 0 else -(-side // -zoom) for side in (320, 320)]
            # A window of the picture's own size shows all of it.
            keys = " ".join(["1", *(["+"] * (zoom - 1) if zoom > 0 else ["-"] * (-zoom - 1))])
            whole, there = self.shown(LEAF, tuple(sides), keys)
            self.assertEqual(there[-1][0][2:4], [0, 0])
            wanted = Image.new("RGBA", (width, height), GROUND)
            wanted.paste(whole, (x, y))
            self.assert_same(picture, wanted)
            for (before, old_zoom), (after, new_zoom) in zip(places, places[1:]):
                self.check_painted(before, after, old_zoom == new_zoom)

    def check_painted(self, before, after, is_moved):
        """As much is painted as the old window, moved, does not cover."""
        dx, dy = after[2] - before[2], after[3] - before[3]
        columns = min(dx + before[0], after[0]) - max(dx, 0)
        rows = min(dy + before[1], after[1]) - max(dy, 0)
        kept = columns * rows if is_moved and columns > 0 and rows > 0 else 0
        self.assertEqual(after[4], after[0] * after[1] - kept)

    def test_nothing_is_painted_where_nothing_changes(self):
        _, places = self.shown(LEAF, (340, 340), "Left Up 1 a F5")
        self.assertEqual(len(places), 1)
        _, places = self.shown(LEAF, (100, 340), "1 Down Left Left Left Left Left")
        self.assertEqual([place[0][4] for place in places], [34000, 34000, 10880, 10880, 10880, 4760])

    def test_the_ends_of_zooming(self):
        path = self.picture("dot.png", self.noisy(3, 2))
        picture, places = self.shown(path, (64, 64), "wheel=90@0,0 wheel=-200@9,9 wheel=1@0,0 Q f")
        self.assertEqual([zoom for _, zoom in places], [1, 64, -64, -63])

    def test_a_window_of_x(self):
        """A window of an X server shows the same, which is looked at on its screen."""
        size, words = (200, 150), "+ Right Down"
        wanted, _ = self.shown(LEAF, size, words)
        first, _ = self.shown(LEAF, size)
        for depth in (24, 16):
            with self.x_server(depth) as environment:
                picture, _ = self.shown(LEAF, size, words, env=environment)
                self.assert_same(picture, wanted)
                if depth == 24:
                    self.look_at_screen(size, first, environment)
                    self.look_at_screen(size, wanted, environment, "--play", "wait=1000 " + words + " wait=60000")

    @contextlib.contextmanager
    def x_server(self, depth):
        """Runs an X server, whose screen stands in a file of the folder, and answers how a program finds it."""
        command = ["Xvfb", "-displayfd", "1", "-screen", "0", f"400x300x{depth}", "-fbdir", self.folder, "-nolisten", "tcp"]
        with subprocess.Popen(command, stdout=subprocess.PIPE, stderr=subprocess.DEVNULL, text=True) as server:
            try:
                yield {"SDL_VIDEODRIVER": "x11", "DISPLAY": ":" + server.stdout.readline().strip()}
            finally:
                server.terminate()

    def look_at_screen(self, size, wanted, environment, *words):
        """Waits until a viewer that goes on shows the leaf, and ends it as a desktop would."""
        command = [*self.program, "--size", "%dx%d" % size, *words, "--save", self.folder / "ended.png", LEAF]
        with subprocess.Popen([str(word) for word in command], env={**os.environ, **environment}) as viewer:
            try:
                for _ in range(100):
                    time.sleep(0.1)
                    screen = self.screen()
                    if screen.getbbox() and screen.crop(screen.getbbox()).tobytes() == wanted.convert("RGB").tobytes():
                        break
                self.assert_same(screen.crop(screen.getbbox()), wanted.convert("RGB"))
            finally:
                viewer.terminate()
            self.assertEqual(viewer.wait(60), 0)
        self.assert_same(open_picture(self.folder / "ended.png"), wanted)

    def screen(self):
        """Returns what the X server shows, of the dump of its screen: a header of big-endian words, colors, and rows of BGRX."""
        dump = (self.folder / "Xvfb_screen0").read_bytes()
        words = struct.unpack(">25I", dump[:100])
        width, height, pitch, start = words[4], words[5], words[12], words[0] + 12 * words[19]
        return Image.frombytes("RGB", (width, height), dump[start : start + pitch * height], "raw", "BGRX", pitch)

    def test_help(self):
        self.has_help()
        self.says_no_room("--help")
        self.says_no_room("--play", "", "--report", LEAF)

    def test_wrong_uses(self):
        for sentence, *words in [
            ("name a PNG or JPEG file",), ("--wide: there is no such option", "--wide", LEAF),
            ("--size: a value is missing", LEAF, "--size"), ("a size is WxH", "--size", "0x4", LEAF), ("a size is WxH", "--size", "9", LEAF),
            ("a size is WxH", "--size", "9x9x9", LEAF), ("a size is WxH", "--size", "16385x9", LEAF),
            ("no key has this name", "--play", "Hop", LEAF), ("no key has this name", "--play", "wait=-1", LEAF),
            ("no key has this name", "--play", "wheel=1", LEAF),
        ]:  # fmt: skip
            self.refuses(2, sentence, *words)

    def test_files_that_cannot_be_shown(self):
        leaf, lake = LEAF.read_bytes(), LAKE.read_bytes()
        huge = bytearray(leaf)
        (self.folder / "empty").mkdir()
        huge[16:24] = struct.pack(">II", 999999, 999999)
        for sentence, file in [
            ("No such file", self.folder / "none.png"), ("there is no picture", self.folder / "empty"),
            ("neither a PNG nor a JPEG", self.file("empty.png", b"")), ("neither a PNG nor a JPEG", self.file("words.png", b"words and words")),
            ("cut.png", self.file("cut.png", leaf[:2000])), ("cut.jpg", self.file("cut.jpg", lake[:2000])),
            ("bare.png", self.file("bare.png", leaf[:8])), ("bare.jpg", self.file("bare.jpg", lake[:4])),
            ("huge.png", self.file("huge.png", bytes(huge))),
        ]:  # fmt: skip
            self.refuses(1, sentence, "--play", "", file)

    def test_files_that_cannot_be_written(self):
        for file in (self.folder, self.folder / "none/out.png", "/dev/full"):
            for picture in (LEAF, self.picture("dot.png", self.noisy(1, 1))):
                self.refuses(1, str(file), "--play", "", "--size", "9x9", "--save", file, picture)
        self.keeps_old("--play", "", "--save", "OLD", LEAF)


if __name__ == "__main__":
    main()
