#!/usr/bin/env python3
"""Tries all programs on odd files: they must draw the same picture as Pillow reads.

Each program must draw the same for a file as for a plain PNG of Pillow's picture.

    apps/common/test.py [TEST..]

Needs Pillow, pix for Python, and the programs in apps/out: tools/apps builds them. APPS in
the environment names another folder than apps/out. A TEST is a name, as OfViewer; without
one all are tried.
"""

import os
import pathlib
import subprocess
import sys

sys.path.insert(0, str(pathlib.Path(__file__).resolve().parent))
from trial import PROGRAMS, TOP, Image, Trial, main, open_picture  # noqa: E402

sys.path.insert(0, str(TOP / "bindings/python"))
import odd_files  # noqa: E402

# What the programs in C read, by the names of the files; and what they say where a library was not there.
READ = {".png": "PNG", ".jpg": "JPEG", ".gif": "GIF", ".webp": "WebP"}
LACKS = {
    ".gif": "this is a GIF file, and no libgif was there",
    ".webp": "this is a WebP file, and no libwebp was there",
}
ENCODER = (sys.executable, TOP / "apps/encoder/encode.py")


def nearness(name):
    """Returns by how much a channel may differ: decoders do, and Pillow cuts 16 bits off where others round."""
    return 3 if name.endswith((".jpg", ".webp")) else 2 if "alpha16" in name else 1


def over_gray(picture):
    """Returns what is seen of a picture: of colors that are nearly clear not much."""
    return Image.alpha_composite(Image.new("RGBA", picture.size, (128, 128, 128, 255)), picture)


class OddFiles(Trial):
    """Each program reads each file as Pillow does, or refuses it by a sentence where Pillow refuses it."""

    def setUp(self):
        super().setUp()
        self.files = odd_files.make(self.folder / "odd")
        (self.folder / "made").mkdir()
        said = subprocess.run([PROGRAMS / "viewer", "--help"], capture_output=True, text=True).stdout
        self.kinds = said.splitlines()[1]

    def plain(self, file):
        """Returns the path of a PNG of 8 bits with what Pillow makes of a file."""
        return self.picture("plain-" + file.path.stem + ".png", odd_files.pillow_picture(file.path))

    def is_read(self, file):
        """Whether the programs in C are to read a file."""
        return bool(file.size) and READ.get(file.path.suffix, "no such") in self.kinds

    def compare(self, command):
        """The command, which takes a file and answers a picture, answers the same for a file and for the plain one."""
        read = 0
        for file in self.files:
            with self.subTest(file=file.path.name, what=file.what):
                if self.is_read(file):
                    wanted, seen = command(self.plain(file), file.size), command(file.path, file.size)
                    self.assert_same(over_gray(seen), over_gray(wanted), nearness(file.path.name))
                    read += 1
                else:
                    said = file.path.name + ": " + (LACKS.get(file.path.suffix, "") if file.size else "")
                    self.refuses(1, said, *self.words(file.path, file.size))
        self.assertGreater(read, 40 if "GIF" in self.kinds else 35)

    def words(self, file, size):
        """The words by which the program reads a file, of a class below."""
        raise NotImplementedError

    def drawn(self, file, size):
        """Returns the picture that the program makes of a file."""
        self.run_program(*self.words(file, size))
        return open_picture(self.folder / "made.png")


class OfViewer(OddFiles):
    """In a window as large as the picture, which an opaque one fills."""

    program = (PROGRAMS / "viewer",)

    def words(self, file, size):
        sides = "%dx%d" % (min(16384, size[0]), min(16384, size[1])) if size else "9x9"
        return ("--size", sides, "--play", "1", "--save", self.folder / "made.png", file)

    def test_odd_files(self):
        self.compare(self.drawn)

    def test_what_is_known(self):
        """Opaque pictures whose pixels are known without a decoder are shown by just these."""
        known = [file for file in self.files if file.rgba and set(file.rgba[3::4]) == {255} and self.is_read(file)]
        for file in known:
            if max(file.size) <= 16384:
                with self.subTest(file=file.path.name):
                    self.assert_same(self.drawn(file.path, file.size), Image.frombytes("RGBA", file.size, file.rgba), 1)
        self.assertGreater(len(known), 10)


class OfSprites(OddFiles):
    """As an atlas: a few sprites over the sky."""

    program = (PROGRAMS / "sprites",)

    def words(self, file, size):
        return ("--count", 9, "--size", "90x60", "--frames", 1, "--save", self.folder / "made.png", file)

    def test_odd_files(self):
        self.compare(self.drawn)


class OfText(OddFiles):
    """As a photograph under a word."""

    program = (PROGRAMS / "text",)

    def words(self, file, size):
        return ("--size", 8, "--photo", file, "--save", self.folder / "made.png", " ")

    def drawn(self, file, size):
        """Text says which pictures it finds too low."""
        words = list(map(str, (*self.program, *self.words(file, size))))
        ran = subprocess.run(words, capture_output=True, text=True)
        self.assertEqual(ran.returncode, 0, ran.stderr)
        self.assertIn(ran.stderr, ("", f"text: {file}: it is too low for the text, whose last rows are not seen\n"))
        return open_picture(self.folder / "made.png")

    def test_odd_files(self):
        self.compare(self.drawn)


class OfEncoder(OddFiles):
    """Which reads by Pillow, and so all of them; what is animated becomes a GIF."""

    program = ENCODER

    def setUp(self):
        super().setUp()
        self.moving = [file for file in self.files if file.path.stem == "animated"]
        self.files = [file for file in self.files if file not in self.moving]

    def is_read(self, file):
        return bool(file.size)

    def words(self, file, size):
        return ("--into", self.folder / "made", file)

    def drawn(self, file, size):
        self.run_program(*self.words(file, size))
        return open_picture(self.folder / "made" / (file.stem + ".png"))

    def test_odd_files(self):
        self.compare(self.drawn)

    def test_animated_files(self):
        made = self.folder / "made.gif"
        for file in self.moving:
            with self.subTest(file=file.path.name):
                self.refuses(1, "it has 2 frames, and a PNG has one", *self.words(file.path, file.size))
                self.run_program("--gif", made, file.path)
                with Image.open(file.path) as asked, Image.open(made) as found:
                    self.assertEqual((asked.n_frames, found.n_frames), (2, 2))
                    for number in range(2):
                        asked.seek(number)
                        found.seek(number)
                        self.assert_same(over_gray(found.convert("RGBA")), over_gray(asked.convert("RGBA")), 1)
                        self.assertEqual(found.info["duration"], 100)
        self.assertEqual(len(self.moving), 3)


def processor_seconds():
    """Returns how long programs that ended were at work: a busy machine doesn't count."""
    times = os.times()
    return times.children_user + times.children_system


class Helps(Trial):
    """--help of every program answers in a second what it does, needs and takes, and does nothing else."""

    def test_help(self):
        bare = {"PATH": os.environ["PATH"]}
        for command in (*((PROGRAMS / name,) for name in ("viewer", "sprites", "text")), ENCODER):
            with self.subTest(command=command[-1]):
                start = processor_seconds()
                words = [*command, "--help"]
                ran = subprocess.run(
                    words, capture_output=True, text=True, cwd=self.folder, env=bare, timeout=20
                )
                self.assertLess(processor_seconds() - start, 1)
                self.assertEqual((ran.returncode, ran.stderr), (0, ""))
                self.assertRegex(ran.stdout, r"\Ausage: (?s:.*)\b[Nn]eeds?\b(?s:.*)The status is 0")
                self.assertEqual(list(self.folder.iterdir()), [])


if __name__ == "__main__":
    main()
