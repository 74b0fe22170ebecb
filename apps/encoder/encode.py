#!/usr/bin/env python3
"""usage: encode.py [OPTION].. FILE..
Writes pictures that Pillow reads as indexed ones: each as a PNG, or all as the frames of one GIF.

  --into FOLDER    write each FILE as an indexed PNG of its name into this folder (the present one)
  --gif FILE       write one GIF in place of that, with one table of colors for all frames
  --colors N       at most so many colors, from 2 to 256 (256)
  --rounds N       refine the table by so many rounds, from 0 to 255 (6)
  --dither         spread the error of each pixel over those that come after it
  --strength N     with --dither, spread so many sixteenths of it, from 0 to 16 (12)
  --left-to-right  with --dither, go so in all rows; else every other row goes from right to left
  --ground RRGGBB  composite transparent pictures over this color; else their alphas stay
  --delay MS       how long the GIF shows each still picture, in steps of 10 (100)
  --help           print this

A PNG keeps alphas. In a GIF each pixel is clear or opaque: those with an alpha below 128 are clear. An
animated FILE becomes frames of the GIF with the times of its own, and no PNG.

Prints a line for each file that is written: its size, its colors, its bytes, and the mean squared error
of its pixels, averaged over black and white. On a terminal a bar shows how many pictures are done. No
picture is written over one that is read. It needs pix and Pillow. The status is 0, 1 after a file that
can't be read or written, or 2 after another use, or where something is missing.
"""

import os
import pathlib
import sys



class OutputError(Exception):
    """What can't be printed."""


def say(text):
    """Prints a text; where that fails, nothing more is printed, and no rest of it at the end."""
    if sys.stdout is None:
        raise OutputError("the standard output: it is closed")
    try:
        print(text, flush=True)
    except OSError as error:
        os.dup2(os.open(os.devnull, os.O_WRONLY), sys.stdout.fileno())
        raise OutputError(f"the standard output: {error.strerror}") from None


def say_help():
    """Prints what this does, and returns the status."""
    try:
        say(__doc__.rstrip("\n"))
    except OutputError as error:
        print(f"encode.py: {error}", file=sys.stderr)
        return 1
    return 0


try:
    import files
    import table
except ImportError as error:
    if "--help" in sys.argv[1:]:
        sys.exit(say_help())
    print(f"encode.py: {error}: it stands on pix and Pillow", file=sys.stderr)
    sys.exit(2)

NUMBERS = {"--colors": (2, 256), "--rounds": (0, 255), "--strength": (0, 16), "--delay": (10, 655350)}


class UsageError(Exception):
    """What was asked for can't be meant."""


class Options:
    """What was asked for."""

    def __init__(self, words):
        self.values = {"--into": ".", "--gif": None, "--colors": "256", "--rounds": "6", "--ground": None}
        self.values.update({"--delay": "100", "--strength": "12"})
        self.flags, self.files = set(), []
        words = list(words)
        while words:
            word = words.pop(0)
            if word in ("--dither", "--left-to-right"):
                self.flags.add(word)
            elif word == "--":
                self.files, words = self.files + words, []
            elif word in self.values:
                if not words:
                    raise UsageError(f"{word}: a value is missing")
                self.values[word] = words.pop(0)
            elif word.startswith("--"):
                raise UsageError(f"{word}: there is no such option")
            else:
                self.files.append(word)
        if not self.files:
            raise UsageError("name a picture")
        self.colors, self.rounds, self.delay = map(self.number, ("--colors", "--rounds", "--delay"))
        self.diffusion = self.spreading()
        self.gif, self.ground = self.values["--gif"], self.color()
        self.targets = self.paths()

    def number(self, option):
        """Returns the number of an option."""
        text, (least, most) = self.values[option], NUMBERS[option]
        if not (text.isascii() and text.isdigit() and least <= int(text[:9]) <= most):
            raise UsageError(f"{option} takes a number from {least} to {most}, and not {text}")
        return int(text)

    def spreading(self):
        """Returns how errors are spread, or None."""
        diffusion = table.Diffusion(self.number("--strength"), "--left-to-right" not in self.flags)
        return diffusion if "--dither" in self.flags else None

    def color(self):
        """Returns red, green and blue of the ground, or None."""
        text = self.values["--ground"]
        if text is None:
            return None
        if len(text) != 6 or any(letter not in "0123456789abcdefABCDEF" for letter in text):
            raise UsageError(f"--ground takes six hexadecimal digits, and not {text}")
        return tuple(bytes.fromhex(text))

    def paths(self):
        """Returns the files that are written: no two are one, and none is read."""
        into = pathlib.Path(self.values["--into"])
        paths = [self.gif] if self.gif else [into / (pathlib.Path(name).stem + ".png") for name in self.files]
        read, written = {identity(name) for name in self.files}, set()
        for path in paths:
            if identity(path) in read:
                raise UsageError(f"{path} would be written over: name another place, by --into or --gif")
            if identity(path) in written:
                raise UsageError(f"{path} would be written twice: pictures of one name go into other folders")
            written.add(identity(path))
        return paths


def identity(path):
    """Returns what tells a file from others, by whatever path it is named."""
    try:
        found = os.stat(path)
    except OSError:
        return os.path.realpath(path)
    return found.st_dev, found.st_ino


class Progress:
    """A bar on standard error, where that is a terminal."""

    def __init__(self, count):
        self.done, self.count, self.shows = 0, count, sys.stderr is not None and sys.stderr.isatty()

    def show(self, name):
        """Shows how many are done, and which one is next."""
        if self.shows:
            bar = "#" * (30 * self.done // self.count)
            shown = "".join(letter if letter.isprintable() else "?" for letter in pathlib.Path(name).name[:30])
            print(f"\r\x1b[K[{bar:<30}] {self.done} of {self.count} {shown}", end="", file=sys.stderr, flush=True)

    def step(self):
        """Counts one more."""
        self.done += 1

    def end(self):
        """Takes the bar away."""
        if self.shows:
            print("\r\x1b[K", end="", file=sys.stderr, flush=True)


def tell(progress, name, frames, count, error):
    """Prints what was written."""
    width, height = frames[0].size
    many = f"{len(frames)} frames, " if len(frames) > 1 else ""
    progress.end()
    said = f"{name}: {width}x{height}, {many}{len(frames[0].table)} colors, {count} bytes, mean squared error {error:.2f}"
    say(said)


def encode_each(options, progress):
    """Writes each picture as a PNG with a table of its own."""
    for name, target in zip(options.files, options.targets):
        progress.show(name)
        picture = files.read_one(name, options.ground)
        colors = table.of_picture(picture, options.colors, options.rounds)
        frame = table.indexed(picture, colors, options.diffusion)
        count = files.write_png(target, frame)
        tell(progress, target, [frame], count, files.squared_error(picture, frame))
        progress.step()


def encode_all(options, progress):
    """Writes all pictures as frames of one GIF: they are read for its table, and then become indices."""
    pictures, names = [], []
    for name in options.files:
        progress.show(name)
        found = files.read(name, options.ground)
        pictures, names = pictures + found, names + [name] * len(found)
        progress.step()
    progress.count += len(pictures) - len(options.files)
    pictures = files.of_one_size(pictures)
    colors = table.of_frames(pictures, options.colors, options.rounds)
    frames = []
    for name, picture in zip(names, pictures):
        progress.show(name)
        frames.append(table.indexed_frame(picture, colors, options.diffusion))
        progress.step()
    times = [options.delay if picture.time is None else picture.time for picture in pictures]
    count = files.write_gif(options.gif, frames, times)
    errors = [files.squared_error(*both) for both in zip(pictures, frames)]
    tell(progress, options.gif, frames, count, sum(errors) / len(errors))


def main(words):
    """Does what the words say, and returns the status."""
    progress = Progress(1)
    try:
        if "--help" in words:
            return say_help()
        options = Options(words)
        progress = Progress(len(options.files) * (2 if options.gif else 1))
        (encode_all if options.gif else encode_each)(options, progress)
        progress.end()
    except UsageError as error:
        print(f"encode.py: {error}\nencode.py: try encode.py --help", file=sys.stderr)
        return 2
    except (OSError, OutputError, files.PictureError) as error:
        progress.end()
        print(f"encode.py: {error}", file=sys.stderr)
        return 1
    except KeyboardInterrupt:
        progress.end()
        return 130
    return 0


if __name__ == "__main__":
    sys.exit(main(sys.argv[1:]))
