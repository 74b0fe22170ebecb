#!/usr/bin/env python3
"""Makes the pictures of docs/GALLERY.md again, each by its command, and compares them with the ones there.

    apps/common/gallery.py [--pictures]

A picture is followed by its command, as an indented block: it writes a file of the picture's name into out/gallery. With --pictures the new pictures
replace the old ones. A picture has to be the same, except if fonts or JPEG files were read: another version of FreeType, HarfBuzz, the font or
libjpeg may draw it a little differently, and then it has to be near. So may another pngquant; without it, its pictures are left as they are. Needs
Pillow, and the programs in apps/out, which tools/apps builds. The status is 1 if one differs.
"""

import os
import pathlib
import re
import shutil
import subprocess
import sys

from trial import TOP, Image, ImageChops  # before Pillow, which may not be there

from PIL import ImageSequence  # isort: skip

PAGE = TOP / "docs/GALLERY.md"
MADE = TOP / "out/gallery"
PICTURE = re.compile(r"^!\[.*\]\((\S+)\)\n\n((?:    .*\n)+)", re.M)
PROGRAM = TOP / "crates/pixpaint/out/pixpaint"
LIBRARY = pathlib.Path(os.environ.get("PIX_LIBRARY", TOP / "bindings/out/lib/libpix_c.so"))


def is_near(picture, other):
    """Whether at most one pixel of a hundred differs by more than 32 in a channel, and the mean by less than 1."""
    if picture.size != other.size:
        return False
    apart = ImageChops.difference(picture.convert("RGB"), other.convert("RGB")).convert("L")
    levels = apart.histogram()
    return sum(levels[32:]) * 100 <= sum(levels) and sum(i * n for i, n in enumerate(levels)) < sum(levels)


def frames_of(path):
    """Returns the frames of a file, as red, green, blue and alpha: one of a PNG."""
    with Image.open(path) as file:
        return [frame.convert("RGBA") for frame in ImageSequence.Iterator(file)]


def surroundings():
    """What a command finds in its environment: no screen, the library for Python that was built, and the Python that runs this."""
    path = os.pathsep.join([os.path.dirname(sys.executable), os.environ.get("PATH", "")])
    built = {"PIX_LIBRARY": str(LIBRARY)} if LIBRARY.is_file() else {}
    return {"SDL_VIDEODRIVER": "dummy", **os.environ, **built, "PATH": path}


def trouble(picture, command):
    """Runs a command, and returns what is wrong with the picture that it makes, or else nothing."""
    made = MADE / picture.name
    made.unlink(missing_ok=True)
    ran = subprocess.run(command, shell=True, cwd=TOP, env=surroundings(), capture_output=True, text=True)
    if ran.returncode or not made.is_file():
        return f"status {ran.returncode}: {ran.stderr.strip()}"
    if "--pictures" in sys.argv:
        shutil.copyfile(made, picture)
    mine, there = frames_of(made), frames_of(picture)
    if len(mine) != len(there):
        return f"it has {len(mine)} frames, and not {len(there)}"
    pairs = list(zip(mine, there))
    if all(one.size == other.size and one.tobytes() == other.tobytes() for one, other in pairs):
        return ""
    if not re.search(r"apps/out/text|apps/encoder|\.jpg|^pngquant ", command, re.M):
        return "it is another picture"
    return "" if all(is_near(*pair) for pair in pairs) else "it is not even near"


def main():
    """Prints a line for each picture that is another or is not made."""
    if sys.argv[1:] not in ([], ["--pictures"]):
        print(__doc__.strip(), file=sys.stderr)
        return 2
    shutil.rmtree(MADE, ignore_errors=True)
    MADE.mkdir(parents=True)
    count, troubles = 0, 0
    for name, lines in PICTURE.findall(PAGE.read_text(encoding="utf-8")):
        command = re.sub(r"^    ", "", lines, flags=re.M)
        if "./pixpaint" in command and not PROGRAM.is_file():
            print(f"gallery: {name} is not made: ./pixpaint is not built yet")
            continue
        if "bindings/python" in command and not LIBRARY.is_file():
            print(f"gallery: {name} is not made: no library for Python is built yet")
            continue
        if re.search(r"^pngquant ", command, re.M) and not shutil.which("pngquant"):
            print(f"gallery: {name} is not made: there is no pngquant here")
            continue
        count += 1
        said = trouble((PAGE.parent / name).resolve(), command)
        if said:
            troubles += 1
            print(f"gallery: {name}: {said}\n    {command.strip()}")
    print(f"gallery: {count} pictures were made, and {count - troubles} are as they stand there")
    return troubles > 0 or not count


if __name__ == "__main__":
    sys.exit(main())
