#!/usr/bin/env python3
"""Measures how long the viewer takes for the steps of a user: fits, zooms and pans.

    apps/viewer/steps.py [WIDTH HEIGHT]

Prints the milliseconds of each step for a window of 1920 by 1080 on a photograph of WIDTH by HEIGHT pixels, 6000 by 4000
if they aren't given: the least of three runs. Needs Pillow and apps/out/viewer: tools/apps builds it. APPS in the
environment names another folder than apps/out.
"""

import os
import pathlib
import re
import subprocess
import sys
import tempfile

HERE = pathlib.Path(__file__).resolve().parent
sys.path.insert(0, str(HERE.parent.parent / "tools"))
sys.dont_write_bytecode = True
import endings  # noqa: E402, F401

PROGRAM = pathlib.Path(os.environ.get("APPS", HERE.parent / "out")) / "viewer"
# What a user does, and what it is called.
STEPS = [
    ("e", "as large as fits"), ("-", "zoom out"), ("+", "zoom in"), ("+", "zoom in"), ("drag=-40,-25", "pan"), ("1", "own size"),
    ("drag=-40,-25", "pan"), ("wheel=1@700,300", "zoom in at the pointer"), ("wheel=3@700,300", "three more"), ("drag=-40,-25", "pan"),
]  # fmt: skip


def milliseconds(picture):
    """Returns the zoom and the time of each step."""
    words = [PROGRAM, "--size", "1920x1080", "--report", "--play", " ".join(word for word, _ in STEPS), picture]
    ran = subprocess.run(words, capture_output=True, text=True, check=True, env={"SDL_VIDEODRIVER": "dummy", **os.environ})
    found = re.findall(r"zoom (\S+), .* pixels, (\S+) ms", ran.stdout)
    if len(found) != len(STEPS) + 1:
        sys.exit(f"apps/viewer/steps.py: {len(found)} steps were painted, and not {len(STEPS) + 1}")
    return [(zoom, float(time)) for zoom, time in found]


def main(words):
    if words[:1] == ["--help"]:
        print(__doc__.strip())
        return
    if len(words) not in (0, 2) or not all(word.isdigit() for word in words):
        print(__doc__.strip(), file=sys.stderr)
        sys.exit(2)
    try:
        from PIL import Image
    except ImportError:
        print("apps/viewer/steps.py: no Pillow, as in the package python3-pil", file=sys.stderr)
        sys.exit(2)
    size = tuple(int(word) for word in words) or (6000, 4000)
    with tempfile.TemporaryDirectory() as folder:
        picture = pathlib.Path(folder) / "photograph.jpg"
        Image.open(HERE.parent / "pictures/lake.jpg").resize(size, Image.BICUBIC).save(picture, quality=90)
        runs = [milliseconds(picture) for _ in range(3)]
    for number, name in enumerate(["open", *(name for _, name in STEPS)]):
        print(f"{name:24} zoom {runs[0][number][0]:6} {min(run[number][1] for run in runs):8.1f} ms")


if __name__ == "__main__":
    main(sys.argv[1:])
