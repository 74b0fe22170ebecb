"""What compositing sRGB bytes as if they were linear does to a gradient and to text: python light.py FILE.ppm

The left half is composited in light: the bytes are decoded to linear channels of 16 bits, and encoded at the end. The right half has the very
same commands on the bytes as they are, as browsers do it. From top to bottom: green that grows over red; white that grows over black; white text on
black; black text on white. The text is bench/text-20.pgm.
"""

import array
import os
import sys

import pix

WIDTH, BAND = 256, 48
HERE = os.path.dirname(os.path.abspath(__file__))


def mask(path, most):
    """The values of a binary PGM up to `most`, their width and their height."""
    with open(path, "rb") as file:
        _, sides, _, values = file.read().split(b"\n", 3)
    width, height = map(int, sides.split())
    return array.array("H" if most > 255 else "B", (value * most // 255 for value in values)), width, height


def panel(format, type):
    """The picture in sRGB bytes, painted on pixels of a type; `format` is what the bytes are taken as."""

    def color(red, green, blue, alpha=255):
        return pix.color_of(format, (red, green, blue, alpha), type)

    text = pix.Matte(*mask(os.path.join(HERE, "..", "..", "bench", "text-20.pgm"), type.max), bits=8 if type.max == 255 else 16)
    black, white = color(0, 0, 0), color(255, 255, 255)
    image = pix.Image.new(WIDTH, 4 * BAND, type)
    commands = [pix.copy_color((0, 0, WIDTH, BAND), color(220, 0, 0)), pix.copy_color((0, BAND, WIDTH, 2 * BAND), black)]
    commands += [pix.composite_color((x, 0, 1, BAND), color(0, 200, 0, x)) for x in range(WIDTH)]
    commands += [pix.composite_color((x, BAND, 1, BAND), color(255, 255, 255, x)) for x in range(WIDTH)]
    commands += [pix.copy_color((0, 3 * BAND, WIDTH, BAND), white)]
    for y, ink in ((2, white), (3, black)):
        commands.append(pix.composite_matte((0, y * BAND, WIDTH, BAND), text, ink))
    image.run(*commands)
    return bytes(memoryview(image.to_array(format)).cast("B"))


def main():
    light, encoded = panel(pix.SRGBA8, pix.RGBA16), panel(pix.Format.RGBA8, pix.RGBA8)
    rows = []
    for start in range(0, len(light), 4 * WIDTH):
        for half in (light, encoded):
            row = half[start : start + 4 * WIDTH]
            rows += [row[at : at + 3] for at in range(0, len(row), 4)]
            rows += [b"\x80\x80\x80"] * (8 if half is light else 0)
    size = 2 * WIDTH + 8, 4 * BAND
    pix.Image.from_array(b"".join(rows), pix.SRGB8, size=size).save(sys.argv[1], "PPM")


if __name__ == "__main__":
    main()
