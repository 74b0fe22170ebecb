#!/usr/bin/python3
"""Makes the masks of glyphs that the benchmark reads, by FreeType from DejaVu Sans: text-12.pgm, text-20.pgm.

    apt-get install python3-freetype fonts-dejavu-core
    bench/glyphs.py
"""

import os
import sys

sys.path.insert(0, os.path.join(os.path.dirname(os.path.realpath(__file__)), "..", "tools"))
sys.dont_write_bytecode = True
import endings  # noqa: E402, F401

if sys.argv[1:]:
    print(__doc__.strip(), file=sys.stdout if sys.argv[1:] == ["--help"] else sys.stderr)
    sys.exit(0 if sys.argv[1:] == ["--help"] else 2)

import freetype  # noqa: E402

FONT = "/usr/share/fonts/truetype/dejavu/DejaVuSans.ttf"
HERE = os.path.dirname(os.path.abspath(__file__))
TEXT = (
    "A mask holds, for each point, the part of a color that is painted there: all of it inside of a letter, nothing "
    "outside, and a fraction along its edges. So most of a page of text is clear, and what is not comes in short runs. "
)


def drawn(bitmap, mask, left, top):
    """Adds a bitmap to the mask; what lies outside of the mask is left out, and where two glyphs touch the greater value counts."""
    for row in range(bitmap.rows):
        for column in range(bitmap.width):
            x, y = left + column, top + row
            if 0 <= y < len(mask) and 0 <= x < len(mask[0]):
                mask[y][x] = max(mask[y][x], bitmap.buffer[row * bitmap.pitch + column])


def page(face, size, width, height):
    """Lines of text at this size, which fill the mask and are cut off at its right edge."""
    mask = [bytearray(width) for _ in range(height)]
    face.set_pixel_sizes(0, size)
    letters = 0
    for base in range(size, height, round(1.3 * size)):
        pen = 1
        while pen < width:
            face.load_char(TEXT[letters % len(TEXT)], freetype.FT_LOAD_RENDER)
            glyph = face.glyph
            drawn(glyph.bitmap, mask, pen + glyph.bitmap_left, base - glyph.bitmap_top)
            pen += glyph.advance.x >> 6
            letters += 1
    return mask


def write(name, mask):
    """Writes the mask as a gray picture."""
    with open(os.path.join(HERE, name), "wb") as file:
        file.write(b"P5\n%d %d\n255\n" % (len(mask[0]), len(mask)))
        file.write(b"".join(mask))
    values = b"".join(mask)
    print(f"{name}: {values.count(0) / len(values):.0%} clear, {values.count(255) / len(values):.0%} full")


def main():
    """Makes both files."""
    face = freetype.Face(FONT)
    write("text-12.pgm", page(face, 12, 256, 128))
    write("text-20.pgm", page(face, 20, 256, 128))


if __name__ == "__main__":
    main()
