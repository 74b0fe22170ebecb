"""Makes each pixel of a picture a square: enlarge.py PICTURE FACTOR FILE [--compare]

With --compare nothing is written, and the status is 1 where FILE is another picture.
"""

import sys

import pix


def enlarged(small, factor):
    """Returns an image in which each pixel of another one is a square."""
    large = pix.Image.new(factor * small.width, factor * small.height, small.type)
    pixels, stride = small.pixels.cast("B").cast("H"), 4 * small.stride
    for y in range(small.height):
        at = (y * stride + 4 * x for x in range(small.width))
        row = [pix.Color(pixels[i : i + 4], small.type) for i in at]
        squares = ((factor * x, factor * y, factor, factor) for x in range(small.width))
        large.run(*map(pix.copy_color, squares, row))
    return large


def main(picture, factor, file, *words):
    """Enlarges a picture, or compares the outcome."""
    large = enlarged(pix.Image.open(picture), int(factor))
    if not words:
        large.save(file)
        return 0
    return bytes(pix.Image.open(file).pixels) != bytes(large.pixels)


if __name__ == "__main__":
    sys.exit(main(*sys.argv[1:]))
