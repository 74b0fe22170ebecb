"""Draws pictures at another size by three filters, side by side: python3 filters.py SPRITES LEAF FILE

From left to right: nearest, area, linear. Above is the sixth sprite of the sheet SPRITES, 3.75 times as
large. Below is LEAF at a side of 30 pixels, each of them shown as a square of four. Both lie over a
checkerboard, in light.
"""

import sys

import pix

FILTERS = pix.Filter.NEAREST, pix.Filter.AREA, pix.Filter.LINEAR
SIDE, EDGE, SQUARE = 120, 12, 12


def checkerboard(width, height):
    """Returns an image of white and gray squares."""
    board = pix.Image.new(width, height)
    board.run(pix.copy_color((0, 0, width, height), pix.srgb("#fff")))
    for y in range(0, height, SQUARE):
        for x in range(y % (2 * SQUARE), width, 2 * SQUARE):
            board.run(pix.copy_color((x, y, SQUARE, SQUARE), pix.srgb("#ececec")))
    return board


def main(sprites, leaf, file):
    """Draws the picture into a file."""
    sprite, leaf = pix.Image.open(sprites).part((160, 0, 32, 32)), pix.Image.open(leaf)
    sheet = checkerboard(EDGE + 3 * (SIDE + EDGE), EDGE + 2 * (SIDE + EDGE))
    for column, by in enumerate(FILTERS):
        large, small = sprite.scaled(SIDE, SIDE, by), leaf.scaled(SIDE // 4, SIDE // 4, by)
        for row, panel in enumerate((large, small.scaled(SIDE, SIDE, pix.Filter.NEAREST))):
            x, y = (EDGE + place * (SIDE + EDGE) for place in (column, row))
            sheet.run(pix.composite_image((x, y, SIDE, SIDE), panel))
    sheet.save(file)


if __name__ == "__main__":
    main(*sys.argv[1:])
