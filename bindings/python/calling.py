"""Paints the pictures of CALLING.md into the folder that it is run in: calling.py LAKE

LAKE is pictures/lake.ppm. calling.c and the Rust example `calling` paint the same pictures, byte
by byte.
"""

import sys

import pix

SKY = pix.srgb("#a0d0f0")
# The letter P as a mask: each digit is a ninth of full coverage.
LETTER = """
99999720
99003892
99000299
99000299
99003892
99999720
99000000
99000000
99000000
"""


def new_sky():
    """Returns a picture with the color of the sky."""
    picture = pix.Image.new(64, 36, pix.RGBA8)
    picture.run(pix.copy_color((0, 0, 64, 36), SKY))
    return picture


def new_ball():
    """Returns a sprite of 16 by 16 pixels: a ball, and clear around it."""
    ball = pix.Image.new(16, 16, pix.RGBA8)
    for y in range(16):
        for x in range(16):
            if (2 * x - 15) ** 2 + (2 * y - 15) ** 2 < 256:
                ball.run(pix.copy_color((x, y, 1, 1), pix.srgb("#e07020")))
    return ball


def paste(picture, sprite, x, y):
    """Composites a sprite over a picture, with its corner at (x, y). Any part may lie outside."""
    picture.run(pix.composite_image((x, y, sprite.width, sprite.height), sprite))


def draw_glyph(picture, glyph, x, y, ink):
    """Draws a glyph in one color, with its corner at (x, y). Its mask has a byte for each pixel."""
    picture.run(pix.composite_matte((x, y, glyph.width, glyph.height), glyph, ink))


def fade(picture, sprite, x, y, opacity):
    """Composites a sprite at one opacity, from 0 (nothing) to 255 (all of it)."""
    to = (x, y, sprite.width, sprite.height)
    picture.run(pix.composite_image_alpha(to, sprite, alpha8=opacity))


def glaze(photo):
    """Lays a band over the middle of a photograph, an image of light as Image.open() makes it."""
    band = (0, photo.height // 3, photo.width, photo.height // 3)
    photo.run(pix.composite_color(band, pix.srgb("#ffffff", opacity=0.5)))


def index_picture(picture):
    """Returns a table of at most 16 colors of a picture, and the index of each pixel in it."""
    pixels = picture.to_array(pix.SRGB8)
    table = pix.quantize(pixels, 16)
    return table, pix.diffuse_indexed(table, pixels, picture.width)


def draw_by_tiles(picture, commands):
    """Draws a list of commands on a picture of 64 by 36 pixels, a tile of 32 by 18 at a time."""
    tile = pix.Image.new(32, 18, pix.RGBA8)
    for top in (0, 18):
        for left in (0, 32):
            tile.run(*commands, origin=(left, top))
            picture.run(pix.copy_image((left, top, 32, 18), tile))


def main(lake):
    """Paints the pictures."""
    ball = new_ball()

    picture = new_sky()
    paste(picture, ball, 24, 10)
    paste(picture, ball, -6, 4)
    paste(picture, ball, 56, 26)
    picture.save("paste.ppm")

    mask = bytes(255 * int(digit) // 9 for digit in "".join(LETTER.split()))
    glyph = pix.Matte(mask, 8, 9)
    picture = new_sky()
    draw_glyph(picture, glyph, 10, 13, pix.srgb("#202040"))
    draw_glyph(picture, glyph, 28, 13, pix.srgb("#c02020"))
    draw_glyph(picture, glyph, 46, 13, pix.srgb("#ffffff"))
    picture.save("glyph.ppm")

    picture = new_sky()
    for i in range(4):
        fade(picture, ball, 16 * i, 10, 255 - 64 * i)
    picture.save("fade.ppm")

    photo = pix.Image.open(lake)
    glaze(photo)
    photo.save("light.ppm")

    photo = pix.Image.open(lake)
    photo.scaled(64, 40).save("thumbnail.ppm")

    table, indices = index_picture(pix.Image.open(lake))
    shown = pix.look_up(table, indices)
    pix.Image.from_array(shown, pix.SRGB8, size=(160, 100)).save("indexed.ppm")

    commands = [
        pix.copy_color((0, 0, 64, 36), SKY),
        pix.composite_image((24, 10, 16, 16), ball),
        pix.composite_image((-6, 4, 16, 16), ball),
        pix.composite_image((56, 26, 16, 16), ball),
    ]
    picture = pix.Image.new(64, 36, pix.RGBA8)
    draw_by_tiles(picture, commands)
    picture.save("tiles.ppm")


if __name__ == "__main__":
    main(*sys.argv[1:])
