#!/usr/bin/env python3
"""Draws the pictures that the programs are shown with, into a folder.

    apps/pictures/draw.py FOLDER

lake.jpg is as a photograph is, with grain and soft gradients; leaf.png is a drawing with a soft, transparent ground;
window.png is the window of a program, with flat colors and soft edges; and atlas.png has eight sprites of 32 by 32 pixels
side by side. None of them is anybody else's. Needs Pillow.
"""

import math
import pathlib
import random
import sys

sys.path.insert(0, str(pathlib.Path(__file__).resolve().parent.parent.parent / "tools"))
import endings  # noqa: E402, F401

if len(sys.argv) != 2 or sys.argv[1].startswith("-"):
    print(__doc__.strip(), file=sys.stdout if sys.argv[1:] == ["--help"] else sys.stderr)
    sys.exit(0 if sys.argv[1:] == ["--help"] else 2)

from PIL import Image, ImageChops, ImageDraw, ImageFilter, ImageOps  # noqa: E402

WIDTH, HEIGHT, SHORE, SPRITE, SPRITES = 640, 400, 250, 32, 8


def noise(rng, width, height, cell, squeeze=1):
    """Returns a smooth random gray picture, whose features are about `cell` wide and `cell / squeeze` high."""
    columns, rows = width // cell + 2, height * squeeze // cell + 2
    rough = Image.frombytes("L", (columns, rows), bytes(rng.randrange(256) for _ in range(columns * rows)))
    return rough.resize((width, height), Image.BICUBIC)


def clouds(rng, width, height, cell, squeeze=1):
    """Returns noise whose finer features are fainter."""
    picture = noise(rng, width, height, cell, squeeze)
    for share in (0.4, 0.28, 0.18):
        cell = max(cell // 2, 2)
        picture = Image.blend(picture, noise(rng, width, height, cell, squeeze), share)
    return ImageOps.autocontrast(picture)


def gradient(width, stops):
    """Returns a picture of these (row, color) stops, blended from one to the next."""
    height = stops[-1][0]
    picture = Image.new("RGB", (1, height))
    for (top, first), (bottom, last) in zip(stops, stops[1:]):
        for y in range(top, bottom):
            share = (y - top) / (bottom - top)
            picture.putpixel((0, y), tuple(round(a + (b - a) * share) for a, b in zip(first, last)))
    return picture.resize((width, height))


def paint_ridge(picture, rng, base, rise, rough, color, haze):
    """Paints a range of hills from their ridge down to the shore."""
    ridge = [0] * WIDTH
    for octave in range(7):
        step, high = WIDTH / (2 + 2**octave), rise / rough**octave
        heights = [rng.uniform(-high, high) for _ in range(int(WIDTH / step) + 3)]
        for x in range(WIDTH):
            place, share = int(x / step), 0.5 - 0.5 * math.cos(math.pi * ((x / step) % 1))
            ridge[x] += heights[place] * (1 - share) + heights[place + 1] * share
    mask = Image.new("L", picture.size, 0)
    ImageDraw.Draw(mask).polygon([(0, SHORE), *((x, base - y) for x, y in enumerate(ridge)), (WIDTH, SHORE)], fill=255)
    slope = clouds(rng, WIDTH, SHORE, 24).point(lambda level: 80 + level // 2)
    land = ImageChops.multiply(Image.new("RGB", (WIDTH, SHORE), color), Image.merge("RGB", [slope] * 3))
    land = Image.composite(Image.new("RGB", land.size, (214, 178, 160)), land, Image.new("L", land.size, haze))
    picture.paste(land, (0, 0), mask.crop((0, 0, WIDTH, SHORE)))


def paint_pine(draw, x, foot, height, rng):
    """Draws a tree before the light."""
    draw.line([(x, foot), (x, foot - height)], fill=(14, 17, 20), width=2)
    for level in range(0, height - 4, 3):
        reach = (height - level) * rng.uniform(0.16, 0.26)
        y = foot - level
        draw.polygon([(x - reach, y), (x, y - 9), (x + reach, y + rng.uniform(-2, 2))], fill=(14, 17, 20))


def lake():
    """Returns hills at a lake in the evening."""
    rng = random.Random(1789)
    sky = gradient(WIDTH, [(0, (46, 74, 128)), (110, (128, 140, 176)), (190, (236, 190, 150)), (SHORE, (255, 214, 150))])
    glow = Image.radial_gradient("L").resize((520, 420)).point(lambda level: max(0, 255 - 2 * level))
    sky.paste(Image.new("RGB", glow.size, (255, 236, 190)), (150, 0), glow)
    veil = clouds(rng, WIDTH, SHORE, 160, 3).point(lambda level: max(0, level - 120) * 3 // 2)
    sky.paste(Image.new("RGB", sky.size, (255, 226, 206)), (0, 0), veil)
    paint_ridge(sky, rng, 190, 36, 1.7, (104, 104, 140), 110)
    paint_ridge(sky, rng, 216, 26, 1.6, (70, 78, 104), 60)
    paint_ridge(sky, rng, 236, 14, 1.5, (52, 62, 64), 20)
    picture = Image.new("RGB", (WIDTH, HEIGHT))
    picture.paste(sky, (0, 0))
    water = ImageOps.flip(sky).crop((0, 0, WIDTH, HEIGHT - SHORE)).filter(ImageFilter.GaussianBlur(1.4))
    water = ImageChops.multiply(water, gradient(WIDTH, [(0, (214, 220, 228)), (HEIGHT - SHORE, (110, 128, 156))]))
    ripples = clouds(rng, WIDTH, HEIGHT - SHORE, 48, 9)
    picture.paste(ImageChops.overlay(water, Image.merge("RGB", [ripples] * 3)), (0, SHORE))
    picture.paste(Image.blend(picture.crop((0, SHORE, WIDTH, HEIGHT)), water, 0.55), (0, SHORE))
    trees = Image.new("RGBA", (WIDTH * 2, HEIGHT * 2))
    for x in (14, 60, 96, 150, 1120, 1166, 1204, 1250):
        paint_pine(ImageDraw.Draw(trees), x, 2 * HEIGHT + 6, rng.randrange(170, 330), rng)
    trees = trees.resize(picture.size, Image.LANCZOS)
    picture.paste(trees, (0, 0), trees)
    grain = Image.frombytes("L", picture.size, bytes(rng.randrange(118, 139) for _ in range(WIDTH * HEIGHT)))
    return ImageChops.overlay(picture, Image.merge("RGB", [grain] * 3))


def leaf():
    """Returns a leaf with a soft shadow, on no ground."""
    side, big = 320, 1280
    blade = Image.new("L", (big, big))
    draw = ImageDraw.Draw(blade)
    for sign in (-1, 1):
        edge = []
        for i in range(201):
            t = i / 200
            tooth = 1 + 0.09 * abs(math.sin(11 * math.pi * t))
            edge.append((big / 2 + sign * 400 * math.sin(math.pi * t**0.8) * (1 - 0.35 * t) * tooth, 120 + 960 * (1 - t)))
        draw.polygon(edge, fill=255)
    blade = blade.resize((side, side), Image.LANCZOS)
    color = gradient(side, [(0, (196, 208, 60)), (140, (92, 168, 52)), (side, (18, 104, 62))])
    veins = Image.new("L", (big, big))
    draw = ImageDraw.Draw(veins)
    draw.line([(big / 2, 170), (big / 2, 1240)], fill=255, width=18)
    for y in range(330, 1040, 100):
        for sign in (-1, 1):
            draw.line([(big / 2, y), (big / 2 + sign * 300, y - 190)], fill=170, width=9)
    color.paste(Image.new("RGB", color.size, (232, 240, 190)), (0, 0), veins.resize((side, side), Image.LANCZOS))
    stem = veins.resize((side, side), Image.LANCZOS).crop((150, 260, 170, side))
    blade.paste(ImageChops.lighter(blade.crop((150, 260, 170, side)), stem), (150, 260))
    shadow = ImageChops.offset(blade, 10, 10).filter(ImageFilter.GaussianBlur(7)).point(lambda level: level * 110 // 255)
    picture = Image.merge("RGBA", [Image.new("L", (side, side))] * 3 + [shadow])
    picture.alpha_composite(Image.merge("RGBA", [*color.split(), blade.point(lambda level: level * 235 // 255)]))
    return picture


def sprite(number):
    """Returns one of the sprites: a soft ball, or a star, in a color of its own."""
    big = 8 * SPRITE
    hue = Image.new("HSV", (1, 1), (number * 255 // SPRITES, 190, 255)).convert("RGB").getpixel((0, 0))
    points = 3 + number // 2 if number % 2 else 60
    depth = 0.5 if number % 2 else 1.0
    mask = Image.new("L", (big, big))
    corners = []
    for i in range(2 * points):
        reach = big * 0.47 * (depth if i % 2 else 1)
        corners.append((big / 2 + reach * math.sin(math.pi * i / points), big / 2 - reach * math.cos(math.pi * i / points)))
    ImageDraw.Draw(mask).polygon(corners, fill=255)
    light = Image.radial_gradient("L").resize((2 * big, 2 * big)).crop((big * 2 // 3, big * 2 // 3, big * 5 // 3, big * 5 // 3))
    color = ImageOps.colorize(light, tuple(min(255, c + 110) for c in hue), tuple(c // 3 for c in hue), hue, midpoint=90)
    color.putalpha(mask)
    return color.resize((SPRITE, SPRITE), Image.LANCZOS)


def atlas():
    """Returns all sprites side by side."""
    picture = Image.new("RGBA", (SPRITE * SPRITES, SPRITE))
    for number in range(SPRITES):
        picture.paste(sprite(number), (SPRITE * number, 0))
    return picture


def paint_lines(draw, rng, box, color):
    """Draws lines of short strokes into a box, as words that are too small to be read."""
    left, top, right, bottom = box
    for y in range(top, bottom, 36):
        x = left
        while x < right - 60:
            long = rng.randrange(16, 72, 8)
            draw.rounded_rectangle((x, y, min(x + long, right), y + 11), 5, fill=color)
            x += long + 14


def window():
    """Returns the window of a program: a bar, a list, cards, buttons and small marks of other colors."""
    rng, share = random.Random(7), 4
    picture = Image.new("RGB", (320 * share, 200 * share), (244, 246, 248))
    draw = ImageDraw.Draw(picture)
    picture.paste(gradient(1280, [(0, (58, 92, 158)), (96, (38, 66, 122))]), (0, 0))
    paint_lines(draw, rng, (150, 40, 560, 70), (236, 240, 250))
    for place, color in enumerate([(226, 86, 78), (238, 186, 64), (98, 186, 92)]):
        draw.ellipse((24 + 38 * place, 36, 50 + 38 * place, 62), fill=color)
    draw.rectangle((0, 96, 340, 800), fill=(226, 231, 238))
    draw.rectangle((0, 176, 340, 248), fill=(66, 124, 214))
    for row in range(7):
        dark = (255, 255, 255) if row == 1 else (92, 104, 120)
        draw.ellipse((28, 122 + 72 * row, 56, 150 + 72 * row), fill=dark)
        paint_lines(draw, rng, (80, 130 + 72 * row, 300, 150 + 72 * row), dark)
    draw.ellipse((282, 336, 318, 372), fill=(214, 48, 60))
    for left, top in ((380, 136), (820, 136), (380, 456), (820, 456)):
        draw.rounded_rectangle((left + 4, top + 6, left + 404, top + 286), 16, fill=(208, 214, 222))
        draw.rounded_rectangle((left, top, left + 400, top + 280), 16, fill=(255, 255, 255))
        paint_lines(draw, rng, (left + 28, top + 32, left + 220, top + 60), (36, 44, 58))
        paint_lines(draw, rng, (left + 28, top + 84, left + 376, top + 190), (150, 160, 174))
        draw.rounded_rectangle((left + 28, top + 214, left + 160, top + 256), 20, fill=(66, 124, 214))
        draw.rounded_rectangle((left + 178, top + 214, left + 310, top + 256), 20, outline=(66, 124, 214), width=4)
    draw.ellipse((1136, 168, 1176, 208), fill=(40, 160, 120))
    return picture.resize((320, 200), Image.LANCZOS)


def main():
    folder = pathlib.Path(sys.argv[1])
    window().save(folder / "window.png", optimize=True)
    lake().save(folder / "lake.jpg", quality=90)
    leaf().save(folder / "leaf.png", optimize=True)
    atlas().save(folder / "atlas.png", optimize=True)


if __name__ == "__main__":
    main()
