"""What the page must show, worked out anew: composites by the table of docs/FORMATS.md, masks, checkerboards, and runs in fractions. It shares nothing with
the page and nothing with the library."""

import functools
import math
import re
from fractions import Fraction

MAX = 255
WIDTH, SIDE, RADIUS, SQUARE, LEAST = 120, 56, 12, 8, 32
GRAYS = {"light": (255, 226), "dark": (64, 44)}


def operators(page):
    """Returns each operator of the table of docs/FORMATS.md, its name with the factors of source and destination, as functions of the other side's alpha
    of a maximum; none where a side is left out."""
    found = {}
    for name, term in re.findall(r"\| `(\w+)` \| `([^`]*)`", page.partition("\n## Operators\n")[2].partition("\n## ")[0]):
        found[name] = tuple(factor(term, side) for side in "sd")
    return found


def factor(term, side):
    """Returns what one side is multiplied by in a formula such as s*(1-da) + d, or none."""
    match = re.search(rf"(?<![\w]){side}(?!a)(\*\(1-\w+\)|\*\w+)?", term)
    if not match:
        return None
    if not match[1]:
        return lambda alpha, most: most
    return (lambda alpha, most: most - alpha) if "1-" in match[1] else (lambda alpha, most: alpha)


def products(operator):
    """Returns for each side of an operator whether its factor is an alpha, by which a product is rounded."""
    return [by is not None and by(1, 3) != 3 for by in operator]


def product(x, y):
    """Returns x * y / 255, to the nearest."""
    return (2 * x * y + MAX) // (2 * MAX)


@functools.lru_cache(maxsize=None)
def composite(operator, source, dest):
    """Returns a source composited with a destination: each is its channels, the alpha last."""
    made = []
    for s, d in zip(source, dest):
        terms = [product(x, by(alpha, MAX)) for x, by, alpha in [(s, operator[0], dest[3]), (d, operator[1], source[3])] if by]
        made.append(min(MAX, sum(terms)))
    return tuple(made)


def exactly(operator, source, dest):
    """Returns the same in fractions."""
    made = []
    for s, d in zip(source, dest):
        terms = [x * by(alpha, MAX) / Fraction(MAX) for x, by, alpha in [(s, operator[0], dest[3]), (d, operator[1], source[3])] if by]
        made.append(min(Fraction(MAX), sum(terms, Fraction(0))))
    return made


def budget(operator, before):
    """Returns the budgets of a color and of the alpha after a composite, in half units, as docs/PROMISES.md has them counted."""
    source, dest = products(operator)
    enters = operator[1] is not None
    color, alpha = before
    return source + dest + enters * color + source * alpha, source + dest + max(enters, source) * alpha


def decoded(byte):
    """Returns a level of sRGB in linear light, by the curve of IEC 61966-2-1, to the nearest."""
    level = byte / MAX
    return math.floor(MAX * (level / 12.92 if level <= 0.04045 else ((level + 0.055) / 1.055) ** 2.4) + 0.5)


def encoded(channel):
    """Returns the way back."""
    light = channel / MAX
    return math.floor(MAX * (12.92 * light if light <= 0.0031308 else 1.055 * light ** (1 / 2.4) - 0.055) + 0.5)


def premultiplied(color, is_light):
    """Returns a straight color as a premultiplied one."""
    return tuple(product(decoded(channel) if is_light else channel, color[3]) for channel in color[:3]) + (color[3],)


def whole(number):
    """Returns a number, to the nearest whole one; a half is rounded up."""
    return math.floor(number + 0.5)


@functools.lru_cache(maxsize=None)
def covers(is_inside, scale):
    """Returns how much of each pixel of a shape is covered, by sixteen points in each, where a step is so many pixels: its rows."""
    side, radius = whole(SIDE * scale), whole(RADIUS * scale)
    points = [(2 * i + 1) / 8 for i in range(4)]

    def cover(x, y):
        # Both shapes bulge everywhere: one that has a pixel's corners has all of it.
        if all(is_inside(x + i, y + j, side, radius) for i in (0, 1) for j in (0, 1)):
            return MAX
        return whole(MAX * sum(is_inside(x + i, y + j, side, radius) for i in points for j in points) / 16)

    return [[cover(x, y) for x in range(side)] for y in range(side)]


def in_disc(x, y, side, _):
    """Returns whether a point lies in the destination's shape."""
    return math.hypot(x - side / 2, y - side / 2) < side / 2


def in_square(x, y, side, radius):
    """Returns whether a point lies in the source's shape: its corners are round."""
    beyond = [max(radius - t, t - (side - radius), 0) for t in (x, y)]
    return math.hypot(*beyond) < radius


def shape(is_inside, place, color, is_light, size):
    """Returns a picture of so many pixels with one shape at a place in steps: its rows of pixels."""
    (width, height), scale = size, size[0] / WIDTH
    full = premultiplied(color, is_light)
    colors = [tuple(product(channel, cover) for channel in full) for cover in range(MAX + 1)]
    left, top = (whole(step * scale) for step in place)
    rows = [[(0, 0, 0, 0)] * width for _ in range(height)]
    for y, row in enumerate(covers(is_inside, scale), top):
        if 0 <= y < height:
            for x in range(max(0, left), min(width, left + len(row))):
                rows[y][x] = colors[row[x - left]]
    return rows


def square_of(width):
    """Returns how many pixels the squares of a checkerboard are wide on a picture so wide."""
    return max(1, whole(SQUARE * width / WIDTH))


def shown(rows, scheme, is_light, over, square=SQUARE):
    """Returns the bytes of a canvas that shows a picture over a checkerboard, by the operator SrcOver."""
    grays = [premultiplied((gray, gray, gray, MAX), is_light) for gray in GRAYS[scheme]]

    @functools.lru_cache(maxsize=None)
    def on(pixel, gray):
        color = composite(over, pixel, gray)
        return bytes([*[encoded(channel) if is_light else channel for channel in color[:3]], color[3]])

    return b"".join(on(pixel, grays[(x // square + y // square) % 2]) for y, row in enumerate(rows) for x, pixel in enumerate(row))


def enlarged(rows):
    """Returns the rows of a picture whose pixels are squares, as the page shows a small one: so large that the longer side has LEAST of its own."""
    factor = max(1, -(-LEAST // max(len(rows), len(rows[0]))))
    return [[pixel for pixel in row for _ in range(factor)] for row in rows for _ in range(factor)]


def parsed(text):
    """Returns the rows of pixels of a picture as pixpaint prints it."""
    return [[tuple(bytes.fromhex(word)) for word in line.split()] for line in text.splitlines()]
