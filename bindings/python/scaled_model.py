"""Compares pictures at another size with a model in whole numbers of Python, which has nothing of the library.

    python3 scaled_model.py [CASES [SEED]]

Each case is a picture of sides up to 70, of one kind of pixels, and a window of it at another size, by one filter. The
weights come from the definition, over all places of a side, and each channel is the exact double sum, rounded once. By weights
below 0 an alpha is cut at its ends, and a color at the new alpha; their values come from polynomials and from sines. Some
new pictures are as large as the sums allow. With Pillow, LINEAR is compared with its BILINEAR too, which rounds twice: no
byte may be more than 1 from it. CASES is 3000 and SEED 1 where they aren't given. The status is 1 if a pixel differs.
"""

import math
import random
import sys
from fractions import Fraction

import pix
from pix import Filter

try:
    from PIL import Image as pillow
except ImportError:
    pillow = None

SIDE, ONE, SIGNED = 70, 1 << 15, 1 << 14
# Each kind of pixels: channels, the greatest one, and the code of its numbers in memory.
KINDS = {pix.RGBA8: (4, 255, "B"), pix.RGBA16: (4, 65535, "H"), pix.GRAYA8: (2, 255, "B")}


def center_distance(n, m, i, j):
    """How far the center of place j of n is from that of place i of m, where a place of n is 2 m long."""
    return abs((2 * j + 1) * m - (2 * i + 1) * n)


def nearest(n, m, i):
    """The one place under the center."""
    return [int(j == (2 * i + 1) * n // (2 * m)) for j in range(n)]


def area(n, m, i):
    """The lengths of place i that lie over each place."""
    return [max(0, min((i + 1) * n, (j + 1) * m) - max(i * n, j * m)) for j in range(n)]


def linear(n, m, i):
    """By the distances of centers: past an edge the edge counts where a side grows, and nothing where it shrinks."""
    reach = 2 * max(n, m)
    weights = {j: max(0, reach - center_distance(n, m, i, j)) for j in range(-1, n + 1)}
    if m < n:
        return whole_of([weights[j] for j in range(n)])
    weights[0] += weights[-1]
    weights[n - 1] += weights[n]
    return [weights[j] for j in range(n)]


def whole_of(weights):
    """Weights scaled to 2^15: the steps of the parts that the weights up to each place have of all, which are rounded to the
    nearest, ties up."""
    total = sum(weights)
    parts = [(2 * ONE * sum(weights[:count]) + total) // (2 * total) for count in range(len(weights) + 1)]
    return [end - start for start, end in zip(parts, parts[1:])]


def catmull_rom(x):
    """The cubic of Catmull and Rom."""
    return (3 * x**3 - 5 * x**2 + 2) / 2 if x < 1 else (-(x**3) + 5 * x**2 - 8 * x + 4) / 2


def mitchell(x):
    """The cubic of Mitchell and Netravali, with B and C a third."""
    return (21 * x**3 - 36 * x**2 + 16) / 18 if x < 1 else (-7 * x**3 + 36 * x**2 - 60 * x + 32) / 18


def lanczos(x):
    """The windowed sine, up to three places."""
    return math.sin(math.pi * x) * math.sin(math.pi * x / 3) * 3 / (math.pi * x) ** 2 if x else 1


def values_of(curve, reach):
    """The values of a curve at 64ths of a place, in 2^14ths, rounded to the nearest, and 0 at its end."""
    return [math.floor(SIGNED * curve(Fraction(k, 64)) + Fraction(1, 2)) for k in range(64 * reach)] + [0] * 321


def signed(curve, reach):
    """The weights by a curve with values below 0."""
    values = values_of(curve, reach)

    def weights(n, m, i):
        common = math.gcd(n, m)
        old, new = n // common, m // common
        wide, near = max(old, new), (2 * i + 1) * old // (2 * new)
        count = min(n, 2 * reach * wide // new + 1)
        if n != m:
            first = min(n - count, max(0, (2 * i + 1) * old + new - 2 * reach * wide) // (2 * new))
            found = []
            for j in range(first, first + count):
                k, part = divmod(min(center_distance(old, new, i, j), 8 * wide) * 32768 // wide, 1024)
                found.append(values[k] * (1024 - part) + values[k + 1] * part)
            plus, minus = [max(0, value) for value in found], [max(0, -value) for value in found]
            whole = sum(plus) - sum(minus)
            steps = [parts_of(of, whole) for of in (plus, minus)]
            if whole > 0 and sum(steps[1]) < SIGNED // 2:
                return [0] * first + [more - less for more, less in zip(*steps)] + [0] * (n - first - count)
        return [SIGNED * (j == near) for j in range(n)]

    return weights


def parts_of(weights, whole):
    """The steps of the parts that weights have of a whole, in 2^14ths, rounded as they add up."""
    ends = [(2 * SIGNED * sum(weights[:count]) + whole) // (2 * whole) for count in range(len(weights) + 1)]
    return [end - start for start, end in zip(ends, ends[1:])]


WEIGHTS = {
    Filter.NEAREST: nearest, Filter.AREA: area, Filter.LINEAR: linear, Filter.CATMULL_ROM: signed(catmull_rom, 2),
    Filter.MITCHELL: signed(mitchell, 2), Filter.LANCZOS: signed(lanczos, 3),
}  # fmt: skip


def counted(filter, n, m, i):
    """The places that count for place i, with their weights, which may be divided by what divides both sides."""
    return [(j, weight) for j, weight in enumerate(WEIGHTS[filter](n, m, i)) if weight]


def total(weights):
    return sum(weight for _, weight in weights)


def window_of(source, sides, channels, limit, filter, size, window):
    """The numbers of a window of the picture at another size."""
    (wide, high), (left, top, width, height), made = sides, window, []
    columns = [counted(filter, wide, size[0], left + x) for x in range(width)]
    for y in range(height):
        rows = counted(filter, high, size[1], top + y)
        flat = [
            sum(weight * source[(v * wide) * channels + at] for v, weight in rows)
            for at in range(wide * channels)
        ]
        for column in columns:
            whole, most, pixel = total(column) * total(rows), limit, []
            for c in reversed(range(channels)):
                exact = sum(weight * flat[u * channels + c] for u, weight in column)
                pixel.append(min(most, max(0, (2 * exact + whole) // (2 * whole))))
                if filter >= Filter.CATMULL_ROM:
                    most = pixel[0]
            made.extend(reversed(pixel))
    return made


def numbers_of(chance, count, limit):
    """Numbers of a picture: noise, or few levels, among them the ends."""
    kind = chance.randrange(3)
    if kind == 0:
        return [chance.randrange(limit + 1) for _ in range(count)]
    levels = [0, limit] if kind == 1 else [0, limit, chance.randrange(limit + 1), limit // 2]
    return [chance.choice(levels) for _ in range(count)]


def new_side(chance, filter, side):
    """A new side: mostly small, and sometimes as large as sums allow."""
    if chance.randrange(20):
        return 1 + chance.randrange(SIDE)
    most = 2**31 - 1 if filter is Filter.NEAREST else 2**20 if filter is Filter.AREA else 2**14
    return chance.randrange(most - 9, most)


def part_of(chance, side):
    """The first place and the number of those of a window: mostly few, and sometimes all."""
    count = min(side, SIDE if chance.randrange(9) == 0 else 1 + chance.randrange(6))
    return chance.choice([0, side - count, chance.randrange(side - count + 1)]), count


def case_of(chance):
    """Compares one window; returns a sentence where it differs."""
    kind, filter = chance.choice(list(KINDS)), chance.choice(list(WEIGHTS))
    channels, limit, code = KINDS[kind]
    sides = 1 + chance.randrange(SIDE), 1 + chance.randrange(SIDE)
    size = tuple(new_side(chance, filter, side) for side in sides)
    (left, width), (top, height) = (part_of(chance, side) for side in size)
    source = numbers_of(chance, sides[0] * sides[1] * channels, limit)
    words = memoryview(bytearray(len(source) * (2 if code == "H" else 1))).cast(code)
    for at, number in enumerate(source):
        words[at] = number
    window = (left, top, width, height)
    made = pix.Image(words, *sides, type=kind).scaled(*size, filter, window)
    found = made.pixels.cast(code).tolist()
    wanted = window_of(source, sides, channels, limit, filter, size, window)
    if found == wanted:
        return None
    at = next(i for i, pair in enumerate(zip(found, wanted)) if pair[0] != pair[1])
    return f"{kind} of {sides} to {size} by {filter!r}, {window}: number {at} is {found[at]}, not {wanted[at]}"


def beside_pillow(chance):
    """Compares a whole picture with Pillow's, which is premultiplied as its mode RGBa says."""
    sides, size = ((1 + chance.randrange(SIDE), 1 + chance.randrange(SIDE)) for _ in range(2))
    source = bytearray(numbers_of(chance, 4 * sides[0] * sides[1], 255))
    theirs = pillow.frombytes("RGBa", sides, bytes(source)).resize(size, pillow.BILINEAR).tobytes()
    ours = bytes(pix.Image(source, *sides).scaled(*size, Filter.LINEAR).pixels)
    apart = max(abs(one - other) for one, other in zip(ours, theirs))
    return None if apart <= 1 else f"{sides} to {size}: {apart} from Pillow's BILINEAR"


def main(words):
    cases, seed = (int(word) for word in (words + ["3000", "1"][len(words) :]))
    chance, faults = random.Random(seed), []
    for number in range(cases):
        fault = case_of(chance)
        if fault is None and pillow is not None and number % 20 == 0:
            fault = beside_pillow(chance)
        if fault is not None:
            faults.append(fault)
            print(fault, flush=True)
    beside = "" if pillow is None else f", and {(cases + 19) // 20} within 1 of Pillow's BILINEAR"
    print(f"scaled_model: {cases} windows{beside}, {len(faults)} differ")
    return 1 if faults else 0


if __name__ == "__main__":
    if sys.argv[1:2] == ["--help"]:
        print(__doc__.strip())
    else:
        sys.exit(main(sys.argv[1:]))
