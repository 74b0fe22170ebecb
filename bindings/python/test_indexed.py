"""Images of indices beside plain loops, and what is refused."""

import itertools
import random
import unittest

import pix


def plain_nearest(table, color):
    """The nearest entry, by all of them: min answers the first of equals."""
    return min(range(len(table)), key=lambda i: sum((x - y) ** 2 for x, y in zip(table[i], color)))


def joined(colors):
    return bytes(channel for color in colors for channel in color)


def weight(box):
    """The part of the sum of a box's squares that its mean accounts for, rounded down."""
    return sum(sum(channel) ** 2 for channel in zip(*box)) // len(box)


def best_cut(box):
    """How much the cut gains that lowers the squared error most, the first of equals, and its parts: or None, where there is none."""
    best = None
    for channel in range(3):
        for value in range(256):
            low = [color for color in box if color[channel] < value]
            high = [color for color in box if color[channel] >= value]
            if low and high:
                gain = max(0, weight(low) + weight(high) - weight(box))
                if best is None or gain > best[0]:
                    best = gain, low, high
    return best


def cut_boxes(colors, room, best):
    """Boxes of colors, more than there is room for: each time that one is cut whose cut gains most, the first of equals."""
    boxes, cuts = [colors], [best(colors)]
    while len(boxes) < min(2 * room, room + 64) and any(cuts):
        at = max((i for i, cut in enumerate(cuts) if cut), key=lambda i: cuts[i][0])
        boxes[at : at + 1] = parts = cuts[at][1:]
        cuts[at : at + 1] = map(best, parts)
    return boxes


def joined_boxes(boxes, room, weigh):
    """Boxes until there is room for them: each time that pair becomes one for which the squared error rises least, the first of
    equals. It stands where the first of both stood."""
    boxes = list(boxes)
    while len(boxes) > room:
        rise = lambda i, j: max(0, weigh(boxes[i]) + weigh(boxes[j]) - weigh(boxes[i] + boxes[j]))
        i, j = min(itertools.combinations(range(len(boxes)), 2), key=lambda pair: rise(*pair))
        boxes[i] = boxes[i] + boxes.pop(j)
    return boxes


def plain_table(colors, room):
    """The distinct colors, or the means of boxes, which are cut and then joined."""
    firsts = list(dict.fromkeys(colors))
    if len(firsts) <= room:
        return firsts
    return [mean(box) for box in joined_boxes(cut_boxes(colors, room, best_cut), room, weight)]


def mean(box):
    """The mean of colors, rounded, a half up."""
    return tuple((2 * sum(channel) + len(box)) // (2 * len(box)) for channel in zip(*box))


def least_error(levels, room):
    """The least sum of squared errors of levels of gray that are shown by so many of them, or fewer."""
    levels = sorted(levels)
    least = [0] + [float("inf")] * len(levels)
    for _ in range(room):
        least = [0] + [
            min(least[start] + span_error(levels[start:end]) for start in range(end)) for end in range(1, len(levels) + 1)
        ]
    return least[-1]


def span_error(levels):
    """The sum of the squared errors of levels that are shown by the best of all levels."""
    return min(sum((level - entry) ** 2 for level in levels) for entry in range(levels[0], levels[-1] + 1))


def plain_round(colors, table):
    """Each entry goes to the mean of the colors to which it is the nearest, and stays where it has none."""
    groups = [[] for _ in table]
    for color in colors:
        groups[plain_nearest(table, color)].append(color)
    return [mean(group) if group else entry for entry, group in zip(table, groups)]


def squared_error(table, colors):
    """The sum of the squared errors of colors that are shown by their nearest entries."""
    return sum(min(sum((x - y) ** 2 for x, y in zip(entry, color)) for entry in table) for color in colors)


def seen(pixel):
    """A pixel with an alpha as it is seen over black: its colors times its alpha, rounded, and the alpha."""
    return (*((2 * channel * pixel[3] + 255) // 510 for channel in pixel[:3]), pixel[3])


def straight(color):
    """The pixel that is seen as a color: its alpha is divided out again, rounded, a half up."""
    alpha = color[3]
    return (*((510 * channel + alpha) // (2 * alpha) if alpha else 0 for channel in color[:3]), alpha)


def over_white(color):
    return tuple(channel + 255 - color[3] for channel in color[:3])


def seen_distance(one, other):
    """How far apart two seen colors are: their squared differences over black and over white, added."""
    pairs = [*zip(one[:3], other[:3]), *zip(over_white(one), over_white(other))]
    return sum((x - y) ** 2 for x, y in pairs)


def seen_nearest(colors, color):
    """The first seen color of those that are nearest."""
    return min(range(len(colors)), key=lambda i: seen_distance(colors[i], color))


def seen_weight(box):
    return weight([color[:3] for color in box]) + weight(list(map(over_white, box)))


def seen_cut(box):
    """The cut of a box of seen colors that gains most, the first of equals: by a color over black, or by the alpha."""
    best = None
    for channel in range(4):
        for value in sorted({color[channel] for color in box})[1:]:
            low = [color for color in box if color[channel] < value]
            high = [color for color in box if color[channel] >= value]
            gain = max(0, seen_weight(low) + seen_weight(high) - seen_weight(box))
            if best is None or gain > best[0]:
                best = gain, low, high
    return best


def seen_table(pixels, room, rounds):
    """The table of pixels with an alpha: the pixels themselves that are seen as none before them, or what is seen as the
    means of boxes."""
    colors, firsts = list(map(seen, pixels)), {}
    for color, pixel in zip(colors, pixels):
        firsts.setdefault(color, pixel)
    if len(firsts) <= room:
        return list(firsts.values())
    entries = list(map(mean, joined_boxes(cut_boxes(colors, room, seen_cut), room, seen_weight)))
    for _ in range(rounds):
        groups = [[] for _ in entries]
        for color in colors:
            groups[seen_nearest(entries, color)].append(color)
        entries = [settled(entry, group) for entry, group in zip(entries, groups)]
    return list(map(straight, opaque_entries(entries, colors)))


def opaque_entries(entries, colors):
    """The entries after the last step: those become opaque whose alpha is at least 250, and most of whose colors are opaque."""
    alphas = [[] for _ in entries]
    for color in colors:
        alphas[seen_nearest(entries, color)].append(color[3])
    mostly = [entry[3] >= 250 and 2 * of.count(255) > len(of) for entry, of in zip(entries, alphas)]
    return [(*straight(entry)[:3], 255) if is_opaque else entry for entry, is_opaque in zip(entries, mostly)]


def settled(entry, group):
    """The mean of an entry's colors, where their squared error is no greater by it, or the entry."""
    error = lambda shown: sum(seen_distance(shown, color) for color in group)
    return mean(group) if group and error(mean(group)) <= error(entry) else entry


def error_bound(colors):
    """The greatest error that is handed on: half of the widest step from a level of a channel to the next, rounded up, but
    at least 24."""
    levels = [sorted(set(channel)) for channel in zip(*colors)]
    steps = [high - low for channel in levels for low, high in zip(channel, channel[1:])]
    return max([24, *((step + 1) // 2 for step in steps)])


def plain_diffused(width, pixels, strength, serpentine, bound, chosen):
    """Error diffusion: `chosen` has, for a pixel and the function from a number and what it got to what is wanted, the
    index and the errors, or no errors. What is handed on of them is within the bound."""
    got, indices = {}, bytearray(len(pixels))
    for y in range(len(pixels) // width):
        way = -1 if serpentine and y % 2 else 1
        for x in range(width)[::way]:
            took = got.get((x, y), (0,) * 4)
            wanted = lambda i, number: min(255, max(0, (256 * number + 128 + strength * took[i]) // 256))
            indices[width * y + x], errors = chosen(pixels[width * y + x], wanted)
            errors = errors and [max(-bound, min(bound, error)) for error in errors]
            for right, down, share in ((way, 0, 7), (-way, 1, 3), (0, 1, 5), (way, 1, 1)):
                at = x + right, y + down
                if errors and 0 <= at[0] < width:
                    got[at] = tuple(a + share * b for a, b in zip(got.get(at, (0,) * 4), errors))
    return bytes(indices)


def by_colors(table, alpha, transparent_index):
    """How a pixel is chosen among colors; one below an alpha has the transparent index, and no errors."""

    def chosen(pixel, wanted):
        if pixel[3] < alpha:
            return transparent_index, None
        color = tuple(wanted(i, pixel[i]) for i in range(3))
        at = plain_nearest(table, color)
        return at, (*(x - y for x, y in zip(color, table[at])), 0)

    return chosen


def by_alphas(table):
    """How a pixel is chosen among colors with an alpha; a clear one has no errors."""
    colors = list(map(seen, table))

    def chosen(pixel, wanted):
        if not pixel[3]:
            return seen_nearest(colors, (0, 0, 0, 0)), None
        numbers = seen(pixel)
        alpha = wanted(3, numbers[3])
        color = (*(min(alpha, wanted(i, numbers[i])) for i in range(3)), alpha)
        at = seen_nearest(colors, color)
        return at, tuple(x - y for x, y in zip(color, colors[at]))

    return chosen


def any_pixels(chance, count):
    """Pixels with alphas of some kinds, of a few levels or of all."""
    levels = chance.choice([2, 3, 9, 256])
    alphas = chance.choice([(0, 255), (0, 1, 128, 255), range(256)])
    step = 255 // (levels - 1)
    return [(*(step * chance.randrange(levels) for _ in range(3)), chance.choice(alphas)) for _ in range(count)]


class Tables(unittest.TestCase):
    def test_nearest(self):
        chance = random.Random(1)
        for length, levels in ((1, 256), (2, 2), (16, 4), (255, 3), (256, 256)):
            step = 255 // (levels - 1)
            table = [tuple(step * chance.randrange(levels) for _ in range(3)) for _ in range(length)]
            pixels = [tuple(chance.randrange(256) for _ in range(3)) for _ in range(300)]
            pixels += [tuple(step * chance.randrange(levels) for _ in range(3)) for _ in range(200)]
            wanted = bytes(plain_nearest(table, pixel) for pixel in pixels)
            self.assertEqual(pix.map_indexed(joined(table), joined(pixels)), wanted)
            back = pix.look_up(joined(table), wanted)
            self.assertEqual(back, joined(table[i] for i in wanted))
            with_alpha = joined((*pixel, 126 + i % 4) for i, pixel in enumerate(pixels))
            wanted_alpha = bytes(77 if i % 4 < 2 else index for i, index in enumerate(wanted))
            found = pix.map_indexed(joined(table), with_alpha, format=pix.Format.SRGBA8, alpha=128, transparent_index=77)
            self.assertEqual(found, wanted_alpha)

    def test_made(self):
        chance = random.Random(3)
        few = joined(chance.choice([(1, 2, 3), (9, 9, 9), (0, 255, 0)]) for _ in range(50))
        firsts = joined(dict.fromkeys(few[i : i + 3] for i in range(0, len(few), 3)))
        self.assertEqual(pix.quantize(few), firsts)
        self.assertEqual(pix.quantize(few, 3), firsts)
        self.assertEqual(len(pix.quantize(few, 2)), 6)
        halves = joined([(0, 0, 0)] * 3 + [(1, 1, 1)] + [(200, 0, 0), (201, 0, 0)] * 2)
        self.assertEqual(pix.quantize(halves, 2, rounds=0), joined([(0, 0, 0), (201, 0, 0)]))
        clear = joined([(1, 2, 3, 128), (4, 5, 6, 127), (1, 2, 3, 255)])
        self.assertEqual(pix.quantize(clear, format=pix.Format.SRGBA8, alpha=128), b"\1\2\3")
        self.assertEqual(pix.quantize(b""), b"")
        many = bytes(chance.randrange(256) for _ in range(6000))
        for length in (1, 2, 7, 256):
            table = pix.quantize(many, length)
            self.assertEqual(len(table), 3 * length)
        self.assertEqual(pix.quantize(many, 1), bytes((2 * sum(many[c::3]) + 2000) // 4000 for c in range(3)))

    def test_cuts(self):
        chance = random.Random(4)
        for _ in range(40):
            levels, room = chance.choice([2, 3, 9, 256]), chance.randrange(1, 12)
            step, count = 255 // (levels - 1), chance.randrange(1, 40)
            colors = [(255, 0, 0), *(tuple(step * chance.randrange(levels) for _ in range(3)) for _ in range(count))]
            self.assertEqual(pix.quantize(joined(colors), room, rounds=0), joined(plain_table(colors, room)))

    def test_grays(self):
        """Of grays the table has the least squared error, whatever the rounds."""
        chance = random.Random(12)
        for _ in range(60):
            levels, room = chance.choice([3, 20, 256]), chance.randrange(1, 9)
            grays = [chance.randrange(levels) for _ in range(chance.randrange(1, 30))]
            colors = [(gray, gray, gray) for gray in grays]
            tables = [pix.quantize(joined(colors), room, rounds=rounds) for rounds in (0, 6)]
            self.assertEqual(tables[0], tables[1])
            table = [tuple(tables[0][i : i + 3]) for i in range(0, len(tables[0]), 3)]
            self.assertLessEqual(len(table), room)
            self.assertEqual(squared_error(table, colors), 3 * least_error(grays, room))

    def test_refined(self):
        chance = random.Random(5)
        for _ in range(40):
            levels, room = chance.choice([2, 3, 9, 256]), chance.randrange(1, 12)
            step, count = 255 // (levels - 1), chance.randrange(1, 40)
            colors = [(255, 0, 0), *(tuple(step * chance.randrange(levels) for _ in range(3)) for _ in range(count))]
            clear = joined((*color, 128) for color in colors) + joined((*color, 127) for color in colors[:3])
            plain, error = plain_table(colors, room), None
            for rounds in range(5):
                self.assertEqual(pix.quantize(joined(colors), room, rounds=rounds), joined(plain))
                self.assertEqual(pix.quantize(clear, room, pix.SRGBA8, 128, rounds), joined(plain))
                before, error = error, squared_error(plain, colors)
                self.assertTrue(before is None or error <= before)
                plain = plain_round(colors, plain)
        for rounds in (-1, 256):
            with self.assertRaises(ValueError):
                pix.quantize(b"abc", rounds=rounds)

    def test_defaults(self):
        """Six rounds, and twelve sixteenths of each error in rows that go to and fro."""
        chance = random.Random(11)
        pixels = joined(any_pixels(chance, 600))
        colors = joined(pixels[i : i + 3] for i in range(0, len(pixels), 4))
        rgba = pix.Format.SRGBA8
        table, kept = pix.quantize(colors, 7), pix.quantize_rgba(pixels, 7)
        self.assertEqual(table, pix.quantize(colors, 7, rounds=6))
        self.assertNotEqual(table, pix.quantize(colors, 7, rounds=0))
        self.assertEqual(pix.quantize(pixels, 7, rgba, 9), pix.quantize(pixels, 7, rgba, 9, 6))
        self.assertEqual(kept, pix.quantize_rgba(pixels, 7, 6))
        how = {"strength": 12, "serpentine": True}
        self.assertEqual(pix.diffuse_indexed(table, colors, 30), pix.diffuse_indexed(table, colors, 30, **how))
        self.assertNotEqual(pix.diffuse_indexed(table, colors, 30), pix.diffuse_indexed(table, colors, 30, serpentine=False))
        self.assertEqual(pix.diffuse_indexed_rgba(kept, pixels, 30), pix.diffuse_indexed_rgba(kept, pixels, 30, **how))

    def test_diffused(self):
        grays = joined([(0, 0, 0), (255, 255, 255)])
        half = bytes([128]) * 3 * 64
        self.assertEqual(pix.diffuse_indexed(grays, bytes(3 * 64), 8), bytes(64))
        self.assertEqual(sum(pix.diffuse_indexed(grays, half, 64)), 32)
        self.assertIn(sum(pix.diffuse_indexed(grays, half, 8)), range(28, 37))
        # By hand: 120 is black and hands on 7 sixteenths of it, of which 12 of 16 are passed on: 120 and 39.375 are 159, which is
        # white; and so on.
        self.assertEqual(pix.diffuse_indexed(grays, bytes([120]) * 12, 4), b"\0\1\0\1")
        # The bound of black and 48 is 24, so that what is wanted of 10 is at most 34, and here 18.
        dark = joined([(0, 0, 0), (48, 48, 48)])
        self.assertEqual(pix.diffuse_indexed(dark, joined([(255, 255, 255), (10, 10, 10)]), 2), b"\1\0")
        clear = joined([(100, 100, 100, 0), (100, 100, 100, 255)])
        found = pix.diffuse_indexed(grays, clear, 2, format=pix.Format.SRGBA8, alpha=1, transparent_index=9)
        self.assertEqual(found, b"\x09\0")
        self.assertEqual(pix.diffuse_indexed(grays, b"", 5), b"")

    def test_diffused_by_options(self):
        chance = random.Random(6)
        for _ in range(60):
            width, high, strength = chance.randrange(1, 9), chance.randrange(5), chance.randrange(17)
            pixels = any_pixels(chance, width * high)
            table = [color[:3] for color in any_pixels(chance, chance.randrange(1, 7))]
            for serpentine in (False, True):
                how = {"strength": strength, "serpentine": serpentine}
                wanted = plain_diffused(width, pixels, strength, serpentine, error_bound(table), by_colors(table, 0, 0))
                found = pix.diffuse_indexed(joined(table), joined(pixel[:3] for pixel in pixels), width, **how)
                self.assertEqual(found, wanted)
                wanted = plain_diffused(width, pixels, strength, serpentine, error_bound(table), by_colors(table, 2, 9))
                found = pix.diffuse_indexed(joined(table), joined(pixels), width, None, pix.SRGBA8, 2, 9, **how)
                self.assertEqual(found, wanted)
        noise = bytes(chance.randrange(256) for _ in range(300))
        some = noise[:12]
        self.assertEqual(pix.diffuse_indexed(some, noise, 10, strength=0), pix.map_indexed(some, noise))

    def test_seen_nearest(self):
        chance = random.Random(7)
        for length in (1, 2, 16, 256):
            table, pixels = any_pixels(chance, length), any_pixels(chance, 200)
            colors = list(map(seen, table))
            wanted = bytes(seen_nearest(colors, seen(pixel)) for pixel in pixels)
            self.assertEqual(pix.map_indexed_rgba(joined(table), joined(pixels)), wanted)
            self.assertEqual(pix.look_up_rgba(joined(table), wanted), joined(table[i] for i in wanted))
        # Of a clear pixel the color doesn't count, and of a nearly clear one hardly.
        self.assertEqual(pix.map_indexed_rgba(b"\xff\xff\xff\0\0\0\0\0", b"\0\0\0\0"), b"\0")
        self.assertEqual(pix.map_indexed_rgba(b"\xff\0\0\x09\0\0\xff\xff", b"\0\0\xff\x0a"), b"\0")

    def test_seen_tables(self):
        chance = random.Random(8)
        for _ in range(40):
            room, rounds = chance.randrange(1, 10), chance.randrange(4)
            pixels = any_pixels(chance, chance.randrange(1, 40))
            if chance.random() < 0.5:
                pixels = [(*pixel[:3], chance.choice((255, 255, pixel[3] // 16 + 240))) for pixel in pixels]
            made = pix.quantize_rgba(joined(pixels), room, rounds)
            self.assertEqual(made, joined(seen_table(pixels, room, rounds)))
        self.assertEqual(pix.quantize_rgba(b""), b"")
        # Few colors are kept as they are, the first of those that are seen alike.
        few = joined([(9, 8, 7, 0), (1, 2, 3, 255), (0, 0, 0, 0), (200, 3, 90, 1), (210, 4, 80, 1), (7, 7, 7, 77)])
        self.assertEqual(pix.quantize_rgba(few), joined([(9, 8, 7, 0), (1, 2, 3, 255), (200, 3, 90, 1), (7, 7, 7, 77)]))
        for color in any_pixels(chance, 100):
            self.assertEqual(seen(straight(seen(color))), seen(color))

    def test_seen_diffused(self):
        chance = random.Random(9)
        for _ in range(60):
            width, high, strength = chance.randrange(1, 9), chance.randrange(5), chance.randrange(17)
            pixels, table = any_pixels(chance, width * high), any_pixels(chance, chance.randrange(1, 7))
            for serpentine in (False, True):
                wanted = plain_diffused(width, pixels, strength, serpentine, error_bound(map(seen, table)), by_alphas(table))
                found = pix.diffuse_indexed_rgba(joined(table), joined(pixels), width, None, strength, serpentine)
                self.assertEqual(found, wanted)

    def test_opaque_pixels_as_without_alpha(self):
        chance = random.Random(10)
        colors = [tuple(chance.randrange(256) for _ in range(3)) for _ in range(600)]
        plain, opaque = joined(colors), joined((*color, 255) for color in colors)
        for length, rounds in ((2, 0), (7, 1), (100, 4), (256, 2)):
            table, other = pix.quantize(plain, length, rounds=rounds), pix.quantize_rgba(opaque, length, rounds)
            self.assertEqual(pix.look_up(table, bytes(range(length))), joined(other[i : i + 3] for i in range(0, len(other), 4)))
            self.assertEqual(set(other[3::4]), {255})
            self.assertEqual(pix.map_indexed_rgba(other, opaque), pix.map_indexed(table, plain))
            for how in ((16, False), (11, True)):
                found = pix.diffuse_indexed_rgba(other, opaque, 30, None, *how)
                self.assertEqual(found, pix.diffuse_indexed(table, plain, 30, strength=how[0], serpentine=how[1]))

    def test_a_last_row_that_is_short(self):
        """Rows that all go one way may end in a part of one, as in C."""
        chance = random.Random(4)
        table, pixels = joined([(0, 0, 0), (255, 90, 30), (200, 255, 255)]), bytes(chance.randrange(256) for _ in range(3 * 12))
        whole = pix.diffuse_indexed(table, pixels, 4, serpentine=False)
        for count in range(12):
            self.assertEqual(pix.diffuse_indexed(table, pixels[: 3 * count], 4, serpentine=False), whole[:count])
        one_row = pix.diffuse_indexed(table, pixels, 12, serpentine=False)
        self.assertEqual(pix.diffuse_indexed(table, pixels, 10**20, serpentine=False), one_row)
        self.refused(pix.Status.BAD_LENGTH, pix.diffuse_indexed, table, pixels, 10**20)
        self.refused(pix.Status.BAD_LENGTH, pix.diffuse_indexed, table, pixels, -4)

    def test_tables_of_clear_pictures(self):
        clear = joined((9, 9, 9, i) for i in range(20))
        for make in (lambda *words: pix.map_indexed(*words), lambda table, pixels, *more: pix.diffuse_indexed(table, pixels, 4, *more)):
            table, indices = pix.quantize(clear, format=pix.Format.SRGBA8, alpha=20), bytearray(20)
            self.assertEqual(make(table, clear, indices, pix.Format.SRGBA8, 20, 7), b"\7" * 20)
            for alpha in (0, 19):
                self.refused(pix.Status.BAD_TABLE, make, table, clear, indices, pix.Format.SRGBA8, alpha, 3)
            self.assertEqual(indices, b"\7" * 20)
            self.assertEqual(make(b"", b"", None, pix.Format.SRGBA8), b"")

    def test_indexed(self):
        gray = lambda *values: joined((v, v, v) for v in values)
        table, indices = pix.index_pixels(b"", gray(10, 200, 13, 14), threshold=(3, 3, 3))
        self.assertEqual((table, indices), (gray(10, 200, 14), b"\0\1\0\2"))
        # 13 differs by 3 from entry 0 and by 1 from entry 2, which is the last candidate.
        self.assertEqual(pix.index_pixels(table, gray(13), 3, (3, 3, 3)), (table, b"\2"))
        self.assertEqual(pix.index_pixels(memoryview(table), gray(14, 15), 4), (gray(10, 200, 14, 15), b"\2\3"))
        self.assertEqual(pix.index_pixels(table, b""), (table, b""))
        status = pix.Status
        self.refused(status.FULL_TABLE, pix.index_pixels, table, gray(15), 3)
        self.refused(status.BAD_LENGTH, pix.index_pixels, table, gray(15), 2)
        self.refused(status.BAD_LENGTH, pix.index_pixels, b"ab", b"abc")
        self.refused(status.BAD_LENGTH, pix.index_pixels, b"abc", b"ab")
        self.refused(status.BAD_TABLE, pix.index_pixels, b"", b"abc", 0)
        self.refused(status.BAD_TABLE, pix.index_pixels, b"", b"abc", 257)
        for threshold in ((0, 0), (0, 0, 256), (-1, 0, 0)):
            self.assertRaises(ValueError, pix.index_pixels, b"", b"abc", 1, threshold)
        chance = random.Random(5)
        pixels = [tuple(51 * chance.randrange(6) for _ in range(3)) for _ in range(3000)]
        table, indices = pix.index_pixels(b"", joined(pixels))
        firsts = list(dict.fromkeys(pixels))
        self.assertEqual(table, joined(firsts))
        self.assertEqual(indices, bytes(firsts.index(pixel) for pixel in pixels))

    def test_rows(self):
        chance = random.Random(2)
        for bits in (1, 2, 4, 8):
            for count in range(40):
                indices = bytes(chance.randrange(2**bits) for _ in range(count))
                spelled = "".join(f"{index:0{bits}b}" for index in indices)
                spelled += "0" * (-len(spelled) % 8)
                wanted = bytes(int(spelled[i : i + 8], 2) for i in range(0, len(spelled), 8))
                self.assertEqual(pix.row_size(bits, count), len(wanted))
                self.assertEqual(pix.pack_row(bits, indices), wanted)
                self.assertEqual(pix.unpack_row(bits, wanted, count=count), indices)

    def test_counts(self):
        self.assertEqual(pix.count_indices(b"\3\0\3", 4), [1, 0, 0, 2])
        self.assertEqual(sum(pix.count_indices(bytes(1000))), 1000)
        with self.assertRaises(pix.PixError) as refused:
            pix.count_indices(b"\4", 4)
        self.assertEqual(refused.exception.status, pix.Status.BAD_INDEX)

    def refused(self, status, call, *words, **more):
        with self.assertRaises(pix.PixError) as refused:
            call(*words, **more)
        self.assertEqual(refused.exception.status, status)

    def test_refusals(self):
        status, kept = pix.Status, bytearray(b"\x09\x09")
        self.refused(status.BAD_TABLE, pix.map_indexed, b"", b"abc")
        self.refused(status.BAD_TABLE, pix.map_indexed, bytes(3 * 257), b"abc")
        self.refused(status.BAD_LENGTH, pix.map_indexed, b"ab", b"abc")
        self.refused(status.BAD_LENGTH, pix.map_indexed, b"abc", b"abcd")
        self.refused(status.BAD_LENGTH, pix.map_indexed, b"abc", b"abc", kept)
        self.refused(status.BAD_FORMAT, pix.map_indexed, b"abc", b"abcd", format=pix.Format.RGBA8P)
        self.refused(status.BAD_TABLE, pix.quantize, b"abc", 0)
        self.refused(status.BAD_TABLE, pix.quantize, b"abc", 257)
        self.refused(status.BAD_LENGTH, pix.quantize, b"abcd")
        self.refused(status.BAD_FORMAT, pix.quantize, b"abcd", format=pix.Format.RGBA8P)
        self.refused(status.BAD_TABLE, pix.diffuse_indexed, b"", b"abc", 1)
        self.refused(status.BAD_LENGTH, pix.diffuse_indexed, b"abc", b"abc", 0)
        self.refused(status.BAD_LENGTH, pix.diffuse_indexed, b"abc", b"abcabc", 3)
        self.refused(status.BAD_LENGTH, pix.diffuse_indexed, b"abc", b"abc", 1, kept)
        self.refused(status.BAD_INDEX, pix.look_up, b"abc", b"\0\1")
        self.refused(status.BAD_LENGTH, pix.look_up, b"abc", b"\0", bytearray(6))
        self.refused(status.BAD_DEPTH, pix.pack_row, 3, b"\0")
        self.refused(status.BAD_DEPTH, pix.unpack_row, 0, b"\0")
        self.refused(status.BAD_INDEX, pix.pack_row, 1, b"\0\2", bytearray(1))
        self.refused(status.BAD_LENGTH, pix.pack_row, 1, b"\0", kept)
        self.refused(status.BAD_LENGTH, pix.unpack_row, 1, b"\0\0", kept)
        self.refused(status.BAD_TABLE, pix.map_indexed_rgba, b"", b"")
        self.refused(status.BAD_TABLE, pix.diffuse_indexed_rgba, bytes(4 * 257), b"abcd", 1)
        self.refused(status.BAD_TABLE, pix.quantize_rgba, b"abcd", 0)
        self.refused(status.BAD_TABLE, pix.quantize_rgba, b"abcd", 257)
        self.refused(status.BAD_LENGTH, pix.map_indexed_rgba, b"abc", b"abcd")
        self.refused(status.BAD_LENGTH, pix.map_indexed_rgba, b"abcd", b"abc")
        self.refused(status.BAD_LENGTH, pix.map_indexed_rgba, b"abcd", b"abcd", kept)
        self.refused(status.BAD_LENGTH, pix.quantize_rgba, b"abc")
        self.refused(status.BAD_LENGTH, pix.diffuse_indexed_rgba, b"abcd", bytes(12), 2)
        self.refused(status.BAD_LENGTH, pix.diffuse_indexed_rgba, b"abcd", b"abcd", 1, kept)
        self.refused(status.BAD_INDEX, pix.look_up_rgba, b"abcd", b"\0\1")
        self.refused(status.BAD_LENGTH, pix.look_up_rgba, b"abcd", b"\0", bytearray(3))
        # After the table, and before the lengths.
        for strength in (-1, 17, 256 + 16):
            self.refused(status.BAD_STRENGTH, pix.diffuse_indexed, b"abc", b"abc", 0, strength=strength)
            self.refused(status.BAD_STRENGTH, pix.diffuse_indexed_rgba, b"abcd", b"abcd", 0, kept, strength)
            self.refused(status.BAD_TABLE, pix.diffuse_indexed, b"", b"abc", 1, strength=strength)
        self.assertEqual(kept, b"\x09\x09")
        for wrong in (-1, 256):
            self.assertRaises(ValueError, pix.quantize_rgba, b"abcd", 256, wrong)
            self.assertRaises(ValueError, pix.map_indexed, b"abc", b"abcd", format=pix.Format.SRGBA8, alpha=wrong)
        self.assertRaises(TypeError, pix.map_indexed, b"abc", b"abc", b"\0")
        shared = bytearray(6)
        self.assertRaises(ValueError, pix.map_indexed, b"abc", shared, memoryview(shared)[:2])
        self.assertRaises(ValueError, pix.look_up, shared, b"\0", memoryview(shared)[3:])


if __name__ == "__main__":
    unittest.main()
