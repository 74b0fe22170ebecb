"""Makes font files whose glyphs are boxes, so that a picture tells which character stands where.

A box is as high as the test says, in units of 1000 for the size of the font, and 300 wide; so is each step of the pen,
with 100 beside it. What a font lacks is a box that is 50 high.
"""

import struct

WIDTH, STEP, LACKING = 300, 400, 50


def glyph(height):
    """Returns the outline of a box on the baseline, or of nothing."""
    if not height:
        return b""
    head = struct.pack(">5h", 1, 0, 0, WIDTH, height)
    points = struct.pack(">HH4B", 3, 0, 1, 1, 1, 1)
    return head + points + struct.pack(">4h4h", 0, 0, WIDTH, 0, 0, height, 0, -height) + b"\0\0"


def character_map(characters):
    """Returns the table that says which glyph a character has: groups of one character each."""
    groups = b"".join(struct.pack(">3L", ord(one), ord(one), at) for at, one in enumerate(characters, 1))
    table = struct.pack(">HHLLL", 12, 0, 16 + len(groups), 0, len(characters)) + groups
    return struct.pack(">HHHHL", 0, 1, 3, 10, 12) + table


def names(family):
    """Returns the table of names: the family, the style, the whole, and the one for PostScript."""
    texts = [(number, text.encode("utf-16-be")) for number, text in ((1, family), (2, "Regular"), (4, family), (6, family))]
    records, stored = b"", b""
    for number, text in texts:
        records += struct.pack(">6H", 3, 1, 0x409, number, len(text), len(stored))
        stored += text
    return struct.pack(">3H", 0, len(texts), 6 + len(records)) + records + stored


def tables(family, heights):
    """Returns the tables of a font: `heights` says for each character how high its box is."""
    characters = sorted(heights)
    glyphs = [glyph(LACKING)] + [glyph(heights[one]) for one in characters]
    offsets = [sum(map(len, glyphs[:count])) for count in range(len(glyphs) + 1)]
    count = len(glyphs)
    head = struct.pack(">LLLLHHQQ4hHHhhh", 0x10000, 0x10000, 0, 0x5F0F3CF5, 3, 1000, 0, 0, 0, 0, WIDTH, 1000, 0, 8, 2, 1, 0)
    os2 = struct.pack(">HhHHH", 4, STEP, 400, 5, 0) + bytes(22) + bytes(10) + bytes(16) + b"none" + struct.pack(">HHHhhhHH", 64, 32, 0xFFFF, 800, -200, 90, 800, 200)
    os2 += bytes(8) + struct.pack(">hhHHH", 500, 700, 0, 32, 1)
    return {
        b"OS/2": os2,
        b"cmap": character_map(characters),
        b"glyf": b"".join(glyphs),
        b"head": head,
        b"hhea": struct.pack(">L3hH11hH", 0x10000, 800, -200, 90, STEP, 0, 0, WIDTH, 1, 0, 0, 0, 0, 0, 0, 0, count),
        b"hmtx": struct.pack(">Hh", STEP, 0) * count,
        b"loca": struct.pack(f">{count + 1}L", *offsets),
        b"maxp": struct.pack(">LH13H", 0x10000, count, 4, 1, 0, 0, 2, 0, 0, 0, 0, 0, 0, 0, 0),
        b"name": names(family),
        b"post": struct.pack(">LLhhLLLLL", 0x30000, 0, 0, 0, 0, 0, 0, 0, 0),
    }


def font(family, heights):
    """Returns the bytes of a font file of this family."""
    parts = tables(family, heights)
    directory, stored = struct.pack(">L4H", 0x10000, len(parts), 128, 3, 16 * len(parts) - 128), b""
    for name, table in sorted(parts.items()):
        at = 12 + 16 * len(parts) + len(stored)
        directory += name + struct.pack(">3L", 0, at, len(table))
        stored += table + bytes(-len(table) % 4)
    return directory + stored
