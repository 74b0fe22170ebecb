"""Paints a square picture into a file, tile by tile in several processes, by dask and numpy.

    tiles.py SIDE TILE FILE [--compare]

The file has the pixels of RGBA8 row by row: 4 * SIDE * SIDE bytes, 1.6 GB where SIDE is 20000. The picture is never in
memory as a whole: each task maps the file, runs all commands on one tile of TILE x TILE pixels, in memory of its own, and
writes it back. With --compare the picture is painted whole too, and compared byte by byte.
"""

import random
import sys

import dask
import numpy

import pix


def make_commands(side):
    """Returns commands that cross the borders of tiles: a ground, large and small rectangles, a sprite and a mask."""
    chance = random.Random(7)
    disk = [max(0, 255 - (x - 32) ** 2 // 2 - (y - 32) ** 2 // 2) for y in range(64) for x in range(64)]
    sprite = pix.Image(b"".join(bytes((a, a // 2, 0, a)) for a in disk), 64, 64)
    commands = [pix.copy_color((0, 0, side, side), (8, 16, 32, 255))]
    for _ in range(60):
        x, y = chance.randrange(-side // 4, side), chance.randrange(-side // 4, side)
        reg = (x, y, chance.randrange(side), chance.randrange(side))
        alpha = chance.randrange(256)
        commands += [
            pix.composite_color(reg, [chance.randrange(alpha + 1) for _ in range(3)] + [alpha]),
            pix.composite_image((x, y, 64, 64), sprite),
            pix.composite_matte((y, x, 64, 64), pix.Matte(bytes(disk), 64, 64), (40, 0, 90, 200), op=pix.Op.SRC_ATOP),
        ]
    return pix.CommandList(*commands)


def paint(path, side, left, top, tile, commands):
    """Paints the tile at a point of the picture."""
    picture = numpy.memmap(path, numpy.uint8, "r+", shape=(side, side, 4))
    there = picture[top : top + tile, left : left + tile]
    own = numpy.array(there)
    pix.Image(own, type=pix.RGBA8).run(commands, origin=(left, top))
    there[:] = own
    picture.flush()


def main(side, tile, path):
    """Paints the picture, and returns how many tiles it has."""
    commands = dask.delayed(make_commands(side))
    numpy.memmap(path, numpy.uint8, "w+", shape=(side, side, 4)).flush()
    places = range(0, side, tile)
    tasks = [dask.delayed(paint)(path, side, left, top, tile, commands) for top in places for left in places]
    dask.compute(*tasks, scheduler="processes")
    return len(tasks)


if __name__ == "__main__":
    side, tile, path = int(sys.argv[1]), int(sys.argv[2]), sys.argv[3]
    print(f"tiles: {main(side, tile, path)} tiles are painted")
    if sys.argv[4:] == ["--compare"]:
        whole = numpy.zeros((side, side, 4), numpy.uint8)
        pix.Image(whole, type=pix.RGBA8).run(make_commands(side))
        if not numpy.array_equal(whole, numpy.memmap(path, numpy.uint8, "r", shape=(side, side, 4))):
            sys.exit("tiles: the tiles are not the picture painted whole")
        print("tiles: they are the picture painted whole")
