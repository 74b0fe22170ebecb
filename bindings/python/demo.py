"""Paints the picture of demo.c, and writes it as a PPM file: demo.py FILE"""

import array
import sys

import pix

WIDTH, HEIGHT, SUN, LETTER, LETTERS, STEP = 192, 128, 48, 32, 3, 14


def color(*channels):
    """Returns the linear color of these channels of 8 bits, in 16."""
    return tuple(257 * channel for channel in channels)


def make_sun():
    """Returns a disk that fades to its rim, decoded into light from sRGB with a straight alpha."""
    last = SUN - 1
    rim = last * last
    sprite = bytearray()
    for y in range(SUN):
        for x in range(SUN):
            from_center = (2 * x - last) ** 2 + (2 * y - last) ** 2
            if from_center < rim:
                sprite += bytes((255, 220 - 120 * from_center // rim, 40, min((rim - from_center) // 4, 255)))
            else:
                sprite += bytes(4)
    return pix.Image.from_array(memoryview(sprite).cast("B", (SUN, SUN, 4)), pix.SRGBA8)


def make_letters():
    """Returns a mask of the letters P, I and X side by side, paler to the bottom."""
    rows = (
        (0xFC, 0x66, 0x66, 0x7C, 0x60, 0x60, 0xF0, 0x00),
        (0x3C, 0x18, 0x18, 0x18, 0x18, 0x18, 0x3C, 0x00),
        (0xC6, 0xC6, 0x6C, 0x38, 0x6C, 0xC6, 0xC6, 0x00),
    )
    values = array.array("H")
    for y in range(LETTER):
        for x in range(LETTERS * LETTER):
            bit = 7 - 8 * (x % LETTER) // LETTER
            is_ink = rows[x // LETTER][8 * y // LETTER] >> bit & 1
            values.append(257 * (255 - 4 * y) if is_ink else 0)
    return pix.Matte(values, LETTERS * LETTER, LETTER, bits=16)


def make_swatches():
    """Returns two squares for each operator: an orange one, and a blue one that is composited with its corner."""
    image = pix.Image.new(STEP * len(pix.Op), 12, pix.RGBA16)
    commands = []
    for op in pix.Op:
        commands.append(pix.copy_color((STEP * op, 0, 8, 8), color(160, 60, 0, 200)))
        commands.append(pix.composite_color((STEP * op + 4, 4, 8, 8), color(0, 40, 140, 160), op))
    image.run(*commands)
    return image


def paint():
    """Returns the picture, painted by one list."""
    sun, letters, swatches = make_sun(), make_letters(), make_swatches()
    commands = [pix.copy_color((0, 0, WIDTH, HEIGHT), color(8, 12, 48, 255))]
    for band in range(10):
        commands.append(pix.composite_color((-10, 40 + 7 * band, 400, 400), color(20, 4, 0, 24)))
    commands.append(pix.composite_image((160, -14, SUN, SUN), sun))
    commands.append(pix.composite_image((-20, 76, SUN, SUN), sun, op=pix.Op.PLUS))
    for i in range(LETTERS):
        letter = (LETTER * i, 0, LETTER, LETTER)
        for x, y, ink in ((41, 44, color(0, 0, 0, 160)), (38, 41, color(255, 240, 200, 255))):
            commands.append(pix.composite_matte((x + 42 * i, y, LETTER, LETTER), letters, ink, letter))
    commands.append(pix.composite_image((6, 110, swatches.width, swatches.height), swatches))
    image = pix.Image.new(WIDTH, HEIGHT, pix.RGBA16)
    image.run(*commands)
    return image


def main():
    paint().save(sys.argv[1] if len(sys.argv) > 1 else "demo.ppm", "PPM")


if __name__ == "__main__":
    main()
