import pix

WIDTH, HEIGHT, DISC = 240, 160, 96
odd = range(1 - DISC, DISC, 2)
# A mask: 255 within the disc, and less at its rim.
disc = bytes(min(max((DISC * DISC - x * x - y * y) // 2, 0), 255) for y in odd for x in odd)
mask = pix.Matte(disc, DISC, DISC)
image = pix.Image.new(WIDTH, HEIGHT, pix.RGBA8)
image.run(
    pix.copy_color((0, 0, WIDTH, HEIGHT), (3, 4, 16, 255)),
    pix.composite_matte((72, 6, DISC, DISC), mask, (230, 30, 10, 255), op=pix.Op.PLUS),
    pix.composite_matte((42, 58, DISC, DISC), mask, (10, 150, 40, 255), op=pix.Op.PLUS),
    pix.composite_matte((102, 58, DISC, DISC), mask, (20, 60, 230, 255), op=pix.Op.PLUS),
)
image.save("first.png")  # from light to the bytes of a screen
print("first.png: done")
