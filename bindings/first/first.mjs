import { compositeMatte, copyColor, load, Op, RGBA8 } from 'pix-proved';
import { writeFileSync } from 'node:fs';

const WIDTH = 240, HEIGHT = 160, DISC = 96;
// A mask: 255 within the disc, and less at its rim.
const disc = Uint8ClampedArray.from({ length: DISC * DISC }, (_, i) => {
    const x = 2 * (i % DISC) - DISC + 1, y = 2 * Math.floor(i / DISC) - DISC + 1;
    return Math.floor((DISC * DISC - x * x - y * y) / 2);
});
const pix = await load();
const mask = pix.matte(disc, DISC, DISC), image = pix.newImage(WIDTH, HEIGHT, RGBA8);
image.run([
    copyColor([0, 0, WIDTH, HEIGHT], [3, 4, 16, 255]),
    compositeMatte([72, 6, DISC, DISC], mask, [230, 30, 10, 255], { op: Op.Plus }),
    compositeMatte([42, 58, DISC, DISC], mask, [10, 150, 40, 255], { op: Op.Plus }),
    compositeMatte([102, 58, DISC, DISC], mask, [20, 60, 230, 255], { op: Op.Plus }),
]);
const bytes = image.toArray('SRGB8'); // from light to the bytes of a screen
writeFileSync('first.ppm', Buffer.concat([Buffer.from(`P6\n${WIDTH} ${HEIGHT}\n255\n`), bytes]));
console.log('first.ppm: done');
