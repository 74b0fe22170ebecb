// Coverage masks: how much of each pixel a shape covers, from 0 to 255. The page makes them, as a rasterizer does for
// its caller; they are not proved, and the library takes them as they are.

const PARTS = 4;

// The mask of a shape in a square of so many pixels, by sixteen points in each pixel.
export function maskOf(side, isInside) {
    const values = new Uint8Array(side * side);
    for (let y = 0; y < side * PARTS; y++) {
        for (let x = 0; x < side * PARTS; x++) {
            const at = Math.floor(y / PARTS) * side + Math.floor(x / PARTS);
            if (isInside((x + 0.5) / PARTS, (y + 0.5) / PARTS)) values[at] += 1;
        }
    }
    return values.map((count) => Math.round((255 * count) / (PARTS * PARTS)));
}

// A disc as wide as its square.
export const disc = (side) => maskOf(side, (x, y) => (x - side / 2) ** 2 + (y - side / 2) ** 2 < (side / 2) ** 2);

// A square with round corners, as wide as its mask.
export function roundSquare(side, radius) {
    const beyond = (t) => Math.max(radius - t, t - (side - radius), 0);
    return maskOf(side, (x, y) => beyond(x) ** 2 + beyond(y) ** 2 < radius ** 2);
}

// The mask of a line of text, which the browser draws, in the middle of so many columns and rows.
export function textMask(text, width, height, font) {
    const canvas = document.createElement('canvas');
    canvas.width = width;
    canvas.height = height;
    const context = canvas.getContext('2d', { willReadFrequently: true });
    context.font = font;
    context.textAlign = 'center';
    context.textBaseline = 'middle';
    context.fillText(text, width / 2, height / 2, width * 0.95);
    return context.getImageData(0, 0, width, height).data.filter((_, index) => index % 4 === 3);
}
