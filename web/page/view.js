// What the parts of the page share: how colors go in and pictures come out, and small helpers of the document.
import { whole } from './library.js';
import { compositeImage, copyColor, copyImage, Op } from '../../bindings/js/pix.js';

export const element = (id) => document.getElementById(id);
export const SRC = Op.Src, SRC_OVER = Op.SrcOver;

const darkness = matchMedia('(prefers-color-scheme: dark)');

// A file of the page, or an error with its name where it does not come.
export async function fetched(file) {
    const answer = await fetch(file);
    if (!answer.ok) throw new Error(`${file}: ${answer.status} ${answer.statusText}`);
    return answer;
}

// Calls a function now and whenever the page turns light or dark.
export function onTheme(draw) {
    darkness.addEventListener('change', draw);
    draw();
}

// How many of the screen's pixels each canvas covers, as the browser said last.
const sizes = new WeakMap();

// The screen's pixels under a canvas. The browser says how a fraction of one is rounded there, if it knows; some don't,
// and some leave out the scale of a screen that they only play.
function pixelsOf({ contentRect, devicePixelContentBoxSize }) {
    const sides = [contentRect.width * devicePixelRatio, contentRect.height * devicePixelRatio];
    const [box] = devicePixelContentBoxSize ?? [];
    const said = box ? [box.inlineSize, box.blockSize] : sides;
    const isNear = said.every((side, index) => Math.abs(side - sides[index]) <= 1);
    const [width, height] = (isNear ? said : sides).map(Math.round);
    return { width, height };
}

// Calls a function whenever a canvas of these covers another number of the screen's pixels: first when it is shown.
export function onSize(canvases, draw) {
    const observer = new ResizeObserver((entries) => {
        for (const entry of entries) sizes.set(entry.target, pixelsOf(entry));
        draw();
    });
    const observe = () => {
        observer.disconnect();
        for (const canvas of canvases) {
            try {
                observer.observe(canvas, { box: 'device-pixel-content-box' });
            } catch {
                observer.observe(canvas);
            }
        }
        // A window that is moved to another screen may be as large as before, by other pixels.
        matchMedia(`(resolution: ${devicePixelRatio}dppx)`).addEventListener('change', observe, { once: true });
    };
    observe();
}

// How many of the screen's pixels a canvas is wide and high, or nothing while it isn't shown.
export function sizeOf(canvas) {
    const size = sizes.get(canvas);
    return size && size.width > 0 && size.height > 0 ? size : null;
}

// The red, green and blue of a color field.
export const channelsOf = (field) => field.value.match(/[0-9a-f]{2}/g).map((digits) => parseInt(digits, 16));

// A straight color of the page as a premultiplied one: decoded into linear light, or its bytes as they are.
export function premultiplied(library, color, isLight) {
    return Array.from(library.pix.convert(isLight ? 'SRGBA8' : 'RGBA8', 'RGBA8P', Uint8Array.from(color)));
}

// A checkerboard of two grays, on which transparent pixels are shown: its squares are so many pixels wide.
export function checkerboard(library, width, height, isLight, square) {
    const [even, odd] = (darkness.matches ? [64, 44] : [255, 226]).map((gray) =>
        premultiplied(library, [gray, gray, gray, 255], isLight));
    const board = library.image(width, height);
    const commands = [copyColor(whole(board), even)];
    for (let y = 0; y < height; y += square) {
        for (let x = y % (2 * square) ? 0 : square; x < width; x += 2 * square) {
            commands.push(copyColor([x, y, square, square], odd));
        }
    }
    board.run(commands);
    return board;
}

// Shows an image over a checkerboard of its size on a canvas; all of it is composited by the library.
export function show(library, image, board, canvas, isLight) {
    const top = library.top;
    const shown = library.image(image.width, image.height);
    const all = whole(image);
    shown.run([copyImage(all, board), compositeImage(all, image)]);
    put(shown, canvas, isLight);
    library.top = top;
}

// Puts an opaque image on a canvas: encoded from linear light, or its bytes as they are.
export function put(image, canvas, isLight) {
    const bytes = isLight ? image.toArray('SRGBA8') : image.pixels.slice();
    const { width, height } = image;
    if (canvas.width !== width || canvas.height !== height) Object.assign(canvas, { width, height });
    canvas.getContext('2d').putImageData(new ImageData(new Uint8ClampedArray(bytes.buffer), width, height), 0, 0);
}

// Answers a function that calls `draw` once before the next frame, however often it is called.
export function onceAFrame(draw) {
    let isAsked = false;
    return () => {
        if (!isAsked) requestAnimationFrame(() => { isAsked = false; draw(); });
        isAsked = true;
    };
}

// The formula of an operator: s and d are a channel of source and destination, sa and da the alphas as fractions.
export function formula({ source, dest }) {
    const term = (side, coefficient, alpha) =>
        ({ Zero: '', One: side, OtherAlpha: `${side}·${alpha}`, OneMinusAlpha: `${side}·(1−${alpha})` })[coefficient];
    return [term('s', source, 'da'), term('d', dest, 'sa')].filter((part) => part).join(' + ') || '0';
}
