// The trials of the package, in node (test.mjs) and in a browser (test.html). The expected values come from the model below, with
// the formulas of the operators and the curve of sRGB, and not from the library.
import * as lib from './pix.js';

const {
    channels, clear, colorOf, compositeColor, compositeImage, compositeImageAlpha, compositeImageMatte, compositeMatte, copyColor,
    copyImage, Filter, Format, GRAYA8, Op, PixError, repeatImage, RGBA16, RGBA8, srgb,
} = lib;

function check(is, said) {
    if (!is) throw new Error(said);
}
const same = (found, wanted, said) => check(String(Array.from(found)) === String(Array.from(wanted)),
    `${said}: ${Array.from(found).slice(0, 24)} and not ${Array.from(wanted).slice(0, 24)}`);

// That a call throws this kind of error, with these words.
function refused(call, kind, words) {
    try {
        call();
    } catch (error) {
        check(error instanceof kind && (error.status === words || error.message.includes(words)), `${words}: ${error.constructor.name} ${error.message}`);
        return error;
    }
    throw new Error(`not refused: ${words}`);
}

// Numbers that look random: the same at each run.
function numbers(seed) {
    let state = BigInt(seed);
    return (below) => {
        state = (state * 6364136223846793005n + 1442695040888963407n) & 0xffffffffffffffffn;
        return Number((state >> 33n) % BigInt(below));
    };
}

// ---- The model

// The nearest whole number to a product of two channels.
const product = (a, b, max) => Math.floor((2 * a * b + max) / (2 * max));
const NONE = () => 0, ALL = (alpha, max) => max, ALPHA = (alpha) => alpha, REST = (alpha, max) => max - alpha;
// Each operator's part of the source, by the alpha of the destination, and of the destination, by the alpha of the source.
const PARTS = {
    // made by tools/names: operators
    Src: [ALL, NONE], Dest: [NONE, ALL], SrcOver: [ALL, REST], DestOver: [REST, ALL], SrcOut: [REST, NONE], DestOut: [NONE, REST],
    SrcIn: [ALPHA, NONE], DestIn: [NONE, ALPHA], SrcAtop: [ALPHA, REST], DestAtop: [REST, ALPHA], Xor: [REST, REST],
    Clear: [NONE, NONE], Plus: [ALL, ALL],
    // made by tools/names: end
};
const composed = (op, s, d, max) => d.map((channel, i) => Math.min(max,
    product(s[i], PARTS[op][0](d.at(-1), max), max) + product(channel, PARTS[op][1](s.at(-1), max), max)));
const faded = (pixel, part, max) => pixel.map((channel) => product(channel, part, max));

const WIDE = 7, HIGH = 5, COUNT = WIDE * HIGH, ALL_OF = [0, 0, WIDE, HIGH];

// Premultiplied pixels of a type, some of them clear and some opaque.
function pixelsOf(below, { channels: many, max, array }) {
    const made = new array(COUNT * many);
    for (let i = 0; i < COUNT; i += 1) {
        const alpha = [0, max, below(max + 1)][below(3)];
        for (let c = 0; c < many; c += 1) made[i * many + c] = c === many - 1 ? alpha : below(alpha + 1);
    }
    return made;
}
const pixelAt = (array, i, many) => Array.from(array.subarray(i * many, (i + 1) * many));

// Each kind of composite: the command, and the source that the model has at pixel i.
function composites(pix, below, type, op) {
    const { channels: many, max } = type;
    const from = pixelsOf(below, type), image = pix.view(from.slice(), WIDE, HIGH, { type });
    const values = new (max > 255 ? Uint16Array : Uint8Array)(COUNT).map(() => [0, max, below(max + 1)][below(3)]);
    const bytes = new Uint8Array(COUNT).map(() => below(256)), scale = max / 255, alpha = below(max + 1);
    // A matte with another size than the image; a part of it is used.
    const broad = WIDE + 2, large = new values.constructor(broad * (HIGH + 1)).map(() => below(max + 1));
    const part = (i) => large[(1 + Math.floor(i / WIDE)) * broad + 1 + (i % WIDE)], behind = pix.matte(large, broad, HIGH + 1);
    const color = pixelAt(from, below(COUNT), many), paint = channels(color), matte = pix.matte(values, WIDE, HIGH);
    return {
        color: [compositeColor(ALL_OF, paint, { op }), () => color],
        image: [compositeImage(ALL_OF, image, { op }), (i) => pixelAt(from, i, many)],
        matte: [compositeMatte(ALL_OF, matte, paint, { op }), (i) => faded(color, values[i], max)],
        bytes: [compositeMatte(ALL_OF, pix.matte(bytes, WIDE, HIGH), paint, { op }), (i) => faded(color, bytes[i] * scale, max)],
        'image through a matte': [compositeImageMatte(ALL_OF, image, behind, { matteFrom: [1, 1, WIDE, HIGH], op }),
            (i) => faded(pixelAt(from, i, many), part(i), max)],
        'image at an alpha': [compositeImageAlpha(ALL_OF, image, { alpha, op }), (i) => faded(pixelAt(from, i, many), alpha, max)],
    };
}

// ---- The trials

export const trials = {
    'each kind of composite, by each operator, on each kind of pixels, beside the formulas': (pix) => {
        const below = numbers(1);
        for (const type of [RGBA8, RGBA16, GRAYA8]) {
            for (const op of Object.keys(PARTS)) {
                for (const [name, [command, source]] of Object.entries(composites(pix, below, type, op))) {
                    const start = pixelsOf(below, type), own = pix.newImage(WIDE, HIGH, type), view = pix.view(start.slice(), WIDE, HIGH, { type });
                    own.pixels.set(start);
                    own.run(command);
                    view.run([command]);
                    const wanted = Array.from({ length: COUNT }, (_, i) =>
                        composed(op, source(i), pixelAt(start, i, type.channels), type.max)).flat();
                    same(own.pixels, wanted, `${name} by ${op} on ${type}`);
                    same(view.pixels, wanted, `${name} by ${op} on ${type}, in an array`);
                    own.free();
                }
            }
        }
    },
    'clears, copies, windows, strides, parts and patterns': (pix) => {
        const image = pix.newImage(4, 3, RGBA8), dot = pix.view(Uint8Array.of(1, 2, 3, 4), 1, 1);
        image.run([clear(), copyColor([1, 1, 9, 1], [5, 6, 7, 8]), copyImage([-1, -1, 2, 2], dot)]);
        same(image.pixels, Array(12).fill(0).flatMap((_, i) => (i > 4 && i < 8 ? [5, 6, 7, 8] : [0, 0, 0, 0])), 'a band');
        image.run(copyImage([0, 2, 1, 1], dot), { origin: [0, 0] });
        same(image.pixel(0, 2), [1, 2, 3, 4], 'a dot');
        const bytes = new Uint8Array(4 * 6).fill(9), rows = pix.view(bytes, 2, 2, { stride: 4 });
        rows.run(copyColor([10, 20, 1, 2], [1, 1, 1, 1]), { origin: [10, 20] });
        same(bytes, [1, 1, 1, 1, ...Array(12).fill(9), 1, 1, 1, 1, 9, 9, 9, 9], 'a window with a stride');
        image.part([2, 0, 2, 2]).run(copyColor([0, 0, 1, 1], [4, 3, 2, 9]));
        same(image.pixel(2, 0), [4, 3, 2, 9], 'a part');
        const pattern = repeatImage([0, 0, 3, 3], pix.view(new Uint8Array(16), 2, 2));
        same(pattern.map(({ to }) => to).flat(), [0, 0, 2, 2, 2, 0, 1, 2, 0, 2, 2, 1, 2, 2, 1, 1], 'a pattern');
        check(lib.isSupported(), 'this engine runs it');
        image.run([]);
        pix.newImage(0, 7).run([clear()]);
    },
    'colors of sRGB, formats, and light that comes back': (pix) => {
        const curve = (level) => (level <= 0.04045 ? level / 12.92 : ((level + 0.055) / 1.055) ** 2.4);
        const levels = Uint8Array.from({ length: 256 }, (_, i) => i), gray = levels.reduce((all, i) => [...all, i, i, i, 255], []);
        const light = pix.convert('SRGBA8', 'RGBA16P', Uint8Array.from(gray));
        levels.forEach((i) => check(Math.abs(light[4 * i] - 65535 * curve(i / 255)) <= 0.51, `level ${i} is ${light[4 * i]}`));
        const photo = Uint8Array.from({ length: 4 * 243 * 256 }, (_, i) => (i % 4 === 3 ? 13 + (i >> 10) : (i >> 2) * (1 + i % 4)));
        same(pix.fromArray(photo, 256, 243, 'SRGBA8').toArray(Format.SRGBA8), photo, 'a photograph');
        same(pix.convert('RGBA8', 'BGRA8', Uint8Array.of(1, 2, 3, 4)), [3, 2, 1, 4], 'BGRA8');
        same(['GRAY8', 'SRGB8', 'RGBA16P', 'XYZA16'].map((format) => pix.formatSize(format)), [1, 3, 8, 8], 'sizes');
        const upright = new Uint8Array(8);
        pix.convertBitmap({ data: Uint8Array.of(1, 2, 9, 3, 4, 9), width: 2, height: 2, format: 'GRAY8', stride: -3 },
            { data: upright, width: 2, height: 2, format: 'SGRAYA8' });
        same(upright, pix.convert('GRAY8', 'SGRAYA8', Uint8Array.of(3, 4, 1, 2)), 'rows from bottom to top');
        const place = Uint8Array.of(1, 2, 3, 255, 4, 5, 6, 255, 7, 7);
        pix.convertInPlace({ data: place, width: 2, height: 1, format: 'BGRA8' }, 'RGB8');
        same(place, [3, 2, 1, 6, 5, 4, 6, 255, 7, 7], 'in place');
        const image = pix.newImage(1, 1);
        [srgb('#c87828'), srgb('#C87828ff'), srgb(200, 120, 40), srgb([200, 120, 40, 255]), colorOf('SRGB8', Uint8Array.of(200, 120, 40))]
            .forEach((color) => {
                image.run(copyColor([0, 0, 1, 1], color));
                same(image.toArray('SRGBA8'), [200, 120, 40, 255], 'a color');
            });
        same(srgb('#fa0').bytes, [255, 170, 0, 255], 'three digits');
    },
    'tables of colors and indices beside plain loops': (pix) => {
        const below = numbers(2), random = (count) => new Uint8Array(count).map(() => below(256));
        const distance = (table, size, i, pixel) => pixel.reduce((sum, value, c) => sum + (value - table[size * i + c]) ** 2, 0);
        const nearest = (table, pixel) => Array.from({ length: table.length / 3 }, (_, i) => distance(table, 3, i, pixel))
            .reduce((best, found, i, all) => (found < all[best] ? i : best), 0);
        const table = random(3 * 40), pixels = random(3 * 300);
        const wanted = Array.from({ length: 300 }, (_, i) => nearest(table, Array.from(pixels.subarray(3 * i, 3 * i + 3))));
        same(pix.mapIndexed(table, pixels), wanted, 'map');
        same(pix.diffuseIndexed(table, pixels, 20, { strength: 0 }), wanted, 'diffusion of strength 0');
        same(pix.diffuseIndexed(table, pixels, 20), diffusedBy(table, pixels, 20, nearest), 'diffusion');
        const whole = { strength: 16, serpentine: false };
        same(pix.diffuseIndexed(table, pixels, 20, whole), diffusedBy(table, pixels, 20, nearest, whole), 'diffusion of whole errors');
        check(pix.nearest(table, [1, 2, 3]) === nearest(table, [1, 2, 3]), 'nearest');
        same(pix.quantize(pix.lookUp(table, Uint8Array.of(3, 1, 3, 0)), 4), pix.lookUp(table, Uint8Array.of(3, 1, 0)), 'few colors');
        same(pix.quantize(pixels, 16), pix.quantize(pixels, 16, { rounds: 6 }), 'six rounds by default');
        check(pix.quantize(pixels, 16, { rounds: 0 }).length === 48, 'sixteen colors');
        const clearAt = Uint8Array.of(1, 2, 3, 0, 9, 9, 9, 255);
        same(pix.quantize(clearAt, 4, { format: 'SRGBA8', alpha: 128 }), [9, 9, 9], 'pixels with an alpha');
        same(pix.mapIndexed(Uint8Array.of(0, 0, 0, 9, 9, 9), clearAt, { format: 'SRGBA8', alpha: 128, transparentIndex: 7 }), [7, 1], 'map');
        same(pix.mapIndexed(new Uint8Array(0), Uint8Array.of(1, 2, 3, 0), { format: 'SRGBA8', alpha: 1, transparentIndex: 5 }), [5], 'no entry');
        same(pix.diffuseIndexed(new Uint8Array(0), Uint8Array.of(1, 2, 3, 0), 1, { format: 'SRGBA8', alpha: 1, transparentIndex: 5 }), [5], 'none');
        const rgba = pix.quantizeRgba(clearAt, 4, { rounds: 2 });
        same(rgba, clearAt, 'a table with alphas');
        same(pix.mapIndexedRgba(rgba, clearAt), [0, 1], 'map with alphas');
        same(pix.diffuseIndexedRgba(rgba, clearAt, 2, { serpentine: true }), [0, 1], 'diffusion with alphas');
        same(pix.lookUpRgba(rgba, Uint8Array.of(1, 0)), [9, 9, 9, 255, 1, 2, 3, 0], 'entries with alphas');
        const { table: grown, indices } = pix.indexPixels(Uint8Array.of(1, 1, 1), Uint8Array.of(9, 9, 9, 1, 1, 1), { length: 2 });
        same([...grown, ...indices], [1, 1, 1, 9, 9, 9, 1, 0], 'pixels set in a table');
        same(pix.countIndices(Uint8Array.of(0, 2, 2), 4), [1, 0, 2, 0], 'counts');
        same(pix.packRow(2, Uint8Array.of(1, 2, 3, 0, 1)), [0b01101100, 0b01000000], 'packed');
        same(pix.unpackRow(2, Uint8Array.of(0b01101100, 0b01000000), 5), [1, 2, 3, 0, 1], 'unpacked');
        check(pix.rowSize(4, 3) === 2, 'the size of a row');
    },
    'pictures at another size, each filter beside its sums, and windows of them': (pix) => {
        const below = numbers(3);
        for (const type of [RGBA8, RGBA16, GRAYA8]) {
            const image = pix.view(pixelsOf(below, type), WIDE, HIGH, { type });
            for (const [filter, number] of Object.entries(Filter)) {
                if (!WEIGHTS[filter]) continue;
                for (const [width, height] of [[3, 2], [12, 9], [WIDE, HIGH], [1, 20]]) {
                    const wanted = scaledBy(WEIGHTS[filter], image.pixels, type.channels, width, height);
                    const made = image.scaled(width, height, { filter });
                    same(made.pixels, wanted, `${type} to ${width} x ${height} by ${filter}`);
                    const [x, y] = [below(width), below(height)], window = [x, y, width - x, height - y];
                    const part = image.scaled(width, height, { filter: number, window });
                    same(part.pixels, made.part(window).toArray(type.format), `its window ${window}`);
                    made.free();
                    part.free();
                }
            }
        }
        const apart = pix.view(Uint8Array.of(1, 1, 1, 1, 9, 9, 9, 9, 3, 3, 3, 3), 1, 2, { stride: 2 });
        same(apart.scaled(1, 1).pixels, [2, 2, 2, 2], 'a stride');
        const dots = pix.fromArray(Uint8Array.of(0, 0, 0, 255, 255, 255), 2, 1, 'SRGB8');
        same(dots.scaled(2 ** 30, 1, { filter: 'Nearest', window: [2 ** 29 - 1, 0, 2, 1] }).toArray('SGRAY8'), [0, 255], 'far away');
        same(dots.scaled(1, 1).toArray('SRGB8'), [188, 188, 188], 'half the light');
    },
    'pictures by tables of weights, beside their sums': (pix) => {
        const below = numbers(5), taps = 2, rows = { firsts: [0, HIGH - 2], taps, weights: [-8191, 16384 + 8191, 12000, 4384] };
        for (const type of [RGBA8, RGBA16, GRAYA8]) {
            const image = pix.view(pixelsOf(below, type), WIDE, HIGH, { type }), count = 7;
            const columns = { firsts: Uint32Array.from({ length: count }, () => below(WIDE - 1)), taps, weights: new Int32Array(count * taps) };
            for (let i = 0; i < count; i += 1) columns.weights.set([16384 - 1000 * i, 1000 * i], i * taps);
            const made = image.scaledBy(columns, rows);
            same(made.pixels, weighed(columns, rows, image.pixels, type), `${type} by tables`);
            made.free();
            const backwards = { firsts: Array.from({ length: WIDE }, (_, i) => WIDE - 1 - i), taps: 1, weights: Array(WIDE).fill(16384) };
            const mirrored = image.scaledBy(backwards, { firsts: [1], taps: 1, weights: [16384] });
            same(mirrored.pixel(0, 0), image.pixel(WIDE - 1, 1), 'a mirrored row');
        }
        const image = pix.newImage(4, 4), one = { firsts: [0], taps: 1, weights: [16384] };
        same(image.scaledBy({ firsts: [], taps: 1, weights: [] }, one).pixels, [], 'no column');
        for (const table of [{ ...one, firsts: [4] }, { ...one, taps: 0 }, { ...one, taps: 5 }, { ...one, weights: [16383] },
            { firsts: [0], taps: 2, weights: [16384 + 8192, -8192] }, { firsts: [3], taps: 2, weights: [8192, 8192] }]) {
            refused(() => image.scaledBy(table, one), PixError, 'BAD_WEIGHTS');
            refused(() => image.scaledBy(one, table), PixError, 'BAD_WEIGHTS');
        }
        refused(() => pix.newImage(65536, 1).scaledBy(one, one), PixError, 'TOO_LARGE');
        refused(() => image.scaledBy([0, 16384], one), TypeError, '{ firsts, taps, weights }');
        refused(() => image.scaledBy({ ...one, weights: [0.5] }, one), RangeError, 'Math.round');
    },
    'what is refused says what to write': (pix) => {
        const image = pix.newImage(4, 4), small = pix.newImage(4, 4, 'RGBA8'), all = [0, 0, 4, 4];
        refused(() => image.run(copyColor(all, [200, 120, 40, 255])), TypeError, 'srgb(200,120,40,255)');
        refused(() => small.run(copyColor(all, [200, 120, 40, 128])), TypeError, "isn't premultiplied");
        refused(() => image.run(copyColor(all, '#c87828')), TypeError, "srgb('#c87828')");
        refused(() => image.run('clear'), TypeError, 'copyColor(..) makes one');
        refused(() => image.run(compositeImage(all, small)), TypeError, "type: 'RGBA16'");
        refused(() => compositeImage(all, new Uint8Array(4)), TypeError, 'pix.view(array, width, height)');
        refused(() => compositeColor(all, [0, 0, 0, 0], { op: 'Over' }), TypeError, "'SrcOver'");
        refused(() => compositeColor([0, 0, 1.5, 1], [0, 0, 0, 0]), RangeError, 'Math.round');
        refused(() => compositeColor({ x: 0 }, [0, 0, 0, 0]), TypeError, '[x, y, width, height]');
        refused(() => compositeImageAlpha(all, image, { opacity: 128 }), RangeError, 'alpha8: 128');
        refused(() => compositeImageAlpha(all, image), TypeError, 'opacity: 0.5');
        refused(() => pix.view(new Uint8Array(15), 2, 2), RangeError, 'takes 4 elements, and the array has 3');
        refused(() => pix.view([1, 2, 3, 4], 1, 1), TypeError, 'Uint8Array');
        refused(() => pix.view(new Uint8Array(64), 2, 2, { type: RGBA16 }), TypeError, 'Uint16Array');
        refused(() => pix.newImage(2 ** 31, 1), RangeError, '2147483647');
        refused(() => pix.newImage(2 ** 31 - 1, 2 ** 31 - 1), RangeError, 'free() images');
        refused(() => pix.fromArray(new Uint8Array(4), 1, 1, 'SRGB9'), TypeError, "'SRGBA8'");
        refused(() => small.run(compositeMatte(all, pix.newMatte(4, 4, 65535), [0, 0, 0, 0])), TypeError, 'matte of words');
        refused(() => image.run(copyImage(all, image)), PixError, 'OVERLAP');
        refused(() => image.run(copyImage(all, image.part([0, 0, 2, 2]))), PixError, 'OVERLAP');
        const shared = new Uint8Array(16);
        refused(() => pix.view(shared, 2, 2).run(copyImage(all, pix.view(shared.subarray(12), 1, 1))), PixError, 'OVERLAP');
        refused(() => pix.mapIndexed(shared.subarray(0, 3), shared.subarray(3, 6), { indices: shared.subarray(5, 6) }), PixError, 'OVERLAP');
        const error = refused(() => image.run([clear(), copyColor([0, 0, 2 ** 31, 1], [0, 0, 0, 0])]), PixError, 'BAD_REGION');
        check(error.index === 1, 'the place of a command');
        refused(() => pix.mapIndexed(new Uint8Array(0), new Uint8Array(3)), PixError, 'BAD_TABLE');
        refused(() => pix.lookUp(new Uint8Array(3), Uint8Array.of(1)), PixError, 'BAD_INDEX');
        refused(() => pix.packRow(3, new Uint8Array(1)), PixError, 'BAD_DEPTH');
        refused(() => pix.diffuseIndexed(new Uint8Array(3), new Uint8Array(3), 1, { strength: 17 }), PixError, 'BAD_STRENGTH');
        refused(() => image.scaled(0, 4), PixError, 'NO_SIDE');
        refused(() => image.scaled(4, 4, { window: [1, 0, 4, 4] }), PixError, 'OUTSIDE');
        refused(() => image.scaled(4, 4, { window: [0, -1, 1, 1] }), PixError, 'OUTSIDE');
        refused(() => pix.newImage(65536, 1).scaled(4, 4), PixError, 'TOO_LARGE');
        refused(() => image.scaled(4, 4, { filter: 'Box' }), TypeError, "'Area'");
        refused(() => image.scaled(4, 4, { window: [0, 0] }), TypeError, '[x, y, width, height]');
        refused(() => image.scaled(2.5, 4), RangeError, 'Math.round');
        refused(() => pix.callRaw('no_such', 1), Error, 'from one release');
        same(image.pixels, new Uint16Array(64), 'nothing is painted');
        if (typeof structuredClone === 'function') {
            const gone = new Uint8Array(16), view = pix.view(gone, 2, 2);
            structuredClone(gone.buffer, { transfer: [gone.buffer] });
            refused(() => view.run(clear()), TypeError, 'transferred');
        }
    },
    'memory is taken, given back, and grows under views': (pix) => {
        const free = () => pix.room.reduce((sum, [, size]) => sum + size, 0), before = free(), end = pix.memory.buffer.byteLength;
        const image = pix.newImage(100, 100), old = image.pixels, bytes = new Uint8Array(16).fill(200);
        old[0] = 7;
        const large = pix.newImage(3000, 1000);
        check(pix.memory.buffer.byteLength > end && old.length === 0 && image.pixels[0] === 7, 'the memory grew');
        const table = pix.view(bytes, 2, 2);
        table.run(clear());
        same(bytes, new Uint8Array(16), 'an array of the caller');
        const inside = new Uint8Array(pix.memory.buffer, image.place, 30);
        inside.set([1, 2, 3, 4, 5, 6, 4, 5, 6, 1, 2, 3]);
        pix.mapIndexed(inside.subarray(0, 6), inside.subarray(6, 12), { indices: inside.subarray(20, 22) });
        same(new Uint8Array(pix.memory.buffer, image.place + 20, 2), [1, 0], 'an array in the memory of the module, without a copy');
        image.free();
        image.free();
        large.free();
        refused(() => image.run(clear()), TypeError, 'after free()');
        refused(() => image.pixels, TypeError, 'after free()');
        check(free() - before === pix.memory.buffer.byteLength - end, `all is given back: ${free()} and ${before}`);
        check(pix.newImage(100, 100).pixels.every((value) => value === 0), 'new images are clear');
    },
};

// The greatest error that is handed on: half of the widest step from a level of a channel to the next, but at least 24.
function errorBound(table) {
    const levels = (c) => [...new Set(table.filter((_, i) => i % 3 === c))].sort((a, b) => a - b);
    const steps = [0, 1, 2].flatMap((c) => levels(c).map((level, i, all) => level - (all[i - 1] ?? level)));
    return Math.max(24, ...steps.map((step) => Math.ceil(step / 2)));
}

// What place j of n counts for place i of m: by the definition of each filter.
const distance = (n, m, i, j) => Math.abs((2 * j + 1) * m - (2 * i + 1) * n);
const places = (n, weight) => Array.from({ length: n }, (_, j) => weight(j));
const WEIGHTS = {
    Nearest: (n, m, i) => places(n, (j) => Number(j === Math.floor(((2 * i + 1) * n) / (2 * m)))),
    Area: (n, m, i) => places(n, (j) => Math.max(0, Math.min((i + 1) * n, (j + 1) * m) - Math.max(i * n, j * m))),
    Linear: (n, m, i) => {
        const count = (j) => Math.max(0, 2 * Math.max(n, m) - distance(n, m, i, j));
        if (m >= n) return places(n, (j) => count(j) + (j ? 0 : count(-1)) + (j < n - 1 ? 0 : count(n)));
        const upTo = (j) => places(j, count).reduce((sum, weight) => sum + weight, 0), total = upTo(n);
        const mark = (j) => Math.floor((2 * 32768 * upTo(j) + total) / (2 * total));
        return places(n, (j) => mark(j + 1) - mark(j));
    },
};

// A picture of WIDE by HIGH pixels at another size: each channel is its double sum, rounded once.
function scaledBy(weights, pixels, many, width, height) {
    return Array.from({ length: width * height * many }, (_, at) => {
        const c = at % many, x = Math.floor(at / many) % width, y = Math.floor(at / many / width);
        const across = weights(WIDE, width, x), down = weights(HIGH, height, y);
        let sum = 0, whole = 0;
        down.forEach((v, row) => across.forEach((u, column) => {
            sum += v * u * pixels[(row * WIDE + column) * many + c];
            whole += v * u;
        }));
        return Math.floor((2 * sum + whole) / (2 * whole));
    });
}

// A picture of WIDE by HIGH pixels by two tables: each channel is its double sum, rounded once, and cut at 0 and at the new alpha.
function weighed(columns, rows, pixels, { channels: many, max }) {
    return Array.from(rows.firsts, (top, y) => Array.from(columns.firsts, (left, x) => {
        const pixel = [];
        for (let c = many - 1; c >= 0; c -= 1) {
            let sum = 0;
            for (let v = 0; v < rows.taps; v += 1) for (let u = 0; u < columns.taps; u += 1) {
                const weight = rows.weights[y * rows.taps + v] * columns.weights[x * columns.taps + u];
                sum += weight * pixels[((top + v) * WIDE + left + u) * many + c];
            }
            pixel[c] = Math.min(Math.max(Math.floor((sum + 2 ** 27) / 2 ** 28), 0), c === many - 1 ? max : pixel[many - 1]);
        }
        return pixel;
    })).flat(2);
}

// Error diffusion by Floyd and Steinberg, as documented in pix.h.
function diffusedBy(table, pixels, width, nearest, { strength, serpentine } = { strength: 12, serpentine: true }) {
    const made = new Uint8Array(pixels.length / 3), errors = new Map(), bound = errorBound(table);
    const owed = (x, y) => errors.get(`${x},${y}`) ?? [0, 0, 0];
    for (let i = 0; i < pixels.length / 3; i += 1) {
        const y = Math.floor(i / width), way = serpentine && y % 2 ? -1 : 1, x = way > 0 ? i % width : width - 1 - (i % width);
        const place = y * width + x, target = (share, c) => pixels[3 * place + c] + Math.floor((strength * share + 128) / 256);
        const wanted = owed(x, y).map((share, c) => Math.min(255, Math.max(0, target(share, c))));
        const index = nearest(table, wanted);
        made[place] = index;
        for (const [dx, dy, part] of [[1, 0, 7], [-1, 1, 3], [0, 1, 5], [1, 1, 1]]) {
            const at = [x + way * dx, y + dy];
            if (at[0] >= 0 && at[0] < width) {
                const held = (c) => Math.min(bound, Math.max(-bound, wanted[c] - table[3 * index + c]));
                errors.set(`${at}`, owed(...at).map((share, c) => share + part * held(c)));
            }
        }
    }
    return made;
}

// Runs all trials; returns the names of those that failed, each with the reason.
export async function tryAll(pix) {
    const failed = [];
    for (const [name, trial] of Object.entries(trials)) {
        try {
            await trial(pix);
        } catch (error) {
            failed.push(`${name}: ${error.message}`);
        }
    }
    return { count: Object.keys(trials).length, failed };
}
