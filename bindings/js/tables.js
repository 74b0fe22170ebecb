// Tables of colors and images of indices: methods of Pix, on the caller's arrays. Colors are sRGB and not multiplied by an
// alpha: three bytes each, or four with an alpha.
import { arrayOf, BYTES, bytesOf } from './images.js';
import { bad, formatOf, PixError, shown, STATUS, whole } from './values.js';
import { FORMATS } from './facts.js';

const ENTRIES = 256;
// How many rounds refine a table, and how many sixteenths of an error are passed on, unless a call says it.
const ROUNDS = 6, STRENGTH = 12;
const refuse = (status) => { throw new PixError(STATUS.indexOf(status)); };

// An array that a call reads or writes, and how many elements of a size it has. A single element has no count.
const slot = (array, size, what, isWritten) => {
    arrayOf(array, BYTES, what);
    if (array.byteLength % size) throw new RangeError(`${what} has ${array.byteLength} bytes, and each takes ${size}`);
    return { array, count: array.byteLength / size, isWritten };
};
const read = (array, size, what) => slot(array, size, what, false);
const written = (array, size, what) => slot(array, size, what, true);
const alone = (array, isWritten = false) => ({ array, isWritten, isAlone: true });

// Calls pix_raw_NAME. A number is passed as it is, a length as a BigInt, and a slot as its address and its count.
export function callRaw(name, ...parts) {
    const call = this.calls[`pix_raw_${name}`];
    if (!call) throw new Error(`this module has no pix_raw_${name}: take it and this package from one release`);
    const slots = parts.filter((part) => part.array);
    for (const one of slots.filter((each) => each.isWritten)) {
        this.refuseShared(one.array, ...slots.filter((other) => other !== one).map(({ array }) => array));
    }
    const pinned = new Map(slots.map((one) => [one, this.pin(one.array)]));
    this.scratch((put) => [call(...parts.flatMap((part) => {
        if (!part.array) return [part];
        const at = BigInt(put(pinned.get(part), part.isWritten));
        return part.isAlone ? [at] : [at, BigInt(part.count)];
    }))]);
}

// The bytes of a pixel that goes with a table.
const sizeOf = (format) => ({ [FORMATS.SRGB8]: 3, [FORMATS.SRGBA8]: 4 })[formatOf(format)]
    ?? bad(`a table goes with pixels of SRGB8 or SRGBA8, and not of ${shown(format)}: convert(..) makes them`);
const byte = (value, what) => whole(value, what, 255);

// A table of colors. The call decides whether it has as many as a table has.
const tableOf = (table, size) => read(table, size, 'a table of colors');

// The array for `count` indices, which is made if none is given.
function indicesOf(indices, count) {
    const target = written(indices ?? new Uint8Array(count), 1, 'the array of indices');
    if (target.count !== count) throw new RangeError(`${count} pixels take as many indices, and the array has ${target.count}`);
    return target;
}

// How errors are diffused, and the work memory of a row of colors of a size.
function diffusion({ strength = STRENGTH, serpentine = true }, width, { count }, size) {
    if (!Number.isInteger(strength) || strength < 0 || strength > 255) refuse('BAD_STRENGTH');
    whole(width, 'width', 2147483647, 1);
    if (count % width) throw new RangeError(`${count} pixels are no whole rows of ${width}`);
    const across = Math.min(width, Math.max(count, 1));
    return { across, strength, rows: Number(Boolean(serpentine)), work: written(new Uint8Array(4 * across * size), size, 'work') };
}

// The index of the entry that is nearest to a color, the first if several are equal.
export function nearest(table, color) {
    const index = new Uint8Array(1);
    this.callRaw('nearest', tableOf(table, 3), alone(Uint8Array.from(color, (value) => byte(value, 'a channel'))), alone(index, true));
    return index[0];
}

// Makes a table of at most `length` colors of the pixels; so many `rounds` refine it. Of grays it has the least squared error, whatever
// the rounds. Pixels with an alpha below `alpha` don't count.
export function quantize(pixels, length = ENTRIES, { format = 'SRGB8', alpha = 0, rounds = ROUNDS } = {}) {
    const size = sizeOf(format), from = read(pixels, size, 'the array of pixels');
    const numbers = [...(size === 4 ? [byte(alpha, 'alpha')] : []), byte(rounds, 'rounds')];
    return quantized(this, `quantize_refined${size === 4 ? '_alpha' : ''}`, from, numbers, length, 3);
}

function quantized(pix, name, from, numbers, length, size) {
    const entries = new Uint8Array(size * whole(length, 'length', ENTRIES, 1)), count = new BigUint64Array(1);
    pix.callRaw(name, from, ...numbers, written(new Uint8Array(size * from.count), size, 'work'),
        written(entries, size, 'the table'), alone(count, true));
    return entries.slice(0, size * Number(count[0]));
}

// The index of the nearest entry for each pixel. A pixel with an alpha below `alpha` gets `transparentIndex`.
export function mapIndexed(table, pixels, { indices, format = 'SRGB8', alpha = 0, transparentIndex = 0 } = {}) {
    const size = sizeOf(format), from = read(pixels, size, 'the array of pixels'), target = indicesOf(indices, from.count);
    if (size === 3) this.callRaw('map_indexed', tableOf(table, 3), from, target);
    else {
        this.callRaw('map_indexed_alpha', tableOf(table, 3), from, byte(alpha, 'alpha'), byte(transparentIndex, 'transparentIndex'),
            target);
    }
    return target.array;
}

// The same with error diffusion, in rows of `width` pixels: by default 12 of 16 of each error, and every other row from right to left.
export function diffuseIndexed(table, pixels, width, { indices, format = 'SRGB8', alpha = 0, transparentIndex = 0, ...how } = {}) {
    const size = sizeOf(format), from = read(pixels, size, 'the array of pixels'), target = indicesOf(indices, from.count);
    const { across, strength, rows, work } = diffusion(how, width, from, 3);
    const entries = tableOf(table, 3);
    if (size === 3) this.callRaw('diffuse_indexed_by', entries, from, BigInt(across), strength, rows, work, target);
    else {
        this.callRaw('diffuse_indexed_by_alpha', entries, from, BigInt(across), byte(alpha, 'alpha'),
            byte(transparentIndex, 'transparentIndex'), strength, rows, work, target);
    }
    return target.array;
}

// The same three for tables of colors with an alpha. Pixels are SRGBA8, and are compared by their look over black and white.
export function quantizeRgba(pixels, length = ENTRIES, { rounds = ROUNDS } = {}) {
    return quantized(this, 'quantize_rgba', read(pixels, 4, 'the array of pixels'), [byte(rounds, 'rounds')], length, 4);
}

export function mapIndexedRgba(table, pixels, { indices } = {}) {
    const from = read(pixels, 4, 'the array of pixels'), target = indicesOf(indices, from.count);
    this.callRaw('map_indexed_rgba', tableOf(table, 4), from, target);
    return target.array;
}

export function diffuseIndexedRgba(table, pixels, width, { indices, ...how } = {}) {
    const from = read(pixels, 4, 'the array of pixels'), target = indicesOf(indices, from.count);
    const { across, strength, rows, work } = diffusion(how, width, from, 4);
    this.callRaw('diffuse_indexed_rgba', tableOf(table, 4), from, BigInt(across), strength, rows, work, target);
    return target.array;
}

// Sets the color of each pixel in a table, one after the other. Returns the table afterwards and the indices.
export function indexPixels(table, pixels, { length = ENTRIES, threshold = [0, 0, 0] } = {}) {
    const start = read(table, 3, 'a table of colors'), room = whole(length, 'length', ENTRIES, 1);
    const entries = new Uint8Array(3 * room), used = BigUint64Array.of(BigInt(start.count)), from = read(pixels, 3, 'the array of pixels');
    entries.set(bytesOf(table).subarray(0, entries.length));
    const target = indicesOf(undefined, from.count), apart = Uint8Array.from(threshold, (value) => byte(value, 'threshold'));
    if (apart.length !== 3) bad('threshold has three numbers: write [8, 8, 8]');
    this.callRaw('index_pixels', written(entries, 3, 'a table'), alone(used, true), alone(apart), from, target);
    return { table: entries.slice(0, 3 * Number(used[0])), indices: target.array };
}

// The entry for each index.
export function lookUp(table, indices, pixels) {
    return lookedUp(this, 'look_up', 3, table, indices, pixels);
}

export function lookUpRgba(table, indices, pixels) {
    return lookedUp(this, 'look_up_rgba', 4, table, indices, pixels);
}

function lookedUp(pix, name, size, table, indices, pixels) {
    const from = read(indices, 1, 'the array of indices'), target = written(pixels ?? new Uint8Array(size * from.count), size, 'the array of pixels');
    if (target.count !== from.count) throw new RangeError(`${from.count} indices are as many pixels, and the array has room for ${target.count}`);
    pix.callRaw(name, read(table, size, 'a table of colors'), from, target);
    return target.array;
}

// How often each number below `length` is among the indices.
export function countIndices(indices, length = ENTRIES) {
    const counts = new BigUint64Array(Math.min(whole(length, 'length', 2147483647), ENTRIES));
    const target = { array: counts, count: counts.length, isWritten: true };
    this.callRaw('count_indices', read(indices, 1, 'the array of indices'), target);
    return Array.from({ length }, (_, index) => Number(counts[index] ?? 0n));
}

// How many bytes a row of `count` indices of 1, 2, 4 or 8 bits takes.
export function rowSize(bits, count) {
    if (![1, 2, 4, 8].includes(bits)) refuse('BAD_DEPTH');
    return Math.ceil(whole(count, 'count', Number.MAX_SAFE_INTEGER) / (8 / bits));
}

// Packs a row of indices into bytes, as in PNG, BMP and TIFF: in each byte from its most significant bits on.
export function packRow(bits, indices, bytes) {
    const from = read(indices, 1, 'the array of indices'), size = this.rowSize(bits, from.count);
    const target = written(bytes ?? new Uint8Array(size), 1, 'the array of bytes');
    if (target.count !== size) throw new RangeError(`the row takes ${size} bytes, and the array has ${target.count}`);
    this.callRaw('pack_row', bits, from, target);
    return target.array;
}

// Unpacks a row of `count` indices from bytes.
export function unpackRow(bits, bytes, count, indices) {
    const size = this.rowSize(bits, count), target = indicesOf(indices, count);
    if (bytesOf(bytes).length !== size) throw new RangeError(`the row takes ${size} bytes, and the array has ${bytesOf(bytes).length}`);
    this.callRaw('unpack_row', bits, read(bytes, 1, 'the array of bytes'), target);
    return target.array;
}
