// Images and mattes: rows in the caller's array, or in the module's memory.
import { FORMATS } from './facts.js';
import { bad, formatOf, MOST, regionOf, shown, whole } from './values.js';

// How many elements the rows take. Throws if the array is too short for them.
function extentOf(length, width, height, stride, what) {
    [width, height, stride].forEach((side) => whole(side, `a side or stride of ${what}`, MOST));
    if (stride < width) throw new RangeError(`the stride ${stride} of ${what} is below its width, ${width}`);
    const extent = width && height ? (height - 1) * stride + width : 0;
    if (extent > length) {
        throw new RangeError(`${what} of ${width} x ${height}${stride > width ? ` and a stride of ${stride}` : ''} takes ${extent} `
            + `elements, and the array has ${length}`);
    }
    return extent;
}

// Rows in the caller's array, or in the module's memory. There `at` is the address of the first row.
export class Rows {
    constructor(pix, array, at, width, height, stride, size, what) {
        const length = array ? Math.floor(array.byteLength / size) : Infinity;
        const extent = extentOf(length, width, height, stride, what);
        const fixed = { pix, array, place: at, width, height, stride, extent, byteLength: extent * size };
        Object.entries(fixed).forEach(([name, value]) => Object.defineProperty(this, name, { value, enumerable: name !== 'pix' }));
    }

    // Frees the memory of newImage() or newMatte(). A view of an array has none.
    free() {
        if (this.owns) this.pix.give(this);
        this.owns = false;
        this.freed = true;
    }
}

// An image: rows of premultiplied, linear pixels from top to bottom.
export class Image extends Rows {
    constructor(pix, array, at, width, height, stride, type) {
        super(pix, array, at, width, height, stride, type.size, `an image of ${type}`);
        this.type = type;
    }

    // The channels of all pixels, with the padding between rows. For an image in the module's memory it is a view, which ends
    // when that memory grows: ask again after each call.
    get pixels() {
        const count = this.extent * this.type.channels;
        return this.array ?? new this.type.array(this.pix.held(this), this.place, count);
    }

    // Runs the commands in order, or none of them. With an `origin` the image is a window of a picture: its first pixel is
    // the point [left, top] of the picture.
    run(commands, { origin = [0, 0] } = {}) {
        this.pix.run(this, Array.isArray(commands) ? commands : [commands], origin);
    }

    // The picture in a format, in the given array or a new one.
    toArray(format, array) {
        const from = { data: this, width: this.width, height: this.height, stride: this.stride * this.type.size, format: this.type.format };
        return this.pix.converted(from, formatOf(format), array);
    }

    // The picture at another size, or the window [x, y, width, height] of that, as a new image.
    scaled(width, height, { filter = 'Area', window = [0, 0, width, height] } = {}) {
        return this.pix.scaled(this, width, height, filter, window);
    }

    // The picture at another size by two tables of weights, { firsts, taps, weights } each, as a new image.
    scaledBy(across, down) {
        return this.pix.scaledBy(this, across, down);
    }

    // The pixel at (x, y): its channels.
    pixel(x, y) {
        whole(x, 'x', this.width - 1);
        whole(y, 'y', this.height - 1);
        const at = (y * this.stride + x) * this.type.channels;
        return Array.from(this.pixels.subarray(at, at + this.type.channels));
    }

    // A part of it: a view of the same pixels.
    part(region) {
        const [x, y, width, height] = regionOf(region, 'part');
        if (x < 0 || y < 0 || x + width > this.width || y + height > this.height) {
            throw new RangeError(`${shown(region)} is not all in an image of ${this.width} x ${this.height}`);
        }
        const first = y * this.stride + x;
        const part = new Image(this.pix, this.array?.subarray(first * this.type.channels), this.place + first * this.type.size,
            width, height, this.stride, this.type);
        part.whole = this.whole ?? this;
        return part;
    }
}

// A mask: for each point the fraction of a color or a source that is composited, from 0 to 255, or to 65535 in words.
export class Matte extends Rows {
    constructor(pix, array, at, width, height, stride, size) {
        super(pix, array, at, width, height, stride, size, 'a matte');
        this.size = size;
    }

    get values() {
        return this.array ?? new (this.size > 1 ? Uint16Array : Uint8Array)(this.pix.held(this), this.place, this.extent);
    }
}

export const arrayOf = (array, kinds, what) => (kinds.some((kind) => array instanceof kind) ? array : bad(
    `${what} is ${shown(array?.constructor?.name ?? array)}: it has to be ${kinds.map(({ name }) => name).join(' or ')}`));
export const BYTES = [Uint8Array, Uint8ClampedArray];
export const kindsOf = ({ max }) => (max > 255 ? [Uint16Array] : BYTES);

// The bytes of an array, or of the rows of an image.
export function bytesOf(it) {
    if (it instanceof Rows) return it.array ? bytesOf(it.array) : new Uint8Array(it.pix.held(it), it.place, it.byteLength);
    if (!ArrayBuffer.isView(it)) bad(`${shown(it?.constructor?.name ?? it)} is no typed array: write new Uint8Array(it)`);
    return it.byteLength ? new Uint8Array(it.buffer, it.byteOffset, it.byteLength) : new Uint8Array(0);
}

// Whether two arrays, or the rows of images, share memory.
export function meet(one, other) {
    const [a, b] = [one, other].map(bytesOf);
    return a.length > 0 && b.length > 0 && a.buffer === b.buffer && a.byteOffset < b.byteOffset + b.length
        && b.byteOffset < a.byteOffset + a.length;
}

// Whether a format has words of 16 bits.
const WIDE = new Set(Object.entries(FORMATS).flatMap(([name, number]) => (/16/.test(name) ? [number] : [])));
export const isWide = (format) => WIDE.has(format);

// A bitmap as a call takes it: its format's number, and its bytes up to the end of the last row in memory.
export function bitmapOf(pix, { data, width, height, format, stride }) {
    const number = formatOf(format), size = pix.formatSize(number), wide = whole(width, 'width', MOST) * size;
    const apart = stride ?? wide, row = Math.abs(whole(apart, 'stride', MOST, -MOST));
    if (row < wide) throw new RangeError(`the stride ${apart} is below the ${wide} bytes of a row`);
    const length = whole(height, 'height', MOST) && width ? (height - 1) * row + wide : 0;
    const bytes = data instanceof Rows ? data.byteLength : bytesOf(data).length;
    if (length > bytes) throw new RangeError(`a bitmap of ${width} x ${height} takes ${length} bytes, and the array has ${bytes}`);
    if (!(data instanceof Rows) && isWide(number) && data.BYTES_PER_ELEMENT === 1 && data.byteOffset % 2) {
        bad('words of 16 bits lie at an odd byte: copy the array, as with slice()');
    }
    return { data, format: number, length, stride: BigInt(apart) };
}
