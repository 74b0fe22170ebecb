// pix for JavaScript: images, commands, conversions and tables of colors, over the library as a module of WebAssembly.
// README.md shows its use, and pix.d.ts documents the arguments of each call.
//
//     import { load, copyColor, srgb } from './pix.js';
//     const pix = await load();
//     const image = pix.newImage(240, 160);
//     image.run(copyColor([0, 0, 240, 160], srgb('#c87828')));
import { VERSION } from './facts.js';
import { arrayOf, bitmapOf, BYTES, bytesOf, Image, isWide, kindsOf, Matte, meet } from './images.js';
import { layoutOf, writeList } from './layout.js';
import { Memory } from './memory.js';
import * as tables from './tables.js';
import { bad, Filter, filterOf, Format, formatOf, kindOf, MOST, Op, PixError, regionOf, RGBA16, RGBA8, GRAYA8, shown, STATUS, weightsOf, whole } from './values.js';

export { Filter, Format, GRAYA8, Image, Matte, Op, PixError, RGBA16, RGBA8, VERSION };
export { channels, colorOf, srgb } from './values.js';
export * from './commands.js';

// One instance of the library, with a memory of its own.
export class Pix extends Memory {
    constructor(instance) {
        super(instance);
        this.layout = layoutOf((index) => this.calls.pix_layout(BigInt(index)) >>> 0);
    }

    // A transparent image in the module's memory. Without a type it has 16 bits a channel, which keep all sRGB colors.
    newImage(width, height, type = RGBA16) {
        const kind = kindOf(type);
        return this.owned(whole(width, 'width', MOST) * whole(height, 'height', MOST) * kind.size,
            (at) => new Image(this, undefined, at, width, height, width, kind));
    }

    // A mask in the module's memory, with all values 0: of bytes, or of words if its greatest value is 65535.
    newMatte(width, height, max = 255) {
        const size = max > 255 ? 2 : 1;
        return this.owned(whole(width, 'width', MOST) * whole(height, 'height', MOST) * size,
            (at) => new Matte(this, undefined, at, width, height, width, size));
    }

    // An image over the caller's array: of bytes, or of words if the type is RGBA16. Each run copies it in, and out again
    // if it is painted.
    view(array, width, height, { type = array instanceof Uint16Array ? RGBA16 : RGBA8, stride = width } = {}) {
        const kind = kindOf(type);
        return new Image(this, arrayOf(array, kindsOf(kind), `the array of an image of ${kind}`), this.placeOf(array), width, height, stride, kind);
    }

    // A mask over the caller's array, of bytes or words. You can use bytes on images of 16 bits too.
    matte(array, width, height, { stride = width } = {}) {
        arrayOf(array, [...BYTES, Uint16Array], 'the array of a matte');
        return new Matte(this, array, this.placeOf(array), width, height, stride, array.BYTES_PER_ELEMENT);
    }

    // An image of a picture in any format, as in files and canvases: ImageData has SRGBA8.
    fromArray(array, width, height, format, { type = RGBA16, stride } = {}) {
        const image = this.newImage(width, height, type);
        const to = { data: image, width, height, format: image.type.format };
        this.convertBitmap({ data: array, width, height, format, stride }, to);
        return image;
    }

    // Runs commands on an image, or on the window of a picture.
    run(image, commands, [left, top]) {
        const { type } = image, extent = BigInt(image.extent);
        [left, top].forEach((number) => whole(number, 'an origin', MOST));
        commands.forEach((command) => this.refuseCommand(image, command));
        const done = new BigUint64Array(1);
        this.scratch((put) => {
            const list = writeList(this, commands, type, put);
            const at = put(image, true), noted = put(done, true);
            const status = this.calls[`pix_raw_run_window${type.suffix}`](BigInt(at), extent, left, top, image.width, image.height,
                image.stride, BigInt(list), BigInt(commands.length), BigInt(noted));
            return [status, () => Number(new BigUint64Array(this.memory.buffer, noted, 1)[0])];
        });
    }

    refuseCommand(image, command) {
        if (typeof command?.kind !== 'number') bad(`${shown(command)} is no command: copyColor(..) makes one`);
        const { source: from, matte } = command;
        if (from && from.type !== image.type) {
            bad(`a source of ${from.type} doesn't go with an image of ${image.type}: pix.fromArray(.., { type: '${image.type}' })`);
        }
        if (matte && matte.size > 1 && image.type.max === 255) bad(`a matte of words doesn't go with an image of ${image.type}`);
        for (const read of [from, matte]) if (read && meet(image, read)) throw new PixError(STATUS.indexOf('OVERLAP'));
    }

    // The channels of a pixel of any format, converted to a type.
    pixelOf({ format, bytes }, type) {
        const pixel = new type.array(type.channels);
        this.convertBitmap({ data: bytes, width: 1, height: 1, format }, { data: pixel, width: 1, height: 1, format: type.format });
        return Array.from(pixel);
    }

    formatSize(format) {
        return this.calls.pix_raw_format_size(formatOf(format));
    }

    // Writes a bitmap from another one of its size. A bitmap is { data, width, height, format, stride }: rows of bytes, or of
    // words, in an array or an Image. With a negative stride `data` begins with the bottom row.
    convertBitmap(from, to) {
        const [read, written] = [from, to].map((bitmap) => bitmapOf(this, bitmap));
        if (from.width !== to.width || from.height !== to.height) {
            throw new RangeError(`a picture of ${from.width} x ${from.height} doesn't go to one of ${to.width} x ${to.height}`);
        }
        this.refuseShared(written.data, read.data);
        const [source, target] = [this.pin(read.data), this.pin(written.data)];
        this.scratch((put) => [this.calls.pix_raw_convert_bitmap(read.format, written.format, BigInt(put(source)),
            BigInt(read.length), BigInt(put(target, true)), BigInt(written.length), read.stride, written.stride,
            to.width, to.height)]);
    }

    // How many words of work memory a window of a picture at another size takes, by the numbers of the call.
    scaleWork({ type, width, height }, across, down, [, , wide, high], filter) {
        let words = 0;
        const bits = type.max > 255 ? 16 : 8, answer = new BigUint64Array(1);
        this.scratch((put) => {
            const at = put(answer, true);
            const status = this.calls.pix_raw_scale_work(wide, high, across, down, width, height, type.channels, bits, filter, BigInt(at));
            words = Number(new BigUint64Array(this.memory.buffer, at, 1)[0]);
            return [status];
        });
        return words;
    }

    // A window of the picture at another size, as a new image.
    scaled(image, across, down, filter, window) {
        const number = filterOf(filter), part = regionOf(window, 'window'), [x, y, width, height] = part;
        [across, down].forEach((side) => whole(side, 'a side of the new picture'));
        const words = this.scaleWork(image, across, down, part, number);
        if (x < 0 || y < 0 || x + width > across || y + height > down) throw new PixError(STATUS.indexOf('OUTSIDE'));
        const made = this.newImage(width, height, image.type), extent = BigInt(made.extent);
        try {
            const work = new Uint32Array(words);
            this.scratch((put) => [this.calls[`pix_raw_scale${image.type.suffix}`](BigInt(put(made, true)), extent, x, y, width, height, width,
                across, down, BigInt(put(image)), BigInt(image.extent), image.width, image.height, image.stride, number,
                BigInt(put(work)), BigInt(words))]);
        } catch (error) {
            made.free();
            throw error;
        }
        return made;
    }

    // How many words of work memory a picture by two tables of weights takes.
    scaleByWork({ type, width, height }, columns, rows) {
        let words = 0;
        const bits = type.max > 255 ? 16 : 8, answer = new BigUint64Array(1);
        this.scratch((put) => {
            const at = put(answer, true);
            const status = this.calls.pix_raw_scale_by_work(columns.count, rows.count, width, height, columns.taps, rows.taps,
                type.channels, bits, BigInt(at));
            words = Number(new BigUint64Array(this.memory.buffer, at, 1)[0]);
            return [status];
        });
        return words;
    }

    // The picture at another size by tables of weights for its columns and for its rows, as a new image.
    scaledBy(image, across, down) {
        const columns = weightsOf(across, 'across'), rows = weightsOf(down, 'down');
        const words = this.scaleByWork(image, columns, rows), { count: width } = columns, { count: height } = rows;
        if ([columns, rows].some(({ count, taps, many }) => many !== count * taps)) throw new PixError(STATUS.indexOf('BAD_WEIGHTS'));
        const made = this.newImage(width, height, image.type), extent = BigInt(made.extent);
        try {
            const work = new Uint32Array(words + 1);
            this.scratch((put) => {
                const passed = [columns, rows].flatMap(({ places, count, taps, numbers, many }) => [BigInt(put(places)), BigInt(count), taps,
                    BigInt(put(numbers)), BigInt(many)]);
                return [this.calls[`pix_raw_scale_by${image.type.suffix}`](BigInt(put(made, true)), extent, width, height, width,
                    BigInt(put(image)), BigInt(image.extent), image.width, image.height, image.stride, ...passed,
                    BigInt(put(work)), BigInt(words))];
            });
        } catch (error) {
            made.free();
            throw error;
        }
        return made;
    }

    // A bitmap in another format, in the given array or a new one.
    converted(from, format, array) {
        const size = this.formatSize(format), wide = isWide(format);
        const to = array ?? new (wide ? Uint16Array : Uint8Array)((from.width * from.height * size) / (wide ? 2 : 1));
        this.convertBitmap(from, { data: to, width: from.width, height: from.height, format });
        return to;
    }

    // Converts a bitmap in its own array. A pixel of the new format must not have more bytes.
    convertInPlace(bitmap, format) {
        const { data, width, height } = bitmap, before = bitmapOf(this, bitmap), size = this.formatSize(format);
        if (size > this.formatSize(before.format)) throw new PixError(STATUS.indexOf('BAD_FORMAT'));
        const copy = bytesOf(data).slice();
        const stride = Number(before.stride);
        for (let y = 0; y < height; y += 1) {
            const at = y * Math.abs(stride), row = copy.subarray(at, at + width * this.formatSize(before.format));
            this.convertBitmap({ data: row, width, height: 1, format: before.format },
                { data: bytesOf(data).subarray(at, at + width * size), width, height: 1, format });
        }
    }

    // Converts pixels without strides from one format to another.
    convert(from, to, pixels) {
        const width = bytesOf(pixels).length / this.formatSize(from);
        return this.converted({ data: pixels, width: whole(width, 'the number of pixels', MOST), height: 1, format: formatOf(from) }, formatOf(to));
    }
}

Object.assign(Pix.prototype, tables);

// The module's file: next to this one in a package, and its place in a clone.
const PLACES = ['pix_c.wasm', '../../generated/pix_c.wasm'].map((place) => new URL(place, import.meta.url));

// The bytes of the first of these files that exists: read in node, and fetched elsewhere.
async function found(places) {
    const isFile = (place) => String(place).startsWith('file:') && globalThis.process?.versions?.node;
    for (const place of places) {
        if (isFile(place)) {
            const { readFile } = await import('node:fs/promises');
            const bytes = await readFile(place).catch(() => null);
            if (bytes) return bytes;
        } else {
            const response = await fetch(place);
            if (response.ok) return response.arrayBuffer();
        }
    }
    throw new Error(`there is no ${places.join(', nor ')}`);
}

// Loads the library: from its own file, or from a URL, the bytes of the file, or a WebAssembly.Module.
export async function load(given) {
    if (given instanceof WebAssembly.Module) return new Pix(await WebAssembly.instantiate(given));
    const isPlace = given === undefined || typeof given === 'string' || given instanceof URL;
    const bytes = isPlace ? await found(given === undefined ? PLACES : [given]) : given;
    return new Pix((await WebAssembly.instantiate(bytes)).instance);
}

// Whether this engine runs the module, which uses SIMD. It tries the smallest module with a vector constant.
export const isSupported = () => WebAssembly.validate(new Uint8Array([0, 97, 115, 109, 1, 0, 0, 0, 1, 4, 1, 96, 0, 0, 3, 2, 1, 0,
    10, 9, 1, 7, 0, 65, 0, 253, 15, 26, 11]));
