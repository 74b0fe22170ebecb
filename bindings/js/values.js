// Kinds of pixels, operators, formats, regions and colors, and errors with a hint.
import { FILTERS, FORMATS, OPERATORS, STATUSES } from './facts.js';

export const MOST = 2147483647;

// The operators and the formats, by their names.
export const Op = Object.freeze(Object.fromEntries(OPERATORS.map(({ name }, number) => [name, number])));
export const Format = Object.freeze({ ...FORMATS });
// The filters of pictures at another size: Nearest, Area, Linear, CatmullRom, Mitchell, Lanczos.
export const Filter = Object.freeze(Object.fromEntries(Object.entries(FILTERS).map(([name, number]) =>
    [name.toLowerCase().replace(/(?:^|_)(.)/g, (_, letter) => letter.toUpperCase()), number])));
// The kinds of pixels: bytes and channels of a pixel, the greatest channel, the format, and the suffix of its calls.
const typeOf = (name, channels, max, suffix) => Object.freeze({
    name, channels, max, suffix, format: FORMATS[`${name}P`], array: max > 255 ? Uint16Array : Uint8Array,
    size: channels * (max > 255 ? 2 : 1), command: `pix_command${suffix}`, toString: () => name,
});
export const RGBA8 = typeOf('RGBA8', 4, 255, '');
export const RGBA16 = typeOf('RGBA16', 4, 65535, '_rgba16');
export const GRAYA8 = typeOf('GRAYA8', 2, 255, '_graya8');
export const TYPES = [RGBA8, RGBA16, GRAYA8];
// made by tools/names: statuses
export const STATUS = [
    'OK', 'BAD_SIZE', 'BAD_KIND', 'BAD_REGION', 'BAD_OP', 'BAD_SOURCE', 'BAD_FORMAT', 'BAD_LENGTH', 'NULL', 'OVERLAP',
    'BAD_LIBRARY', 'BAD_TABLE', 'BAD_INDEX', 'BAD_DEPTH', 'FULL_TABLE', 'BAD_STRENGTH', 'NO_SIDE', 'TOO_LARGE', 'OUTSIDE',
    'SMALL_WORK', 'BAD_FILTER', 'BAD_WEIGHTS',
];
// made by tools/names: end

// An error of the library: `status` is the name of its status, and `index` the place of the bad command.
export class PixError extends Error {
    constructor(status, index) {
        const name = STATUS[status] ?? `${status}`;
        super((index === undefined ? '' : `command ${index}: `) + (STATUSES[status] ?? name.toLowerCase()));
        Object.assign(this, { name: 'PixError', status: name, index });
    }
}

export const bad = (sentence) => { throw new TypeError(sentence); };
export const shown = (value) => (typeof value === 'string' ? `'${value}'` : Array.isArray(value) ? `[${value}]` : String(value));

// The number, if it is whole and within its bounds.
export function whole(value, what, most = 0xffffffff, least = 0) {
    if (!Number.isInteger(value) || value < least || value > most) {
        const rounded = typeof value === 'number' && !Number.isInteger(value) ? ': round it, as with Math.round' : '';
        throw new RangeError(`${what} ${shown(value)} is no whole number from ${least} to ${most}${rounded}`);
    }
    return value;
}

export const regionOf = (region, what) => {
    if (!Array.isArray(region) || region.length !== 4) bad(`${what} ${shown(region)} is no region: write [x, y, width, height]`);
    return region.map((number, i) => whole(number, `${what}'s ${'x,y,width,height'.split(',')[i]}`,
        i < 2 ? MOST : undefined, i < 2 ? -MOST - 1 : 0));
};

// The numbers of a table of weights, in arrays of their own. Each has one more than the table, so that none is empty.
export const weightsOf = (table, what) => {
    if (typeof table?.firsts?.length !== 'number' || typeof table.weights?.length !== 'number') {
        bad(`${what} ${shown(table)} is no table of weights: write { firsts, taps, weights }`);
    }
    const { firsts, taps, weights } = table, places = new Uint32Array(firsts.length + 1), numbers = new Int32Array(weights.length + 1);
    places.set(Array.from(firsts, (first) => whole(first, 'a first place')));
    numbers.set(Array.from(weights, (weight) => whole(weight, 'a weight', MOST, -MOST - 1)));
    return { places, count: firsts.length, taps: whole(taps, 'taps'), numbers, many: weights.length };
};

export const kindOf = (type) => TYPES.find((each) => each === type || each.name === type)
    ?? bad(`${shown(type)} is no kind of pixels: write RGBA8, RGBA16 or GRAYA8`);

// The number of an operator or a format, by its number or its name.
const numbered = (list, count, what, example) => (value) => {
    const number = typeof value === 'string' ? list[value] : value;
    return Number.isInteger(number) && number >= 0 && number < count ? number
        : bad(`${shown(value)} is no ${what}: write ${example}`);
};
export const opOf = numbered(Op, OPERATORS.length, 'operator', "Op.SrcOver or 'SrcOver'");
export const filterOf = numbered(Filter, Object.keys(FILTERS).length, 'filter', "Filter.Area or 'Area'");
export const formatOf = numbered(FORMATS, Object.keys(FORMATS).length, 'format', "Format.SRGBA8 or 'SRGBA8'");

// ---- Colors

// A color of sRGB with a straight alpha, for images of all kinds: srgb('#c87828'), srgb('#c8782880') or srgb(200, 120, 40, 128).
export function srgb(...given) {
    const values = given.length === 1 && typeof given[0] === 'string' ? digits(given[0]) : given.flat();
    if (values.length < 3 || values.length > 4) bad(`${shown(given)} is no color: write srgb('#c87828') or srgb(200, 120, 40)`);
    return { format: FORMATS.SRGBA8, bytes: Uint8Array.from([...values, 255].slice(0, 4), (value) => whole(value, 'a channel', 255)) };
}

function digits(text) {
    const found = /^#(?:[0-9a-f]{3,4}|[0-9a-f]{6}|[0-9a-f]{8})$/i.test(text) ? text.slice(1) : bad(
        `${shown(text)} is no color: write srgb('#c87828'), or srgb(200, 120, 40)`);
    const wide = found.length < 6 ? found.replace(/./g, '$&$&') : found;
    return wide.match(/../g).map((pair) => parseInt(pair, 16));
}

// Channels as in the image's own pixels, premultiplied and linear, even if they look like another kind of color.
export const channels = (...values) => ({ channels: values.flat() });

// A pixel of any format as a color, from its bytes.
export const colorOf = (format, bytes) => ({ format: formatOf(format), bytes });

// The channels of a color on pixels of a type.
export function channelsOf(pix, color, type) {
    if (color?.bytes) return pix.pixelOf(color, type);
    const list = color?.channels ?? color;
    if (!(Array.isArray(list) || ArrayBuffer.isView(list)) || list.length !== type.channels) {
        bad(`${shown(color)} is no color of ${type}: write srgb('#c87828'), or ${type.channels} channels, premultiplied and linear`);
    }
    const values = Array.from(list, (value) => whole(value, 'a channel', type.max)), alpha = values.at(-1);
    if (!color.channels && values.some((value) => value > alpha)) {
        bad(`[${values}] has a channel above its alpha, so it isn't premultiplied: write srgb(${values}), or channels(${values})`);
    }
    if (!color.channels && type === RGBA16 && alpha && values.every((value) => value < 256)) {
        bad(`[${values}] is hardly seen on RGBA16, whose channels go to 65535: write srgb(${values}), or channels(${values})`);
    }
    return values;
}
