/** A rectangle of points: its upper left corner, and its sides. x grows to the right and y grows downwards. */
export type Region = readonly [x: number, y: number, width: number, height: number];
/** The caller's bytes: channels of 8 bits, values of a matte, colors of a table, indices. */
export type Bytes = Uint8Array | Uint8ClampedArray;
/** An operator of Porter and Duff, or the sum, by its number in `Op` or by its name. */
export type AnyOp = OpName | number;
/** The names of the operators. */
// made by tools/names: operators
export type OpName = 'Src' | 'Dest' | 'SrcOver' | 'DestOver' | 'SrcOut' | 'DestOut' | 'SrcIn' | 'DestIn' | 'SrcAtop' | 'DestAtop'
    | 'Xor' | 'Clear' | 'Plus';
// made by tools/names: end
/** The operators by their names, in the order of their numbers. */
export const Op: Readonly<Record<OpName, number>>;
/** The formats of pix.h, without PIX_FORMAT_: ImageData has SRGBA8. */
export const Format: Readonly<Record<string, number>>;
/** A format, by its number in `Format` or by its name. */
export type AnyFormat = string | number;
/** How a pixel of a picture at another size is made of those of the source, by a name or a number: `Nearest` is for sprites,
 * `Area` for photographs, and the last three are sharp. */
export type AnyFilter = FilterName | number;
// made by tools/names: filters
export type FilterName = 'Nearest' | 'Area' | 'Linear' | 'CatmullRom' | 'Mitchell' | 'Lanczos';
// made by tools/names: end
export const Filter: Readonly<Record<FilterName, number>>;
/** The version of this package. */
export const VERSION: string;

/** A kind of pixels that is painted: premultiplied and linear. */
export interface PixelType {
    /** Its name. */
    readonly name: 'RGBA8' | 'RGBA16' | 'GRAYA8';
    /** How many channels a pixel has, with the alpha. */
    readonly channels: number;
    /** How many bytes a pixel has. */
    readonly size: number;
    /** The greatest channel: 255 or 65535. */
    readonly max: number;
    /** The format of its pixels in a bitmap. */
    readonly format: number;
}
/** Red, green, blue and alpha of 8 bits. */
export const RGBA8: PixelType;
/** Red, green, blue and alpha of 16 bits. */
export const RGBA16: PixelType;
/** Gray and alpha of 8 bits. */
export const GRAYA8: PixelType;
/** A kind of pixels, by itself or by its name. */
export type AnyType = PixelType | 'RGBA8' | 'RGBA16' | 'GRAYA8';

/** An error of the library. Nothing is changed then. */
export class PixError extends Error {
    /** The name of the status in pix.h, without PIX_. */
    readonly status: string;
    /** The place of the bad command, if there is one. */
    readonly index?: number;
}

/** A color for `copyColor` and the composites. A plain array has the channels of the image: premultiplied and linear. */
export type Color = readonly number[] | Bytes | Uint16Array | SomeColor;
/** What `srgb`, `channels` and `colorOf` return. */
export interface SomeColor { readonly format?: number; readonly bytes?: Bytes; readonly channels?: number[]; }
/** A color of sRGB with a straight alpha: srgb('#c87828'), srgb('#c8782880'), srgb(200, 120, 40, 128). */
export function srgb(text: string): SomeColor;
/** The same of levels from 0 to 255. */
export function srgb(red: number, green: number, blue: number, alpha?: number): SomeColor;
/** The same of three or four levels in an array. */
export function srgb(levels: readonly number[]): SomeColor;
/** Channels as in the image, even if they look like another kind of color. */
export function channels(...values: number[] | [number[]]): SomeColor;
/** A pixel of any format, by its bytes, or its words. */
export function colorOf(format: AnyFormat, pixel: Bytes | Uint16Array): SomeColor;

/** A command. It may be run any number of times. */
export interface Command { readonly kind: number; readonly op: number; readonly to: Region; readonly from: Region; }
/** Makes all pixels of the image transparent. */
export function clear(): Command;
/** Replaces the pixels of `to` with a color. */
export function copyColor(to: Region, color: Color): Command;
/** Replaces the pixels of `to` by those of `from` in another image; the corners are paired. Without `from` it is all of it. */
export function copyImage(to: Region, image: Image, options?: { from?: Region }): Command;
/** Composites a color with the pixels of `to`, by `SrcOver` without an operator. */
export function compositeColor(to: Region, color: Color, options?: { op?: AnyOp }): Command;
/** Composites the pixels of `from` in another image with those of `to`: a sprite. */
export function compositeImage(to: Region, image: Image, options?: { from?: Region; op?: AnyOp }): Command;
/** Composites a color, multiplied by the values of a matte: a glyph. */
export function compositeMatte(to: Region, matte: Matte, color: Color, options?: { from?: Region; op?: AnyOp }): Command;
/** Composites an image, multiplied by the values of a matte: soft edges. */
export function compositeImageMatte(to: Region, image: Image, matte: Matte,
    options?: { from?: Region; matteFrom?: Region; op?: AnyOp }): Command;
/** Composites an image at an opacity. Give one of three: a fraction from 0 to 1, a byte, or a channel of the image. */
export function compositeImageAlpha(to: Region, image: Image,
    options: { opacity?: number; alpha8?: number; alpha?: number; from?: Region; op?: AnyOp }): Command;
/** A pattern: the commands that composite copies of an image side by side over all of `to`. */
export function repeatImage(to: Region, image: Image, options?: { from?: Region; op?: AnyOp }): Command[];

/** A table of weights for the columns, or the rows, of a picture at another size. Column i is made of `taps` columns of the
 * source, from firsts[i] on, all of which are in the source. Their weights begin at weights[i * taps], in 2^14ths. They add up to
 * 16384, and the negative ones among them to more than -8192. */
export interface Weights {
    readonly firsts: ArrayLike<number>;
    readonly taps: number;
    readonly weights: ArrayLike<number>;
}

/** Rows of pixels, from top to bottom. */
export class Image {
    /** How many columns it has. */
    readonly width: number;
    /** How many rows it has. */
    readonly height: number;
    /** From a row to the next, in pixels. */
    readonly stride: number;
    /** The kind of its pixels. */
    readonly type: PixelType;
    /** The channels of all pixels. If they are in the module's memory, the view ends when that memory grows: ask again. */
    readonly pixels: Bytes | Uint16Array;
    /** Runs the commands in order, or none of them. With an `origin` the image is a window of a picture, from that point on. */
    run(commands: Command | readonly Command[], options?: { origin?: readonly [left: number, top: number] }): void;
    /** The picture in a format, in the given array or a new one: of words if the format has 16 bits. */
    toArray<T extends ArrayBufferView = Uint8Array>(format: AnyFormat, array?: T): T;
    /** The picture at another size, as a new image in the module's memory, by 'Area' without a filter. With a `window`, a region
     * of that size, only that part is made: the whole need never be in memory, and windows side by side have no seam. */
    scaled(width: number, height: number, options?: { filter?: AnyFilter; window?: Region }): Image;
    /** The picture at another size by tables of weights for its columns and its rows, as a new image in the module's memory: for a
     * filter that 'Filter' has not, for a picture that is moved by a part of a pixel, or for one that is mirrored. */
    scaledBy(across: Weights, down: Weights): Image;
    /** The channels of a pixel. */
    pixel(x: number, y: number): number[];
    /** A view of a part of the same pixels. */
    part(region: Region): Image;
    /** Frees the memory of newImage() at once. Otherwise it is freed when nothing holds the image any more. */
    free(): void;
}

/** A mask: for each point the fraction of a color or a source that is composited. */
export class Matte {
    /** How many columns it has. */
    readonly width: number;
    /** How many rows it has. */
    readonly height: number;
    /** From a row to the next, in values. */
    readonly stride: number;
    /** The values of all points, from 0 to 255 or 65535. As with `Image.pixels` the view may end. */
    readonly values: Bytes | Uint16Array;
    /** Frees the memory of newMatte() at once. */
    free(): void;
}

/** Rows of pixels in any format. The stride is in bytes; if it is negative, `data` begins with the bottom row. */
export interface Bitmap { data: ArrayBufferView | Image; width: number; height: number; format: AnyFormat; stride?: number; }
/** How errors are diffused: so many sixteenths of them, 12 by default, and by default every other row from right to left. */
export interface Diffusion { strength?: number; serpentine?: boolean; }
/** For pixels with an alpha: one below `alpha` gets the index `transparentIndex`. By default none is. */
export interface WithAlpha { format?: 'SRGB8' | 'SRGBA8' | number; alpha?: number; transparentIndex?: number; }

/** One instance of the library, with a memory of its own. */
export class Pix {
    /** A transparent image in the module's memory: calls copy nothing. Without a type it is RGBA16, which keeps all of sRGB. */
    newImage(width: number, height: number, type?: AnyType): Image;
    /** A mask in the module's memory, of bytes, or of words if `max` is 65535. */
    newMatte(width: number, height: number, max?: 255 | 65535): Matte;
    /** An image over an array of yours. Each run copies it in, and out again if it is painted. */
    view(array: Bytes | Uint16Array, width: number, height: number, options?: { type?: AnyType; stride?: number }): Image;
    /** A mask over an array of yours. You can use bytes on images of 16 bits too. */
    matte(array: Bytes | Uint16Array, width: number, height: number, options?: { stride?: number }): Matte;
    /** An image of a picture in any format: pix.fromArray(data.data, data.width, data.height, 'SRGBA8') of an ImageData. */
    fromArray(array: ArrayBufferView, width: number, height: number, format: AnyFormat,
        options?: { type?: AnyType; stride?: number }): Image;
    /** The bytes of a pixel of a format. */
    formatSize(format: AnyFormat): number;
    /** Writes a bitmap from another of the same size, in its own format. Between sRGB and 16 bits it goes through light. */
    convertBitmap(from: Bitmap, to: Bitmap): void;
    /** Converts a bitmap in its own memory, to a format whose pixels have at most as many bytes. */
    convertInPlace(bitmap: Bitmap, format: AnyFormat): void;
    /** Pixels without gaps in another format, as a new array. */
    convert(from: AnyFormat, to: AnyFormat, pixels: ArrayBufferView): Uint8Array | Uint16Array;
    /** The index of the entry of a table that is nearest to a color. A table has three bytes a color, in sRGB. So have the pixels
     * that go with one, or four with the format SRGBA8. */
    nearest(table: Bytes, color: readonly number[]): number;
    /** A table of at most `length` colors (256), which `rounds` refine (6). A table of grays has the least squared error. */
    quantize(pixels: Bytes, length?: number, options?: { format?: WithAlpha['format']; alpha?: number; rounds?: number }): Uint8Array;
    /** The index of the nearest entry of each pixel. */
    mapIndexed<T extends Bytes = Uint8Array>(table: Bytes, pixels: Bytes, options?: WithAlpha & { indices?: T }): T;
    /** The index of each pixel in rows of `width`, with error diffusion. */
    diffuseIndexed<T extends Bytes = Uint8Array>(table: Bytes, pixels: Bytes, width: number,
        options?: WithAlpha & Diffusion & { indices?: T }): T;
    /** A table of colors with an alpha, of four bytes each, as `quantize` makes one. */
    quantizeRgba(pixels: Bytes, length?: number, options?: { rounds?: number }): Uint8Array;
    /** The index of the entry that looks nearest to each pixel. */
    mapIndexedRgba<T extends Bytes = Uint8Array>(table: Bytes, pixels: Bytes, options?: { indices?: T }): T;
    /** The index of each pixel in rows of `width`, with error diffusion to a table with alphas. */
    diffuseIndexedRgba<T extends Bytes = Uint8Array>(table: Bytes, pixels: Bytes, width: number,
        options?: Diffusion & { indices?: T }): T;
    /** Sets the color of each pixel in a table that grows, up to `length` colors (256); returns the table and the indices. */
    indexPixels(table: Bytes, pixels: Bytes,
        options?: { length?: number; threshold?: readonly number[] }): { table: Uint8Array; indices: Uint8Array };
    /** The color of each index. */
    lookUp<T extends Bytes = Uint8Array>(table: Bytes, indices: Bytes, pixels?: T): T;
    /** The same of a table with alphas. */
    lookUpRgba<T extends Bytes = Uint8Array>(table: Bytes, indices: Bytes, pixels?: T): T;
    /** How often each number below `length` (256) is among the indices. */
    countIndices(indices: Bytes, length?: number): number[];
    /** How many bytes a row of so many indices has, if it is packed. */
    rowSize(bits: 1 | 2 | 4 | 8, count: number): number;
    /** Packs a row of indices into bytes, the first one in the highest bits. */
    packRow<T extends Bytes = Uint8Array>(bits: 1 | 2 | 4 | 8, indices: Bytes, bytes?: T): T;
    /** Unpacks `count` indices from the bytes of a row. */
    unpackRow<T extends Bytes = Uint8Array>(bits: 1 | 2 | 4 | 8, bytes: Bytes, count: number, indices?: T): T;
}

/** Loads the library: next to this file or in the clone, or from a URL, the bytes of pix_c.wasm, or a WebAssembly.Module. */
export function load(from?: string | URL | BufferSource | WebAssembly.Module): Promise<Pix>;
/** Whether this engine has what the module needs: SIMD. */
export function isSupported(): boolean;
