// Commands: plain objects with the fields of pix.h. A source is an Image, and a mask is a Matte.
import { KINDS } from './facts.js';
import { Image, Matte } from './images.js';
import { bad, MOST, Op, opOf, regionOf, shown, whole } from './values.js';

const source = (it) => (it instanceof Image ? it : bad(`${shown(it)} is no Image: pix.view(array, width, height) makes one`));
const mask = (it) => (it instanceof Matte ? it : bad(`${shown(it)} is no Matte: pix.matte(bytes, width, height) makes one`));
const allOf = ({ width, height }) => [0, 0, width, height];
const made = (name, to, more) => {
    const from = regionOf(more.from ?? (more.source ? allOf(more.source) : more.matte ? allOf(more.matte) : [0, 0, 0, 0]), 'from');
    const matteFrom = regionOf(more.matteFrom ?? (more.matte ? allOf(more.matte) : [0, 0, 0, 0]), 'matteFrom');
    return Object.freeze({ ...more, name, kind: KINDS[name], op: opOf(more.op ?? Op.SrcOver), to: regionOf(to, 'to'), from, matteFrom });
};

// Makes all pixels of the image transparent: all channels 0.
export const clear = () => made('CLEAR', [0, 0, 0, 0], { op: Op.Src });

// Replaces the pixels of `to` by a color.
export const copyColor = (to, color) => made('COPY_COLOR', to, { op: Op.Src, color });

// Replaces the pixels of `to` by those of `from` in another image; all of it, if left out.
export const copyImage = (to, image, { from } = {}) => made('COPY_IMAGE', to, { op: Op.Src, source: source(image), from });

// Composites a color with the pixels of `to`.
export const compositeColor = (to, color, { op } = {}) => made('COMPOSITE_COLOR', to, { op, color });

// Composites the pixels of `from` in another image with those of `to`: a sprite.
export const compositeImage = (to, image, { from, op } = {}) =>
    made('COMPOSITE_IMAGE', to, { op, source: source(image), from });

// Composites a color, multiplied by the values of `from` in a matte, with the pixels of `to`: a glyph.
export const compositeMatte = (to, matte, color, { from, op } = {}) =>
    made('COMPOSITE_MATTE', to, { op, color, matte: mask(matte), from });

// Composites the pixels of `from` in another image, multiplied by the values of `matteFrom` in a matte: soft edges.
export const compositeImageMatte = (to, image, matte, { from, matteFrom, op } = {}) =>
    made('COMPOSITE_IMAGE_MATTE', to, { op, source: source(image), from, matte: mask(matte), matteFrom });

// Composites the pixels of `from` in another image, multiplied by an opacity: a fade. Give the opacity by one of three names:
// `opacity` from 0 to 1, `alpha8` from 0 to 255, or `alpha`, a channel of the image.
export function compositeImageAlpha(to, image, { opacity, alpha8, alpha, from, op } = {}) {
    const { max } = source(image).type;
    if ([opacity, alpha8, alpha].filter((each) => each !== undefined).length !== 1) {
        bad('give one opacity: opacity: 0.5, a fraction, or alpha8: 128, a byte, or alpha, a channel of the image');
    }
    if (opacity !== undefined && !(opacity >= 0 && opacity <= 1)) {
        throw new RangeError(`opacity ${shown(opacity)} is not from 0 to 1${opacity > 1 ? `: write alpha8: ${opacity} for a byte` : ''}`);
    }
    const value = opacity !== undefined ? Math.round(opacity * max)
        : alpha8 !== undefined ? whole(alpha8, 'alpha8', 255) * (max / 255) : whole(alpha, 'alpha', max);
    return made('COMPOSITE_IMAGE_ALPHA', to, { op, source: image, from, alpha: value });
}

// A pattern: the commands that composite copies of `from` in another image over all of `to`, side by side from its corner on.
export function repeatImage(to, image, { from, op } = {}) {
    const [x, y, width, height] = regionOf(to, 'to'), list = [];
    const [left, top, wide, high] = regionOf(from ?? allOf(source(image)), 'from');
    for (let row = 0; wide && high && row < height && y + row <= MOST; row += high) {
        for (let column = 0; column < width && x + column <= MOST; column += wide) {
            list.push(compositeImage([x + column, y + row, Math.min(wide, width - column), Math.min(high, height - row)], image,
                { from: [left, top, wide, high], op }));
        }
    }
    return list;
}
