// A picture at another size by three filters, side by side: each canvas shows the middle of it, and only that is made.
import { Filter } from '../../bindings/js/pix.js';
import { element, onSize, onceAFrame, sizeOf } from './view.js';

const FILTERS = ['Nearest', 'Area', 'Linear'];
const canvasOf = (filter) => element(`sizes-${filter.toLowerCase()}`);

// The picture in light: the bytes that the browser decodes, converted by the library.
async function decoded(pix, image) {
    await image.decode();
    const { naturalWidth: width, naturalHeight: height } = image;
    const context = Object.assign(document.createElement('canvas'), { width, height }).getContext('2d');
    context.drawImage(image, 0, 0);
    return pix.fromArray(context.getImageData(0, 0, width, height).data, width, height, 'SRGBA8');
}

// Where the middle of a side lies: its first place that is shown, how many are, and how far from the edge of the canvas.
function middle(side, room) {
    const count = Math.min(side, room);
    return { first: Math.floor((side - count) / 2), count, edge: Math.floor((room - count) / 2) };
}

// The size in percent, by the place of the slider: ten steps double it, so that one step is as much to the eye everywhere.
const percentOf = (place) => Math.round(100 * 2 ** (place / 10));

// Shows the middle of the picture at a size on a canvas, at the pixels that the screen has there.
function drawOn(picture, filter, canvas, percent) {
    const size = sizeOf(canvas);
    if (!size) return;
    const [wide, high] = [picture.width, picture.height].map((side) => Math.max(1, Math.round((side * percent) / 100)));
    const [x, y] = [middle(wide, size.width), middle(high, size.height)];
    const made = picture.scaled(wide, high, { filter: Filter[filter], window: [x.first, y.first, x.count, y.count] });
    const bytes = new Uint8ClampedArray(made.toArray('SRGBA8').buffer);
    made.free();
    Object.assign(canvas, size);
    canvas.getContext('2d').putImageData(new ImageData(bytes, x.count, y.count), x.edge, y.edge);
    canvas.setAttribute('aria-label', `The middle of the picture at ${wide} by ${high} pixels, by the filter ${filter}.`);
}

// Shows the picture, by an instance of the library of its own.
export async function showSizes(library) {
    const picture = await decoded(library.pix, element('leaf'));
    const draw = () => {
        const percent = percentOf(Number(element('size').value)), said = `${percent} %`;
        element('size-said').textContent = said;
        element('size').setAttribute('aria-valuetext', said);
        for (const filter of FILTERS) drawOn(picture, filter, canvasOf(filter), percent);
    };
    element('sizes').addEventListener('input', onceAFrame(draw));
    onSize(FILTERS.map(canvasOf), draw);
}
