// A line of text through a mask, over bars from dark to bright: in linear light, and on the bytes as they are.
import { whole } from './library.js';
import { textMask } from './mask.js';
import { compositeMatte, copyColor } from '../../bindings/js/pix.js';
import {
    channelsOf, element, onSize, onTheme, onceAFrame, premultiplied, put, sizeOf,
} from './view.js';

// How much of the height the letters take, and the font.
const SIZE = 56 / 96;
const font = (pixels) => `600 ${pixels}px system-ui, sans-serif`;
const BARS = 12;

// A bar's straight color: from a dark blue to a bright yellow.
const barColor = (index) => [20, 24, 60, 255].map((channel, place) =>
    Math.round(channel + ((([255, 236, 150, 255][place] - channel) * index) / (BARS - 1))));

// Draws the text on a canvas, at the pixels that the screen has there, in linear light or not.
function drawOn(library, canvas, isLight) {
    const size = sizeOf(canvas);
    if (!size) return;
    const { width, height } = size;
    library.reset();
    const image = library.image(width, height);
    const edge = (index) => Math.round((index * width) / BARS);
    const bars = Array.from({ length: BARS }, (_, index) =>
        copyColor([edge(index), 0, edge(index + 1) - edge(index), height],
            premultiplied(library, barColor(index), isLight)));
    const letters = textMask(element('words').value, width, height, font(Math.round(SIZE * height)));
    const mask = library.pix.matte(letters, width, height);
    const color = [...channelsOf(element('words-color')), Number(element('words-alpha').value)];
    image.run([...bars, compositeMatte(whole(image), mask, premultiplied(library, color, isLight))]);
    put(image, canvas, isLight);
    const way = isLight ? 'in linear light' : 'on the bytes as they are';
    const words = element('words').value;
    canvas.setAttribute('aria-label', `The text “${words}” over bars from dark to bright, composited ${way}.`);
}

// Shows the text, by an instance of the library of its own.
export function showText(library) {
    const draw = () => {
        element('words-alpha-said').textContent = element('words-alpha').value;
        drawOn(library, element('words-linear'), true);
        drawOn(library, element('words-bytes'), false);
    };
    element('text').addEventListener('input', onceAFrame(draw));
    onTheme(draw);
    onSize([element('words-linear'), element('words-bytes')], draw);
}
