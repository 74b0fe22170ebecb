// The operators on two shapes: a disc, the destination, and a square with round corners, the source. A visitor
// drags them, or moves them by keys or numbers, and chooses their colors and alphas.
import { OPERATORS } from '../../bindings/js/facts.js';
import { whole } from './library.js';
import { disc, roundSquare } from './mask.js';
import { compositeImage, compositeMatte, copyColor, copyImage } from '../../bindings/js/pix.js';
import {
    channelsOf, checkerboard, element, formula, onSize, onTheme, onceAFrame, premultiplied, show, sizeOf, SRC,
} from './view.js';

// The picture in steps, by which shapes are placed: each is a part of the picture, and so many pixels as the screen has.
const WIDTH = 120, HEIGHT = 90;
const SIDE = 56, RADIUS = 12, SQUARE = 8;
const SHAPES = {
    source: (scale) => roundSquare(Math.round(SIDE * scale), Math.round(RADIUS * scale)),
    dest: (scale) => disc(Math.round(SIDE * scale)),
};
// How long all pictures may take for the small ones to be drawn in each frame, and after how long they are drawn else.
const QUICK = 40, PAUSE = 120;
const STEPS = { ArrowLeft: [-1, 0], ArrowRight: [1, 0], ArrowUp: [0, -1], ArrowDown: [0, 1] };

// The number of a shape's field, within its ends.
function numberOf(id) {
    const field = element(id);
    const number = Math.round(Number(field.value)) || 0;
    return Math.min(Number(field.max), Math.max(Number(field.min), number));
}

// What the fields of a shape say: its place and its straight color.
const shapeOf = (side) => ({
    x: numberOf(`${side}-x`),
    y: numberOf(`${side}-y`),
    color: [...channelsOf(element(`${side}-color`)), numberOf(`${side}-alpha`)],
});

const chosen = () => Number(document.querySelector('input[name=operator]:checked').value);

// The masks of the shapes that were made last, by the pixels of a step: few, since a window has few sizes.
const masks = new Map();

function maskOf(side, scale) {
    const name = `${side} ${scale}`;
    if (!masks.has(name)) {
        if (masks.size >= 16) masks.clear();
        masks.set(name, SHAPES[side](scale));
    }
    return masks.get(name);
}

// An image of so many pixels with one shape on it.
function imageOf(library, side, { width, height }, isLight) {
    const scale = width / WIDTH;
    const { x, y, color } = shapeOf(side);
    const image = library.image(width, height);
    const values = maskOf(side, scale), wide = Math.sqrt(values.length);
    const full = premultiplied(library, color, isLight);
    const to = [Math.round(x * scale), Math.round(y * scale), wide, wide];
    image.run(compositeMatte(to, library.pix.matte(values, wide, wide), full, { op: SRC }));
    return image;
}

// What the pictures of one size are made of: both shapes, the ground, and an image to composite in.
function sceneOf(library, size, isLight) {
    const [source, dest] = ['source', 'dest'].map((side) => imageOf(library, side, size, isLight));
    const square = Math.max(1, Math.round((SQUARE * size.width) / WIDTH));
    const board = checkerboard(library, size.width, size.height, isLight, square);
    return { source, dest, board, made: library.image(size.width, size.height) };
}

// Draws the picture of an operator on each canvas, at the pixels that the screen has there.
function drawOn(library, pairs, isLight) {
    const scenes = new Map();
    library.reset();
    for (const [canvas, op] of pairs) {
        const size = sizeOf(canvas);
        if (!size) continue;
        const name = `${size.width} ${size.height}`;
        if (!scenes.has(name)) scenes.set(name, sceneOf(library, size, isLight));
        const { source, dest, board, made } = scenes.get(name);
        const all = whole(made);
        made.run([copyImage(all, dest), compositeImage(all, source, { op })]);
        show(library, made, board, canvas, isLight);
    }
}

// Answers what draws the pictures: the large one at once, and the small ones with it where all of that is quick, else
// when nothing has changed for a while.
function painter(library) {
    const small = OPERATORS.map((_, op) => [element(`operator-${op}`), op]);
    const state = element('operators').dataset;
    let took = 0, timer = 0;
    const timed = (work) => {
        const start = performance.now();
        work();
        return performance.now() - start;
    };
    const drawSmall = (large) => {
        took = large + timed(() => drawOn(library, small, element('is-light').checked));
        state.drawn = 'all';
    };
    return () => {
        clearTimeout(timer);
        state.drawn = 'large';
        const isLight = element('is-light').checked;
        const large = timed(() => drawOn(library, [[element('stage'), chosen()]], isLight));
        say(library, isLight);
        placeHandles();
        if (took < QUICK) drawSmall(large);
        else timer = setTimeout(drawSmall, PAUSE, large);
    };
}

// Says in words what the chosen operator makes where the whole of both shapes lies on one another.
function say(library, isLight) {
    const [source, dest] = ['source', 'dest'].map((side) => premultiplied(library, shapeOf(side).color, isLight));
    const pixel = library.image(1, 1);
    const one = library.pix.view(Uint8Array.from(source), 1, 1);
    pixel.run([copyColor(whole(pixel), dest), compositeImage(whole(pixel), one, { op: chosen() })]);
    const words = [source, dest, pixel.pixel(0, 0)].map((channels) => channels.join(' '));
    const { name } = OPERATORS[chosen()];
    const said = `Where they overlap: source ${words[0]}, destination ${words[1]}, ${name} ${words[2]}.`;
    element('overlap').textContent = said;
    element('stage').setAttribute('aria-label', `The picture of ${name}. ${said}`);
}

function placeHandles() {
    for (const side of ['source', 'dest']) {
        const { x, y } = shapeOf(side);
        const handle = element(`${side}-handle`);
        handle.style.left = `${(100 * x) / WIDTH}%`;
        handle.style.top = `${(100 * y) / HEIGHT}%`;
        handle.style.width = `${(100 * SIDE) / WIDTH}%`;
        handle.setAttribute('aria-label', `${handle.dataset.name} at ${x}, ${y}. Arrow keys move it.`);
    }
}

// Moves a shape to a place, through its fields.
function place(side, x, y, redraw) {
    element(`${side}-x`).value = Math.round(x);
    element(`${side}-y`).value = Math.round(y);
    for (const axis of ['x', 'y']) element(`${side}-${axis}`).value = numberOf(`${side}-${axis}`);
    redraw();
}

// Lets a shape be dragged by its handle, and moved by the arrow keys.
function listen(side, redraw) {
    const handle = element(`${side}-handle`);
    let grip = null;
    const at = (event) => {
        const box = element('stage').getBoundingClientRect();
        return [((event.clientX - box.left) * WIDTH) / box.width, ((event.clientY - box.top) * HEIGHT) / box.height];
    };
    handle.addEventListener('pointerdown', (event) => {
        const [x, y] = at(event), shape = shapeOf(side);
        grip = [x - shape.x, y - shape.y];
        handle.setPointerCapture(event.pointerId);
    });
    handle.addEventListener('pointermove', (event) => {
        const [x, y] = at(event);
        if (grip) place(side, x - grip[0], y - grip[1], redraw);
    });
    for (const end of ['pointerup', 'pointercancel']) handle.addEventListener(end, () => { grip = null; });
    handle.addEventListener('keydown', (event) => {
        const step = STEPS[event.key];
        if (!step) return;
        event.preventDefault();
        const far = event.shiftKey ? 10 : 1, shape = shapeOf(side);
        place(side, shape.x + far * step[0], shape.y + far * step[1], redraw);
    });
}

// The pictures of the operators, each a choice of one.
function choices() {
    return OPERATORS.map((operator, number) => {
        const label = document.createElement('label');
        const canvas = Object.assign(document.createElement('canvas'), { id: `operator-${number}` });
        const choice = document.createElement('input');
        Object.assign(choice, { type: 'radio', name: 'operator', value: number });
        choice.defaultChecked = operator.name === 'SrcOver';
        const name = Object.assign(document.createElement('span'), { textContent: operator.name });
        const term = Object.assign(document.createElement('small'), { textContent: formula(operator) });
        canvas.setAttribute('aria-hidden', 'true');
        label.append(choice, canvas, name, ' ', term);
        return label;
    });
}

// Shows the operators, by an instance of the library of their own.
export function showOperators(library) {
    element('choices').append(...choices());
    const draw = painter(library);
    const redraw = onceAFrame(draw);
    element('operators').addEventListener('input', (event) => {
        const field = event.target.id;
        if (field.endsWith('-alpha')) element(`${field}-said`).textContent = event.target.value;
        redraw();
    });
    for (const side of ['source', 'dest']) listen(side, redraw);
    onTheme(draw);
    onSize([element('stage'), ...element('choices').querySelectorAll('canvas')], draw);
}
