// Paints a script: the page's reader says what is to be done, and the library makes each pixel.
import { whole } from './library.js';
import { channels, clear, compositeColor, compositeImage, copyColor, copyImage } from '../../bindings/js/pix.js';
import { readScript } from './script.js';

const MOST_KEPT = 256 * 1024 * 1024;

// The command of a line of a script, and the copy that it reads.
function commandOf({ name, values }, kept) {
    const region = ([x, y, width, height]) => [x, y, width, height];
    const pair = ([tx, ty, fx, fy, width, height]) => ({ to: [tx, ty, width, height], from: [fx, fy, width, height] });
    switch (name) {
    case 'clear': return clear();
    case 'fill': return copyColor(region(values), channels(values[4]));
    case 'paint': return compositeColor(region(values.slice(1)), channels(values[5]), { op: values[0] });
    case 'copy': { const { to, from } = pair(values); return copyImage(to, kept, { from }); }
    case 'comp': { const { to, from } = pair(values.slice(1)); return compositeImage(to, kept, { from, op: values[0] }); }
    default: throw new Error(`no command of the library for ${name}`);
    }
}

// Paints a script of bytes: its image, or null where it makes none, and its steps, each a line with its command. Throws
// the script's first fault. What the library's memory had before is given up.
export function paint(library, bytes) {
    const lines = readScript(bytes);
    library.reset();
    let image = null, kept = null, isDrawn = true, list = [];
    const steps = [];
    const draw = () => {
        if (list.length > 0) image.run(list);
        list = [];
    };
    for (const line of lines) {
        if (line.name === 'image') {
            image = library.image(...line.values);
        } else if (line.name === 'keep') {
            draw();
            if (isDrawn || !kept) kept = copyOf(library, image);
            isDrawn = false;
        } else {
            const command = commandOf(line, kept);
            list.push(command);
            steps.push({ line: line.line, text: line.text, command });
            isDrawn = true;
        }
    }
    draw();
    return { image, steps };
}

// A copy of an image. Each one stays, since the history of a pixel reads it, so there is an end to them.
function copyOf(library, image) {
    if (library.size > MOST_KEPT) throw new Error('This page keeps at most 256 MB of copies.');
    const copy = library.image(image.width, image.height);
    copy.run(copyImage(whole(copy), image));
    return copy;
}

// The text that pixpaint prints of an image.
export function printed(image) {
    if (!image) return '';
    const bytes = image.pixels;
    const digits = (at) => [0, 1, 2, 3].map((channel) => bytes[at + channel].toString(16).padStart(2, '0')).join('');
    const row = (y) => Array.from({ length: image.width }, (_, x) => digits(4 * (y * image.width + x))).join(' ');
    return Array.from({ length: image.height }, (_, y) => `${row(y)}\n`).join('');
}
