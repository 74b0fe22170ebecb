// Reads a paint script, as docs/SCRIPTS.md says. This is the page's own reader and is not proved: that of pixpaint is.
import { OPERATORS } from '../../bindings/js/facts.js';

const LONGEST = 1048576;
const LARGEST = 1024;
const GREATEST = 2147483647;

// The first fault of a script, with the number of its line, or 0 where it is a fault of no line.
export class Fault extends Error {
    constructor(line, problem) {
        super(line ? `line ${line}: ${problem}` : problem);
        this.line = line;
    }
}

// Readers of one word: each answers its value, or throws the name of the problem.
function operator(word) {
    const number = OPERATORS.findIndex(({ name }) => name === word);
    if (number < 0) throw 'unknown word';
    return number;
}

function coordinate(word) {
    const number = /^-?[0-9]+$/.test(word) ? Number(word) : NaN;
    if (!(number >= -GREATEST - 1 && number <= GREATEST)) throw 'bad number';
    return number;
}

function side(word) {
    const number = /^[0-9]+$/.test(word) ? Number(word) : NaN;
    if (!(number <= GREATEST)) throw 'bad number';
    return number;
}

function color(word) {
    if (!/^[0-9a-fA-F]{8}$/.test(word)) throw 'bad color';
    return word.match(/../g).map((digits) => parseInt(digits, 16));
}

// The words of each command, after its name.
const FILL = [coordinate, coordinate, side, side, color];
const COPY = [coordinate, coordinate, coordinate, coordinate, side, side];
const COMMANDS = new Map([
    ['image', [side, side]],
    ['clear', []],
    ['fill', FILL],
    ['paint', [operator, ...FILL]],
    ['keep', []],
    ['copy', COPY],
    ['comp', [operator, ...COPY]],
]);

// Reads the words of a line into a command, after those that came before it. Throws the name of the first problem.
function readWords([name, ...words], before) {
    const readers = COMMANDS.get(name);
    if (!readers) throw 'unknown word';
    if (readers[0] === operator && words.length > 0) operator(words[0]);
    if (words.length !== readers.length) throw 'wrong number of words';
    if (name !== 'image' && !before.image) throw 'no image';
    if (name === 'image' && before.image) throw 'second image';
    const values = readers.map((reader, index) => reader(words[index]));
    if (name === 'image' && values.some((value) => value > LARGEST)) throw 'image too big';
    if ((name === 'copy' || name === 'comp') && !before.isKept) throw 'nothing kept';
    return { name, values };
}

// Reads a script of bytes into the lines that do something: the number, the text, the name and the values of each.
// Throws the first fault.
export function readScript(bytes) {
    if (bytes.length > LONGEST) throw new Fault(0, 'input too long');
    const before = { image: false, isKept: false };
    const found = [];
    new TextDecoder('latin1').decode(bytes).split('\n').forEach((text, index) => {
        const words = text.replace(/\r$/, '').split(' ').filter((word) => word);
        if (words.length === 0 || words[0].startsWith('#')) return;
        try {
            const command = readWords(words, before);
            before.image ||= command.name === 'image';
            before.isKept ||= command.name === 'keep';
            found.push({ line: index + 1, text: words.join(' '), ...command });
        } catch (problem) {
            throw new Fault(index + 1, problem);
        }
    });
    return found;
}
