// What became of one pixel: the commands that reach it, what the library made of it, and the exact run beside it.
import { whole } from './library.js';
import { budgetStart, budgetStep, exactStart, exactStep, hasConstantSource } from './exact.js';

// Whether a point lies in a region, and how far from its corner.
function offsetIn([left, top, width, height], x, y) {
    const [column, row] = [x - left, y - top];
    return column >= 0 && row >= 0 && column < width && row < height ? [column, row] : null;
}

// The pixel that a command reads at a point, or nothing where it does not reach the point.
function sourceAt(command, x, y) {
    if (command.name === 'CLEAR') return [0, 0, 0, 0];
    const offset = offsetIn(command.to, x, y);
    if (!offset || !command.source) return offset && command.color.channels;
    const { from, source } = command;
    const [column, row] = [from[0] + offset[0], from[1] + offset[1]];
    if (!offsetIn(whole(source), column, row)) return null;
    return source.pixel(column, row);
}

// The operator of a command, or nothing where it replaces pixels.
const operatorOf = ({ name, op }) => (name.startsWith('COMPOSITE') ? op : undefined);

// The history of the pixel (x, y) of a painting: for each command that reaches it what the library makes of it, as a
// window of one pixel, what the exact run does, and the budget. Null where more than `most` commands reach it.
export function historyOf(library, { steps }, x, y, most) {
    const reached = [];
    for (const step of steps) {
        const source = sourceAt(step.command, x, y);
        if (source) reached.push({ ...step, effect: { op: operatorOf(step.command), source } });
    }
    if (reached.length > most) return null;
    const top = library.top;
    const pixel = library.image(1, 1);
    let exact = exactStart([0, 0, 0, 0]), budget = budgetStart;
    const states = reached.map(({ line, text, command, effect }) => {
        pixel.run(command, { origin: [x, y] });
        exact = exactStep(exact, effect);
        budget = budgetStep(budget, effect);
        return { line, text, effect, pixel: pixel.pixel(0, 0), exact, budget };
    });
    library.top = top;
    return { states, hasConstantSource: reached.every(({ effect }) => hasConstantSource(effect)) };
}
