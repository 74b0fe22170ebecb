// The same run in exact fractions at one pixel, and its rounding budget, as ExactRun.antt of pix_ops defines them. This
// is the page's own arithmetic, in whole numbers of any length, and is not proved.
import { OPERATORS } from '../../bindings/js/facts.js';

const MAX = 255n;
const READS = { Zero: 0, One: 0, OtherAlpha: 1, OneMinusAlpha: 1 };
const ENTERS = { Zero: 0, One: 1, OtherAlpha: 1, OneMinusAlpha: 1 };

// An effect is what one command does to a pixel: { op, source }, or { source } where it is replaced.

// A pixel that no effect has reached: each channel is its number, as a fraction of 1.
export const exactStart = (pixel) => ({ channels: pixel.map(BigInt), whole: 1n });

// A coefficient as a part of a whole, where alpha is the other side's.
function weight(coefficient, whole, alpha) {
    switch (coefficient) {
    case 'Zero': return 0n;
    case 'One': return whole;
    case 'OtherAlpha': return alpha;
    default: return whole - alpha;
    }
}

// The pixel after an effect, never rounded. A sum stops at the maximum, as the library's does.
export function exactStep({ channels, whole }, { op, source }) {
    if (op === undefined) return exactStart(source);
    const row = OPERATORS[op];
    const alpha = BigInt(source[3]), under = channels[3], part = MAX * whole;
    const made = channels.map((channel, index) => {
        const sum = BigInt(source[index]) * weight(row.source, part, under) + channel * weight(row.dest, MAX, alpha);
        return sum < MAX * part ? sum : MAX * part;
    });
    return { channels: made, whole: MAX * whole };
}

// How far rounding may have moved a color channel and the alpha, in half units.
export const budgetStart = { channel: 0, alpha: 0 };

// The budget after an effect: one more for each product that it rounds, and what it takes over from before.
export function budgetStep(budget, { op }) {
    if (op === undefined) return budgetStart;
    const { source, dest } = OPERATORS[op];
    const count = READS[source] + READS[dest];
    return {
        channel: count + ENTERS[dest] * budget.channel + READS[source] * budget.alpha,
        alpha: count + Math.max(ENTERS[dest], READS[source]) * budget.alpha,
    };
}

// Whether a command is of the listed kinds (a clear, a copy, or a constant source), for which the bound is n units after n of them.
export const hasConstantSource = ({ op }) => op === undefined || READS[OPERATORS[op].source] === 0;

// A fraction as a decimal number of four places, rounded down.
export function decimal(value, whole) {
    const scaled = (value * 10000n) / whole;
    return `${scaled / 10000n}.${String(scaled % 10000n).padStart(4, '0')}`;
}

// How far a channel lies from the exact one, as [numerator, denominator].
export function distance(channel, value, whole) {
    const apart = BigInt(channel) * whole - value;
    return [apart < 0n ? -apart : apart, whole];
}
