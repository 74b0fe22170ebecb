// The layout of commands in the module's memory, by the sizes and offsets that the library itself returns.
import { CALLS, FACTS } from './facts.js';
import { channelsOf, shown, whole } from './values.js';

const NO_FACT = 0xffffffff;
// The fields of a command that `writeCommand` sets. Others may be 0, but slices may not: each has a field for its count.
const FIELDS = ['kind', 'op', 'to', 'from', 'color', 'pixels', 'pixel_count', 'mattes', 'matte_count', 'width', 'height', 'stride',
    'mask', 'mask_width', 'mask_height', 'mask_stride', 'alpha'];

// Sizes and offsets by type and field. Throws if the library is another one.
export function layoutOf(answer) {
    const layout = {};
    FACTS.forEach(([type, field], index) => {
        (layout[type] ??= {})[field] = answer(index);
    });
    const fields = Object.keys(layout.pix_command).filter((field) => field !== 'size');
    const isKnown = answer(0) === CALLS && answer(FACTS.length) === NO_FACT && fields.length === FIELDS.length
        && FIELDS.every((field) => fields.includes(field));
    if (!isKnown) throw new Error('the module is of another version or layout than this package: take both from one release');
    return layout;
}

// Lays out commands on images of a type, and returns their address. Sources outside the module's memory are copied in.
export function writeList(pix, commands, type, put) {
    const layout = pix.layout[type.command], nothing = put(new BigUint64Array(2));
    const sources = commands.map(({ source, matte }) => [source ? put(source) : nothing, matte ? put(matte) : nothing]);
    const colors = commands.map(({ color }) => (color ? channelsOf(pix, color, type) : []));
    const list = put(new Uint8Array(Math.max(commands.length, 1) * layout.size));
    const view = new DataView(pix.memory.buffer);
    commands.forEach((command, index) => {
        if (command.alpha > type.max) throw new RangeError(`alpha ${shown(command.alpha)} is above ${type.max}`);
        writeCommand(view, list + index * layout.size, pix.layout, command, type, [...sources[index], nothing], colors[index]);
    });
    return list;
}

function writeCommand(view, at, layout, command, type, [pixels, mattes, nothing], color) {
    const field = layout[type.command], { source, matte } = command;
    const word = (name, value) => view.setUint32(at + field[name], value, true);
    const long = (name, value) => view.setBigUint64(at + field[name], BigInt(value), true);
    // A color through a matte has the matte's size in the fields of the source's size.
    const rows = source ?? matte ?? { width: 0, height: 0, stride: 0 }, behind = (source && matte) ?? { width: 0, height: 0, stride: 0 };
    word('kind', command.kind);
    word('op', command.op);
    writeRegion(view, at + field.to, layout.pix_region, command.to);
    writeRegion(view, at + field.from, layout.pix_region, command.from);
    writeRegion(view, at + field.mask, layout.pix_region, command.matteFrom);
    color.forEach((channel, i) => (type.max > 255 ? view.setUint16(at + field.color + 2 * i, channel, true) : view.setUint8(at + field.color + i, channel)));
    long('pixels', pixels);
    long('pixel_count', source?.extent ?? 0);
    // On an image of 16 bits a channel, mattes of bytes have fields of their own: each value counts 257 times.
    const isNarrow = type.max > 255 && matte?.size === 1, extent = matte?.extent ?? 0;
    long('mattes', isNarrow ? nothing : mattes);
    long('matte_count', isNarrow ? 0 : extent);
    if (type.max > 255) {
        long('mattes8', isNarrow ? mattes : nothing);
        long('matte8_count', isNarrow ? extent : 0);
    }
    ['width', 'height', 'stride'].forEach((name) => {
        word(name, rows[name]);
        word(`mask_${name}`, behind[name]);
    });
    if (type.max > 255) view.setUint16(at + field.alpha, command.alpha ?? 0, true);
    else view.setUint8(at + field.alpha, command.alpha ?? 0);
}

function writeRegion(view, at, field, [x, y, width, height]) {
    view.setInt32(at + field.x, x, true);
    view.setInt32(at + field.y, y, true);
    view.setUint32(at + field.width, width, true);
    view.setUint32(at + field.height, height, true);
}
