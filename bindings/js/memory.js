// The memory of a module: images and calls allocate and free it, and arrays are copied in and out.
import { bytesOf, meet, Rows } from './images.js';
import { bad, PixError, STATUS } from './values.js';

const PAGE = 65536;

export class Memory {
    constructor(instance) {
        this.calls = instance.exports;
        this.memory = this.calls.memory;
        // The free pieces of the memory, by address, and a registry that frees images when nothing holds them any more.
        const base = Math.ceil(Number(this.calls.__heap_base.value) / 16) * 16;
        this.room = [[base, this.memory.buffer.byteLength - base]];
        this.lost = new FinalizationRegistry((piece) => this.release(piece));
    }

    // Calls with arrays in the module's memory: `put(array, isWritten)` returns the address of each, and copies it in if it isn't
    // there. Written arrays are copied out if the call succeeds. A status other than 0 is thrown.
    scratch(call) {
        const taken = [], out = [], seen = new Map();
        const put = (it, isWritten) => {
            const array = it instanceof Rows ? it.array : it;
            if (it instanceof Rows && (it.freed || it.whole?.freed)) bad('an image or a matte was used after free()');
            if (it.place) return it.place;
            if (seen.has(array) && !isWritten) return seen.get(array);
            const bytes = bytesOf(array).subarray(0, it.byteLength), place = this.take(bytes.length);
            if (bytes.length < it.byteLength) bad('the array of an image or a matte is shorter than it was: was it resized, or transferred?');
            taken.push([place, bytes.length]);
            seen.set(array, place);
            new Uint8Array(this.memory.buffer, place, bytes.length).set(bytes);
            if (isWritten) out.push([bytes, place]);
            return place;
        };
        try {
            const [status, index] = call(put);
            if (status) throw new PixError(status, index?.());
            for (const [bytes, place] of out) bytes.set(new Uint8Array(this.memory.buffer, place, bytes.length));
        } finally {
            taken.forEach((piece) => this.release(piece));
        }
    }

    // Throws if a written array shares memory with another one.
    refuseShared(written, ...others) {
        if (others.some((other) => meet(written, other))) throw new PixError(STATUS.indexOf('OVERLAP'));
    }

    // The address of an array in the module's memory, or 0.
    placeOf(array) {
        return array.buffer === this.memory.buffer ? array.byteOffset : 0;
    }

    // The argument of a call for an array. In the module's memory it is the array's place, since a view ends when memory grows.
    pin(it) {
        return it instanceof Rows || !this.placeOf(it) ? it : { place: it.byteOffset, byteLength: it.byteLength };
    }

    held(rows) {
        if (rows.freed || rows.whole?.freed) bad('an image or a matte was used after free()');
        return this.memory.buffer;
    }

    // Allocates `count` bytes at an address that suits any type. The memory grows if it has no room.
    take(count) {
        const size = Math.ceil(Math.max(count, 1) / 16) * 16;
        let index = this.room.findIndex(([, free]) => free >= size);
        if (index < 0) {
            const pages = Math.ceil(size / PAGE), end = this.memory.buffer.byteLength;
            if (end + pages * PAGE > 2 ** 32) throw new RangeError(`${count} bytes more than the module's memory of 4 GiB has: free() images that are done`);
            try {
                this.memory.grow(pages);
            } catch {
                throw new RangeError(`the machine has no memory of ${count} bytes more: free() images that are done`);
            }
            this.release([end, pages * PAGE]);
            index = this.room.findIndex(([, free]) => free >= size);
        }
        const piece = this.room[index], at = piece[0];
        piece[0] += size;
        piece[1] -= size;
        if (!piece[1]) this.room.splice(index, 1);
        return at;
    }

    // Frees a piece of memory, and joins it with its free neighbors.
    release([at, count]) {
        const size = Math.ceil(Math.max(count, 1) / 16) * 16;
        let index = this.room.findIndex(([place]) => place > at);
        if (index < 0) index = this.room.length;
        this.room.splice(index, 0, [at, size]);
        for (const here of [index, index - 1]) {
            const [left, right] = [this.room[here], this.room[here + 1]];
            if (left && right && left[0] + left[1] === right[0]) this.room.splice(here, 2, [left[0], left[1] + right[1]]);
        }
    }

    owned(count, make) {
        const at = this.take(count), piece = [at, count];
        new Uint8Array(this.memory.buffer, at, count).fill(0);
        const rows = make(at);
        rows.owns = true;
        this.lost.register(rows, piece, rows);
        rows.piece = piece;
        return rows;
    }

    give(rows) {
        this.lost.unregister(rows);
        this.release(rows.piece);
    }
}
