// Puts what a package has beside the sources: the module, the license and the picture of the README; with --away takes them
// away. npm pack runs it before and after.
import { copyFileSync, rmSync } from 'node:fs';

const FILES = { 'pix_c.wasm': '../../generated/pix_c.wasm', LICENSE: '../../LICENSE', 'first.png': '../../pictures/first.png' };
for (const [name, from] of Object.entries(FILES)) {
    const [place, whole] = [name, from].map((path) => new URL(path, import.meta.url));
    if (process.argv[2] === '--away') rmSync(place, { force: true });
    else copyFileSync(whole, place);
}
