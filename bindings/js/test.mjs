// Tries the package in node: node --test bindings/js. PIX_WASM names another module than that of generated/.
import test from 'node:test';
import { readFile } from 'node:fs/promises';
import { load } from './pix.js';
import { trials } from './trials.js';

const { PIX_WASM } = process.env;
const pix = await load(PIX_WASM ? await readFile(PIX_WASM) : undefined);
for (const [name, trial] of Object.entries(trials)) test(name, () => trial(pix));
