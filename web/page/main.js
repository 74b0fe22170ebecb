// Loads the proved library and starts the parts of the page, each with an instance of its own.
import { Library } from './library.js';
import { showOperators } from './operators.js';
import { isSupported } from '../../bindings/js/pix.js';
import { showScripts } from './scripts.js';
import { showSizes } from './sizes.js';
import { showText } from './text.js';
import { element, fetched } from './view.js';

// Says that the page can't run, and why.
function refuse(reason) {
    element('state').className = 'bad';
    element('state').setAttribute('role', 'alert');
    element('state').textContent = reason;
}

// Puts the prover's line into words.
function inWords(verdict) {
    const found = /^logic=proved functions=(\d+)/.exec(verdict);
    return found ? `proved (${found[1]} functions of the last crate, and all crates below it)` : verdict;
}

// Shows the version of the module: the commit, the kit, the prover's verdict, and the size and the sum.
function tell(built) {
    for (const name of ['commit', 'kit', 'made', 'verdict', 'bytes', 'sum']) element(`built-${name}`).textContent = built[name] ?? 'unknown';
    element('built-verdict').textContent = inWords(built.verdict);
}

async function start() {
    if (!isSupported()) {
        refuse('This browser has no SIMD for WebAssembly, which the library is built for. '
            + 'Chrome and Edge have it from version 91 on, Firefox from 89 on, and Safari from 16.4 on.');
        return;
    }
    const [file, built] = await Promise.all([fetched('../../generated/pix_c.wasm'), fetched('../../generated/built.json')]);
    const module = await WebAssembly.compile(await file.arrayBuffer());
    tell(await built.json());
    showOperators(await Library.of(module));
    showText(await Library.of(module));
    await showSizes(await Library.of(module));
    const scripts = showScripts(await Library.of(module));
    for (const part of document.querySelectorAll('.part')) part.hidden = false;
    element('state').textContent = 'The library is loaded.';
    await scripts.catch((error) => { element('state').textContent += ` Its examples are not: ${error.message}`; });
    document.documentElement.dataset.ready = 'yes';
}

start().catch((error) => refuse(`The library could not be loaded: ${error.message}`));
