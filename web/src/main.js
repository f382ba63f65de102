/** Starts the page, or shows in one sentence why it does not start. */

import { load } from '../../js/index.js';
import { App, notice } from './app.js';

/** The bytes of the module, which the page holds as text. */
function moduleBytes() {
    const text = document.getElementById('module').textContent.trim();
    return Uint8Array.from(atob(text), (letter) => letter.charCodeAt(0));
}

async function start() {
    const bytes = moduleBytes();
    const yoktvarim = await load(bytes).catch((error) => {
        throw new Error(`this browser cannot run its WebAssembly module, which uses SIMD (${error.message})`);
    });
    document.querySelector('main').hidden = false;
    const app = new App(yoktvarim, bytes);
    addEventListener('error', ({ error }) => error && app.fail(error));
    addEventListener('unhandledrejection', ({ reason }) => app.fail(reason));
}

start().catch((error) => {
    document.querySelector('main').hidden = true;
    notice(`The page does not start: ${error.message}.`);
    throw error;
});
