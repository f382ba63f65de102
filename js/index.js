/**
 * Tessellates a patch by the Vulkan rules, with a WebAssembly module whose every function is proved.
 *
 *     import { load, triangles } from './index.js';
 *
 *     const yoktvarim = await load();
 *     const answer = yoktvarim.mesh(triangles([1, 1, 1], 2));
 *     if (answer.is === 'drawn') console.log(answer.vertices, answer.indices);
 *
 * Every answer is a frozen object whose `is` names what happened; none is a number, true or false.
 */

import { checking } from './check.js';
import { comparing } from './compare.js';
import { drawing } from './draw.js';
import { jobs } from './job.js';
import { Memory } from './memory.js';
import { replaying } from './replay.js';
import { sharing } from './shared.js';

export { faultInWords } from './check.js';
export { INDEX_WORDS, VERTEX_WORDS } from './draw.js';
export { patchOf, record } from './job.js';
export { GREATEST_TOP, isolines, ONE_IN_QUADS, ONE_IN_TRIANGLES, quads, settings, triangles } from './patch.js';
export { jobText } from './text.js';

/**
 * Loads the module from its bytes or from an address, without either the module beside this file, and returns all operations.
 *
 * @param {BufferSource | string | URL} [source]
 */
export async function load(source = new URL('./yoktvarim.wasm', import.meta.url)) {
    const bytes = typeof source === 'string' || source instanceof URL ? await read(source) : source;
    const { instance } = await WebAssembly.instantiate(bytes);
    const calls = instance.exports;
    const memory = new Memory(calls);
    return Object.freeze({
        ...drawing(calls, memory),
        ...checking(calls, memory),
        ...comparing(calls, memory),
        ...jobs(calls, memory),
        ...replaying(calls, memory),
        ...sharing(calls, memory),
    });
}

/**
 * The bytes at an address. Node fetches no files, so a file is read from the disk.
 *
 * @param {string | URL} address
 */
async function read(address) {
    if (String(address).startsWith('file:')) return (await import('node:fs/promises')).readFile(new URL(address));
    const response = await fetch(address);
    if (!response.ok) throw new Error(`${address} was answered with ${response.status}`);
    return response.arrayBuffer();
}
