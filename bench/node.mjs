/**
 * Nanoseconds of a draw in node, a line a case: `name;of the WebAssembly module's two calls;of the two calls of the JavaScript module`.
 * The second also writes the settings and copies the lists out to the caller's.
 */

import { INDEX_WORDS, VERTEX_WORDS, load, quads, triangles } from '../js/index.js';
import { readFileSync } from 'node:fs';

const CASES = {
    'quads 64': quads([64, 64, 64, 64], [64, 64]),
    'triangles 64': triangles([64, 64, 64], 64),
    'quads 4': quads([4, 4, 4, 4], [4, 4]),
    'triangles 4': triangles([4, 4, 4], 4),
};
const KINDS = ['triangles', 'quads'];
const ROUNDS = 301;
const WARM_UP = 500_000_000;

/** The least of many rounds of half a millisecond or more, once node has had the time to compile the calls well. */
function nanoseconds(call) {
    const round = (times) => {
        const start = process.hrtime.bigint();
        for (let time = 0; time < times; time++) call();
        return Number(process.hrtime.bigint() - start);
    };
    let times = 1;
    while (round(times) < 500_000) times *= 2;
    for (let spent = 0; spent < WARM_UP; spent += round(times));
    let least = Infinity;
    for (let each = 0; each < ROUNDS; each++) least = Math.min(least, round(times) / times);
    return least;
}

/** The module's two calls, on lists in its own memory. */
function inside({ kind, outer, inner }) {
    const bytes = readFileSync(new URL('../js/yoktvarim.wasm', import.meta.url));
    const { memory, __heap_base, ...calls } = new WebAssembly.Instance(new WebAssembly.Module(bytes)).exports;
    memory.grow(4);
    const [settings, levels, counts, points, indices] = [0, 64, 128, 192, 65536].map((at) => __heap_base.value + at);
    new Uint8Array(memory.buffer, settings).set([KINDS.indexOf(kind), 0, 1, 1, 0, 64]);
    new Float32Array(memory.buffer, levels).set([...outer, ...(outer.length === 3 ? [0] : []), ...[inner].flat()]);
    const [vertexWords, indexWords] = [BigInt(VERTEX_WORDS), BigInt(INDEX_WORDS)];
    return () => {
        calls.yoktvarim_draw_points(settings, levels, points, vertexWords, counts);
        calls.yoktvarim_draw_indices(settings, levels, indices, indexWords, counts + 4);
    };
}

const yoktvarim = await load();
const vertices = new Uint32Array(VERTEX_WORDS);
const indices = new Uint16Array(INDEX_WORDS);
for (const [name, patch] of Object.entries(CASES)) {
    const outside = () => {
        yoktvarim.drawPoints(patch, {}, vertices);
        yoktvarim.drawIndices(patch, {}, indices);
    };
    console.log(`${name};${nanoseconds(inside(patch)).toFixed(0)};${nanoseconds(outside).toFixed(0)}`);
}
