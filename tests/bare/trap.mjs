/**
 * Compares two meshes with a module whose stack is too small for that: node trap.mjs MODULE STACK. The call has to trap, and no byte
 * past the stack may be written.
 */

import { readFileSync } from 'node:fs';

const [path, stack] = process.argv.slice(2);
const { memory, __heap_base, ...calls } = new WebAssembly.Instance(new WebAssembly.Module(readFileSync(path))).exports;
memory.grow(16);

// Settings, levels, counts, then points, indices and differences.
const [settings, levels, counts, points, indices, differences] = [0, 64, 128, 4096, 65536, 131072].map((at) => __heap_base.value + at);
new Uint8Array(memory.buffer, settings).set([1, 0, 1, 1, 0, 64]);
new Float32Array(memory.buffer, levels).set([16, 16, 16, 16, 16, 16]);
const drawn = [
    calls.yoktvarim_draw_points(settings, levels, points, 12675n, counts),
    calls.yoktvarim_draw_indices(settings, levels, indices, 24576n, counts + 4),
];
if (drawn.some((answer) => answer !== 0)) throw new Error('the patch is not drawn');
const [pointCount, indexCount] = new Uint32Array(memory.buffer, counts, 2);

const past = new Uint8Array(memory.buffer, Number(stack));
const before = past.slice();
const left = [points, BigInt(3 * pointCount), indices, BigInt(indexCount)];
const right = [points, BigInt(3 * pointCount), indices + 6, BigInt(indexCount - 3)];
let trapped;
try {
    calls.yoktvarim_compare_meshes(...left, ...right, differences, 300n, counts + 8);
} catch (error) {
    trapped = error;
}
if (!(trapped instanceof WebAssembly.RuntimeError)) throw new Error('the call does not trap');
if (Buffer.compare(before, past) !== 0) throw new Error('a byte past the stack was written');
console.log(`a call without room for its stack traps: ${trapped.message}`);
