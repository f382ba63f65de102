/** Answers calls, one a line of JSON on standard input, so that another program can compare. */

import * as readline from 'node:readline';
import { load } from '../index.js';

const yoktvarim = await load();

// JSON has no NaN and no infinities: levels come as the bits of 32-bit floats.
const levels = (bits) => [...new Float32Array(Uint32Array.from(bits).buffer)];
const patchOf = ({ kind, outer, inner }) => ({
    kind,
    outer: levels(outer),
    inner: kind === 'triangles' ? levels(inner)[0] : levels(inner),
});
const meshOf = ([vertices, indices]) => ({ vertices: Uint32Array.from(vertices), indices: Uint16Array.from(indices) });
const listed = (value) => (ArrayBuffer.isView(value) ? [...value] : value);

let shared = null;
let lists = [];
const CALLS = {
    measure: ({ patch, settings }) => yoktvarim.measure(patchOf(patch), settings),
    check: ({ patch, settings, mesh }) => yoktvarim.checkMesh(patchOf(patch), settings, meshOf(mesh)),
    compare: ({ left, right }) => yoktvarim.compareMeshes(meshOf(left), meshOf(right)),
    replay: ({ bytes }) => yoktvarim.replay(Uint8Array.from(bytes)),
    floats: ({ patch, settings, lengths }) => {
        const [vertices, indices, floats] = [new Uint32Array(lengths[0]), new Uint16Array(lengths[1]), new Float32Array(lengths[2])];
        const answer = yoktvarim.drawWithFloats(patchOf(patch), settings, vertices, indices, floats);
        return { ...answer, lists: [[...vertices], [...indices], [...new Uint32Array(floats.buffer)]] };
    },
    start: ({ lengths, first, second }) => {
        lists = [new Uint32Array(lengths[0]), new Uint16Array(lengths[1])];
        shared = yoktvarim.Shared.start(...lists, first, second);
        return { is: shared.is };
    },
    draw: ({ designer, patch, settings }) => ({ ...shared.draw(designer, patchOf(patch), settings), lists: lists.map(listed) }),
    clear: ({ designer }) => ({ ...shared.clear(designer), used: shared.used(designer) }),
};

for await (const line of readline.createInterface({ input: process.stdin })) {
    const { call, ...given } = JSON.parse(line);
    process.stdout.write(`${JSON.stringify(CALLS[call](given))}\n`);
}
