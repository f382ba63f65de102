/** Comparing two triangle meshes: the points and triangles that one has and the other has not. */

import { answer, mismatch } from './answers.js';
import { lent } from './memory.js';
import { isList, isObject } from './types.js';

const WHATS = ['point', 'triangle'];
const SIDES = ['left', 'right'];
const FAULTS = ['not threes', 'unknown index', 'equal points'];
const LEFT_REFUSED = 41;

/**
 * The two lists of a mesh.
 *
 * @param {string} side
 * @param {import('./index.js').Lists} mesh
 */
function listsOf(side, mesh) {
    const { vertices, indices } = isObject(side, mesh);
    return [isList(`vertices of ${side}`, vertices, Uint32Array), isList(`indices of ${side}`, indices, Uint16Array)];
}

/**
 * @param {import('./memory.js').Calls} calls
 * @param {import('./memory.js').Memory} memory
 */
export function comparing(calls, memory) {
    /** @type {import('./index.js').Yoktvarim['compareMeshes']} */
    function compareMeshes(left, right) {
        const given = [...listsOf('left', left), ...listsOf('right', right)];
        // Nothing is different more than once, so this is room for everything.
        const room = given.reduce((sum, list) => sum + Math.floor(list.length / 3), 0);
        const [count, words, ...meshes] = memory.lists(
            [BigUint64Array, 1],
            [BigUint64Array, 3 * room],
            [Uint32Array, given[0].length],
            [Uint16Array, given[1].length],
            [Uint32Array, given[2].length],
            [Uint16Array, given[3].length],
        );
        meshes.forEach((list, at) => list.set(given[at]));
        const number = calls.yoktvarim_compare_meshes(...meshes.flatMap(lent), ...lent(words), count.byteOffset);
        if (number === 0) return answer('compared', { differences: differences(words, Number(count[0])) });
        const fault = FAULTS[(number - LEFT_REFUSED) % FAULTS.length];
        if (number < LEFT_REFUSED || number >= LEFT_REFUSED + 2 * FAULTS.length) throw mismatch(number);
        return answer(number < LEFT_REFUSED + FAULTS.length ? 'left refused' : 'right refused', { fault });
    }

    return { compareMeshes };
}

/**
 * @param {BigUint64Array} words three a difference
 * @param {number} count
 */
function differences(words, count) {
    const found = Array.from({ length: count }, (_, at) => {
        const [what, side, number] = words.subarray(3 * at, 3 * at + 3);
        return Object.freeze({ what: WHATS[Number(what)], side: SIDES[Number(side)], number: Number(number) });
    });
    return Object.freeze(found);
}
