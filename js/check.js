/** Checking a mesh that anybody made for a patch. */

import { answer, mismatch } from './answers.js';
import { lent } from './memory.js';
import { settingBytes, sixLevels } from './patch.js';
import { isList, isObject } from './types.js';

/**
 * The name of each number, the names of its places, and the sentence for it.
 *
 * @type {Readonly<Record<number, [string, string[], (verdict: any) => string]>>}
 */
const VERDICTS = Object.freeze({
    0: ['accepted', [], () => 'the mesh is accepted'],
    11: ['bad top', [], () => 'the top is not an even number from 2 to 64'],
    20: ['isolines', [], () => 'isolines have no triangles'],
    21: ['dots', [], () => 'a patch in point mode has no triangles'],
    22: ['should be discarded', [], () => 'the patch is discarded, and a list is not empty'],
    23: ['not threes', [], () => 'the words of the points or the number of indices is no multiple of three'],
    24: ['unknown index', ['place'], ({ place }) => `the index at place ${place} is no point's number`],
    25: ['outside', ['point'], ({ point }) => `point ${point} lies outside the patch`],
    26: ['equal points', ['first', 'second'], ({ first, second }) => `points ${first} and ${second} are equal`],
    27: ['turned', ['triangle'], ({ triangle }) => `triangle ${triangle} has no area or turns the wrong way`],
    28: ['side twice', ['first', 'second'], ({ first, second }) => `triangles ${first} and ${second} have a directed side in common`],
    29: [
        'open side',
        ['triangle', 'corner'],
        ({ triangle, corner }) => `the side from corner ${corner} of triangle ${triangle} has no reverse and is no piece of the outline`,
    ],
    30: ['missing piece', ['piece'], ({ piece }) => `piece ${piece} of the outline is no side of a triangle`],
});

/**
 * A verdict in words.
 *
 * @param {import('./index.js').Verdict} verdict
 * @returns {string}
 */
export function faultInWords(verdict) {
    const [, , words] = Object.values(VERDICTS).find(([is]) => is === verdict.is);
    return words(verdict);
}

/**
 * @param {import('./memory.js').Calls} calls
 * @param {import('./memory.js').Memory} memory
 */
export function checking(calls, memory) {
    /** @type {import('./index.js').Yoktvarim['checkMesh']} */
    function checkMesh(patch, settings, mesh) {
        const { vertices, indices } = isObject('mesh', mesh);
        isList('vertices', vertices, Uint32Array);
        isList('indices', indices, Uint16Array);
        const sixes = sixLevels(patch);
        const setting = settingBytes(patch.kind, settings);
        const [places, points, corners] = memory.lists(
            [BigUint64Array, 2],
            [Uint32Array, vertices.length],
            [Uint16Array, indices.length],
        );
        memory.writePatch(setting, sixes);
        points.set(vertices);
        corners.set(indices);
        const number = calls.yoktvarim_check_mesh(
            memory.settings,
            memory.levels,
            ...lent(points),
            ...lent(corners),
            places.byteOffset,
        );
        if (!(number in VERDICTS)) throw mismatch(number);
        const [is, names] = VERDICTS[number];
        return answer(is, Object.fromEntries(names.map((name, at) => [name, Number(places[at])])));
    }

    return { checkMesh };
}
