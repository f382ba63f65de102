/** Measuring a patch, and drawing its points and its indices. */

import { answer, refused } from './answers.js';
import { COUNTING, settingBytes, sixLevels } from './patch.js';
import { areApart, isList } from './types.js';

/** Lists of these sizes have room for every patch at every top: 4,225 points of 3 words each, and 8,192 triangles. */
export const VERTEX_WORDS = 12675;
export const INDEX_WORDS = 24576;

const CLAMPS = [undefined, 'below', 'inside', 'above'];

/**
 * How much of a lent list the module needs to see: nothing is ever written past the size that every patch has room in.
 *
 * @param {{length: number}} list
 * @param {number} size
 */
const room = (list, size) => Math.min(list.length, size);

/**
 * A list's length as the module takes it. Drawing passes place and length by themselves: `lent` for both takes longer than a small patch.
 *
 * @param {{length: number}} list
 */
const lengthOf = (list) => BigInt(list.length);

/**
 * @param {import('./memory.js').Calls} calls
 * @param {import('./memory.js').Memory} memory
 */
export function drawing(calls, memory) {
    /** The lists that a call asks for, with settings and levels in their places. */
    function lists(patch, settings, ...asked) {
        const levels = sixLevels(patch);
        const bytes = settingBytes(patch.kind, settings);
        const found = memory.lists(...asked);
        memory.writePatch(bytes, levels);
        return found;
    }

    /** @type {import('./index.js').Yoktvarim['measure']} */
    function measure(patch, settings = {}) {
        const [counts, clamps] = lists(patch, settings, [Uint32Array, 2], [Uint8Array, 6]);
        const number = calls.yoktvarim_measure(memory.settings, memory.levels, counts.byteOffset, clamps.byteOffset);
        if (number !== 0) return refused(number, 'discarded', 'bad top');
        const [outer, inner] = COUNTING[patch.kind];
        const names = (from, count) => Object.freeze(Array.from(clamps.subarray(from, from + count), (each) => CLAMPS[each]));
        return answer('measured', {
            points: counts[0],
            indices: counts[1],
            clamps: Object.freeze({ outer: names(0, outer), inner: names(4, inner) }),
        });
    }

    /** @type {import('./index.js').Yoktvarim['drawPoints']} */
    function drawPoints(patch, settings, vertices) {
        isList('vertices', vertices, Uint32Array);
        const [count, words] = lists(
            patch,
            settings,
            [Uint32Array, 1],
            [Uint32Array, room(vertices, VERTEX_WORDS)],
        );
        const number = calls.yoktvarim_draw_points(memory.settings, memory.levels, words.byteOffset, lengthOf(words), count.byteOffset);
        if (number !== 0) return refused(number, 'discarded', 'no room for vertices', 'bad top');
        vertices.set(words.subarray(0, 3 * count[0]));
        return answer('drawn', { points: count[0] });
    }

    /** @type {import('./index.js').Yoktvarim['drawIndices']} */
    function drawIndices(patch, settings, indices) {
        isList('indices', indices, Uint16Array);
        const [count, words] = lists(patch, settings, [Uint32Array, 1], [Uint16Array, room(indices, INDEX_WORDS)]);
        const number = calls.yoktvarim_draw_indices(memory.settings, memory.levels, words.byteOffset, lengthOf(words), count.byteOffset);
        if (number !== 0) return refused(number, 'discarded', 'no room for indices', 'bad top');
        indices.set(words.subarray(0, count[0]));
        return answer('drawn', { indices: count[0] });
    }

    /** @type {import('./index.js').Yoktvarim['drawWithFloats']} */
    function drawWithFloats(patch, settings, vertices, indices, floats) {
        isList('vertices', vertices, Uint32Array);
        isList('indices', indices, Uint16Array);
        isList('floats', floats, Float32Array);
        areApart({ vertices, indices, floats });
        const [counts, points, corners, coordinates] = lists(
            patch,
            settings,
            [Uint32Array, 2],
            [Uint32Array, room(vertices, VERTEX_WORDS)],
            [Uint16Array, room(indices, INDEX_WORDS)],
            [Float32Array, room(floats, VERTEX_WORDS)],
        );
        const number = calls.yoktvarim_draw_with_floats(
            memory.settings,
            memory.levels,
            points.byteOffset,
            lengthOf(points),
            corners.byteOffset,
            lengthOf(corners),
            coordinates.byteOffset,
            lengthOf(coordinates),
            counts.byteOffset,
        );
        if (number !== 0) {
            return refused(number, 'discarded', 'no room for vertices', 'no room for indices', 'no room for floats', 'bad top');
        }
        vertices.set(points.subarray(0, 3 * counts[0]));
        indices.set(corners.subarray(0, counts[1]));
        floats.set(coordinates.subarray(0, 3 * counts[0]));
        return answer('drawn', { points: counts[0], indices: counts[1] });
    }

    /** @type {import('./index.js').Yoktvarim['mesh']} */
    function mesh(patch, settings = {}) {
        const size = measure(patch, settings);
        if (size.is !== 'measured') return size;
        const vertices = new Uint32Array(3 * size.points);
        const indices = new Uint16Array(size.indices);
        const said = [drawPoints(patch, settings, vertices), drawIndices(patch, settings, indices)];
        if (said.some((each) => each.is !== 'drawn')) throw new Error('a measured patch was not drawn');
        return answer('drawn', { vertices, indices });
    }

    return { measure, mesh, drawPoints, drawIndices, drawWithFloats };
}
