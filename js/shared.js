/** Two designers on one vertex list and one index list, each with a quota of words in both: neither can disturb the other. */

import { answer, refused } from './answers.js';
import { lent } from './memory.js';
import { settingBytes, sixLevels } from './patch.js';
import { areApart, isInteger, isList, isObject, isOneOf } from './types.js';

const DESIGNERS = ['first', 'second'];
const STATE_WORDS = 10;

/**
 * Where the parts of one list are in the state: its length, and quota and used words of the first and of the second designer.
 *
 * @param {BigUint64Array} state
 * @param {number} from the list's first word of the state
 */
function parts(state, from) {
    const [, firstQuota, firstUsed, , secondUsed] = Array.from(state.subarray(from, from + 5), Number);
    return [
        { begin: 0, used: firstUsed },
        { begin: firstQuota, used: secondUsed },
    ];
}
const vertexParts = (state) => parts(state, 0);
const indexParts = (state) => parts(state, 5);

/**
 * A quota as two numbers of 64 bits. No list has more words than the greatest safe integer, so that replaces every greater number.
 *
 * @param {string} name
 * @param {{vertices: number, indices: number}} quota in words
 */
function quotaWords(name, quota) {
    const { vertices, indices } = isObject(name, quota);
    return [vertices, indices].map((words) => {
        if (isInteger(name, words) < 0) throw new TypeError(`${name} has to be numbers of words, from 0 on`);
        return BigInt(Math.min(words, Number.MAX_SAFE_INTEGER));
    });
}

/**
 * @param {import('./memory.js').Calls} calls
 * @param {import('./memory.js').Memory} memory
 */
export function sharing(calls, memory) {
    class Shared {
        is = 'started';
        #vertices;
        #indices;
        #state = new BigUint64Array(STATE_WORDS);

        /** @private */
        constructor(vertices, indices) {
            this.#vertices = vertices;
            this.#indices = indices;
            Object.freeze(this);
        }

        /** The state and both lists in the module's memory, and the other lists that a call asks for. */
        #lists(...asked) {
            const found = memory.lists(
                [BigUint64Array, STATE_WORDS],
                [Uint32Array, this.#vertices.length],
                [Uint16Array, this.#indices.length],
                ...asked,
            );
            found[0].set(this.#state);
            return found;
        }

        static start(vertices, indices, first, second) {
            isList('vertices', vertices, Uint32Array);
            isList('indices', indices, Uint16Array);
            areApart({ vertices, indices });
            const quotas = [...quotaWords('first', first), ...quotaWords('second', second)];
            const shared = new Shared(vertices, indices);
            const [state, points, corners, words] = shared.#lists([BigUint64Array, 4]);
            words.set(quotas);
            const number = calls.yoktvarim_share_start(...lent(points), ...lent(corners), words.byteOffset, state.byteOffset);
            if (number !== 0) return refused(number, 'quotas too large');
            shared.#state.set(state);
            return shared;
        }

        draw(designer, patch, settings = {}) {
            const at = isOneOf('designer', designer, DESIGNERS);
            const sixes = sixLevels(patch);
            const setting = settingBytes(patch.kind, settings);
            const [state, points, corners, counts] = this.#lists([Uint32Array, 2]);
            memory.writePatch(setting, sixes);
            const number = calls.yoktvarim_share_draw(
                state.byteOffset,
                at,
                memory.settings,
                memory.levels,
                ...lent(points),
                ...lent(corners),
                counts.byteOffset,
            );
            if (number !== 0) {
                return refused(
                    number,
                    'bad top',
                    'bad state',
                    'discarded',
                    'too many points',
                    'no room for vertices',
                    'no room for indices',
                );
            }
            // Only what was appended has been written.
            append(this.#vertices, points, vertexParts(this.#state)[at], 3 * counts[0]);
            append(this.#indices, corners, indexParts(this.#state)[at], counts[1]);
            this.#state.set(state);
            return answer('drawn', { points: counts[0], indices: counts[1] });
        }

        clear(designer) {
            const at = isOneOf('designer', designer, DESIGNERS);
            const [state, points, corners] = this.#lists();
            const number = calls.yoktvarim_share_clear(state.byteOffset, at, ...lent(points), ...lent(corners));
            if (number !== 0) return refused(number, 'bad state');
            this.#state.set(state);
            return answer('cleared');
        }

        used(designer) {
            const at = isOneOf('designer', designer, DESIGNERS);
            return Object.freeze({ vertices: vertexParts(this.#state)[at].used, indices: indexParts(this.#state)[at].used });
        }
    }

    return { Shared };
}

/** Copies the words that were appended to a part, from the module's list to the caller's. */
function append(list, words, { begin, used }, count) {
    const from = begin + used;
    list.set(words.subarray(from, from + count), from);
}
