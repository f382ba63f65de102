/** Replaying a recorded session: whether the calls still give the answers that were recorded. */

import { answer, mismatch } from './answers.js';
import { lent } from './memory.js';
import { isList } from './types.js';

const REFUSALS = Object.freeze({ 5: 'not a recording', 6: 'unknown version', 7: 'cut entry' });
const ALL_AGREE = 0;
const DIFFERS = 60;

/**
 * @param {import('./memory.js').Calls} calls
 * @param {import('./memory.js').Memory} memory
 */
export function replaying(calls, memory) {
    /** @type {import('./index.js').Yoktvarim['replay']} */
    function replay(recording) {
        isList('recording', recording, Uint8Array);
        const [told, bytes] = memory.lists([BigUint64Array, 7], [Uint8Array, recording.length]);
        bytes.set(recording);
        const number = calls.yoktvarim_replay(...lent(bytes), told.byteOffset);
        const [entry, ...sides] = Array.from(told, Number);
        if (number === ALL_AGREE) return answer('all agree', { entries: entry });
        if (number === DIFFERS) return answer('differs', { entry, recorded: outcome(sides), replayed: outcome(sides.slice(3)) });
        if (!(number in REFUSALS)) throw mismatch(number);
        return answer(REFUSALS[number]);
    }

    return { replay };
}

/**
 * One side of an entry: the number of an answer in the rules, which can be any byte that was recorded, and the two counts.
 *
 * @param {number[]} side
 */
const outcome = ([number, points, indices]) => Object.freeze({ answer: number, points, indices });
