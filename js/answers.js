/** How a number of the module's becomes an answer. */

/**
 * An answer: its name, and the values that belong to it. Which they are is declared in index.d.ts.
 *
 * @param {string} is
 * @param {object} [values]
 * @returns {any}
 */
export const answer = (is, values = {}) => Object.freeze({ is, ...values });

/** What the answers without values are called in the rules. */
const NAMES = Object.freeze({
    1: 'discarded',
    3: 'no room for vertices',
    4: 'no room for indices',
    5: 'not a job',
    6: 'unknown version',
    7: 'cut record',
    9: 'no room for floats',
    11: 'bad top',
    12: 'quotas too large',
    13: 'too many points',
    14: 'bad state',
});

/**
 * The answer without values that has this number, of those that a call can give.
 *
 * @param {number} number
 * @param {...string} names
 */
export function refused(number, ...names) {
    const is = NAMES[number];
    if (!names.includes(is)) throw mismatch(number);
    return answer(is);
}

/** @param {number} number */
export const mismatch = (number) => new Error(`the module answered ${number}, which this call cannot get`);
