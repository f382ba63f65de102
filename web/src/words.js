/** Words and sentences. */

const PLURALS = Object.freeze({ index: 'indices', entry: 'entries' });

/**
 * A number of things: `1 point`, `4,225 points`.
 *
 * @param {number} number
 * @param {string} thing
 */
export const many = (number, thing) => `${number.toLocaleString('en')} ${number === 1 ? thing : (PLURALS[thing] ?? `${thing}s`)}`;

/** @param {string} clause */
export const sentence = (clause) => `${clause[0].toUpperCase()}${clause.slice(1)}.`;

/** What is said of an answer without a mesh. */
export const MEANINGS = Object.freeze({
    discarded: 'An outer level that counts is NaN or not above 0.',
    'bad top': 'The top is not an even number from 2 to 64.',
});

const PRIMITIVES = ['', 'dot', 'line', 'triangle'];

/**
 * What is drawn.
 *
 * @param {import('../../js/index.js').Lists} mesh
 * @param {number} corners
 */
export function countsOf({ vertices, indices }, corners) {
    const primitives = many(indices.length / corners, PRIMITIVES[corners]);
    return `${many(vertices.length / 3, 'point')}, ${primitives}, ${many(indices.length, 'index')}`;
}

/**
 * What is under the pointer.
 *
 * @param {{part: import('./picture/scene.js').Part, what: string, number: number}} found
 */
export function foundInWords({ part, what, number }) {
    if (what === 'point') return `Point ${number} at (${[...part.vertices.subarray(3 * number, 3 * number + 3)].join(', ')})`;
    const corners = part.indices.subarray(number * part.corners, (number + 1) * part.corners);
    return `${what === 'line' ? 'Line' : 'Triangle'} ${number} with the points ${[...corners].join(', ')}`;
}

/** @param {number} time in milliseconds */
export const milliseconds = (time) => (time < 0.1 ? '< 0.1 ms' : `${time.toFixed(1)} ms`);
