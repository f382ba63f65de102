/** The text that the program tsj writes for a job. */

import { patchOf } from './job.js';

const REFUSALS = Object.freeze({ 'not a job': 5, 'unknown version': 6, 'cut record': 7, 'unknown setting': 8 });
const CORNERS = Object.freeze({ triangles: 3, quads: 3, isolines: 2 });

/**
 * How many indices a line has.
 *
 * @param {string} kind
 * @param {import('./index.js').Settings} settings
 */
export const cornersOf = (kind, settings) => (settings.pointMode ? 1 : CORNERS[kind]);

/**
 * @param {ArrayLike<number>} words
 * @param {number} each how many words a line has
 */
function lines(words, each) {
    let text = '';
    for (let at = 0; at < words.length; at += each) {
        text += words[at];
        for (let next = 1; next < each; next++) text += ` ${words[at + next]}`;
        text += '\n';
    }
    return text;
}

/**
 * The text of a mesh that was drawn.
 *
 * @param {import('./index.js').Lists} mesh
 * @param {number} corners indices a line
 */
export function meshText({ vertices, indices }, corners) {
    return `drawn ${vertices.length / 3} ${indices.length}\n${lines(vertices, 3)}${lines(indices, corners)}`;
}

/**
 * The text in pieces, one a record.
 *
 * @param {import('./index.js').Yoktvarim} yoktvarim
 * @param {Uint8Array} bytes a job of any content
 * @returns {Generator<string, void>}
 */
export function* jobText(yoktvarim, bytes) {
    const job = yoktvarim.readJob(bytes);
    if (job.is !== 'read') {
        yield `refused ${REFUSALS[job.is]}\n`;
        return;
    }
    yield `TSJ ${job.version}\n`;
    for (const record of job.records) {
        if (record.is !== 'record') {
            yield `refused ${REFUSALS[record.is]}\n`;
            continue;
        }
        const answer = yoktvarim.mesh(patchOf(record), record.settings);
        yield answer.is === 'drawn' ? meshText(answer, cornersOf(record.kind, record.settings)) : 'discarded\n';
    }
}
