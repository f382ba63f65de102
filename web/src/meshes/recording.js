/** The bytes of recordings: one of a single patch, and the record of an entry. */

import { record } from '../../../js/job.js';
import { callOf } from '../state.js';

const HEADER = 5;
const RECORD = 29;
const ENTRY = 34;
const RECORDING_MARK = [0x54, 0x53, 0x52, 1, 0];
const JOB_MARK = [0x54, 0x53, 0x4a, 1, 0];
const NUMBERS = Object.freeze({ drawn: 0, discarded: 1 });

/**
 * The recording of one patch; null where its top is another than 64, which a recording cannot hold.
 *
 * @param {import('../../../js/index.js').Yoktvarim} yoktvarim
 * @param {object} state of the patch
 * @param {number} more how many points it has beyond those that are drawn
 */
export function recordingOf(yoktvarim, state, more) {
    const { patch, settings } = callOf(state);
    const written = yoktvarim.writeJob([record(patch, settings)], 1);
    if (written.is !== 'written') return null;
    const answer = yoktvarim.mesh(patch, settings);
    const counts = answer.is === 'drawn' ? [answer.vertices.length / 3, answer.indices.length] : [0, 0];
    const words = [counts[0] + more, counts[1]].flatMap((word) => [word & 255, word >> 8]);
    return Uint8Array.from([...RECORDING_MARK, ...written.job.subarray(HEADER), NUMBERS[answer.is], ...words]);
}

/**
 * The record of an entry, as a job file of version 1 has it; or the answer that it has an unknown setting.
 *
 * @param {import('../../../js/index.js').Yoktvarim} yoktvarim
 * @param {Uint8Array} recording
 * @param {number} entry
 */
export function recordIn(yoktvarim, recording, entry) {
    const at = HEADER + entry * ENTRY;
    const job = yoktvarim.readJob(Uint8Array.from([...JOB_MARK, ...recording.subarray(at, at + RECORD)]));
    return job.is === 'read' ? job.records[0] : job;
}
