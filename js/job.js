/** Job files: a header, and then records. */

import { answer, mismatch, refused } from './answers.js';
import { lent } from './memory.js';
import { KINDS, isolines, quads, settingBytes, settings as settingsFrom, settingsOf, sixLevels, triangles } from './patch.js';
import { isList, isObject, isOneOf } from './types.js';

const HEADER_BYTES = 5;
const RECORD_BYTES = 30; // at most
const VERSIONS = [1, 2];
const READ = 0;
const UNKNOWN_SETTING = 8;
const BAD_TOP = 11;
const END = 255;

/**
 * The record of a patch, with 0 for levels that do not count. It holds the bits of all six levels.
 *
 * @param {import('./index.js').Patch} patch
 * @param {Partial<import('./index.js').Settings>} [settings]
 */
export function record(patch, settings = {}) {
    const bits = new Uint32Array(Float32Array.from(sixLevels(patch)).buffer);
    return answer('record', { kind: patch.kind, settings: settingsFrom(settings), bits: Object.freeze([...bits]) });
}

/**
 * The patch of a record.
 *
 * @param {import('./index.js').JobRecord} record
 */
export function patchOf(record) {
    const levels = [...new Float32Array(sixBits(record).buffer)];
    if (record.kind === 'triangles') return triangles(levels.slice(0, 3), levels[4]);
    return record.kind === 'quads' ? quads(levels.slice(0, 4), levels.slice(4)) : isolines(levels.slice(0, 2));
}

/** @param {unknown} value */
const isWord = (value) => Number.isInteger(value) && value >= 0 && value < 2 ** 32;

/** @param {import('./index.js').JobRecord} record */
function sixBits(record) {
    const { kind, bits } = isObject('record', record);
    isOneOf('kind', kind, KINDS);
    // Spread, since a method would pass over a place that holds nothing.
    if (!Array.isArray(bits) || bits.length !== 6 || ![...bits].every(isWord)) {
        throw new TypeError('bits has to be an array of 6 whole numbers of 32 bits');
    }
    return Uint32Array.from(bits);
}

/**
 * @param {import('./memory.js').Calls} calls
 * @param {import('./memory.js').Memory} memory
 */
export function jobs(calls, memory) {
    /** @param {number} version */
    function header(version) {
        const [count, room] = memory.lists([Uint32Array, 1], [Uint8Array, HEADER_BYTES]);
        const number = calls.yoktvarim_write_header(version, ...lent(room), count.byteOffset);
        if (number !== 0) throw mismatch(number);
        return room.slice(0, count[0]);
    }

    /** The bytes of a record, or undefined where the version cannot hold its top. */
    function recordBytes(version, record) {
        const given = sixBits(record);
        const setting = settingBytes(record.kind, record.settings);
        const [count, settings, bits, room] = memory.lists(
            [Uint32Array, 1],
            [Uint8Array, 6],
            [Uint32Array, 6],
            [Uint8Array, RECORD_BYTES],
        );
        settings.set(setting);
        bits.set(given);
        const number = calls.yoktvarim_write_record(
            version,
            settings.byteOffset,
            bits.byteOffset,
            ...lent(room),
            count.byteOffset,
        );
        if (number === BAD_TOP) return undefined;
        if (number !== 0) throw mismatch(number);
        return room.slice(0, count[0]);
    }

    /** @type {import('./index.js').Yoktvarim['writeJob']} */
    function writeJob(records, version = 2) {
        if (!Array.isArray(records)) throw new TypeError('records has to be an array of records');
        isOneOf('version', version, VERSIONS);
        const parts = [header(version)];
        for (const [at, record] of records.entries()) {
            const part = recordBytes(version, record);
            if (!part) return answer('bad top in record', { record: at });
            parts.push(part);
        }
        const job = new Uint8Array(parts.reduce((sum, part) => sum + part.length, 0));
        let at = 0;
        for (const part of parts) {
            job.set(part, at);
            at += part.length;
        }
        return answer('written', { job });
    }

    /** @type {import('./index.js').Yoktvarim['readJob']} */
    function readJob(job) {
        isList('job', job, Uint8Array);
        const [version, settings, bits, place, next, bytes] = memory.lists(
            [Uint32Array, 1],
            [Uint8Array, 6],
            [Uint32Array, 6],
            [Uint32Array, 1],
            [BigUint64Array, 1],
            [Uint8Array, job.length],
        );
        bytes.set(job);
        const said = calls.yoktvarim_read_header(...lent(bytes), version.byteOffset);
        if (said !== READ) return refused(said, 'not a job', 'unknown version');

        const found = [];
        next[0] = BigInt(HEADER_BYTES);
        for (;;) {
            const number = calls.yoktvarim_read_record(
                ...lent(bytes),
                version[0],
                next[0],
                settings.byteOffset,
                bits.byteOffset,
                next.byteOffset,
                place.byteOffset,
            );
            if (number === END) return answer('read', { version: version[0], records: Object.freeze(found) });
            if (number === READ) {
                const kind = KINDS[settings[0]];
                found.push(answer('record', { kind, settings: settingsOf(settings), bits: Object.freeze([...bits]) }));
            } else if (number === UNKNOWN_SETTING) {
                found.push(answer('unknown setting', { place: place[0] }));
            } else {
                found.push(refused(number, 'cut record'));
            }
        }
    }

    return { readJob, writeJob };
}
