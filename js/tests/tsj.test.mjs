/** tsj.mjs against the native tsj, byte for byte: samples, random jobs of both versions, damaged jobs and jobs of every short length. */

import assert from 'node:assert/strict';
import { spawnSync } from 'node:child_process';
import { readFileSync, readdirSync } from 'node:fs';
import { test } from 'node:test';
import { jobText, load } from '../index.js';
import { chance } from './chance.mjs';

const at = (path) => new URL(path, import.meta.url).pathname;
const NATIVE = at('../../target/bin/tsj');
const SAMPLES = at('../../samples');
const PROGRAM = at('../tsj.mjs');
const yoktvarim = await load();

const native = (job) => spawnSync(NATIVE, { input: job, maxBuffer: 2 ** 30 }).stdout;
const ours = (job) => Buffer.from([...jobText(yoktvarim, job)].join(''));
function same(job, name) {
    assert.ok(ours(job).equals(native(job)), `${name} is answered in another way`);
}

const LEVELS = [NaN, Infinity, -Infinity, 0, -0, -1, 1e-45, 0.5, 1, 1.0000001, 2, 2.0000002, 3, 5.5, 63, 64, 1e30];

/** A random record: mostly good settings and small levels, some at limits, some with any bits. */
function randomRecord({ next, below, pick }, version) {
    const bytes = Buffer.alloc(version === 1 ? 29 : 30);
    [3, 3, 2, 2, 2].forEach((count, at) => (bytes[at] = next() < 0.02 ? below(256) : below(count)));
    if (version === 2) bytes[5] = next() < 0.8 ? 2 + 2 * below(32) : below(256);
    for (let at = bytes.length - 24; at < bytes.length; at += 4) {
        const way = next();
        if (way < 0.15) bytes.writeFloatLE(pick(LEVELS), at);
        else if (way < 0.18) bytes.writeUInt32LE(below(2 ** 32), at);
        else bytes.writeFloatLE(0.1 + next() * (next() < 0.05 ? 70 : 9), at);
    }
    return bytes;
}

const randomJob = (random, version, count) =>
    Buffer.concat([Buffer.from([0x54, 0x53, 0x4a, version, 0]), ...Array.from({ length: count }, () => randomRecord(random, version))]);

test('samples', () => {
    for (const name of readdirSync(SAMPLES).filter((each) => each.endsWith('.tsj'))) same(readFileSync(`${SAMPLES}/${name}`), name);
});

test('random jobs', () => {
    for (let seed = 0; seed < 10; seed++) same(randomJob(chance(seed), 1 + (seed % 2), 400), `seed ${seed}`);
});

test('damaged jobs', () => {
    for (let seed = 0; seed < 150; seed++) {
        const random = chance(1000 + seed);
        const job = randomJob(random, 1 + (seed % 2), 12);
        for (let times = 0; times < 4; times++) job[random.below(job.length)] = random.below(256);
        same(job.subarray(0, random.below(job.length + 1)), `damaged ${seed}`);
    }
});

test('short jobs', () => {
    for (const version of [1, 2]) {
        const job = randomJob(chance(version), version, 2);
        for (let length = 0; length <= job.length; length++) same(job.subarray(0, length), `${length} bytes of version ${version}`);
    }
});

test('the program itself, by standard input and by file', () => {
    const job = randomJob(chance(7), 2, 60);
    assert.ok(spawnSync('node', [PROGRAM], { input: job, maxBuffer: 2 ** 30 }).stdout.equals(native(job)));
    const file = `${SAMPLES}/sheet.tsj`;
    assert.ok(spawnSync('node', [PROGRAM, file]).stdout.equals(native(readFileSync(file))));
    const missing = spawnSync('node', [PROGRAM, '/nowhere']);
    assert.equal(missing.status, 1);
    assert.match(missing.stderr.toString(), /^tsj: .*\n$/);
    assert.equal(spawnSync('node', [PROGRAM, file, file]).status, 2);
});
