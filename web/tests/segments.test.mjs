/** n and L, as the page shows them, against the points that the library draws: q(0) to q(n) on every outer edge and in every grid. */

import assert from 'node:assert/strict';
import { test } from 'node:test';
import { load } from '../../js/index.js';
import { chance } from '../../js/tests/chance.mjs';
import { LEVEL_NAMES, pointsOn, segmentsDrawn } from '../src/picture/plane.js';
import { segmentsOf } from '../src/segments.js';
import { callOf, newPatch } from '../src/state.js';

const yoktvarim = await load();
const KINDS = ['triangles', 'quads', 'isolines'];
const SPACINGS = ['equal', 'fractional even', 'fractional odd'];
const SPECIAL = [NaN, Infinity, 1e-45, 0.5, 1, Math.fround(1.0000001), 2, 3, 63, 64, 1e30];

/** The positions of an edge, by docs/rules.md. */
function positions({ n, L }) {
    return Array.from({ length: n + 1 }, (_, i) => {
        const k = Math.min(32768, Number((2147483648n * BigInt(Math.abs(2 * i - n))) / BigInt(L)));
        return 2 * i <= n ? 32768 - k : 32768 + k;
    });
}

/** The places of the points on an outer edge, in rising order. */
function placesOn(kind, edge, vertices) {
    const [axis, unit] = kind === 'quads' ? [1 - (edge % 2), 1] : [(edge + 1) % 3, 3];
    return sorted(pointsOn(kind, edge, vertices).map((point) => vertices[3 * point + axis] / unit));
}

const sorted = (numbers) => [...new Set(numbers)].sort((one, other) => one - other);
const column = (vertices, axis, from = 0) =>
    sorted(Array.from({ length: vertices.length / 3 - from }, (_, at) => vertices[3 * (from + at) + axis]));

/** What n and L give for each level, against what is drawn. */
function compare(state, { vertices }) {
    const { kind } = state;
    const found = segmentsOf(state, LEVEL_NAMES[kind]);
    const drawn = segmentsDrawn(kind, vertices);
    for (const group of ['outer', 'inner']) assert.deepEqual(found[group].map(({ n }) => n), drawn[group]);
    if (kind === 'isolines') {
        assert.deepEqual(positions(found.outer[0]).slice(0, -1), column(vertices, 1));
        assert.deepEqual(positions(found.outer[1]), column(vertices, 0));
        return;
    }
    found.outer.forEach((each, edge) => assert.deepEqual(positions(each), placesOn(kind, edge, vertices)));
    const first = drawn.outer.reduce((sum, n) => sum + n, 0);
    if (kind === 'quads' && vertices.length > 3 * first) {
        assert.deepEqual(positions(found.inner[0]).slice(1, -1), column(vertices, 1, first));
        assert.deepEqual(positions(found.inner[1]).slice(1, -1), column(vertices, 0, first));
    }
    // On the first ring of a triangle, the edge u = 0 has the opposite coordinate 2 q(1).
    if (kind === 'triangles' && vertices.length > 3 * first) assert.equal(vertices[3 * first], 2 * positions(found.inner[0])[1]);
}

test('n and L are those of the drawn points', () => {
    const { next, below, pick } = chance(36);
    const level = () => (next() < 0.2 ? pick(SPECIAL) : Math.fround(next() * pick([5, 70])));
    const levels = (length) => Array.from({ length }, level);
    let count = 0;
    for (let round = 0; round < 6000; round++) {
        const settings = { kind: pick(KINDS), spacing: pick(SPACINGS), top: 2 + 2 * below(32) };
        const state = { ...newPatch(), ...settings, outer: levels(4), inner: levels(2) };
        const call = callOf(state);
        const answer = yoktvarim.mesh(call.patch, call.settings);
        if (answer.is !== 'drawn') continue;
        compare(state, answer);
        count++;
    }
    assert.ok(count > 3000);
});
