/** Every answer of every call, and what is a TypeError before one. */

import assert from 'node:assert/strict';
import { readFileSync } from 'node:fs';
import { test } from 'node:test';
import * as module from '../index.js';
import { chance } from './chance.mjs';

const { INDEX_WORDS, VERTEX_WORDS, faultInWords, isolines, load, patchOf, quads, record, settings, triangles } = module;
const yoktvarim = await load();
const patch = triangles([1, 1, 1], 2);
const square = quads([4, 4, 4, 4], [3, 3]);

test('answers are frozen and named', () => {
    for (const each of [yoktvarim.measure(patch), yoktvarim.mesh(patch), yoktvarim.measure(isolines([0, 1]))]) {
        assert.ok(Object.isFrozen(each) && typeof each.is === 'string');
    }
});

test('measuring', () => {
    const said = yoktvarim.measure(isolines([64, 100]));
    assert.deepEqual(said, { is: 'measured', points: 64 * 65, indices: 2 * 64 * 64, clamps: { outer: ['inside', 'above'], inner: [] } });
    assert.deepEqual(yoktvarim.measure(quads([1, 1, 1, 1], [NaN, Infinity])).clamps.inner, ['below', 'above']);
    assert.equal(yoktvarim.measure(isolines([NaN, 1])).is, 'discarded');
    for (const top of [-2, 0, 1, 3, 66, 256 + 64, 1e300]) assert.equal(yoktvarim.measure(patch, { top }).is, 'bad top');
});

test('the example of the rules', () => {
    const mesh = yoktvarim.mesh(patch);
    assert.deepEqual([...mesh.indices], [0, 1, 3, 1, 2, 3, 2, 0, 3]);
    assert.deepEqual([...mesh.vertices.slice(9)], [65536, 65536, 65536]);
});

test('lists that are lent', () => {
    const vertices = new Uint32Array(20).fill(7);
    assert.deepEqual(yoktvarim.drawPoints(patch, {}, vertices), { is: 'drawn', points: 4 });
    assert.deepEqual([...vertices.subarray(12)], Array(8).fill(7));
    const short = new Uint32Array(11).fill(7);
    assert.equal(yoktvarim.drawPoints(patch, {}, short).is, 'no room for vertices');
    assert.ok(short.every((word) => word === 7));
    const indices = new Uint16Array(8).fill(7);
    assert.equal(yoktvarim.drawIndices(patch, {}, indices).is, 'no room for indices');
    assert.equal(yoktvarim.drawIndices(patch, {}, new Uint16Array(9)).indices, 9);
    assert.equal(yoktvarim.drawPoints(patch, { top: 5 }, vertices).is, 'bad top');
    assert.equal(yoktvarim.drawPoints(patch, {}, new Uint32Array(1_000_000)).is, 'drawn');
});

test('floats', () => {
    const lists = [new Uint32Array(VERTEX_WORDS), new Uint16Array(INDEX_WORDS), new Float32Array(VERTEX_WORDS)];
    const { points } = yoktvarim.drawWithFloats(square, { spacing: 'fractional odd' }, ...lists);
    for (let at = 0; at < 3 * points; at++) assert.equal(lists[2][at], lists[0][at] / 65536);
    const mesh = yoktvarim.mesh(square, { spacing: 'fractional odd' });
    assert.deepEqual(lists[0].slice(0, 3 * points), mesh.vertices);
    const [a, b] = lists;
    assert.equal(yoktvarim.drawWithFloats(square, {}, a, b, new Float32Array(2)).is, 'no room for floats');
    assert.throws(() => yoktvarim.drawWithFloats(square, {}, a, b, new Float32Array(a.buffer)), /vertices and floats share memory/);
});

test('checking', () => {
    const mesh = yoktvarim.mesh(square);
    const said = (vertices, indices, on = square, how = {}) =>
        yoktvarim.checkMesh(on, how, { vertices: Uint32Array.from(vertices), indices: Uint16Array.from(indices) });
    assert.deepEqual(yoktvarim.checkMesh(square, {}, mesh), { is: 'accepted' });
    const { vertices, indices } = mesh;
    assert.equal(said(vertices, indices, isolines([1, 1])).is, 'isolines');
    assert.equal(said(vertices, indices, square, { pointMode: true }).is, 'dots');
    assert.equal(said(vertices, indices, square, { top: 7 }).is, 'bad top');
    assert.equal(said(vertices, indices, quads([0, 1, 1, 1], [1, 1])).is, 'should be discarded');
    assert.equal(said(vertices, indices.slice(1)).is, 'not threes');
    assert.deepEqual(said(vertices, [...indices, 0, 1, 999]), { is: 'unknown index', place: indices.length + 2 });
    assert.deepEqual(said([65537, 0, 0], []), { is: 'outside', point: 0 });
    assert.deepEqual(said([1, 2, 0, 5, 5, 0, 1, 2, 0], []), { is: 'equal points', first: 0, second: 2 });
    assert.deepEqual(said(vertices, [indices[1], indices[0], indices[2]]), { is: 'turned', triangle: 0 });
    assert.deepEqual(said(vertices, [...indices, ...indices.slice(0, 3)]), { is: 'side twice', first: 0, second: indices.length / 3 });
    assert.equal(said(vertices, indices.slice(0, -3)).is, 'open side');
    assert.deepEqual(said([], []), { is: 'missing piece', piece: 0 });
    assert.equal(faultInWords(said([], [])), 'piece 0 of the outline is no side of a triangle');
});

test('comparing', () => {
    const corners = Uint32Array.of(0, 1, 0, 0, 0, 0, 1, 0, 0, 1, 1, 0);
    const one = { vertices: corners, indices: Uint16Array.of(0, 1, 2, 0, 2, 3) };
    const other = { vertices: corners, indices: Uint16Array.of(1, 2, 0, 1, 2, 3) };
    assert.deepEqual(yoktvarim.compareMeshes(one, one), { is: 'compared', differences: [] });
    assert.deepEqual(yoktvarim.compareMeshes(one, other).differences, [
        { what: 'triangle', side: 'left', number: 1 },
        { what: 'triangle', side: 'right', number: 1 },
    ]);
    const bad = [Uint16Array.of(0), Uint16Array.of(0, 1, 4)].map((indices) => ({ vertices: corners, indices }));
    bad.push({ vertices: new Uint32Array(6), indices: new Uint16Array(0) });
    const faults = ['not threes', 'unknown index', 'equal points'];
    bad.forEach((mesh, at) => {
        assert.deepEqual(yoktvarim.compareMeshes(mesh, one), { is: 'left refused', fault: faults[at] });
        assert.deepEqual(yoktvarim.compareMeshes(one, mesh), { is: 'right refused', fault: faults[at] });
    });
});

test('replaying', () => {
    const bytes = new Uint8Array(readFileSync(new URL('../../samples/session.tsr', import.meta.url)));
    assert.deepEqual(yoktvarim.replay(bytes), { is: 'all agree', entries: 9 });
    const changed = bytes.slice();
    changed[5 + 29 + 1] ^= 1;
    assert.deepEqual(yoktvarim.replay(changed), {
        is: 'differs',
        entry: 0,
        recorded: { answer: 0, points: 5, indices: 9 },
        replayed: { answer: 0, points: 4, indices: 9 },
    });
    assert.equal(yoktvarim.replay(bytes.slice(0, -1)).is, 'cut entry');
    assert.equal(yoktvarim.replay(bytes.slice(0, 4)).is, 'not a recording');
    assert.equal(yoktvarim.replay(Uint8Array.of(0x54, 0x53, 0x52, 2, 0)).is, 'unknown version');
});

test('job files', () => {
    const { below, next, pick } = chance(3);
    const records = Array.from({ length: 300 }, () => ({
        is: 'record',
        kind: pick(['triangles', 'quads', 'isolines']),
        settings: settings({ spacing: pick(['equal', 'fractional odd']), pointMode: next() < 0.5, top: 2 + 2 * below(32) }),
        bits: Array.from({ length: 6 }, () => below(2 ** 32)),
    }));
    const { is, job } = yoktvarim.writeJob(records);
    assert.equal(is, 'written');
    assert.deepEqual(yoktvarim.readJob(job), { is: 'read', version: 2, records });
    assert.deepEqual(yoktvarim.writeJob([record(patch), record(patch, { top: 16 })], 1), { is: 'bad top in record', record: 1 });
    assert.deepEqual(patchOf(record(square)), square);
    assert.deepEqual(yoktvarim.readJob(job.slice(0, 4)), { is: 'not a job' });
    assert.deepEqual(yoktvarim.readJob(Uint8Array.of(0x54, 0x53, 0x4a, 3, 0)), { is: 'unknown version' });
    const cut = yoktvarim.readJob(job.slice(0, 36)).records;
    assert.deepEqual(cut[1], { is: 'cut record' });
    const other = job.slice();
    other[5 + 5] = 3;
    assert.deepEqual(yoktvarim.readJob(other).records[0], { is: 'unknown setting', place: 5 });
});

test('two designers', () => {
    const vertices = new Uint32Array(60).fill(9);
    const indices = new Uint16Array(60).fill(9);
    const half = { vertices: 30, indices: 30 };
    assert.equal(yoktvarim.Shared.start(vertices, indices, half, { vertices: 31, indices: 0 }).is, 'quotas too large');
    const shared = yoktvarim.Shared.start(vertices, indices, half, half);
    assert.equal(shared.is, 'started');
    for (const designer of ['first', 'second', 'second']) {
        assert.deepEqual(shared.draw(designer, patch), { is: 'drawn', points: 4, indices: 9 });
    }
    assert.deepEqual([...indices.slice(30, 48)], [0, 1, 3, 1, 2, 3, 2, 0, 3, 4, 5, 7, 5, 6, 7, 6, 4, 7]);
    assert.deepEqual([...indices.slice(9, 30)], Array(21).fill(9));
    assert.deepEqual(shared.used('first'), { vertices: 12, indices: 9 });
    assert.equal(shared.draw('second', patch).is, 'no room for vertices');
    assert.equal(shared.draw('second', patch, { top: 9 }).is, 'bad top');
    assert.equal(shared.draw('second', isolines([0, 0])).is, 'discarded');
    assert.equal(shared.clear('second').is, 'cleared');
    assert.deepEqual(shared.used('second'), { vertices: 0, indices: 0 });
    structuredClone(vertices, { transfer: [vertices.buffer] });
    assert.equal(shared.draw('first', patch).is, 'bad state');
    const all = { vertices: 3 * 66000, indices: 400_000 };
    const none = { vertices: 0, indices: 0 };
    const many = yoktvarim.Shared.start(new Uint32Array(all.vertices), new Uint16Array(all.indices), all, none);
    const large = quads([64, 64, 64, 64], [64, 64]);
    for (let times = 0; times < 15; times++) assert.equal(many.draw('first', large).is, 'drawn');
    assert.equal(many.draw('first', large).is, 'too many points');
});

test('quotas of any size', () => {
    const none = { vertices: 0, indices: 0 };
    for (const words of [10, 2 ** 53, 2 ** 64, 2 ** 64 + 2 ** 12, 1e300]) {
        const { is } = yoktvarim.Shared.start(new Uint32Array(9), new Uint16Array(9), { vertices: words, indices: 0 }, none);
        assert.equal(is, 'quotas too large');
    }
});

test('words around a lent list stay as they are', () => {
    const { next, below } = chance(11);
    const around = 8;
    const lent = (Type, length) => new Type(length + 2 * around).fill(77).subarray(around, around + length);
    const isKept = (list) => {
        const all = new list.constructor(list.buffer);
        return [...all.subarray(0, around), ...all.subarray(around + list.length)].every((word) => word === 77);
    };
    for (let times = 0; times < 300; times++) {
        const some = quads([1, 2, 3, 4].map(() => 0.1 + 12 * next()), [12 * next(), 12 * next()]);
        const size = yoktvarim.measure(some);
        const [points, corners] = [3 * size.points + below(3) - 1, size.indices + below(3) - 1];
        const lists = [lent(Uint32Array, points), lent(Uint16Array, corners), lent(Float32Array, points)];
        yoktvarim.drawPoints(some, {}, lists[0]);
        yoktvarim.drawIndices(some, {}, lists[1]);
        yoktvarim.drawWithFloats(some, {}, ...lists);
        assert.ok(lists.every(isKept));
    }
});

test('a memory that grows leaves no stale list', async () => {
    const fresh = await load();
    const before = fresh.mesh(patch);
    const words = [...before.vertices];
    const half = { vertices: 50, indices: 50 };
    const shared = fresh.Shared.start(new Uint32Array(100), new Uint16Array(100), half, half);
    assert.equal(shared.draw('first', patch).is, 'drawn');
    // Two meshes of this size do not fit the memory that the module starts with.
    const large = { vertices: new Uint32Array(3_000_000), indices: new Uint16Array(3) };
    assert.deepEqual(fresh.compareMeshes(large, large), { is: 'left refused', fault: 'equal points' });
    assert.deepEqual([...before.vertices], words);
    assert.deepEqual(shared.draw('first', patch), { is: 'drawn', points: 4, indices: 9 });
    assert.deepEqual(shared.used('first'), { vertices: 24, indices: 18 });
    assert.deepEqual(fresh.mesh(patch), before);
});

test('what is wrong is said in words', () => {
    const said = {
        'outer has to be an array of 3 numbers, not an array of 2': () => triangles([1, 1], 2),
        "outer[1] has to be a number, not '1'": () => isolines([1, '1']),
        "spacing has to be 'equal' or 'fractional even' or 'fractional odd', not 'even'": () => settings({ spacing: 'even' }),
        "settings has no 'vertex_order'": () => settings({ vertex_order: 'clockwise' }),
        'top has to be a whole number, not 2.5': () => settings({ top: 2.5 }),
        'vertices has to be a Uint32Array, not an array of 3': () => yoktvarim.drawPoints(patch, {}, [1, 2, 3]),
        'job has to be a Uint8Array, not an ArrayBuffer': () => yoktvarim.readJob(new ArrayBuffer(5)),
        'patch has to be an object, not undefined': () => yoktvarim.mesh(),
        'version has to be 1 or 2, not 3': () => yoktvarim.writeJob([], 3),
    };
    for (const [message, wrong] of Object.entries(said)) assert.throws(wrong, { name: 'TypeError', message });
});

test('wrong types are refused before any call', () => {
    const lists = yoktvarim.mesh(patch);
    for (const wrong of [
        () => triangles([1, 1], 2),
        () => triangles([1, 1, '1'], 2),
        () => triangles([1, , 1], 2),
        () => yoktvarim.mesh({ kind: 'isolines', outer: new Array(2) }),
        () => quads([1, 1, 1, 1], 2),
        () => isolines(undefined),
        () => settings({ spacing: 'even' }),
        () => settings({ vertex_order: 'clockwise' }),
        () => settings({ top: 2.5 }),
        () => settings({ top: '64' }),
        () => settings({ pointMode: 1 }),
        () => yoktvarim.mesh(undefined),
        () => yoktvarim.mesh({ kind: 'quad', outer: [1, 1, 1, 1], inner: [1, 1] }),
        () => yoktvarim.mesh(patch, null),
        () => yoktvarim.drawPoints(patch, {}, [1, 2, 3]),
        () => yoktvarim.drawPoints(patch, {}, new Uint16Array(20)),
        () => yoktvarim.drawIndices(patch, {}, new Uint32Array(20)),
        () => yoktvarim.checkMesh(patch, {}, { vertices: [], indices: [] }),
        () => yoktvarim.compareMeshes(lists, {}),
        () => yoktvarim.replay('TSR'),
        () => yoktvarim.readJob([1, 2]),
        () => yoktvarim.writeJob([{}]),
        () => yoktvarim.writeJob([record(patch)], 3),
        () => yoktvarim.writeJob([{ ...record(patch), bits: [1, 2, 3, 4, 5, -1] }]),
        () => yoktvarim.writeJob([{ ...record(patch), bits: new Array(6) }]),
        () => yoktvarim.Shared.start(new Uint32Array(9), new Uint16Array(9), { vertices: -1, indices: 0 }, { vertices: 0, indices: 0 }),
    ]) {
        assert.throws(wrong, TypeError, String(wrong));
    }
});
