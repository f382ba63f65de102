/** Reading the meshes of a text: the text of tsj, or OBJ with coordinates from 0 to 1. */

import { EMPTY } from '../picture/scene.js';
import { oneOf } from '../picture/plane.js';
import { many } from '../words.js';

/** What is wrong with a text, in one sentence. */
class Unreadable extends Error {}

/**
 * @typedef {{number: number, words: string[]}} Line
 * @typedef {{title: string, mesh: {vertices: Uint32Array, indices: Uint16Array} | null}} Found a record; a refused one has no mesh
 */

/**
 * The meshes of a text, or the sentence that gives the reason why there is none.
 *
 * @param {string} text
 * @param {string} kind the kind of the patch on screen
 * @returns {{is: 'meshes', meshes: Found[]} | {is: 'unreadable', because: string}}
 */
export function readMeshes(text, kind) {
    const lines = text.split(/\r?\n/).map((line, at) => ({ words: line.trim().split(/\s+/), number: at + 1 }));
    const filled = lines.filter(({ words }) => words[0] !== '');
    try {
        if (filled.length === 0) throw new Unreadable('There is nothing to read.');
        const isObj = filled.some(({ words }) => words[0] === 'v' || words[0] === 'f');
        const meshes = isObj ? [{ title: 'OBJ', mesh: objMesh(filled, oneOf(kind)) }] : records(filled);
        return { is: 'meshes', meshes };
    } catch (error) {
        if (!(error instanceof Unreadable)) throw error;
        return { is: 'unreadable', because: error.message };
    }
}

/**
 * All records of the text of tsj. The line with the version may be missing.
 *
 * @param {Line[]} filled
 */
function records(filled) {
    let lines = filled[0].words[0] === 'TSJ' ? filled.slice(1) : filled;
    if (lines.length === 0) throw new Unreadable('The text ends before the first answer.');
    const found = [];
    while (lines.length > 0) {
        const { what, mesh, rest } = record(lines);
        found.push({ title: `Record ${found.length}: ${what}`, mesh });
        lines = rest;
    }
    if (found.every(({ mesh }) => mesh === null)) throw new Unreadable(`Line ${filled.at(-1).number} is a refusal, not a mesh.`);
    return found;
}

/**
 * The first record of some lines, and the lines after it.
 *
 * @param {Line[]} lines
 */
function record([first, ...rest]) {
    const [word] = first.words;
    if (word === 'discarded' && first.words.length === 1) return { what: 'discarded', mesh: EMPTY, rest };
    if (word === 'refused' && first.words.length === 2) return { what: first.words.join(' '), mesh: null, rest };
    if (word !== 'drawn' || first.words.length !== 3) {
        throw new Unreadable(`Line ${first.number} has to be “drawn” with the counts of points and indices, or “discarded”.`);
    }
    const [points, count] = wholes(first.words.slice(1), first.number, 2 ** 32);
    if (rest.length < points) throw new Unreadable(`The text ends before point ${rest.length} of ${points}.`);
    const vertices = rest.slice(0, points).flatMap((line) => threeOf(line));
    const indices = indicesOf(rest.slice(points), count);
    return {
        what: `${many(points, 'point')}, ${many(count, 'index')}`,
        mesh: { vertices: Uint32Array.from(vertices), indices: Uint16Array.from(indices.found) },
        rest: rest.slice(points + indices.lines),
    };
}

/** @param {Line} line */
function threeOf({ words, number }) {
    if (words.length !== 3) throw new Unreadable(`Line ${number} has to hold three coordinates.`);
    return wholes(words, number, 2 ** 32);
}

/**
 * Indices, and how many lines they take.
 *
 * @param {Line[]} lines
 * @param {number} count
 */
function indicesOf(lines, count) {
    const found = [];
    let at = 0;
    for (; found.length < count; at++) {
        if (at >= lines.length) throw new Unreadable(`The text ends after ${found.length} of ${count} indices.`);
        found.push(...wholes(lines[at].words, lines[at].number, 2 ** 16));
        if (found.length > count) throw new Unreadable(`Line ${lines[at].number} has more indices than the ${count} that are announced.`);
    }
    return { found, lines: at };
}

/** Whole numbers below a limit. */
function wholes(words, line, limit) {
    return words.map((word) => {
        if (!/^\d+$/.test(word)) throw new Unreadable(`Line ${line} has “${word}” where a whole number has to be.`);
        if (Number(word) >= limit) throw new Unreadable(`Line ${line} has ${word}, which is past ${limit - 1}.`);
        return Number(word);
    });
}

/**
 * Points and faces of an OBJ file; other lines are passed over.
 *
 * @param {Line[]} filled
 * @param {number} one the number that represents 1
 */
function objMesh(filled, one) {
    const vertices = [];
    const indices = [];
    for (const { words, number } of filled) {
        if (words[0] === 'v') vertices.push(...coordinates(words.slice(1), number, one));
        if (words[0] === 'f') indices.push(...face(words.slice(1), number, vertices.length / 3));
    }
    return { vertices: Uint32Array.from(vertices), indices: Uint16Array.from(indices) };
}

/** The nearest whole coordinates. */
function coordinates(words, line, one) {
    if (words.length < 3) throw new Unreadable(`Line ${line} has to hold three coordinates.`);
    return words.slice(0, 3).map((word) => {
        const whole = Math.round(Number(word) * one);
        if (whole >= 0 && whole < 2 ** 32) return whole;
        throw new Unreadable(`Line ${line} has “${word}”, which is not a coordinate from 0 to 1.`);
    });
}

/** Faces count from 1, or back from the last point so far. */
function face(words, line, points) {
    if (words.length !== 3) throw new Unreadable(`Line ${line} has a face of ${words.length} corners; only triangles are read.`);
    return words.map((word) => {
        const number = Number(word.split('/')[0]);
        const index = number < 0 ? points + number : number - 1;
        if (!(Number.isInteger(number) && index >= 0 && index < 2 ** 16)) {
            throw new Unreadable(`Line ${line} has “${word}”, which is not the number of a point.`);
        }
        return index;
    });
}
