/**
 * What the picture shows.
 *
 * @typedef {object} Level a level that can be dragged
 * @property {() => number} get
 * @property {(level: number) => void} set
 *
 * @typedef {object} Part a mesh, and where its points lie in the plane
 * @property {Uint32Array} vertices
 * @property {Uint16Array} indices
 * @property {number} corners 3 for triangles, 2 for lines, 1 for dots
 * @property {(u: number, v: number) => number[]} place
 * @property {number[][]} outline the patch's corners in the plane
 * @property {boolean} covers whether its triangles are known to cover the patch
 * @property {boolean} [numbersLeft] whether numbers are on the left of their points only
 * @property {Level} [across] the level that a drag to the right raises
 * @property {Level} [up] the level that a drag upwards raises; the same object where there is one level for both
 * @property {Float32Array} [screen] the pixels of its points, once painted
 *
 * @typedef {object} Edge
 * @property {number[]} from
 * @property {number[]} to
 * @property {number[]} away the way outwards
 * @property {string} label
 * @property {Level} [level]
 *
 * @typedef {object} Scene
 * @property {{left: number, right: number, bottom: number, top: number}} box
 * @property {Part[]} parts
 * @property {Edge[]} edges
 */

import { cornersOf } from '../../../js/text.js';
import { writeLevel } from '../levels.js';
import { cornersIn, edgesIn, placing } from './plane.js';

/** The mesh of a patch that is discarded. */
export const EMPTY = Object.freeze({ vertices: new Uint32Array(0), indices: new Uint16Array(0) });

/**
 * The scene of one patch.
 *
 * @param {object} state
 * @param {{vertices: Uint32Array, indices: Uint16Array} | null} mesh that is drawn for it
 * @param {(group: 'outer' | 'inner', at: number) => Level} [levelAt] without it nothing can be dragged
 * @returns {Scene}
 */
export function sceneOf(state, mesh, levelAt) {
    const { kind } = state;
    const place = placing(kind, state.domainOrigin);
    const outline = cornersIn(kind, place);
    const part = { ...(mesh ?? EMPTY), corners: cornersOf(kind, state), place, outline, covers: mesh !== null };
    if (levelAt) Object.assign(part, insideLevels(kind, levelAt));
    const edges = edgesIn(kind, place).map((edge, at) => ({
        ...edge,
        label: `${edge.name} · ${writeLevel(state.outer[at])}`,
        level: levelAt?.('outer', at),
    }));
    return { box: boxOf(outline), parts: [part], edges };
}

/** What a drag inside a patch changes. */
function insideLevels(kind, levelAt) {
    if (kind === 'isolines') return { across: levelAt('outer', 1), up: levelAt('outer', 0) };
    if (kind === 'quads') return { across: levelAt('inner', 1), up: levelAt('inner', 0) };
    const both = levelAt('inner', 0);
    return { across: both, up: both };
}

/** @param {number[][]} places */
export function boxOf(places) {
    const xs = places.map(([x]) => x);
    const ys = places.map(([, y]) => y);
    return { left: Math.min(...xs), right: Math.max(...xs), bottom: Math.min(...ys), top: Math.max(...ys) };
}

/** Where a point of a part lies in the plane. */
export const placeOf = (part, point) => part.place(part.vertices[3 * point], part.vertices[3 * point + 1]);

/** Where the corners of a primitive lie in the plane; those past the points are left out. */
export function placesOf(part, primitive) {
    const from = primitive * part.corners;
    const points = Array.from(part.indices.subarray(from, from + part.corners));
    return points.filter((point) => 3 * point + 2 < part.vertices.length).map((point) => placeOf(part, point));
}
