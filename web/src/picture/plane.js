/** Where a patch lies in the picture: a square, or a triangle with equal sides, one wide and with y upwards. */

import { ONE_IN_QUADS, ONE_IN_TRIANGLES } from '../../../js/patch.js';

const HEIGHT = Math.sqrt(3) / 2;

/** The names of the levels that count, in the order of the rules. */
export const LEVEL_NAMES = Object.freeze({
    triangles: { outer: ['u = 0', 'v = 0', 'w = 0'], inner: ['inner'] },
    quads: { outer: ['u = 0', 'v = 0', 'u = 1', 'v = 1'], inner: ['rows', 'columns'] },
    isolines: { outer: ['lines', 'segments'], inner: [] },
});

/** @param {string} kind */
export const oneOf = (kind) => (kind === 'triangles' ? ONE_IN_TRIANGLES : ONE_IN_QUADS);

/**
 * Where u and v lie, for a kind and an origin: with an upper-left one everything is upside down, so that a turn looks as it is called.
 *
 * @param {string} kind
 * @param {string} [origin]
 * @returns {(u: number, v: number) => number[]}
 */
export function placing(kind, origin = 'lower-left') {
    const one = oneOf(kind);
    const height = kind === 'triangles' ? HEIGHT : 1;
    const turn = origin === 'upper-left' ? (y) => height - y : (y) => y;
    if (kind === 'triangles') return (u, v) => [(u + v / 2) / one, turn((HEIGHT * v) / one)];
    return (u, v) => [u / one, turn(v / one)];
}

/** The corners of the walk around a patch, as u and v in parts of 1; edge k goes from corner k to the next. */
const WALKS = Object.freeze({
    triangles: [[0, 1], [0, 0], [1, 0]],
    quads: [[0, 1], [0, 0], [1, 0], [1, 1]],
    isolines: [[0, 1], [0, 0], [1, 0], [1, 1]],
});

/**
 * The corners in the picture.
 *
 * @param {string} kind
 * @param {(u: number, v: number) => number[]} place
 */
export const cornersIn = (kind, place) => WALKS[kind].map(([u, v]) => place(u * oneOf(kind), v * oneOf(kind)));

/**
 * The outer edges in the picture, in the order of the levels, each with the way outwards.
 *
 * @param {string} kind
 * @param {(u: number, v: number) => number[]} place
 */
export function edgesIn(kind, place) {
    const corners = cornersIn(kind, place);
    const middle = [0, 1].map((axis) => corners.reduce((sum, corner) => sum + corner[axis], 0) / corners.length);
    return LEVEL_NAMES[kind].outer.map((name, at) => {
        const from = corners[at];
        const to = corners[(at + 1) % corners.length];
        const along = [to[0] - from[0], to[1] - from[1]];
        const length = Math.hypot(...along);
        const away = [along[1] / length, -along[0] / length];
        const outwards = (from[0] - middle[0]) * away[0] + (from[1] - middle[1]) * away[1] > 0;
        return { name, from, to, away: outwards ? away : away.map((each) => -each) };
    });
}

/** Which coordinate is the same all along an edge, and its value there. */
const ON_EDGE = Object.freeze({
    triangles: [[0, 0], [1, 0], [2, 0]],
    quads: [[0, 0], [1, 0], [0, ONE_IN_QUADS], [1, ONE_IN_QUADS]],
});

/**
 * The numbers of the points that lie on an outer edge, in the order of the list.
 *
 * @param {string} kind triangles or quads
 * @param {number} edge
 * @param {Uint32Array} vertices
 */
export function pointsOn(kind, edge, vertices) {
    const [axis, value] = ON_EDGE[kind][edge];
    const found = [];
    for (let point = 0; 3 * point < vertices.length; point++) {
        if (vertices[3 * point + axis] === value) found.push(point);
    }
    return found;
}

/** How many points from a place of the list on have the same coordinate as the first of them. */
function countSame(vertices, from, axis) {
    let count = 0;
    for (let at = 3 * from; at < vertices.length; at += 3) count += Number(vertices[at + axis] === vertices[3 * from + axis]);
    return count;
}

/**
 * The segments n of each level, counted from the points of a drawn mesh. The inside of a plain patch has no points, and n is 1.
 *
 * @param {string} kind
 * @param {Uint32Array} vertices
 * @returns {{outer: number[], inner: number[]}}
 */
export function segmentsDrawn(kind, vertices) {
    const points = vertices.length / 3;
    if (kind === 'isolines') {
        const along = countSame(vertices, 0, 1);
        return { outer: [points / along, along - 1], inner: [] };
    }
    const outer = LEVEL_NAMES[kind].outer.map((_, edge) => pointsOn(kind, edge, vertices).length - 1);
    const first = outer.reduce((sum, segments) => sum + segments, 0);
    if (first === points) return { outer, inner: LEVEL_NAMES[kind].inner.map(() => 1) };
    // One row of a quad's grid has a point for each column but one. The first ring of a triangle has an edge on which u is the same.
    const row = countSame(vertices, first, kind === 'quads' ? 1 : 0);
    return { outer, inner: kind === 'quads' ? [(points - first) / row + 1, row + 1] : [row + 1] };
}

/**
 * The points of the outline in walk order: they are the first of a drawn mesh.
 *
 * @param {string} kind triangles or quads
 * @param {Uint32Array} vertices
 */
export function outlineOf(kind, vertices) {
    const seen = segmentsDrawn(kind, vertices).outer.reduce((sum, segments) => sum + segments, 0);
    return Array.from({ length: seen }, (_, point) => [vertices[3 * point], vertices[3 * point + 1]]);
}
