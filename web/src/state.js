/** The state of the page: what a link carries. */

import { isolines, quads, triangles } from '../../js/patch.js';

/** The whole picture, without zoom: how much larger it is, and which part of it is in the middle. */
export const WHOLE = Object.freeze({ by: 1, x: 0.5, y: 0.5 });

export const newPatch = () => ({
    kind: 'quads',
    spacing: 'fractional odd',
    vertexOrder: 'counter-clockwise',
    domainOrigin: 'lower-left',
    pointMode: false,
    top: 64,
    outer: [3, 5, 2.5, 7],
    inner: [4, 5],
});

const newSide = (kind, outer, inner) => ({
    kind,
    vertexOrder: 'counter-clockwise',
    domainOrigin: 'lower-left',
    pointMode: false,
    outer,
    inner,
});

export const newSeam = () => ({
    spacing: 'fractional even',
    level: Math.fround(5.4),
    top: 64,
    left: newSide('quads', [2, 3, 3, 4], [4, 3]),
    right: newSide('triangles', [1, 3, 2, 1], [4, 3]),
});

/** What Check has to check: the number -1 means that nothing is chosen. */
const newCheck = () => ({ mesh: 'drawn', damage: 'leave-out', triangle: -1, point: -1 });

export const newState = () => ({
    view: 'draw',
    patch: newPatch(),
    seam: newSeam(),
    /** @type {ReturnType<typeof newPatch> | null} a patch whose mesh is held to check it or to compare with it */
    held: null,
    check: newCheck(),
    compare: { other: 'previous' },
    zoom: { ...WHOLE },
});

/**
 * A patch of its own, which later changes leave alone.
 *
 * @param {ReturnType<typeof newPatch>} patch
 */
export const copyOf = (patch) => ({ ...patch, outer: [...patch.outer], inner: [...patch.inner] });

/**
 * The patch and the settings of a call.
 *
 * @param {Omit<ReturnType<typeof newPatch>, never>} state
 * @returns {{patch: any, settings: any}}
 */
export function callOf({ kind, outer, inner, spacing, vertexOrder, domainOrigin, pointMode, top }) {
    const made = {
        triangles: () => triangles(outer.slice(0, 3), inner[0]),
        quads: () => quads(outer, inner),
        isolines: () => isolines(outer.slice(0, 2)),
    };
    return { patch: made[kind](), settings: Object.freeze({ spacing, vertexOrder, domainOrigin, pointMode, top }) };
}

/**
 * The state of a patch that a job file has; levels that do not count are 1.
 *
 * @param {any} patch
 * @param {any} settings
 * @returns {ReturnType<typeof newPatch>}
 */
export function stateOf(patch, settings) {
    const inner = [patch.inner ?? []].flat();
    const filled = (levels, count) => Array.from({ length: count }, (_, at) => (at < levels.length ? levels[at] : 1));
    return { ...newPatch(), kind: patch.kind, ...settings, outer: filled(patch.outer, 4), inner: filled(inner, 2) };
}
