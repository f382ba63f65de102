/** Ways to damage a mesh, so that each fault of the check can be seen. */

import { oneOf, outlineOf } from '../picture/plane.js';

/**
 * @typedef {{vertices: number[], indices: number[]}} Lists which a damage changes
 * @typedef {{kind: string, triangle: number, point: number}} Choice what somebody chose in the picture
 */

const leaveOut = ({ indices }, { triangle }) => indices.splice(3 * triangle, 3);
const double = ({ indices }, { triangle }) => indices.push(...indices.slice(3 * triangle, 3 * triangle + 3));

function flip({ indices }, { triangle }) {
    const second = 3 * triangle + 1;
    [indices[second], indices[second + 1]] = [indices[second + 1], indices[second]];
}

/** Past the edge u = 1 of a quad; of a triangle, so that u, v and w add up to more than 1. */
function moveOutside({ vertices }, { kind, point }) {
    const one = oneOf(kind);
    if (kind === 'quads') vertices[3 * point] = one;
    vertices[3 * point] += Math.round(one / 40);
}

function merge({ vertices }, { point }) {
    const other = point > 0 ? point - 1 : 1;
    for (const axis of [0, 1, 2]) vertices[3 * point + axis] = vertices[3 * other + axis];
}

/** Moves a point of the outline towards the next one: the first that is not a corner, where there is one. */
function slide(lists, { kind }) {
    const outline = outlineOf(kind, Uint32Array.from(lists.vertices));
    const one = oneOf(kind);
    const isCorner = ([u, v]) => [0, one].includes(u) && [0, one].includes(v);
    const point = Math.max(0, outline.findIndex((place) => !isCorner(place)));
    const [from, to] = [outline[point], outline[(point + 1) % outline.length]];
    const [u, v] = [0, 1].map((axis) => Math.round(from[axis] + (to[axis] - from[axis]) / 3));
    lists.vertices.splice(3 * point, 3, u, v, kind === 'triangles' ? one - u - v : 0);
}

/** @type {readonly {name: string, title: string, apply: (lists: Lists, choice: Choice) => void}[]} */
export const DAMAGES = Object.freeze([
    { name: 'leave-out', title: 'Leave a triangle out', apply: leaveOut },
    { name: 'double', title: 'Double a triangle', apply: double },
    { name: 'flip', title: 'Flip a triangle', apply: flip },
    { name: 'outside', title: 'Move a point outside', apply: moveOutside },
    { name: 'slide', title: 'Move a point along the outline', apply: slide },
    { name: 'merge', title: 'Merge two points', apply: merge },
    {
        name: 'range',
        title: 'Put an index out of range',
        apply: ({ vertices, indices }, { triangle }) => (indices[3 * triangle + 2] = vertices.length / 3),
    },
    { name: 'short', title: 'Leave an index out', apply: ({ indices }) => indices.pop() },
    { name: 'empty', title: 'Leave everything out', apply: (lists) => Object.assign(lists, { vertices: [], indices: [] }) },
]);

/** @param {string} name */
export const damageNamed = (name) => DAMAGES.find((each) => each.name === name);

/**
 * A damaged copy of a mesh. Where nothing is chosen, it is the triangle in the middle of the list, or the last point.
 *
 * @param {string} name
 * @param {import('../../../js/index.js').Lists} mesh
 * @param {Choice} choice
 */
export function damaged(name, mesh, { kind, triangle, point }) {
    const lists = { vertices: [...mesh.vertices], indices: [...mesh.indices] };
    const [triangles, points] = [lists.indices.length / 3, lists.vertices.length / 3];
    damageNamed(name).apply(lists, {
        kind,
        triangle: triangle >= 0 && triangle < triangles ? triangle : Math.floor(triangles / 2),
        point: point >= 0 && point < points ? point : points - 1,
    });
    return { vertices: Uint32Array.from(lists.vertices), indices: Uint16Array.from(lists.indices) };
}
