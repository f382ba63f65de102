/** Where a fault of the check is in the picture. */

import { outlineOf } from './plane.js';
import { placeOf, placesOf } from './scene.js';

const triangles = (part, ...numbers) => [{ colour: 'fault', triangles: numbers.map((number) => placesOf(part, number)) }];
const points = (part, ...numbers) => [{ colour: 'fault', rings: numbers.map((number) => placeOf(part, number)) }];

/** The triangle with an index that is no point's number, as far as it can be drawn. */
function unknownIndex({ place }, part) {
    const places = placesOf(part, Math.floor(place / 3));
    return [{ colour: 'fault', lines: [places], rings: places }];
}

function openSide({ triangle, corner }, part) {
    const places = placesOf(part, triangle);
    return [{ colour: 'fault', lines: [[places[corner], places[(corner + 1) % 3]]] }];
}

/** A piece of the outline, from the mesh that is drawn for the patch. */
function missingPiece({ piece }, part, kind, drawn) {
    const outline = outlineOf(kind, drawn.vertices);
    return [{ colour: 'fault', lines: [[piece, piece + 1].map((at) => part.place(...outline[at % outline.length]))] }];
}

const MARKS = Object.freeze({
    'unknown index': unknownIndex,
    outside: ({ point }, part) => points(part, point),
    'equal points': ({ first, second }, part) => points(part, first, second),
    turned: ({ triangle }, part) => triangles(part, triangle),
    'side twice': ({ first, second }, part) => triangles(part, first, second),
    'open side': openSide,
    'missing piece': missingPiece,
});

/**
 * The marks of a verdict; none where it has no place.
 *
 * @param {any} verdict
 * @param {import('./scene.js').Part} part the mesh that was checked
 * @param {string} kind
 * @param {{vertices: Uint32Array} | null} drawn the mesh that is drawn for the patch
 * @returns {import('./marks.js').Mark[]}
 */
export function faultMarks(verdict, part, kind, drawn) {
    return MARKS[verdict.is]?.(verdict, part, kind, drawn) ?? [];
}
