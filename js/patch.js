/** Patches, each with the tessellation levels that count for it, and how they are to be drawn. */

import { isBoolean, isInteger, isNumber, isNumbers, isObject, isObjectOf, isOneOf } from './types.js';

/** The number that means 1 in triangles: u, v and w of a point add up to it. */
export const ONE_IN_TRIANGLES = 196608;
/** The number that means 1 in quads and isolines, whose w is 0. */
export const ONE_IN_QUADS = 65536;
/** The greatest top of settings. */
export const GREATEST_TOP = 64;

// Each name's place is its number in a job file.
/** @type {readonly any[]} */
export const KINDS = Object.freeze(['triangles', 'quads', 'isolines']);
/** @type {readonly any[]} */
export const SPACINGS = Object.freeze(['equal', 'fractional even', 'fractional odd']);
/** @type {readonly any[]} */
export const VERTEX_ORDERS = Object.freeze(['clockwise', 'counter-clockwise']);
/** @type {readonly any[]} */
export const DOMAIN_ORIGINS = Object.freeze(['upper-left', 'lower-left']);

/** The names of the settings. */
const SETTINGS = Object.freeze(['spacing', 'vertexOrder', 'domainOrigin', 'pointMode', 'top']);

/** How many outer and inner levels count for each kind. */
export const COUNTING = Object.freeze({ triangles: [3, 1], quads: [4, 2], isolines: [2, 0] });

/**
 * A patch's own levels.
 *
 * @param {string} name
 * @param {readonly number[]} levels
 * @param {number} count
 */
const frozen = (name, levels, count) => Object.freeze(isNumbers(name, levels, count));

/**
 * Outer levels of the edges u = 0, v = 0 and w = 0, and the inner level. Any number is a level, NaN and the infinities too.
 *
 * @param {readonly number[]} outer
 * @param {number} inner
 */
export function triangles(outer, inner) {
    return Object.freeze({ kind: 'triangles', outer: frozen('outer', outer, 3), inner: isNumber('inner', inner) });
}

/**
 * Outer levels of the edges u = 0, v = 0, u = 1 and v = 1; inner levels of the rows and of the columns.
 *
 * @param {readonly number[]} outer
 * @param {readonly number[]} inner
 */
export function quads(outer, inner) {
    return Object.freeze({ kind: 'quads', outer: frozen('outer', outer, 4), inner: frozen('inner', inner, 2) });
}

/**
 * How many lines, and how many segments along each.
 *
 * @param {readonly number[]} outer
 */
export function isolines(outer) {
    return Object.freeze({ kind: 'isolines', outer: frozen('outer', outer, 2) });
}

/**
 * Equal spacing, triangles counter-clockwise seen from a lower-left origin, no point mode and the top 64, unless named. Any whole number
 * may be given as the top; a bad one is answered with 'bad top'.
 *
 * @param {Partial<import('./index.js').Settings>} [named]
 */
export function settings(named = {}) {
    isObjectOf('settings', named, SETTINGS);
    const {
        spacing = 'equal',
        vertexOrder = 'counter-clockwise',
        domainOrigin = 'lower-left',
        pointMode = false,
        top = GREATEST_TOP,
    } = named;
    isOneOf('spacing', spacing, SPACINGS);
    isOneOf('vertexOrder', vertexOrder, VERTEX_ORDERS);
    isOneOf('domainOrigin', domainOrigin, DOMAIN_ORIGINS);
    isBoolean('pointMode', pointMode);
    isInteger('top', top);
    return Object.freeze({ spacing, vertexOrder, domainOrigin, pointMode, top });
}

/**
 * The six levels of a call: outer one to four, inner one and two; 0 for a level that does not count.
 *
 * @param {import('./index.js').Patch} patch
 */
export function sixLevels(patch) {
    const { kind, outer, inner } = isObject('patch', patch);
    isOneOf('patch.kind', kind, KINDS);
    if (kind === 'triangles') return [...isNumbers('outer', outer, 3), 0, isNumber('inner', inner), 0];
    if (kind === 'quads') return [...isNumbers('outer', outer, 4), ...isNumbers('inner', inner, 2)];
    return [...isNumbers('outer', outer, 2), 0, 0, 0, 0];
}

/**
 * The six setting bytes of a call, numbered as in a job file of version 2.
 *
 * @param {string} kind
 * @param {Partial<import('./index.js').Settings>} named
 */
export function settingBytes(kind, named) {
    const { spacing, vertexOrder, domainOrigin, pointMode, top } = settings(named);
    return [
        isOneOf('kind', kind, KINDS),
        SPACINGS.indexOf(spacing),
        VERTEX_ORDERS.indexOf(vertexOrder),
        DOMAIN_ORIGINS.indexOf(domainOrigin),
        Number(pointMode),
        // A number that does not fit a byte is not a top; neither is 0.
        top >= 0 && top <= 255 ? top : 0,
    ];
}

/**
 * The settings of six such bytes.
 *
 * @param {ArrayLike<number>} bytes
 */
export function settingsOf(bytes) {
    return settings({
        spacing: SPACINGS[bytes[1]],
        vertexOrder: VERTEX_ORDERS[bytes[2]],
        domainOrigin: DOMAIN_ORIGINS[bytes[3]],
        pointMode: bytes[4] === 1,
        top: bytes[5],
    });
}
