/** The link: the state of the page as the fragment of an address, and back. */

import { DOMAIN_ORIGINS, KINDS, SPACINGS, VERTEX_ORDERS } from '../../js/patch.js';
import { readLevel, readTop, writeLevel } from './levels.js';
import { DAMAGES } from './meshes/damage.js';
import { newPatch, newState } from './state.js';

const WHOLE_NUMBER = /^-?\d{1,6}$/;

/** What may be chosen, by the name of the value. */
const CHOICES = Object.freeze({
    kind: KINDS,
    spacing: SPACINGS,
    vertexOrder: VERTEX_ORDERS,
    domainOrigin: DOMAIN_ORIGINS,
    pointMode: ['true', 'false'],
    mesh: ['drawn', 'damaged', 'held', 'given'],
    other: ['previous', 'held', 'given'],
    damage: DAMAGES.map(({ name }) => name),
});

/** The parts of a state that a link has, each with what its names begin with. */
const partsOf = ({ patch, seam, held, check, compare, zoom }) => [
    ['', patch],
    ['seam.', seam],
    ['left.', seam.left],
    ['right.', seam.right],
    ['check.', check],
    ['compare.', compare],
    ['zoom.', zoom],
    ...(held ? [['held.', held]] : []),
];

/** @param {ReturnType<typeof newState>} state */
export function toLink(state) {
    const words = new URLSearchParams({ view: state.view });
    for (const [prefix, values] of partsOf(state)) {
        for (const [name, value] of Object.entries(values)) {
            if (Array.isArray(value)) words.set(prefix + name, value.map(writeLevel).join(','));
            else if (typeof value === 'number') words.set(prefix + name, writeNumber(name, value));
            else if (typeof value !== 'object') words.set(prefix + name, String(value));
        }
    }
    return words.toString().replaceAll('%2C', ',').replaceAll('+', '_');
}

const writeNumber = (name, value) => (name === 'level' ? writeLevel(value) : String(Math.round(value * 1e5) / 1e5));

/**
 * The state of a link, and what of the link cannot be read. What a link leaves out, or what cannot be read, is as in a new page.
 *
 * @param {string} link
 * @param {string[]} views
 */
export function fromLink(link, views) {
    const words = new URLSearchParams(link.replaceAll('_', '+'));
    const state = newState();
    if ([...words.keys()].some((name) => name.startsWith('held.'))) state.held = newPatch();
    const unread = new Set(words);
    const isRead = (name) => unread.delete([...unread].find(([each]) => each === name));
    if (views.includes(words.get('view'))) state.view = words.get('view');
    if (state.view === words.get('view')) isRead('view');
    for (const [prefix, values] of partsOf(state)) {
        for (const [name, value] of Object.entries(values)) {
            const text = words.get(prefix + name);
            const found = text === null ? undefined : read(name, value, text);
            if (found === undefined) continue;
            values[name] = found;
            isRead(prefix + name);
        }
    }
    return { state, unread: [...unread].map(([name, text]) => (text === '' ? name : `${name}=${text}`)) };
}

/** The value of a text, by the name and the kind of what is there; undefined where there is none. */
function read(name, value, text) {
    if (Array.isArray(value)) {
        const levels = text.split(',').map(readLevel);
        return levels.length === value.length && levels.every((level) => level !== undefined) ? levels : undefined;
    }
    if (name === 'level') return readLevel(text);
    if (name === 'top') return readTop(text);
    if (name === 'pointMode') return CHOICES.pointMode.includes(text) ? text === 'true' : undefined;
    if (name in CHOICES) return CHOICES[name].includes(text) ? text : undefined;
    if (name === 'triangle' || name === 'point') return WHOLE_NUMBER.test(text) ? Number(text) : undefined;
    return readZoom(name, text);
}

/** A part of the zoom: at least 1, or a share of the picture. */
function readZoom(name, text) {
    const number = readLevel(text);
    const right = name === 'by' ? number >= 1 && number <= 64 : number >= 0 && number <= 1;
    return right ? number : undefined;
}
