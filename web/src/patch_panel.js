/** The controls of the patch on screen. */

import { choice, levelRow, toggle, topField } from './controls.js';
import { h } from './dom.js';
import { LEVEL_NAMES } from './picture/plane.js';

export const KIND_NAMES = Object.freeze({ triangles: 'Triangles', quads: 'Quads', isolines: 'Isolines' });
export const SPACING_NAMES = Object.freeze({ equal: 'Equal', 'fractional even': 'Even', 'fractional odd': 'Odd' });
export const ORDER_NAMES = Object.freeze({ 'counter-clockwise': 'Counter-clockwise', clockwise: 'Clockwise' });
export const ORIGIN_NAMES = Object.freeze({ 'lower-left': 'Lower left', 'upper-left': 'Upper left' });
export const POINT_MODE = 'Point mode: each point once';

/**
 * @param {(name: string | [string, number], value: any, gesture?: string) => void} changed a setting by name, or a level by group and place
 */
export function patchPanel(changed) {
    const choices = {
        kind: choice('Kind', KIND_NAMES, (value) => changed('kind', value)),
        spacing: choice('Spacing', SPACING_NAMES, (value) => changed('spacing', value)),
        vertexOrder: choice('Vertex order', ORDER_NAMES, (value) => changed('vertexOrder', value)),
        domainOrigin: choice('Domain origin', ORIGIN_NAMES, (value) => changed('domainOrigin', value)),
        pointMode: toggle(POINT_MODE, (on) => changed('pointMode', on)),
        top: topField('Top', (top) => changed('top', top)),
    };
    const levels = levelGroups((group, at, level, gesture) => changed([group, at], level, gesture));
    const element = h(
        'div',
        { class: 'panel' },
        choices.kind.element,
        levels.element,
        choices.spacing.element,
        choices.top.element,
        choices.vertexOrder.element,
        choices.domainOrigin.element,
        choices.pointMode.element,
    );
    return {
        element,
        show(state) {
            for (const [name, control] of Object.entries(choices)) control.show(state[name]);
            levels.show(state.kind, state);
        },
    };
}

/**
 * Rows for the levels that count for a kind.
 *
 * @param {(group: 'outer' | 'inner', at: number, level: number, gesture: string) => void} entered
 * @param {string} [owner] whose levels they are, where the page has those of two patches
 */
export function levelGroups(entered, owner = '') {
    const rows = (group, count) =>
        Array.from({ length: count }, (_, at) => levelRow(`${owner}${group}`, (level, gesture) => entered(group, at, level, gesture)));
    const groups = { outer: rows('outer', 4), inner: rows('inner', 2) };
    const titles = { outer: 'Outer levels', inner: 'Inner levels' };
    const boxes = Object.entries(groups).map(([group, list]) =>
        h('fieldset', { class: 'levels' }, h('legend', {}, titles[group]), ...list.map((row) => row.element)),
    );
    return {
        element: h('div', {}, ...boxes),
        /** Rows past the names, and one that is left out, are hidden. */
        show(kind, levels, leftOut) {
            Object.entries(groups).forEach(([group, list], box) => {
                const names = LEVEL_NAMES[kind][group];
                boxes[box].hidden = names.length === 0;
                list.forEach((row, at) => {
                    row.element.hidden = at >= names.length || (group === 'outer' && at === leftOut);
                    if (at < names.length) row.show(names[at], levels[group][at]);
                });
            });
        },
    };
}
