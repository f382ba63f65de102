/** Two patches: side by side, with the same level and spacing on the edge between them. */

import { cornersOf } from '../../../js/text.js';
import { choice, levelRow, toggle, topField } from '../controls.js';
import { h, say } from '../dom.js';
import { writeLevel } from '../levels.js';
import { KIND_NAMES, levelGroups, ORDER_NAMES, ORIGIN_NAMES, POINT_MODE, SPACING_NAMES } from '../patch_panel.js';
import { cornersIn, edgesIn, oneOf, pointsOn } from '../picture/plane.js';
import { boxOf, EMPTY } from '../picture/scene.js';
import { callOf } from '../state.js';
import { many, MEANINGS } from '../words.js';

const HEIGHT = Math.sqrt(3) / 2;
/** The outer edge that each kind shares, on either side. */
const SHARED = Object.freeze({ left: { quads: 2, triangles: 0 }, right: { quads: 0, triangles: 0 } });

/** Where u and v of each side lie: the shared edge goes up from (0, 0) to (0, 1). */
const PLACES = Object.freeze({
    left: {
        quads: (u, v, one) => [u / one - 1, v / one],
        triangles: (u, v, one) => [(-HEIGHT * u) / one, 1 - (u / 2 + v) / one],
    },
    right: {
        quads: (u, v, one) => [u / one, v / one],
        triangles: (u, v, one) => [(HEIGHT * u) / one, (u / 2 + v) / one],
    },
});

export class SeamView {
    name = 'seam';
    title = 'Two patches';
    hint = 'Drag the shared edge to the right for more segments; wheel or pinch to zoom.';
    ownPicture = true;

    #app;
    #shared;
    #sides;
    #answer = h('p', { class: 'answer', id: 'seam' });
    #counts = h('p', { class: 'counts', id: 'seam-counts' });
    #rows = h('tbody');
    #table;

    constructor(app) {
        this.#app = app;
        const set = (name) => (value) => app.change(({ seam }) => (seam[name] = value));
        this.#shared = {
            level: levelRow('shared', set('level')),
            spacing: choice('Spacing', SPACING_NAMES, set('spacing')),
            top: topField('Top', set('top')),
        };
        this.#sides = { left: sidePanel('left', app), right: sidePanel('right', app) };
        this.controls = this.#makeControls();
        const titles = h('tr', {}, ...['', 'Left', 'Right', ''].map((title) => h('th', { scope: 'col' }, title)));
        const caption = h('caption', {}, 'Places on the edge, from below');
        this.#table = h('table', { class: 'places' }, caption, h('thead', {}, titles), this.#rows);
        this.words = h(
            'div',
            { class: 'panel' },
            h('div', { class: 'head', 'aria-live': 'polite' }, this.#answer, this.#counts),
            h('div', { class: 'scroll', tabindex: '0', role: 'region', 'aria-label': 'Places on the edge' }, this.#table),
        );
    }

    look() {
        const { seam } = this.#app.state;
        this.#shared.spacing.show(seam.spacing);
        this.#shared.level.show('level', seam.level);
        this.#shared.top.show(seam.top);
        for (const side of ['left', 'right']) this.#sides[side].show(seam[side]);
        const cut = ['left', 'right'].map((side) => cutSide(this.#app.yoktvarim, seam, side));
        return { scene: this.#sceneOf(seam, cut), marks: marksOf(cut), report: () => this.#report(cut) };
    }

    #makeControls() {
        const { level, spacing, top } = this.#shared;
        return h(
            'div',
            { class: 'panel' },
            h('fieldset', { class: 'levels' }, h('legend', {}, 'Shared edge'), level.element),
            spacing.element,
            top.element,
            this.#sides.left.element,
            this.#sides.right.element,
        );
    }

    #report([left, right]) {
        const missing = [left, right].find(({ answer }) => answer.is !== 'drawn');
        this.#table.hidden = missing !== undefined;
        if (missing) {
            this.#answer.dataset.is = missing.answer.is;
            say(this.#answer, missing.answer.is);
            say(this.#counts, `The ${missing.side} patch is not drawn, so there is no seam. ${MEANINGS[missing.answer.is]}`);
            return;
        }
        const count = Math.max(left.places.length, right.places.length);
        const pairs = Array.from({ length: count }, (_, at) => [left.places[at], right.places[at]]);
        const equal = pairs.every(([one, other]) => one === other);
        this.#answer.dataset.is = equal ? 'places are equal' : 'places differ';
        say(this.#answer, this.#answer.dataset.is);
        const sides = equal ? 'on either side of the seam' : `on the left and ${right.places.length - 1} on the right`;
        say(this.#counts, `${many(left.places.length - 1, 'segment')} ${sides}.`);
        this.#rows.replaceChildren(...pairs.map(placeRow));
    }

    #sceneOf(seam, cut) {
        const parts = cut.map(({ side, corners, answer, place, outline }) => ({
            ...(answer.is === 'drawn' ? answer : EMPTY),
            covers: answer.is === 'drawn',
            corners,
            place,
            outline,
            numbersLeft: side === 'left',
            ...this.#insideLevels(side, seam[side].kind),
        }));
        const edges = cut.flatMap(({ side, kind, edge, place }) =>
            edgesIn(kind, place)
                .map((one, at) => ({
                    ...one,
                    label: `${one.name} · ${writeLevel(seam[side].outer[at])}`,
                    level: this.#level(side, 'outer', at),
                }))
                .filter((_, at) => at !== edge),
        );
        const level = { get: () => seam.level, set: (value) => this.#app.change((state) => (state.seam.level = value)) };
        edges.push({ from: [0, 0], to: [0, 1], away: [1, 0], label: '', level });
        return { box: boxOf(parts.flatMap(({ outline }) => outline)), parts, edges };
    }

    #level(side, group, at) {
        return {
            get: () => this.#app.state.seam[side][group][at],
            set: (value) => this.#app.change(({ seam }) => (seam[side][group][at] = value)),
        };
    }

    #insideLevels(side, kind) {
        const up = this.#level(side, 'inner', 0);
        return { up, across: kind === 'quads' ? this.#level(side, 'inner', 1) : up };
    }
}

/** A row of the table: one place of both sides. */
function placeRow([one, other], at) {
    const cells = [one, other].map((place) => h('td', { class: 'number' }, place?.toLocaleString('en') ?? '–'));
    const [look, word] = one === other ? ['good', 'equal'] : ['fault', 'differs'];
    return h('tr', {}, h('th', { scope: 'row' }, String(at)), ...cells, h('td', { class: look }, word));
}

/** The controls of one side. */
function sidePanel(side, app) {
    const set = (name) => (value) => app.change(({ seam }) => (seam[side][name] = value));
    const { isolines, ...kinds } = KIND_NAMES;
    const choices = {
        kind: choice('Kind', kinds, set('kind')),
        vertexOrder: choice('Vertex order', ORDER_NAMES, set('vertexOrder')),
        domainOrigin: choice('Domain origin', ORIGIN_NAMES, set('domainOrigin')),
        pointMode: toggle(POINT_MODE, set('pointMode')),
    };
    const levels = levelGroups((group, at, level) => app.change(({ seam }) => (seam[side][group][at] = level)), `${side} `);
    const element = h(
        'details',
        { class: 'side', open: true },
        h('summary', {}, side === 'left' ? 'Left patch' : 'Right patch'),
        choices.kind.element,
        levels.element,
        choices.vertexOrder.element,
        choices.domainOrigin.element,
        choices.pointMode.element,
    );
    return {
        element,
        show(state) {
            for (const [name, control] of Object.entries(choices)) control.show(state[name]);
            levels.show(state.kind, state, SHARED[side][state.kind]);
        },
    };
}

/** Cuts a side, with the shared level on its shared edge. */
function cutSide(yoktvarim, seam, side) {
    const own = seam[side];
    const { kind } = own;
    const edge = SHARED[side][kind];
    const outer = own.outer.map((level, at) => (at === edge ? seam.level : level));
    const { patch, settings } = callOf({ ...own, outer, spacing: seam.spacing, top: seam.top });
    const answer = yoktvarim.mesh(patch, settings);
    const place = (u, v) => PLACES[side][kind](u, v, oneOf(kind));
    const places = answer.is === 'drawn' ? placesFromBelow(side, kind, edge, answer.vertices) : [];
    return { side, kind, edge, answer, place, places, corners: cornersOf(kind, own), outline: cornersIn(kind, place) };
}

/** Places on the shared edge in its 65,536 units, from whole coordinates: v of quads, a third of w or v of triangles. */
function placesFromBelow(side, kind, edge, vertices) {
    const axis = side === 'left' && kind === 'triangles' ? 2 : 1;
    const unit = kind === 'triangles' ? 3 : 1;
    const found = pointsOn(kind, edge, vertices).map((point) => vertices[3 * point + axis] / unit);
    return found.sort((one, other) => one - other);
}

/** Half discs, each where its own side has a point. */
function marksOf([left, right]) {
    const on = ({ places }) => places.map((place) => [0, place / 65536]);
    return [
        { colour: 'left', leftHalves: on(left) },
        { colour: 'right', rightHalves: on(right) },
    ];
}
