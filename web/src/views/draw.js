/** Draw: the patch on screen, and in words what the calls return for it. */

import { cornersOf } from '../../../js/text.js';
import { h, say } from '../dom.js';
import { JobBox } from '../job_box.js';
import { writeLevel } from '../levels.js';
import { LEVEL_NAMES, segmentsDrawn } from '../picture/plane.js';
import { sceneOf } from '../picture/scene.js';
import { segmentsOf } from '../segments.js';
import { countsOf, MEANINGS, milliseconds } from '../words.js';

const HINT = 'Pull an edge or drag inside to change levels; wheel or pinch to zoom.';
const LINES_HINT = 'Drag up for more lines and right for more segments; wheel or pinch to zoom.';
const COLUMNS = ['Level', 'Value', 'Clamp', 'n', 'L'];

export class DrawView {
    name = 'draw';
    title = 'Draw';

    #app;
    #answer = h('p', { class: 'answer', id: 'answer' });
    #counts = h('p', { class: 'counts', id: 'counts' });
    #rows = h('tbody');
    #connections = h('dd', { id: 'connections' });
    #job;
    #time = h('dd', { id: 'time' });

    constructor(app) {
        this.#app = app;
        this.#job = new JobBox(app);
        const head = h('thead', {}, h('tr', {}, ...COLUMNS.map((title) => h('th', { scope: 'col' }, title))));
        this.words = h(
            'div',
            { class: 'panel' },
            h('div', { class: 'head', 'aria-live': 'polite' }, this.#answer, this.#counts),
            h('table', { class: 'level-table' }, h('caption', {}, 'What each level gives'), head, this.#rows),
            h('p', { class: 'note' }, 'n is the number of segments; L is the clamped level times 65,536.'),
            h('dl', {}, h('dt', {}, 'Connections'), this.#connections, h('dt', {}, 'Last redraw'), this.#time),
            this.#job.element,
        );
    }

    get hint() {
        return this.#app.state.patch.kind === 'isolines' ? LINES_HINT : HINT;
    }

    dropped(file) {
        return this.#job.take(file);
    }

    look() {
        const { cutter, state, level } = this.#app;
        return { scene: sceneOf(state.patch, cutter.mesh, level), marks: [], report: () => this.#report(state.patch, cutter) };
    }

    /** @param {number} time of a whole redraw: cutting, words and picture */
    timed(time) {
        say(this.#time, `${milliseconds(time)} (cutting ${milliseconds(this.#app.cutter.time)})`);
    }

    #report(patch, cutter) {
        this.#answer.dataset.is = cutter.answer.is;
        say(this.#answer, cutter.answer.is);
        say(this.#counts, cutter.mesh ? countsOf(cutter.mesh, cornersOf(patch.kind, patch)) : whyNot(patch, cutter.answer));
        this.#rows.replaceChildren(...levelRows(patch, cutter));
        say(this.#connections, connectionsOf(cutter));
    }
}

/** Why nothing is drawn; of a discarded patch, by which levels. */
function whyNot(patch, answer) {
    if (answer.is !== 'discarded') return MEANINGS[answer.is];
    const names = LEVEL_NAMES[patch.kind].outer.filter((_, at) => discards(patch.outer[at]));
    const [levels, are] = names.length === 1 ? ['level', 'is'] : ['levels', 'are'];
    return `The outer ${levels} ${names.join(', ')} ${are} NaN or not above 0.`;
}

const discards = (level) => !(level > 0);

/** A row for each level that counts. n is counted from what is drawn. */
function levelRows(patch, { size, mesh }) {
    const names = LEVEL_NAMES[patch.kind];
    const drawn = mesh && segmentsDrawn(patch.kind, mesh.vertices);
    const lengths = mesh && segmentsOf(patch, names);
    return ['outer', 'inner'].flatMap((group) =>
        names[group].map((name, at) => {
            const clamp = size.is === 'measured' ? size.clamps[group][at] : '–';
            const value = { class: group === 'outer' && discards(patch[group][at]) ? 'number fault' : 'number' };
            return h(
                'tr',
                {},
                h('th', { scope: 'row' }, name),
                h('td', value, writeLevel(patch[group][at])),
                h('td', { 'data-clamp': clamp }, clamp),
                h('td', { class: 'number' }, drawn ? String(drawn[group][at]) : '–'),
                h('td', { class: 'number' }, lengths ? lengths[group][at].L.toLocaleString('en') : '–'),
            );
        }),
    );
}

/** Whether the indices stayed as they were. */
function connectionsOf({ steps, changes }) {
    if (steps === 0) return 'the first so far';
    if (steps === 1) return changes === 0 ? 'the same as before' : 'changed by the last step';
    return changes === 0 ? `the same in all ${steps} steps` : `changed in ${changes} of ${steps} steps`;
}
