/** Replay: whether the answers of a recorded session are still given. */

import { patchOf } from '../../../js/job.js';
import { button } from '../controls.js';
import { h, say } from '../dom.js';
import { writeLevel } from '../levels.js';
import { recordIn, recordingOf } from '../meshes/recording.js';
import { EMPTY, sceneOf } from '../picture/scene.js';
import { stateOf } from '../state.js';
import { many, sentence } from '../words.js';

const ANSWERS = Object.freeze({ 0: 'drawn', 1: 'discarded', 3: 'no room for vertices', 4: 'no room for indices', 8: 'unknown setting' });
const WORDS = Object.freeze({
    'no recording': 'Nothing is replayed yet.',
    'not a recording': 'The file has fewer than 5 bytes or does not begin with TSR.',
    'unknown version': 'The version of the recording is not 1.',
    'cut entry': 'Every whole entry agrees, and the file ends within the next one.',
    'replaying …': 'The answer is not there yet.',
});
const TITLES = ['', 'Answer', 'Points', 'Indices'];

export class ReplayView {
    name = 'replay';
    title = 'Replay';
    ownPicture = true;

    #app;
    #recording = null;
    #differs = false;
    #message = h('p', { class: 'message', role: 'alert', hidden: true });
    #answer = h('p', { class: 'answer', id: 'replayed' });
    #counts = h('p', { class: 'counts', id: 'replay' });
    #rows = h('tbody');
    #table;
    #about = h('p', { class: 'which' });

    constructor(app) {
        this.#app = app;
        this.controls = this.#makeControls();
        const titles = h('tr', {}, ...TITLES.map((title) => h('th', { scope: 'col' }, title)));
        this.#table = h('table', { class: 'outcomes' }, h('caption', {}, 'The entry that differs'), h('thead', {}, titles), this.#rows);
        const head = h('div', { class: 'head', 'aria-live': 'polite' }, this.#answer, this.#counts);
        this.words = h('div', { class: 'panel' }, head, this.#table, this.#about);
    }

    get hint() {
        return this.#differs ? 'The first entry that differs, as it is cut today.' : 'The picture shows an entry that differs.';
    }

    async dropped(chosen) {
        this.#play(new Uint8Array(await chosen.arrayBuffer()));
    }

    look() {
        const answer = this.#recording ? this.#app.questions.answer('replay', [this.#recording]) : { is: 'no recording' };
        const found = answer ?? { is: 'replaying …' };
        const differing = found.is === 'differs' ? this.#entry(found.entry) : null;
        const nothing = { ...sceneOf(this.#app.state.patch, null), parts: [], edges: [] };
        const scene = differing ? sceneOf(differing.state, differing.mesh) : nothing;
        return { scene, marks: [], waiting: answer === undefined, report: () => this.#report(found, differing) };
    }

    #makeControls() {
        const file = h('input', {
            type: 'file',
            accept: '.tsr',
            'aria-label': 'Recording',
            onchange: async () => {
                const [chosen] = file.files;
                if (chosen) await this.dropped(chosen);
                file.value = '';
            },
        });
        const record = (more) => () => this.#play(recordingOf(this.#app.yoktvarim, this.#app.state.patch, more));
        const examples = [
            button('Record the drawn patch', record(0)),
            button('Record it with a point too many', record(1)),
        ];
        return h(
            'div',
            { class: 'panel' },
            h('div', { class: 'paste' }, h('p', { class: 'label' }, 'Choose or drop a recording (.tsr)'), file),
            h('fieldset', {}, h('legend', {}, 'Or try one entry'), h('div', { class: 'buttons column' }, ...examples)),
            this.#message,
        );
    }

    #play(recording) {
        this.#message.hidden = recording !== null;
        say(this.#message, recording ? '' : 'A recording holds the top 64 only.');
        this.#recording = recording;
        this.#app.redraw();
    }

    /** The patch of an entry as it is cut today, and its words. */
    #entry(number) {
        const { yoktvarim, state } = this.#app;
        const record = recordIn(yoktvarim, this.#recording, number);
        if (record.is !== 'record') {
            const words = `Its record has an unknown setting at place ${record.place}, so nothing is drawn.`;
            return { state: state.patch, mesh: EMPTY, words };
        }
        const patch = patchOf(record);
        const answer = yoktvarim.mesh(patch, record.settings);
        const mesh = answer.is === 'drawn' ? answer : null;
        return { state: stateOf(patch, record.settings), mesh, words: inWords(patch, record.settings) };
    }

    #report(found, differing) {
        this.#differs = differing !== null;
        this.#answer.dataset.is = found.is;
        say(this.#answer, found.is);
        say(this.#counts, sentenceOf(found));
        this.#table.hidden = differing === null;
        this.#about.hidden = differing === null;
        if (differing === null) return;
        say(this.#about, differing.words);
        this.#rows.replaceChildren(...['recorded', 'replayed'].map((side) => outcomeRow(side, found[side])));
    }
}

function inWords(patch, { spacing, vertexOrder, domainOrigin, pointMode }) {
    const inner = [patch.inner ?? []].flat();
    const settings = [patch.kind, spacing, vertexOrder, domainOrigin, ...(pointMode ? ['point mode'] : [])];
    const levels = `outer ${patch.outer.map(writeLevel).join(', ')}`;
    const rest = inner.length > 0 ? `; inner ${inner.map(writeLevel).join(', ')}` : '';
    return sentence([...settings, levels].join(', ') + rest);
}

function sentenceOf(found) {
    if (found.is === 'all agree') return found.entries === 1 ? 'The one entry agrees.' : `All ${many(found.entries, 'entry')} agree.`;
    if (found.is === 'differs') return `Entry ${found.entry}, counted from 0, is the first that differs.`;
    if (found.is === 'failed') return `The replay ended without an answer: ${found.because}.`;
    return WORDS[found.is];
}

function outcomeRow(side, { answer, points, indices }) {
    const counts = [points, indices].map((each) => h('td', { class: 'number' }, String(each)));
    return h('tr', {}, h('th', { scope: 'row' }, side), h('td', {}, ANSWERS[answer] ?? `number ${answer}`), ...counts);
}
