/** A box to open a job file: its first record, or the one that is picked, becomes the patch on screen. */

import { patchOf } from '../../js/job.js';
import { picker } from './controls.js';
import { h, say } from './dom.js';
import { stateOf, WHOLE } from './state.js';

const REFUSALS = Object.freeze({
    'not a job': 'has fewer than 5 bytes or does not begin with TSJ, so it is not a job',
    'unknown version': 'is a job of an unknown version',
});

export class JobBox {
    #app;
    #records = [];
    #message = h('p', { class: 'message', role: 'alert', hidden: true });
    #which = picker('Which record of the job', (at) => this.#open(at));

    /** @param {object} app */
    constructor(app) {
        this.#app = app;
        const file = h('input', {
            type: 'file',
            accept: '.tsj',
            'aria-label': 'A job file',
            onchange: async () => {
                if (file.files[0]) await this.take(file.files[0]);
                file.value = '';
            },
        });
        const label = h('p', { class: 'label' }, 'Open or drop a job (.tsj)');
        this.element = h('div', { class: 'paste' }, label, file, this.#message, this.#which.element);
    }

    /** @param {File} file */
    async take(file) {
        const job = this.#app.yoktvarim.readJob(new Uint8Array(await file.arrayBuffer()));
        const because = whyNot(job);
        this.#message.hidden = because === '';
        say(this.#message, because && `“${file.name}” ${because}.`);
        this.#records = because ? [] : job.records;
        this.#which.show([], 0);
        if (!because) this.#open(this.#records.findIndex(({ is }) => is === 'record'));
    }

    #open(at) {
        this.#which.show(this.#records.map((record, number) => ({ title: titleOf(record, number), isOff: record.is !== 'record' })), at);
        const record = this.#records[at];
        this.#app.change((state) => Object.assign(state, { patch: stateOf(patchOf(record), record.settings), zoom: { ...WHOLE } }));
    }
}

/** Why there is no patch to open; empty where there is one. */
function whyNot(job) {
    if (job.is !== 'read') return REFUSALS[job.is];
    if (job.records.length === 0) return 'is a job without records';
    if (job.records.some(({ is }) => is === 'record')) return '';
    const [{ is, place }] = job.records;
    const fault = is === 'cut record' ? 'the file ends within record 0' : `record 0 has an unknown setting at place ${place}`;
    return `has no record that can be read: ${fault}`;
}

function titleOf(record, at) {
    if (record.is === 'cut record') return `Record ${at}: cut`;
    if (record.is !== 'record') return `Record ${at}: unknown setting at place ${record.place}`;
    return `Record ${at}: ${record.kind}, ${record.settings.spacing}`;
}
