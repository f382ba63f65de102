/** Take away: the job file, the text as tsj writes it, SVG, OBJ and a link to the state of the page. */

import { record } from '../../../js/job.js';
import { jobText } from '../../../js/text.js';
import { button } from '../controls.js';
import { h, newId, say } from '../dom.js';
import { objOf } from '../meshes/obj.js';
import { svgOf } from '../meshes/svg.js';
import { sceneOf } from '../picture/scene.js';
import { MEANINGS } from '../words.js';

export class TakeView {
    name = 'take';
    title = 'Take away';
    hint = 'What is saved is the patch in the picture.';

    #app;
    #text = h('textarea', { id: newId(), rows: '14', readonly: true, spellcheck: 'false', class: 'text' });
    #link = h('input', { id: newId(), type: 'text', readonly: true, onfocus: () => this.#link.select() });
    #copied = h('p', { class: 'which', role: 'status' });
    #message = h('p', { class: 'message', role: 'alert', hidden: true });
    #files;

    constructor(app) {
        this.#app = app;
        this.#files = {
            job: button('Job file', () => save('patch.tsj', 'application/octet-stream', this.#job().job), 'main'),
            text: button('Text', () => save('patch.txt', 'text/plain', this.#text.value)),
            svg: button('SVG', () => save('patch.svg', 'image/svg+xml', svgOf(sceneOf(app.state.patch, app.cutter.mesh)))),
            obj: button('OBJ', () => save('patch.obj', 'model/obj', objOf(app.yoktvarim, app.cutter.patch, app.cutter.settings))),
        };
        const files = h('div', { class: 'buttons' }, ...Object.values(this.#files));
        const copies = [
            button('Copy the text', () => this.#copy(this.#text, 'The text')),
            button('Copy the link', () => this.#copy(this.#link, 'The link')),
        ];
        const limits = 'It holds everything but a given mesh, a recording and the mesh before the last change.';
        this.words = h(
            'div',
            { class: 'panel' },
            h('fieldset', {}, h('legend', {}, 'Save the patch on screen'), files),
            this.#message,
            labelled('Link to this state', this.#link, h('p', { class: 'note' }, limits)),
            labelled('Text as tsj writes it', this.#text),
            h('div', { class: 'buttons' }, ...copies),
            this.#copied,
        );
    }

    look() {
        const { cutter, state, level } = this.#app;
        return { scene: sceneOf(state.patch, cutter.mesh, level), marks: [], report: () => this.#report() };
    }

    #report() {
        const { cutter, yoktvarim } = this.#app;
        const job = this.#job();
        const isWritten = job.is === 'written';
        this.#message.hidden = isWritten;
        say(this.#message, isWritten ? '' : `${MEANINGS['bad top']} No job file can hold it.`);
        this.#files.job.disabled = !isWritten;
        this.#files.text.disabled = !isWritten;
        this.#files.svg.disabled = !cutter.mesh;
        this.#files.obj.disabled = !cutter.mesh;
        this.#text.value = isWritten ? [...jobText(yoktvarim, job.job)].join('') : '';
        this.#link.value = this.#app.link();
    }

    #job() {
        const { yoktvarim, cutter } = this.#app;
        return yoktvarim.writeJob([record(cutter.patch, cutter.settings)], 2);
    }

    async #copy(from, what) {
        from.select();
        try {
            await navigator.clipboard.writeText(from.value);
            say(this.#copied, `${what} is copied.`);
        } catch {
            say(this.#copied, `${what} is selected; copy it with the keyboard.`);
        }
    }
}

/** A field under its label. */
const labelled = (title, field, ...more) => h('div', { class: 'paste' }, h('label', { for: field.id }, title), field, ...more);

/** Hands a file to the browser. */
function save(name, type, content) {
    const address = URL.createObjectURL(new Blob([content], { type }));
    h('a', { href: address, download: name }).click();
    setTimeout(() => URL.revokeObjectURL(address), 10_000);
}
