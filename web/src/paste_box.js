/** A box to paste meshes into, to choose a file for, and to pick one mesh where a text has several. */

import { button, picker } from './controls.js';
import { h, newId, say } from './dom.js';
import { readMeshes } from './meshes/mesh_text.js';

export class PasteBox {
    #app;
    #given;
    #message = h('p', { class: 'message', role: 'alert', hidden: true });
    #area = h('textarea', { id: newId(), rows: '5', spellcheck: 'false', placeholder: 'drawn 4 6 …  or  v 0 1 0 …' });
    #which = picker('Which mesh of the text', (at) => this.#pick(at));

    /**
     * @param {object} app
     * @param {(state: object) => void} given what the view does with the state when there is a mesh
     */
    constructor(app, given) {
        this.#app = app;
        this.#given = given;
        const file = h('input', {
            type: 'file',
            accept: '.txt,.obj,text/plain',
            'aria-label': 'A file with meshes',
            onchange: async () => {
                if (file.files[0]) await this.take(file.files[0]);
                file.value = '';
            },
        });
        this.element = h(
            'div',
            { class: 'paste' },
            h('label', { for: this.#area.id }, 'Paste or drop meshes: the text of tsj, or OBJ from 0 to 1'),
            this.#area,
            h('div', { class: 'buttons' }, button('Read it', () => this.#read(), 'main'), file),
            this.#message,
            this.#which.element,
        );
    }

    /** @param {File} file */
    async take(file) {
        this.#area.value = await file.text();
        this.#read();
    }

    show() {
        const { meshes = [], at = 0 } = this.#app.shelf.given ?? {};
        this.#which.show(meshes.map(({ title, mesh }) => ({ title, isOff: mesh === null })), at);
    }

    #read() {
        const { kind } = this.#app.state.patch;
        const found = readMeshes(this.#area.value, kind);
        const isRead = found.is === 'meshes';
        this.#message.hidden = isRead;
        say(this.#message, isRead ? '' : found.because);
        // A text that cannot be read leaves no mesh of an earlier one behind.
        this.#app.shelf.given = isRead ? { meshes: found.meshes, at: found.meshes.findIndex(({ mesh }) => mesh), kind } : null;
        this.#app.change(this.#given);
    }

    #pick(at) {
        this.#app.shelf.given = { ...this.#app.shelf.given, at };
        this.#app.change(this.#given);
    }
}
