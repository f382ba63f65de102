/** A text field that is read at every key, and that reports in a sentence what it cannot read. */

import { h, newId, say } from './dom.js';

/**
 * @typedef {object} How
 * @property {string} label
 * @property {(text: string) => number | undefined} read
 * @property {(value: number) => string} write
 * @property {(text: string) => string} wrong the sentence for a text that cannot be read
 * @property {(value: number, way: number, fine: boolean) => number} step what an arrow key makes of a value
 * @property {(value: number) => void} entered
 * @property {() => void} [began] when somebody comes to the field
 */

export class Field {
    #value = 0;
    /** @type {How} */
    #how;

    message = h('p', { class: 'message', id: newId(), role: 'alert', hidden: true });

    /** @param {How} how */
    constructor(how) {
        this.#how = how;
        this.input = h('input', {
            type: 'text',
            'aria-label': how.label,
            'aria-describedby': this.message.id,
            autocomplete: 'off',
            spellcheck: 'false',
            onfocus: () => this.#focused(),
            oninput: () => this.#typed(),
            onblur: () => this.#left(),
            onkeydown: (event) => this.#stepped(event),
        });
    }

    /** Shows a value, unless somebody is typing that very value or one that cannot be read. */
    show(value) {
        this.#value = value;
        const typing = document.activeElement === this.input && Object.is(this.#how.read(this.input.value), value);
        if (!typing && this.input.getAttribute('aria-invalid') !== 'true') this.input.value = this.#how.write(value);
    }

    #focused() {
        this.#how.began?.();
        this.input.select();
    }

    #typed() {
        const found = this.#how.read(this.input.value);
        this.#complain(found === undefined ? this.#how.wrong(this.input.value) : '');
        if (found !== undefined) this.#how.entered(found);
    }

    #left() {
        this.#complain('');
        this.input.value = this.#how.write(this.#value);
    }

    #stepped(event) {
        const way = { ArrowUp: 1, ArrowDown: -1 }[event.key];
        if (!way) return;
        event.preventDefault();
        this.#complain('');
        this.#how.entered(this.#how.step(this.#value, way, event.shiftKey));
    }

    #complain(text) {
        this.message.hidden = text === '';
        say(this.message, text);
        if (text) this.input.setAttribute('aria-invalid', 'true');
        else this.input.removeAttribute('aria-invalid');
    }
}
