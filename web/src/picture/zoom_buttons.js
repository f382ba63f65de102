/** The buttons in the corner of the picture. */

import { h, say } from '../dom.js';

export class ZoomButtons {
    #zoom = (_way) => {};
    #amount = h('span', { class: 'amount' });
    #smaller = this.#button('−', 'Zoom out', -1);
    #larger = this.#button('+', 'Zoom in', 1);
    #whole = this.#button('Whole', 'Show the whole picture', 0);

    constructor() {
        const parts = [this.#amount, this.#whole, this.#smaller, this.#larger];
        this.element = h('div', { class: 'zoom', role: 'group', 'aria-label': 'Zoom' }, ...parts);
    }

    /** @param {(way: number) => void} zoom 1 to zoom in, -1 to zoom out, 0 for the whole picture */
    onZoom(zoom) {
        this.#zoom = zoom;
    }

    /** @param {number} by */
    show(by) {
        say(this.#amount, by > 1 ? `× ${by < 10 ? by.toFixed(1) : Math.round(by)}` : '');
        this.#smaller.disabled = by === 1;
        this.#whole.hidden = by === 1;
    }

    #button(text, title, way) {
        return h('button', { type: 'button', title, 'aria-label': title, onclick: () => this.#zoom(way) }, text);
    }
}
