/** Cuts the patch on screen, and keeps what was cut before. */

import { isolines, quads } from '../../js/patch.js';
import { writeLevel } from './levels.js';
import { callOf } from './state.js';

export class Cutter {
    #yoktvarim;
    #key = '';
    #gesture = '';
    #isNew = true; // whether the next cut is the first of a gesture

    /** The answer to the patch on screen. */
    answer = { is: 'discarded' };
    /** What measuring returns for it. */
    size = { is: 'discarded' };
    /** The call: the same objects as long as the patch is the same. */
    patch = null;
    settings = null;
    /** The mesh on screen, or null. */
    mesh = null;
    /** The mesh that was on screen before the last gesture, with the kind of its patch; or null. */
    previous = null;
    /** Milliseconds of the last cut. */
    time = 0;
    /** How many cuts the gesture has made, and in how many of them the indices changed. */
    steps = 0;
    changes = 0;

    constructor(yoktvarim) {
        this.#yoktvarim = yoktvarim;
        // The browser compiles a function at its first call, so the first calls are slow.
        yoktvarim.mesh(isolines([1, 1]));
        yoktvarim.mesh(quads([2, 2, 2, 2], [2, 2]));
    }

    /**
     * @param {object} state of the patch
     * @param {string} gesture cuts of one gesture are counted together
     */
    cut(state, gesture) {
        if (gesture !== this.#gesture) this.#isNew = true;
        this.#gesture = gesture;
        const { patch, settings } = callOf(state);
        const key = keyOf(patch, settings);
        if (key === this.#key) return;
        const begun = performance.now();
        const answer = this.#yoktvarim.mesh(patch, settings);
        this.time = performance.now() - begun;
        this.size = this.#yoktvarim.measure(patch, settings);
        if (this.#isNew) this.#begin();
        if (this.#key !== '') this.#count(answer);
        this.answer = answer;
        this.mesh = answer.is === 'drawn' ? answer : null;
        Object.assign(this, { patch, settings });
        this.#key = key;
    }

    /** The first cut of a gesture. */
    #begin() {
        this.#isNew = false;
        this.steps = 0;
        this.changes = 0;
        if (this.mesh) this.previous = { mesh: this.mesh, kind: this.patch.kind };
    }

    #count(answer) {
        this.steps++;
        if (!sameWords(this.answer.indices, answer.indices)) this.changes++;
    }
}

/** A text that differs for any two calls, of negative zeros too. */
const keyOf = (patch, settings) =>
    JSON.stringify([patch, settings], (_, value) => (typeof value === 'number' ? writeLevel(value) : value));

/** Whether two lists hold the same words; a patch that is not drawn has none. */
function sameWords(one = [], other = []) {
    return one.length === other.length && one.every((word, at) => word === other[at]);
}
