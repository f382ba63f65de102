/** The meshes beside the drawn one: damaged, held and given. Each stays the same object as long as nothing changes it. */

import { damaged } from './meshes/damage.js';
import { EMPTY } from './picture/scene.js';
import { callOf, copyOf } from './state.js';

/**
 * @typedef {object} Other
 * @property {{vertices: Uint32Array, indices: Uint16Array}} mesh
 * @property {string} kind of the patch that it was made for
 */

export class Shelf {
    #app;
    #held = { patch: null, other: null };
    #damaged = { key: [], other: null };

    /** The meshes of a text that somebody gave, and which of them is chosen. @type {{meshes: object[], at: number, kind: string} | null} */
    given = null;

    constructor(app) {
        this.#app = app;
    }

    /** Keeps the mesh on screen while the patch changes. The state holds its patch, so that a link has it too. */
    hold(state) {
        state.held = copyOf(state.patch);
    }

    /** @returns {Other | null} */
    get heldMesh() {
        const { held } = this.#app.state;
        if (held === null) return null;
        if (held !== this.#held.patch) {
            const { patch, settings } = callOf(held);
            const answer = this.#app.yoktvarim.mesh(patch, settings);
            this.#held = { patch: held, other: { mesh: answer.is === 'drawn' ? answer : EMPTY, kind: held.kind } };
        }
        return this.#held.other;
    }

    /** @returns {Other | null} */
    get givenMesh() {
        return this.given && { mesh: this.given.meshes[this.given.at].mesh, kind: this.given.kind };
    }

    /** The drawn mesh with the chosen damage; null where there are no triangles to damage. @returns {Other | null} */
    get damagedMesh() {
        const { cutter, state } = this.#app;
        const { kind, pointMode } = state.patch;
        if (!cutter.mesh || kind === 'isolines' || pointMode) return null;
        const { damage, triangle, point } = state.check;
        const key = [cutter.mesh, damage, triangle, point];
        if (!key.every((each, at) => each === this.#damaged.key[at])) {
            this.#damaged = { key, other: { mesh: damaged(damage, cutter.mesh, { kind, triangle, point }), kind } };
        }
        return this.#damaged.other;
    }
}
