/** Check: whether a mesh that anybody made is a right one of the patch on screen. */

import { faultInWords } from '../../../js/check.js';
import { button, choice } from '../controls.js';
import { h, say } from '../dom.js';
import { damageNamed, DAMAGES } from '../meshes/damage.js';
import { PasteBox } from '../paste_box.js';
import { faultMarks } from '../picture/fault_marks.js';
import { EMPTY, placeOf, placesOf, sceneOf } from '../picture/scene.js';
import { sentence } from '../words.js';

const FAULT_ZOOM = 12;
const MESHES = Object.freeze({ drawn: 'Drawn', damaged: 'Damaged', held: 'Held', given: 'Given' });
const NO_MESH = Object.freeze({
    damaged: 'A patch without triangles has nothing to damage.',
    held: 'No mesh is held yet: press “Hold the drawn mesh”.',
    given: 'No mesh is given yet: paste or drop one.',
});

export class CheckView {
    name = 'check';
    title = 'Check';
    hint = 'Press a triangle or a point to choose it for damage.';

    #app;
    #answer = h('p', { class: 'answer', id: 'verdict' });
    #fault = h('p', { class: 'counts', id: 'fault' });
    #which = h('p', { class: 'which', id: 'which' });
    #find = button('Zoom to the fault', () => this.#zoomToFault());
    #source;
    #damages;
    #faultPlace = null;
    #box;

    constructor(app) {
        this.#app = app;
        this.#source = choice('Mesh to check', MESHES, (mesh) => app.change(({ check }) => (check.mesh = mesh)));
        this.#damages = DAMAGES.map(({ name, title }) =>
            button(title, () => app.change(({ check }) => Object.assign(check, { mesh: 'damaged', damage: name }))),
        );
        this.#box = new PasteBox(app, ({ check }) => (check.mesh = 'given'));
        const note = h('p', { class: 'note' }, 'A press on the picture chooses the triangle or the point.');
        const damages = h('div', { class: 'grid' }, ...this.#damages);
        this.words = h(
            'div',
            { class: 'panel' },
            h('div', { class: 'head', 'aria-live': 'polite' }, this.#answer, this.#fault, this.#which),
            h('div', { class: 'buttons' }, this.#find),
            this.#source.element,
            h('fieldset', { class: 'damages' }, h('legend', {}, 'Damage the drawn mesh'), note, damages),
            h('div', { class: 'buttons' }, button('Hold the drawn mesh', () => this.#hold())),
            this.#box.element,
        );
    }

    dropped(file) {
        return this.#box.take(file);
    }

    /** Chooses a triangle or a point for damage. */
    chosen(found) {
        if (!found || found.what === 'line') return;
        this.#app.change(({ check }) => (check[found.what] = found.number));
    }

    look() {
        const { state, cutter, questions, level } = this.#app;
        this.#source.show(state.check.mesh);
        this.#box.show();
        const mesh = this.#mesh();
        const verdict = mesh ? questions.answer('checkMesh', [cutter.patch, cutter.settings, mesh]) : { is: 'no mesh' };
        const scene = sceneOf(state.patch, mesh ?? EMPTY, level);
        const [part] = scene.parts;
        part.covers = part.indices.length > 0 && (mesh === cutter.mesh || verdict?.is === 'accepted');
        const faults = faultMarks(verdict ?? {}, part, state.patch.kind, cutter.mesh);
        const report = () => this.#report(verdict, mesh, firstPlace(faults));
        return { scene, marks: [...this.#choiceMarks(part), ...faults], waiting: verdict === undefined, report };
    }

    /** The mesh to check, or undefined. A patch that is not drawn has an empty one. */
    #mesh() {
        const { state, cutter, shelf } = this.#app;
        const { mesh } = state.check;
        if (mesh === 'drawn') return cutter.mesh ?? EMPTY;
        return { damaged: () => shelf.damagedMesh, held: () => shelf.heldMesh, given: () => shelf.givenMesh }[mesh]()?.mesh;
    }

    #hold() {
        this.#app.change((state) => {
            this.#app.shelf.hold(state);
            state.check.mesh = 'held';
        });
    }

    #zoomToFault() {
        this.#app.change((state) => (state.zoom = this.#app.picture.zoomOn(this.#faultPlace, FAULT_ZOOM)));
    }

    #report(verdict, mesh, faultPlace) {
        const { check } = this.#app.state;
        this.#faultPlace = faultPlace;
        this.#find.disabled = faultPlace === undefined;
        const { is } = verdict ?? { is: 'checking …' };
        this.#answer.dataset.is = is;
        say(this.#answer, is);
        say(this.#fault, verdict ? because(verdict, mesh, check.mesh) : 'The answer is not there yet.');
        const damage = `The drawn mesh with the damage “${damageNamed(check.damage).title.toLowerCase()}”`;
        const names = { drawn: 'The drawn mesh', damaged: damage, held: 'The held mesh', given: 'The given mesh' };
        say(this.#which, mesh && verdict ? `${names[check.mesh]} is checked.` : '');
        const canDamage = this.#app.shelf.damagedMesh !== null;
        for (const each of this.#damages) each.disabled = !canDamage;
    }

    #choiceMarks(part) {
        const { mesh, triangle, point } = this.#app.state.check;
        if (mesh !== 'drawn') return [];
        const hasTriangle = triangle >= 0 && 3 * triangle + 2 < part.indices.length;
        const hasPoint = point >= 0 && 3 * point + 2 < part.vertices.length;
        return [
            ...(hasTriangle ? [{ colour: 'accent', triangles: [placesOf(part, triangle)] }] : []),
            ...(hasPoint ? [{ colour: 'accent', rings: [placeOf(part, point)] }] : []),
        ];
    }
}

/** The first place of some marks; undefined where there is none. */
const firstPlace = ([{ triangles = [], lines = [], rings = [] } = {}]) => [...triangles.flat(), ...lines.flat(), ...rings][0];

/** A verdict in a sentence. */
function because(verdict, mesh, source) {
    if (verdict.is === 'no mesh') return NO_MESH[source];
    if (verdict.is === 'failed') return `The check ended without an answer: ${verdict.because}.`;
    if (verdict.is !== 'accepted') return sentence(faultInWords(verdict));
    return mesh.indices.length > 0 ? 'No hole, no overlap and no turned triangle.' : 'The patch is discarded, and both lists are empty.';
}
