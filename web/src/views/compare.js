/** Compare: what only the mesh on screen has, and what only another mesh has. */

import { button, choice } from '../controls.js';
import { h, say } from '../dom.js';
import { PasteBox } from '../paste_box.js';
import { placeOf, placesOf, sceneOf } from '../picture/scene.js';
import { many } from '../words.js';

const LISTED = 400;
const OTHERS = Object.freeze({ previous: 'Previous', held: 'Held', given: 'Given' });
const FAULTS = Object.freeze({
    'not threes': 'has a list whose length is not a multiple of three',
    'unknown index': 'has an index that is no point’s number',
    'equal points': 'has two equal points',
});
const NO_OTHER = Object.freeze({
    previous: 'Change the patch, and the mesh before the change is compared.',
    held: 'No mesh is held yet: press “Hold the mesh on screen”.',
    given: 'No mesh is given yet: paste or drop one.',
});

export class CompareView {
    name = 'compare';
    title = 'Compare';
    hint = 'Pull an edge and see what changes, or compare with a mesh that is held.';

    #app;
    #answer = h('p', { class: 'answer', id: 'comparison' });
    #counts = h('p', { class: 'counts', id: 'differences' });
    #list = h('ol', { class: 'differences scroll', tabindex: '0', 'aria-label': 'Differences' });
    #other;
    #box;

    constructor(app) {
        this.#app = app;
        this.#other = choice('Compare the mesh on screen with', OTHERS, (other) => app.change(({ compare }) => (compare.other = other)));
        this.#box = new PasteBox(app, ({ compare }) => (compare.other = 'given'));
        const swatch = (side) => h('span', { class: `swatch ${side}` });
        this.words = h(
            'div',
            { class: 'panel' },
            h('div', { class: 'head', 'aria-live': 'polite' }, this.#answer, this.#counts),
            h('p', { class: 'legend' }, swatch('left'), 'only on screen ', swatch('right'), 'only in the other'),
            this.#list,
            this.#other.element,
            h('div', { class: 'buttons' }, button('Hold the mesh on screen', () => this.#hold())),
            this.#box.element,
        );
    }

    dropped(file) {
        return this.#box.take(file);
    }

    look() {
        const { state, cutter, level } = this.#app;
        this.#other.show(state.compare.other);
        this.#box.show();
        const other = this.#otherMesh();
        const scene = sceneOf(state.patch, cutter.mesh, level);
        const found = this.#compared(other);
        const differences = found.differences ?? [];
        return {
            scene,
            marks: differences.length > 0 ? marksOf(differences, scene.parts[0], other.mesh) : [],
            waiting: found.is === 'comparing …',
            report: () => this.#report(found, other),
        };
    }

    #hold() {
        this.#app.change((state) => {
            this.#app.shelf.hold(state);
            state.compare.other = 'held';
        });
    }

    #otherMesh() {
        const { state, cutter, shelf } = this.#app;
        return { previous: () => cutter.previous, held: () => shelf.heldMesh, given: () => shelf.givenMesh }[state.compare.other]();
    }

    /** What the comparison finds, or why there is none. */
    #compared(other) {
        const { state, cutter, questions } = this.#app;
        const { kind, pointMode } = state.patch;
        if (!cutter.mesh) return { is: 'nothing on screen', words: 'The patch on screen is not drawn.' };
        if (kind === 'isolines' || pointMode) return { is: 'no triangles', words: 'Only meshes of triangles can be compared.' };
        if (!other) return { is: 'no other mesh', words: NO_OTHER[state.compare.other] };
        if (other.kind !== kind) return { is: 'another kind', words: `The other mesh is of the kind ${other.kind}.` };
        const answer = questions.answer('compareMeshes', [cutter.mesh, other.mesh]);
        if (answer === undefined) return { is: 'comparing …', words: 'The answer is not there yet.' };
        if (answer.is === 'failed') return { is: 'failed', words: `The comparison ended without an answer: ${answer.because}.` };
        if (answer.is === 'compared') return inWords(answer.differences);
        const mesh = answer.is === 'left refused' ? 'The mesh on screen' : 'The other mesh';
        return { is: answer.is, words: `${mesh} ${FAULTS[answer.fault]}.` };
    }

    #report({ is, words, differences = [] }, other) {
        this.#answer.dataset.is = is;
        say(this.#answer, is);
        say(this.#counts, words);
        const left = this.#app.cutter.mesh;
        const items = differences.slice(0, LISTED).map((each) => h('li', { class: each.side }, lineOf(each, left, other.mesh)));
        if (differences.length > LISTED) items.push(h('li', {}, `and ${(differences.length - LISTED).toLocaleString('en')} more`));
        this.#list.replaceChildren(...items);
        this.#list.hidden = items.length === 0;
    }
}

function inWords(differences) {
    if (differences.length === 0) return { is: 'the same', words: 'Both hold the same points and the same triangles.', differences };
    const count = (what, side) => differences.filter((each) => each.what === what && each.side === side).length;
    const side = (name) => `${many(count('point', name), 'point')} and ${many(count('triangle', name), 'triangle')}`;
    const words = `${side('left')} only on screen, ${side('right')} only in the other.`;
    return { is: many(differences.length, 'difference'), words, differences };
}

/** A difference in the list: its number, and its coordinates or points. */
function lineOf({ what, side, number }, left, right) {
    const { vertices, indices } = side === 'left' ? left : right;
    const words = what === 'point' ? vertices : indices;
    return `${what} ${number}: ${[...words.subarray(3 * number, 3 * number + 3)].join(' ')}`;
}

function marksOf(differences, part, other) {
    const theirs = { ...part, ...other, corners: 3 };
    const of = (what, side, draw) =>
        differences.filter((each) => each.what === what && each.side === side).map(({ number }) => draw(number));
    return [
        {
            colour: 'left',
            triangles: of('triangle', 'left', (number) => placesOf(part, number)),
            points: of('point', 'left', (number) => placeOf(part, number)),
        },
        {
            colour: 'right',
            frames: of('triangle', 'right', (number) => placesOf(theirs, number)),
            rings: of('point', 'right', (number) => placeOf(theirs, number)),
        },
    ];
}
