/** The page at work: its state, its views, and one picture for all of them. */

import { Cutter } from './cutter.js';
import { h, newId, say } from './dom.js';
import { fromLink, toLink } from './link.js';
import { patchPanel } from './patch_panel.js';
import { followKeys } from './picture/keys.js';
import { Picture } from './picture/picture.js';
import { PointerInput } from './picture/pointer.js';
import { placeOf, placesOf } from './picture/scene.js';
import { followZoom } from './picture/zoom_input.js';
import { Questions } from './questions.js';
import { Shelf } from './shelf.js';
import { WHOLE } from './state.js';
import { tabs } from './tabs.js';
import { CheckView } from './views/check.js';
import { CompareView } from './views/compare.js';
import { DrawView } from './views/draw.js';
import { ReplayView } from './views/replay.js';
import { SeamView } from './views/seam.js';
import { TakeView } from './views/take.js';
import { foundInWords } from './words.js';

const VIEWS = [DrawView, SeamView, CheckView, CompareView, ReplayView, TakeView];
const LINK_DELAY = 300;
/** How long, in milliseconds, picture and words stay as they were together while an answer is worked out. */
const HOLD = 100;

const place = (name) => document.getElementById(name);

export class App {
    #views;
    #bar;
    #caption = h('figcaption', { 'aria-live': 'polite' });
    #panel = patchPanel((name, value, gesture) => this.setPatch(name, value, gesture));
    #scene = null;
    #marks = { view: [], edge: [], found: [] };
    #gesture = '';
    #drag = '';
    #isAsked = false; // whether a frame is asked for
    #painted = null; // the view that was painted last
    #waitsSince = 0;
    #holdTimer = 0;
    #linkTimer = 0;
    #hasFailed = false;

    /**
     * @param {import('../../js/index.js').Yoktvarim} yoktvarim
     * @param {Uint8Array} bytes of the module
     */
    constructor(yoktvarim, bytes) {
        this.yoktvarim = yoktvarim;
        this.cutter = new Cutter(yoktvarim);
        this.shelf = new Shelf(this);
        this.questions = new Questions(bytes, () => this.render());
        this.picture = new Picture();
        this.#views = VIEWS.map((View) => new View(this));
        this.#bar = tabs(this.#views, (name) => this.#open(name));
        document.querySelector('header').append(this.#bar.element);
        place('picture').append(this.picture.frame, this.#caption);
        this.#follow();
        this.#readLink();
        this.render();
    }

    /** The address of the page in its present state. */
    link() {
        return `${location.href.split('#')[0]}#${toLink(this.state)}`;
    }

    /**
     * A level of the patch on screen, for a drag.
     *
     * @param {'outer' | 'inner'} group
     * @param {number} at
     */
    level = (group, at) => ({
        get: () => this.state.patch[group][at],
        set: (level) => this.setPatch([group, at], level, this.#drag),
    });

    /**
     * Changes the state. Changes of one gesture have one name.
     *
     * @param {(state: ReturnType<typeof import('./state.js').newState>) => void} mutate
     * @param {string} [gesture]
     */
    change(mutate, gesture = newId()) {
        mutate(this.state);
        this.#gesture = gesture;
        this.redraw();
    }

    /** Changes the patch on screen: a setting by name, or a level by group and place. */
    setPatch(name, value, gesture) {
        this.change((state) => {
            if (name === 'kind') state.zoom = { ...WHOLE };
            if (Array.isArray(name)) state.patch[name[0]][name[1]] = value;
            else state.patch[name] = value;
        }, gesture);
    }

    /** Draws anew with the next frame, once however often it is asked for. */
    redraw() {
        if (this.#isAsked) return;
        this.#isAsked = true;
        requestAnimationFrame(() => {
            this.#isAsked = false;
            this.render();
        });
    }

    /** Draws anew at once. */
    render() {
        if (this.#hasFailed) return;
        try {
            this.#render();
        } catch (error) {
            this.fail(error);
            throw error;
        }
    }

    /** Shows why the page cannot go on, and nothing else, so that no answer is left that may be out of date. */
    fail(error) {
        this.#hasFailed = true;
        document.querySelector('main').hidden = true;
        notice(`The program inside the page stopped: ${error?.message ?? error}. Load the page again.`);
    }

    #view() {
        return this.#views.find(({ name }) => name === this.state.view);
    }

    #render() {
        const begun = performance.now();
        this.cutter.cut(this.state.patch, this.#gesture);
        this.#panel.show(this.state.patch);
        const view = this.#view();
        const look = view.look();
        place('words').setAttribute('aria-busy', String(Boolean(look.waiting)));
        if (this.#isHeld(view, look)) return;
        this.#paint(view, look);
        view.timed?.(performance.now() - begun);
    }

    /** Whether the last picture stays a little longer with its own words, since the answer to the new one is not there yet. */
    #isHeld(view, { waiting }) {
        clearTimeout(this.#holdTimer);
        if (!waiting) this.#waitsSince = 0;
        if (!waiting || view !== this.#painted) return false;
        const now = performance.now();
        this.#waitsSince ||= now;
        const left = this.#waitsSince + HOLD - now;
        if (left <= 0) return false;
        this.#holdTimer = setTimeout(() => this.render(), left);
        return true;
    }

    #paint(view, { scene, marks, report }) {
        this.#painted = view;
        this.#bar.show(view.name);
        document.querySelector('main').dataset.view = view.name;
        put('controls', view.controls ?? this.#panel.element);
        put('words', view.words);
        report();
        this.#scene = scene;
        this.#marks = { view: marks, edge: [], found: [] };
        this.picture.show(scene, this.state.zoom);
        say(this.#caption, view.hint);
        this.#showMarks();
        this.picture.describe(scene);
        clearTimeout(this.#linkTimer);
        this.#linkTimer = setTimeout(() => history.replaceState(null, '', this.link()), LINK_DELAY);
    }

    /** Opens a view. The zoom stays where the picture is the same. */
    #open(name) {
        const [from, to] = [this.state.view, name].map((each) => this.#views.find((view) => view.name === each));
        this.change((state) => {
            state.view = name;
            if (from.ownPicture || to.ownPicture) state.zoom = { ...WHOLE };
        });
    }

    #readLink() {
        const { state, unread } = fromLink(location.hash.slice(1), this.#views.map(({ name }) => name));
        this.state = state;
        const parts = unread.map((each) => `“${each}”`).join(', ');
        const values = unread.length === 1 ? 'this value is' : 'these values are';
        notice(parts && `The link has ${parts}, which cannot be read; ${values} as in a new page.`);
    }

    #follow() {
        const looking = {
            scene: () => this.#scene,
            looked: (found) => this.#looked(found),
            chosen: (found) => this.#view().chosen?.(found),
            zoom: () => this.state.zoom,
            moved: (zoom) => this.change((state) => (state.zoom = zoom), this.#gesture),
        };
        followKeys(this.picture.element, looking);
        followZoom(this.picture, looking);
        new PointerInput(this.picture, {
            ...looking,
            reached: (edge) => this.#reached(edge),
            began: () => (this.#drag = newId()),
        });
        addEventListener('hashchange', () => {
            this.#readLink();
            this.redraw();
        });
        addEventListener('dragover', (event) => event.preventDefault());
        addEventListener('drop', (event) => {
            event.preventDefault();
            const [file] = event.dataTransfer.files;
            if (file) this.#view().dropped?.(file);
        });
    }

    #looked(found) {
        this.#marks.found = found ? [markOf(found)] : [];
        say(this.#caption, found ? foundInWords(found) : this.#view().hint);
        this.#showMarks();
    }

    #reached(edge) {
        this.#marks.edge = edge ? [{ colour: 'accent', lines: [[edge.from, edge.to]] }] : [];
        this.#showMarks();
    }

    #showMarks() {
        const { view, edge, found } = this.#marks;
        this.picture.mark([...view, ...edge, ...found]);
    }
}

/** Shows one sentence above everything, or hides it. */
export function notice(text) {
    const line = place('notice');
    say(line, text);
    line.hidden = text === '';
}

/** Puts one element into a place of the page. */
function put(name, element) {
    const there = place(name);
    if (there.firstElementChild !== element) there.replaceChildren(element);
}

function markOf({ part, what, number }) {
    if (what === 'point') return { colour: 'accent', rings: [placeOf(part, number)] };
    const places = placesOf(part, number);
    return what === 'triangle' ? { colour: 'accent', triangles: [places] } : { colour: 'accent', lines: [places] };
}
