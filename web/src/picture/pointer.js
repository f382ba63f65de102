/** What mouse and fingers do on the picture: drag levels, move and zoom, look at what is under them, and choose it. */

import { cursorOf, DragOfLevels, MoveOfPicture, Pinch } from './drags.js';
import { edgeAt, find, partAt } from './finder.js';

const STILL = 4; // a press that moves fewer pixels is a choice, not a drag

/**
 * @typedef {object} On
 * @property {() => import('./scene.js').Scene} scene
 * @property {(found: object | undefined) => void} looked
 * @property {(found: object | undefined) => void} chosen
 * @property {(edge: object | undefined) => void} reached an edge that can be dragged from here
 * @property {(zoom: import('./zoom.js').Zoom) => void} moved
 * @property {() => void} began a drag of a level
 */

export class PointerInput {
    #picture;
    /** @type {On} */
    #on;
    /** The pointers that are down, each with its place. @type {Map<number, number[]>} */
    #down = new Map();
    #drag = null;
    #from = [0, 0];
    #hasMoved = false;

    /**
     * @param {import('./picture.js').Picture} picture
     * @param {On} on
     */
    constructor(picture, on) {
        this.#picture = picture;
        this.#on = on;
        const { element } = picture;
        element.addEventListener('pointerdown', (event) => this.#pressed(event));
        element.addEventListener('pointermove', (event) => this.#moved(event));
        element.addEventListener('pointerup', (event) => this.#released(event));
        element.addEventListener('pointercancel', (event) => this.#dropped(event));
        element.addEventListener('pointerleave', () => this.#left());
        element.addEventListener('contextmenu', (event) => picture.zoom.by > 1 && event.preventDefault());
    }

    #pressed(event) {
        const at = this.#picture.at(event);
        this.#down.set(event.pointerId, at);
        this.#picture.element.setPointerCapture(event.pointerId);
        this.#from = at;
        this.#hasMoved = this.#down.size > 1;
        this.#drag = this.#down.size > 1 ? new Pinch(this.#picture, this.#places()) : this.#dragAt(at, event.button);
        if (this.#down.size > 1) this.#on.looked(undefined);
    }

    /** A drag of the edge or of the inside of a patch; beside it, or with another button, of the whole picture. */
    #dragAt(at, button) {
        const scene = this.#on.scene();
        const edge = edgeAt(scene, at, this.#picture.toScreen);
        const part = partAt(scene, at, this.#picture.toScreen);
        const levels = button === 0 && (edge || part?.across);
        return levels ? new DragOfLevels(edge, part) : new MoveOfPicture(this.#picture);
    }

    #moved(event) {
        const at = this.#picture.at(event);
        if (!this.#drag) {
            this.#look(at);
            return;
        }
        this.#down.set(event.pointerId, at);
        const by = [at[0] - this.#from[0], at[1] - this.#from[1]];
        if (!this.#hasMoved && Math.hypot(...by) < STILL) return;
        if (!this.#hasMoved) {
            this.#hasMoved = true;
            this.#on.looked(undefined);
            if (this.#drag instanceof DragOfLevels) this.#on.began();
        }
        const zoom = this.#drag.moved(by, event.shiftKey, this.#places());
        if (zoom) this.#on.moved(zoom);
    }

    #released(event) {
        const isChoice = this.#drag && !this.#hasMoved && event.button === 0;
        this.#dropped(event);
        if (isChoice) this.#on.chosen(find(this.#on.scene(), this.#picture.at(event)));
    }

    #dropped(event) {
        this.#down.delete(event.pointerId);
        this.#drag = null;
    }

    #left() {
        if (this.#drag) return;
        this.#on.looked(undefined);
        this.#on.reached(undefined);
    }

    #look(at) {
        const scene = this.#on.scene();
        const edge = edgeAt(scene, at, this.#picture.toScreen);
        this.#on.reached(edge);
        this.#on.looked(find(scene, at));
        const part = partAt(scene, at, this.#picture.toScreen);
        this.#picture.element.style.cursor = edge ? cursorOf(edge.away) : part?.across ? 'move' : 'default';
    }

    #places() {
        return [...this.#down.values()];
    }
}
