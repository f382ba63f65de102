/** The picture: a canvas for the meshes and one over it for marks, so that a mark needs no new painting of the mesh. */

import { h } from '../dom.js';
import { WHOLE } from '../state.js';
import { paintMarks } from './marks.js';
import { paintMesh } from './mesh_painter.js';
import { centred, fitOf } from './zoom.js';
import { ZoomButtons } from './zoom_buttons.js';

const PADDING = 46;
const COLOURS = ['card', 'ink', 'soft', 'fill', 'line', 'outline', 'accent', 'fault', 'left', 'right'];

export class Picture {
    #below = h('canvas', { 'aria-hidden': 'true' });
    #above = h('canvas', { 'aria-hidden': 'true' });
    /** @type {import('./scene.js').Scene | null} */
    #scene = null;
    /** @type {import('./marks.js').Mark[]} */
    #marks = [];
    /** @type {Record<string, string>} */
    #colours = {};

    size = { width: 0, height: 0 };
    /** @type {import('./zoom.js').Zoom} */
    zoom = WHOLE;
    buttons = new ZoomButtons();
    /** What takes pointers and keys. */
    element = h('div', { class: 'surface', role: 'application', tabindex: '0' }, this.#below, this.#above);

    constructor() {
        this.frame = h('div', { class: 'canvas' }, this.element, this.buttons.element);
        new ResizeObserver(() => this.#resized()).observe(this.frame);
        matchMedia('(prefers-color-scheme: dark)').addEventListener('change', () => this.#recoloured());
    }

    /**
     * Paints a scene: the box of the plane that it shows, its parts and its edges.
     *
     * @param {import('./scene.js').Scene} scene
     * @param {import('./zoom.js').Zoom} zoom
     */
    show(scene, zoom) {
        this.#scene = scene;
        this.zoom = zoom;
        this.buttons.show(zoom.by);
        if (!this.#colours.ink) this.#readColours();
        if (this.size.width > 0) this.#paint();
    }

    /** @param {import('./marks.js').Mark[]} marks */
    mark(marks) {
        this.#marks = marks;
        if (this.size.width > 0) this.#paintMarks();
    }

    /**
     * Describes a scene for those who do not see it.
     *
     * @param {import('./scene.js').Scene} scene
     */
    describe({ parts }) {
        const counts = parts.map(({ vertices, indices, corners }) => {
            const primitives = ['', 'dots', 'lines', 'triangles'][corners];
            return `${vertices.length / 3} points and ${Math.floor(indices.length / corners)} ${primitives}`;
        });
        const keys = 'Arrow keys go from point to point and from triangle to triangle, plus and minus zoom, Shift with arrows moves';
        this.element.setAttribute('aria-label', `Picture of ${counts.join(', beside ')}. ${keys}.`);
    }

    /** Where a place of the plane is, in pixels. */
    toScreen = ([x, y]) => {
        const { scale, left, bottom } = this.#fit();
        return [left + scale * x, bottom - scale * y];
    };

    /** The zoom that has a place of the plane in the middle. */
    zoomOn(place, by) {
        return centred(this.zoom, by, this.toScreen(place), this.size);
    }

    /** Where the pointer is, in pixels of the picture. */
    at(event) {
        const box = this.element.getBoundingClientRect();
        return [event.clientX - box.left, event.clientY - box.top];
    }

    #fit() {
        const { box } = this.#scene;
        const { width, height } = this.size;
        const wide = box.right - box.left;
        const high = box.top - box.bottom;
        const scale = Math.min((width - 2 * PADDING) / wide, (height - 2 * PADDING) / high);
        const left = (width - scale * wide) / 2 - scale * box.left;
        const bottom = (height + scale * high) / 2 + scale * box.bottom;
        return fitOf({ scale, left, bottom }, this.zoom, this.size);
    }

    #paint() {
        const context = this.#cleared(this.#below);
        const fit = this.#fit();
        for (const part of this.#scene.parts) part.screen = screenOf(part, fit);
        paintMesh(context, this.#scene, this.#colours, this.toScreen, this.size);
        this.#paintMarks();
    }

    #paintMarks() {
        paintMarks(this.#cleared(this.#above), this.#marks, this.#colours, this.toScreen);
    }

    #cleared(canvas) {
        const context = canvas.getContext('2d');
        context.setTransform(devicePixelRatio, 0, 0, devicePixelRatio, 0, 0);
        context.clearRect(0, 0, this.size.width, this.size.height);
        return context;
    }

    #resized() {
        const { clientWidth: width, clientHeight: height } = this.element;
        this.size = { width, height };
        for (const canvas of [this.#below, this.#above]) {
            canvas.width = Math.round(width * devicePixelRatio);
            canvas.height = Math.round(height * devicePixelRatio);
        }
        if (this.#scene && width > 0) this.#paint();
    }

    #recoloured() {
        this.#readColours();
        if (this.#scene && this.size.width > 0) this.#paint();
    }

    #readColours() {
        const style = getComputedStyle(document.documentElement);
        this.#colours = Object.fromEntries(COLOURS.map((name) => [name, style.getPropertyValue(`--${name}`).trim()]));
    }
}

/** The pixels of all points of a part, x and y each. */
function screenOf({ vertices, place }, { scale, left, bottom }) {
    const count = Math.floor(vertices.length / 3);
    const screen = new Float32Array(2 * count);
    for (let point = 0; point < count; point++) {
        const [x, y] = place(vertices[3 * point], vertices[3 * point + 1]);
        screen[2 * point] = left + scale * x;
        screen[2 * point + 1] = bottom - scale * y;
    }
    return screen;
}
