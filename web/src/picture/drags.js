/** The drags on the picture: of levels, of the picture itself, and of two fingers. */

import { tidy } from '../levels.js';
import { distance } from './shapes.js';
import { panned, zoomed } from './zoom.js';

const DOUBLING = 60; // pixels of a drag that double a level
const FINE = 8; // how much slower a drag with Shift is
const LEAST = 1;
const MOST = 64;

const startOf = (level) => (level >= LEAST ? Math.min(level, MOST) : LEAST);
const dragged = (from, by) => tidy(Math.min(MOST, Math.max(LEAST, from * 2 ** (by / DOUBLING))));

/** Outwards on an edge, and to the right or upwards inside a patch, is more. */
export class DragOfLevels {
    #moves;

    /**
     * @param {import('./scene.js').Edge | undefined} edge
     * @param {import('./scene.js').Part | undefined} part the one inside, where there is no edge
     */
    constructor(edge, part) {
        this.#moves = edge ? alongEdge(edge) : insidePart(part);
    }

    moved([right, down], isFine) {
        const slow = isFine ? FINE : 1;
        for (const move of this.#moves) move(right / slow, -down / slow);
    }
}

/** @param {import('./scene.js').Edge} edge */
function alongEdge({ level, away }) {
    const from = startOf(level.get());
    return [(right, up) => level.set(dragged(from, right * away[0] + up * away[1]))];
}

/** @param {import('./scene.js').Part} part */
function insidePart({ across, up }) {
    const [acrossFrom, upFrom] = [startOf(across.get()), startOf(up.get())];
    if (across === up) return [(right, over) => across.set(dragged(acrossFrom, right + over))];
    return [(right) => across.set(dragged(acrossFrom, right)), (_, over) => up.set(dragged(upFrom, over))];
}

/** The picture follows the pointer. */
export class MoveOfPicture {
    #picture;
    #from;

    /** @param {import('./picture.js').Picture} picture */
    constructor(picture) {
        this.#picture = picture;
        this.#from = picture.zoom;
    }

    moved(by) {
        return this.#from.by > 1 ? panned(this.#from, by, this.#picture.size) : undefined;
    }
}

/** The picture follows two fingers: it grows as they part, and moves with the middle between them. */
export class Pinch {
    #picture;
    #from;
    #places;

    /**
     * @param {import('./picture.js').Picture} picture
     * @param {number[][]} places
     */
    constructor(picture, places) {
        this.#picture = picture;
        this.#from = picture.zoom;
        this.#places = places.map((place) => [...place]);
    }

    moved(_by, _isFine, places) {
        if (places.length < 2) return undefined;
        const [before, now] = [middleOf(this.#places), middleOf(places)];
        const factor = distance(places[0], places[1]) / Math.max(1, distance(this.#places[0], this.#places[1]));
        const larger = zoomed(this.#from, factor, before, this.#picture.size);
        return panned(larger, [now[0] - before[0], now[1] - before[1]], this.#picture.size);
    }
}

const middleOf = ([[ax, ay], [bx, by]]) => [(ax + bx) / 2, (ay + by) / 2];

/**
 * The cursor for a way, by the nearest of four.
 *
 * @param {number[]} away
 */
export function cursorOf([x, y]) {
    const angle = (Math.atan2(y, x) * 180) / Math.PI;
    const quarter = Math.round((((angle % 180) + 180) % 180) / 45) % 4;
    return ['ew-resize', 'nesw-resize', 'ns-resize', 'nwse-resize'][quarter];
}
