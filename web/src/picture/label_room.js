/** Finds places for the numbers of points and for arrows, so that none covers another or a point. */

const CELL = 16;
const HEIGHT = 12;
const GAP = 5;

/** Where a number may be beside its point, as steps in x and y. */
const RIGHT = [[1, -1], [1, 1]];
const LEFT = [[-1, -1], [-1, 1]];

export class LabelRoom {
    #taken = new Map();

    /**
     * Points that nothing may cover.
     *
     * @param {Float32Array} screen x and y of each point
     * @param {number[]} points by number
     */
    addPoints(screen, points) {
        for (const point of points) {
            const [x, y] = [screen[2 * point], screen[2 * point + 1]];
            this.#add([x - 2, y - 2, x + 2, y + 2]);
        }
    }

    /**
     * The left end of a number beside a point, or undefined where it has no room.
     *
     * @param {number[]} point in pixels
     * @param {number} width
     * @param {boolean} onlyLeft
     * @returns {number[] | undefined}
     */
    takeBeside([x, y], width, onlyLeft) {
        for (const [right, down] of onlyLeft ? LEFT : [...RIGHT, ...LEFT]) {
            const left = right > 0 ? x + GAP : x - GAP - width;
            const middle = y + down * 8;
            if (this.#take([left - 1, middle - HEIGHT / 2, left + width + 1, middle + HEIGHT / 2])) return [left, middle];
        }
        return undefined;
    }

    /**
     * Whether a circle has room; it is taken then.
     *
     * @param {number[]} middle
     * @param {number} radius
     */
    takeCircle([x, y], radius) {
        return this.#take([x - radius, y - radius, x + radius, y + radius]);
    }

    #take(box) {
        const free = this.#isFree(box);
        if (free) this.#add(box);
        return free;
    }

    #cells([left, top, right, bottom]) {
        const found = [];
        for (let x = Math.floor(left / CELL); x <= Math.floor(right / CELL); x++) {
            for (let y = Math.floor(top / CELL); y <= Math.floor(bottom / CELL); y++) found.push(`${x} ${y}`);
        }
        return found;
    }

    #add(box) {
        for (const cell of this.#cells(box)) {
            if (!this.#taken.has(cell)) this.#taken.set(cell, []);
            this.#taken.get(cell).push(box);
        }
    }

    #isFree(box) {
        return this.#cells(box).every((cell) => (this.#taken.get(cell) ?? []).every((other) => !overlap(box, other)));
    }
}

const overlap = (one, other) => one[0] < other[2] && other[0] < one[2] && one[1] < other[3] && other[1] < one[3];
