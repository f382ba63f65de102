/** Small things that painters share. */

/**
 * @param {CanvasRenderingContext2D} context
 * @param {number[][]} places
 */
export function polygon(context, places) {
    context.beginPath();
    places.forEach(([x, y], at) => (at === 0 ? context.moveTo(x, y) : context.lineTo(x, y)));
    context.closePath();
}

/**
 * @param {number[]} one
 * @param {number[]} other
 */
export const distance = ([ax, ay], [bx, by]) => Math.hypot(ax - bx, ay - by);

/**
 * The pixels of a point.
 *
 * @param {Float32Array} screen x and y of each point
 * @param {number} point
 */
export const pointAt = (screen, point) => [screen[2 * point], screen[2 * point + 1]];

/** @param {number} size */
export const font = (size) => `${size}px ui-sans-serif, system-ui, "Liberation Sans", sans-serif`;

/**
 * Whether a place is in the picture.
 *
 * @param {number[]} place
 * @param {import('./zoom.js').Size} size
 */
export const isInside = ([x, y], { width, height }) => x >= 0 && x <= width && y >= 0 && y <= height;

/** So many points or triangles get numbers and arrows; of more, none has room. */
const NUMBERED = 700;

/**
 * The points that are in the picture, by number; none where there are too many for numbers.
 *
 * @param {Float32Array} screen
 * @param {import('./zoom.js').Size} size
 * @returns {number[]}
 */
export function pointsInside(screen, size) {
    const found = [];
    for (let point = 0; 2 * point < screen.length; point++) {
        if (isInside(pointAt(screen, point), size)) found.push(point);
        if (found.length > NUMBERED) return [];
    }
    return found;
}
