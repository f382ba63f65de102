/** Painting which way triangles turn. */

import { distance, isInside, pointAt, polygon } from './shapes.js';

const ARROW_ROOM = 13; // the least radius of a circle inside a triangle that gets an arrow

/**
 * An arrow around the middle of each triangle that has room for one, of a mesh whose points have numbers in the picture.
 *
 * @param {CanvasRenderingContext2D} context
 * @param {import('./scene.js').Part} part
 * @param {import('./label_room.js').LabelRoom} room
 * @param {Record<string, string>} colours
 * @param {import('./zoom.js').Size} size
 */
export function paintTurns(context, { screen, indices, corners }, room, colours, size) {
    if (corners !== 3) return;
    context.strokeStyle = colours.soft;
    context.fillStyle = colours.soft;
    context.lineWidth = 1;
    for (let at = 0; at + 2 < indices.length; at += 3) {
        const [a, b, c] = [pointAt(screen, indices[at]), pointAt(screen, indices[at + 1]), pointAt(screen, indices[at + 2])];
        const around = distance(a, b) + distance(b, c) + distance(c, a);
        const area = (b[0] - a[0]) * (c[1] - a[1]) - (c[0] - a[0]) * (b[1] - a[1]);
        const radius = Math.abs(area) / around;
        if (!(radius >= ARROW_ROOM)) continue;
        const middle = inCentre(a, b, c);
        const arrow = Math.min(0.4 * radius, 13);
        if (isInside(middle, size) && room.takeCircle(middle, arrow)) turn(context, middle, arrow, area < 0);
    }
}

/** The middle of the circle inside a triangle. */
function inCentre(a, b, c) {
    const [opposite, next, last] = [distance(b, c), distance(c, a), distance(a, b)];
    const all = opposite + next + last;
    return [0, 1].map((axis) => (opposite * a[axis] + next * b[axis] + last * c[axis]) / all);
}

/**
 * Three quarters of a circle with a head.
 *
 * @param {CanvasRenderingContext2D} context
 * @param {number[]} middle
 * @param {number} radius
 * @param {boolean} counterClockwise
 */
function turn(context, [x, y], radius, counterClockwise) {
    const way = counterClockwise ? -1 : 1;
    const from = Math.PI / 2 + way * 0.9;
    const to = from + way * 4.6;
    context.beginPath();
    context.arc(x, y, radius, from, to, counterClockwise);
    context.stroke();
    const [tipX, tipY] = [x + radius * Math.cos(to), y + radius * Math.sin(to)];
    const [alongX, alongY] = [-way * Math.sin(to), way * Math.cos(to)];
    const [outX, outY] = [Math.cos(to), Math.sin(to)];
    polygon(context, [
        [tipX + 4.5 * alongX, tipY + 4.5 * alongY],
        [tipX + 2.6 * outX, tipY + 2.6 * outY],
        [tipX - 2.6 * outX, tipY - 2.6 * outY],
    ]);
    context.fill();
}
