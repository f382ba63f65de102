/** Painting the numbers of points, and the names and levels of edges. */

import { font, pointAt } from './shapes.js';

const LABEL_AWAY = 31; // from an edge to its label
const LABEL_MARGIN = 14; // from the border of the picture to the middle of a label
const LABEL_LENGTH = 40; // the least length of what is in the picture of an edge with a label

/**
 * The numbers of points, each where no other number and no other point is.
 *
 * @param {CanvasRenderingContext2D} context
 * @param {import('./scene.js').Part} part
 * @param {number[]} points
 * @param {import('./label_room.js').LabelRoom} room
 * @param {Record<string, string>} colours
 */
export function paintNumbers(context, { screen, numbersLeft = false }, points, room, colours) {
    context.font = font(11);
    context.textBaseline = 'middle';
    context.textAlign = 'left';
    context.lineWidth = 3;
    context.strokeStyle = colours.card;
    context.fillStyle = colours.ink;
    for (const point of points) {
        const text = String(point);
        const place = room.takeBeside(pointAt(screen, point), context.measureText(text).width, numbersLeft);
        if (!place) continue;
        const [left, middle] = place;
        context.strokeText(text, left, middle);
        context.fillText(text, left, middle);
    }
}

/**
 * The name and the level of each outer edge, on the outer side at the middle of what is in the picture of it.
 *
 * @param {CanvasRenderingContext2D} context
 * @param {import('./scene.js').Edge[]} edges
 * @param {Record<string, string>} colours
 * @param {(place: number[]) => number[]} toScreen
 * @param {import('./zoom.js').Size} size
 */
export function paintEdgeLabels(context, edges, colours, toScreen, size) {
    context.font = font(12);
    context.textAlign = 'center';
    context.textBaseline = 'middle';
    context.lineWidth = 4;
    context.strokeStyle = colours.card;
    context.fillStyle = colours.soft;
    for (const { from, to, away, label } of edges) {
        const ends = [from, to].map((end) => {
            const [x, y] = toScreen(end);
            return [x + LABEL_AWAY * away[0], y - LABEL_AWAY * away[1]];
        });
        const seen = clipped(ends, size);
        if (!seen || label === '') continue;
        const [[ax, ay], [bx, by]] = seen;
        context.save();
        context.translate((ax + bx) / 2, (ay + by) / 2);
        context.rotate(upright(Math.atan2(by - ay, bx - ax)));
        context.strokeText(label, 0, 0);
        context.fillText(label, 0, 0);
        context.restore();
    }
}

/** The angle at which a text along a line is not upside down. */
function upright(angle) {
    if (angle > Math.PI / 2 - 0.01) return angle - Math.PI;
    return angle < -Math.PI / 2 - 0.01 ? angle + Math.PI : angle;
}

/** The part of a line that is inside the picture, with a margin; null where it is too short for a label. */
function clipped([[ax, ay], [bx, by]], { width, height }) {
    let [from, to] = [0, 1];
    for (const [start, way, most] of [
        [ax, bx - ax, width],
        [ay, by - ay, height],
    ]) {
        const [low, high] = [LABEL_MARGIN - start, most - LABEL_MARGIN - start];
        if (way === 0 && (low > 0 || high < 0)) return null;
        if (way === 0) continue;
        from = Math.max(from, Math.min(low / way, high / way));
        to = Math.min(to, Math.max(low / way, high / way));
    }
    if ((to - from) * Math.hypot(bx - ax, by - ay) < LABEL_LENGTH) return null;
    return [from, to].map((part) => [ax + part * (bx - ax), ay + part * (by - ay)]);
}
