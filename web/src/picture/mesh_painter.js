/** Painting meshes: fill, sides, outline, and where there is room the turns and the numbers of the points. */

import { paintEdgeLabels, paintNumbers } from './label_painter.js';
import { LabelRoom } from './label_room.js';
import { distance, pointsInside, polygon } from './shapes.js';
import { distinctSides, sidesInside } from './sides.js';
import { paintTurns } from './turn_painter.js';

const DOT_ROOM = 14; // the least middle distance of points that get a disc
const DENSE = 1500; // from so many sides or dots on, thin lines and squares, which are quick
const TOGETHER = 64; // triangles that are filled at once: more are slow, fewer too

/**
 * @param {CanvasRenderingContext2D} context
 * @param {import('./scene.js').Scene} scene
 * @param {Record<string, string>} colours
 * @param {(place: number[]) => number[]} toScreen
 * @param {import('./zoom.js').Size} size
 */
export function paintMesh(context, scene, colours, toScreen, size) {
    context.lineJoin = 'round';
    for (const part of scene.parts) {
        const corners = part.outline.map(toScreen);
        if (part.corners === 3) paintTriangles(context, part, corners, colours);
        paintOutline(context, part, corners, colours);
        if (part.corners === 2) paintLines(context, part.screen, part.indices, colours.accent, 1.5);
        paintPoints(context, part, colours, distance(corners[0], corners[1]));
    }
    paintLabels(context, scene.parts, colours, size);
    paintEdgeLabels(context, scene.edges, colours, toScreen, size);
}

/** Numbers and turns, of parts that have few points in the picture. */
function paintLabels(context, parts, colours, size) {
    const room = new LabelRoom();
    const labelled = parts.map((part) => ({ part, points: pointsInside(part.screen, size) })).filter(({ points }) => points.length > 0);
    for (const { part, points } of labelled) room.addPoints(part.screen, points);
    for (const { part, points } of labelled) paintNumbers(context, part, points, room, colours);
    for (const { part } of labelled) paintTurns(context, part, room, colours, size);
}

/** Strong around triangles; only hinted at where nothing is drawn, or where it is no line of the patch. */
function paintOutline(context, part, corners, colours) {
    const strong = part.corners === 3 && part.indices.length > 0;
    polygon(context, corners);
    context.strokeStyle = strong ? colours.outline : colours.soft;
    context.lineWidth = strong ? 2 : 1;
    context.setLineDash(strong ? [] : [2, 5]);
    context.stroke();
    context.setLineDash([]);
}

/**
 * The triangles of an accepted mesh cover the patch, as is proved, so its outline is filled; those of other meshes are filled one by one.
 *
 * @param {CanvasRenderingContext2D} context
 * @param {import('./scene.js').Part} part
 * @param {number[][]} corners
 * @param {Record<string, string>} colours
 */
function paintTriangles(context, { screen, indices, covers }, corners, colours) {
    context.fillStyle = colours.fill;
    if (covers) {
        polygon(context, corners);
        context.fill();
    } else {
        for (let at = 0; at < indices.length; at += 3 * TOGETHER) {
            context.beginPath();
            trianglePaths(context, screen, indices.subarray(at, at + 3 * TOGETHER));
            context.fill();
        }
    }
    const sides = covers ? sidesInside(indices) : distinctSides(indices);
    paintLines(context, screen, sides, colours.line, sides.length / 2 > DENSE ? 1 / devicePixelRatio : 1);
}

function trianglePaths(context, screen, indices) {
    for (let at = 0; at + 2 < indices.length; at += 3) {
        const a = 2 * indices[at];
        const b = 2 * indices[at + 1];
        const c = 2 * indices[at + 2];
        context.moveTo(screen[a], screen[a + 1]);
        context.lineTo(screen[b], screen[b + 1]);
        context.lineTo(screen[c], screen[c + 1]);
        context.closePath();
    }
}

/** Lines between pairs of points. */
function paintLines(context, screen, pairs, colour, width) {
    context.beginPath();
    for (let at = 0; at + 1 < pairs.length; at += 2) {
        const a = 2 * pairs[at];
        const b = 2 * pairs[at + 1];
        context.moveTo(screen[a], screen[a + 1]);
        context.lineTo(screen[b], screen[b + 1]);
    }
    context.strokeStyle = colour;
    context.lineWidth = width;
    context.stroke();
}

/**
 * @param {CanvasRenderingContext2D} context
 * @param {import('./scene.js').Part} part
 * @param {Record<string, string>} colours
 * @param {number} side the length of a side of the patch
 */
function paintPoints(context, { screen, corners }, colours, side) {
    const count = screen.length / 2;
    const apart = side / Math.sqrt(Math.max(1, count));
    if (apart < DOT_ROOM && corners !== 1) return;
    context.fillStyle = colours.outline;
    if (count > DENSE) paintSquares(context, screen, Math.min(5, Math.max(1, apart / 3)));
    else paintDiscs(context, screen, Math.min(2.6, apart / 5));
}

function paintDiscs(context, screen, radius) {
    context.beginPath();
    for (let at = 0; at < screen.length; at += 2) {
        context.moveTo(screen[at] + radius, screen[at + 1]);
        context.arc(screen[at], screen[at + 1], radius, 0, 2 * Math.PI);
    }
    context.fill();
}

function paintSquares(context, screen, size) {
    for (let at = 0; at < screen.length; at += 2) context.fillRect(screen[at] - size / 2, screen[at + 1] - size / 2, size, size);
}
