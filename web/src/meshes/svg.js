/** A mesh as an SVG file. */

const SIZE = 1000;
const MARGIN = 20;

/**
 * @param {import('../picture/scene.js').Scene} scene with one part
 * @returns {string}
 */
export function svgOf({ box, parts: [part] }) {
    const place = (/** @type {number[]} */ [x, y]) => `${round(MARGIN + SIZE * (x - box.left))} ${round(MARGIN + SIZE * (box.top - y))}`;
    const at = (point) => place(part.place(part.vertices[3 * point], part.vertices[3 * point + 1]));
    const width = round(2 * MARGIN + SIZE * (box.right - box.left));
    const height = round(2 * MARGIN + SIZE * (box.top - box.bottom));
    const outline = `M${part.outline.map(place).join('L')}Z`;
    return [
        `<svg xmlns="http://www.w3.org/2000/svg" viewBox="0 0 ${width} ${height}" stroke-linejoin="round" stroke-linecap="round">`,
        `<path d="${primitives(part, at)}" ${LOOKS[part.corners]}/>`,
        `<path d="${outline}" fill="none" stroke="#1d2b3a" stroke-width="${part.corners === 3 ? 4 : 1}"/>`,
        '</svg>',
        '',
    ].join('\n');
}

const LOOKS = Object.freeze({
    1: 'fill="none" stroke="#1d2b3a" stroke-width="6"',
    2: 'fill="none" stroke="#2f62b5" stroke-width="2.5"',
    3: 'fill="#dfe9f7" stroke="#5c7fae" stroke-width="1"',
});

const round = (number) => Math.round(number * 100) / 100;

function primitives({ indices, corners }, at) {
    let path = '';
    for (let from = 0; from < indices.length; from += corners) {
        const places = Array.from(indices.subarray(from, from + corners), at);
        path += corners === 1 ? `M${places[0]}h0` : `M${places.join('L')}${corners === 3 ? 'Z' : ''}`;
    }
    return path;
}
