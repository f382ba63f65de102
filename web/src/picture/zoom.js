/**
 * The zoom of the picture: how many times larger than the whole it is, and which place of the whole is in the middle, in parts of the
 * picture's width and height.
 *
 * @typedef {{by: number, x: number, y: number}} Zoom
 * @typedef {{width: number, height: number}} Size
 */

const MOST = 32;

/** @param {number} least @param {number} value @param {number} most */
const between = (least, value, most) => Math.min(most, Math.max(least, value));

/** The zoom without what lies outside of the whole. */
function inside({ by, x, y }) {
    const half = 0.5 / by;
    return { by, x: between(half, x, 1 - half), y: between(half, y, 1 - half) };
}

/**
 * Larger or smaller by a factor, with the place under a pixel left where it is.
 *
 * @param {Zoom} zoom
 * @param {number} factor
 * @param {number[]} at
 * @param {Size} size
 */
export function zoomed({ by, x, y }, factor, [right, down], { width, height }) {
    const next = between(1, by * factor, MOST);
    const share = 1 / by - 1 / next;
    return inside({ by: next, x: x + (right / width - 0.5) * share, y: y + (down / height - 0.5) * share });
}

/**
 * With the place under a pixel in the middle, as near to it as the border of the whole allows.
 *
 * @param {Zoom} zoom
 * @param {number} by
 * @param {number[]} at
 * @param {Size} size
 */
export const centred = (zoom, by, [right, down], { width, height }) =>
    inside({ by, x: zoom.x + (right / width - 0.5) / zoom.by, y: zoom.y + (down / height - 0.5) / zoom.by });

/**
 * Moved by pixels.
 *
 * @param {Zoom} zoom
 * @param {number[]} by
 * @param {Size} size
 */
export const panned = (zoom, [right, down], { width, height }) =>
    inside({ by: zoom.by, x: zoom.x - right / width / zoom.by, y: zoom.y - down / height / zoom.by });

/**
 * Where the plane is in the picture, for a zoom: pixels of a unit, and the pixel of the plane's origin.
 *
 * @param {{scale: number, left: number, bottom: number}} whole
 * @param {Zoom} zoom
 * @param {Size} size
 */
export function fitOf({ scale, left, bottom }, { by, x, y }, { width, height }) {
    return { scale: by * scale, left: width / 2 + by * (left - x * width), bottom: height / 2 + by * (bottom - y * height) };
}
