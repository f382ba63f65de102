/** Zooming by wheel, buttons and keys. Pinching is in pointer.js, with all that fingers do. */

import { panned, zoomed } from './zoom.js';

const STEP = 1.5;
const KEYS = Object.freeze({ '+': STEP, '=': STEP, '-': 1 / STEP, '_': 1 / STEP, 0: 0 });
const PANS = Object.freeze({ ArrowLeft: [1, 0], ArrowRight: [-1, 0], ArrowUp: [0, 1], ArrowDown: [0, -1] });
const PAN_STEP = 60;
const LINE = 16; // pixels of a line, where a wheel counts lines

/**
 * @param {import('./picture.js').Picture} picture
 * @param {{zoom: () => import('./zoom.js').Zoom, moved: (zoom: import('./zoom.js').Zoom) => void}} on
 */
export function followZoom(picture, on) {
    const { element } = picture;
    const middle = () => [picture.size.width / 2, picture.size.height / 2];
    const zoom = (factor, at = middle()) => on.moved(zoomed(on.zoom(), factor, at, picture.size));

    element.addEventListener(
        'wheel',
        (event) => {
            event.preventDefault();
            const pixels = event.deltaMode === 0 ? event.deltaY : LINE * event.deltaY;
            // A trackpad reports a pinch as small steps of a wheel with Ctrl.
            zoom(2 ** (-pixels / (event.ctrlKey ? 60 : 300)), picture.at(event));
        },
        { passive: false },
    );
    element.addEventListener('keydown', (event) => {
        if (event.ctrlKey || event.metaKey || event.altKey) return;
        if (event.shiftKey && event.key in PANS) {
            event.preventDefault();
            on.moved(panned(on.zoom(), PANS[event.key].map((each) => PAN_STEP * each), picture.size));
        } else if (event.key in KEYS) {
            event.preventDefault();
            zoom(KEYS[event.key]);
        }
    });
    picture.buttons.onZoom((way) => zoom(way === 0 ? 0 : STEP ** way));
}
