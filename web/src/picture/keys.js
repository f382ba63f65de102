/** Walking along points and primitives by arrow keys, for those who do not point. */

const STEPS = Object.freeze({
    ArrowRight: ['point', 1],
    ArrowLeft: ['point', -1],
    ArrowDown: ['primitive', 1],
    ArrowUp: ['primitive', -1],
});
const PRIMITIVES = Object.freeze({ 1: 'point', 2: 'line', 3: 'triangle' });

/**
 * @param {HTMLElement} element that has the focus
 * @param {object} on
 * @param {() => import('./scene.js').Scene} on.scene
 * @param {(found: object | undefined) => void} on.looked
 * @param {(found: object | undefined) => void} on.chosen
 */
export function followKeys(element, on) {
    const places = { point: -1, primitive: -1 };
    let found;

    element.addEventListener('keydown', (event) => {
        if (event.key === 'Enter' && found) on.chosen(found);
        if (event.shiftKey || !(event.key in STEPS)) return;
        event.preventDefault();
        const [what, way] = STEPS[event.key];
        const all = what === 'point' ? points(on.scene()) : primitives(on.scene());
        if (all.length === 0) return;
        // The first step back goes to the last one.
        const from = places[what] < 0 && way < 0 ? 0 : places[what];
        places[what] = (from + way + all.length) % all.length;
        found = all[places[what]];
        on.looked(found);
    });
    element.addEventListener('blur', () => on.looked(undefined));
}

/** All points of a scene, part by part. */
const points = ({ parts }) => parts.flatMap((part) => numbered(part, 'point', part.vertices.length / 3));

/** All triangles, lines or dots. */
const primitives = ({ parts }) => parts.flatMap((part) => numbered(part, PRIMITIVES[part.corners], part.indices.length / part.corners));

const numbered = (part, what, count) => Array.from({ length: Math.floor(count) }, (_, number) => ({ part, what, number }));
