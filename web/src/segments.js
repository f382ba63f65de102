/**
 * n and L of each level, for the words beside the picture only: no mesh and no answer depends on them. The library's calls do not hand
 * them out. They follow the section "From a level to segments" of docs/rules.md; tests/page compares them with the points that are drawn.
 */

const UNIT = 65536;

/** The least number of segments of each spacing, and the low end of its range. */
const LEAST = Object.freeze({ equal: 1, 'fractional even': 2, 'fractional odd': 1 });

/**
 * @param {{kind: string, spacing: string, top: number, outer: number[], inner: number[]}} patch one that is drawn
 * @param {{outer: readonly string[], inner: readonly string[]}} names of the levels that count
 * @returns {{outer: {n: number, L: number}[], inner: {n: number, L: number}[]}}
 */
export function segmentsOf({ kind, spacing, top, outer, inner }, names) {
    // The number of isolines has equal spacing whatever is asked for.
    const spacingOf = (at) => (kind === 'isolines' && at === 0 ? 'equal' : spacing);
    const outside = names.outer.map((_, at) => rounded(scaled(outer[at], spacingOf(at), top), spacingOf(at)));
    const inside = names.inner.map((_, at) => rounded(scaled(inner[at], spacing, top), spacing));
    const plain = [...outside, ...inside].every(({ n }) => n === 1);
    const raised = inside.map((each) => (each.n === 1 && !plain ? rounded(UNIT + 1, spacing) : each));
    return { outer: outside, inner: raised };
}

/** The clamped level in parts of 1 / 65,536, rounded up; a NaN takes the low end. */
function scaled(level, spacing, top) {
    const high = spacing === 'fractional odd' ? top - 1 : top;
    const clamped = level >= LEAST[spacing] ? Math.min(level, high) : LEAST[spacing];
    return Math.ceil(clamped * UNIT);
}

/** The least count of the spacing's kind that is not below L, and L. */
function rounded(L, spacing) {
    const step = spacing === 'equal' ? 1 : 2;
    const least = LEAST[spacing];
    const n = least + step * Math.max(0, Math.ceil((L / UNIT - least) / step));
    return { n, L: spacing === 'equal' ? UNIT * n : L };
}
