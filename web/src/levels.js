/** Levels as people write them: any 32-bit float, NaN and the infinities too. */

const WORDS = new Map([
    ['nan', NaN],
    ['inf', Infinity],
    ['+inf', Infinity],
    ['infinity', Infinity],
    ['∞', Infinity],
    ['-inf', -Infinity],
    ['-infinity', -Infinity],
    ['-∞', -Infinity],
]);
const NUMBER = /^[+-]?(\d+\.?\d*|\.\d+)(e[+-]?\d+)?$/i;

/**
 * The level of a text, rounded to 32 bits; undefined where the text is not a number.
 *
 * @param {string} text
 */
export function readLevel(text) {
    const plain = text.trim().replace('−', '-').toLowerCase();
    if (WORDS.has(plain)) return WORDS.get(plain);
    return NUMBER.test(plain) ? Math.fround(Number(plain)) : undefined;
}

/**
 * The shortest text of a level that reads back as the same float.
 *
 * @param {number} level
 */
export function writeLevel(level) {
    if (Number.isNaN(level)) return 'NaN';
    if (!Number.isFinite(level)) return level > 0 ? 'inf' : '-inf';
    if (Object.is(level, -0)) return '-0';
    for (let digits = 1; digits < 9; digits++) {
        const near = Number(level.toPrecision(digits));
        if (Math.fround(near) === level) return String(near);
    }
    return String(Number(level.toPrecision(9)));
}

/**
 * A top as people write it: any whole number, so that a bad one can be tried.
 *
 * @param {string} text
 */
export const readTop = (text) => (/^\s*-?\d{1,9}\s*$/.test(text) ? Number(text) : undefined);

// A slider moves by the level's logarithm: from a half to a little above the greatest top.
export const SLIDER = Object.freeze({ min: -1, max: 6.1, step: 0.05 });

/** @param {number} level */
export function sliderOf(level) {
    if (!(level > 0)) return SLIDER.min;
    return Math.min(SLIDER.max, Math.max(SLIDER.min, Math.log2(level)));
}

/** @param {number} place */
export const levelAt = (place) => tidy(2 ** place);

/**
 * A level of a slider or a drag, with two decimals.
 *
 * @param {number} level
 */
export const tidy = (level) => Math.fround(Math.round(level * 100) / 100);
