/** A mesh as an OBJ file, with coordinates from 0 to 1. */

import { INDEX_WORDS, VERTEX_WORDS } from '../../../js/draw.js';
import { cornersOf } from '../../../js/text.js';
import { writeLevel } from '../levels.js';

const LETTERS = ['', 'p', 'l', 'f'];

/**
 * The coordinates are the floats that the module draws. The text is empty where the patch is not drawn.
 *
 * @param {import('../../../js/index.js').Yoktvarim} yoktvarim
 * @param {import('../../../js/index.js').Patch} patch
 * @param {import('../../../js/index.js').Settings} settings
 */
export function objOf(yoktvarim, patch, settings) {
    const vertices = new Uint32Array(VERTEX_WORDS);
    const indices = new Uint16Array(INDEX_WORDS);
    const floats = new Float32Array(VERTEX_WORDS);
    const answer = yoktvarim.drawWithFloats(patch, settings, vertices, indices, floats);
    if (answer.is !== 'drawn') return '';
    const each = cornersOf(patch.kind, settings);
    let text = '# A patch cut by Yoktvarim: u, v and w from 0 to 1\n';
    for (let at = 0; at < 3 * answer.points; at += 3) text += `v ${Array.from(floats.subarray(at, at + 3), writeLevel).join(' ')}\n`;
    for (let at = 0; at < answer.indices; at += each) {
        text += `${LETTERS[each]} ${Array.from(indices.subarray(at, at + each), (index) => index + 1).join(' ')}\n`;
    }
    return text;
}
