// Compiles only if the declarations are what the module does: an answer has the values of its name and no others, and a switch over the
// names can be complete.
import { isolines, load, quads, triangles, faultInWords, jobText, record, patchOf, type Yoktvarim } from '../index.js';

export async function use(bytes: Uint8Array): Promise<string> {
    const yoktvarim: Yoktvarim = await load(bytes);
    const answer = yoktvarim.mesh(triangles([1, 1, 1], 2), { spacing: 'fractional odd' });
    switch (answer.is) {
        case 'drawn': return `${answer.vertices.length} ${answer.indices.length}`;
        case 'discarded': case 'bad top': break;
        default: { const none: never = answer; return none; }
    }
    // @ts-expect-error a refusal has no vertices
    answer.vertices;
    const size = yoktvarim.measure(quads([1, 2, 3, 4], [1, 2]));
    if (size.is === 'measured') return size.clamps.outer.join();
    // @ts-expect-error three outer levels are too few
    quads([1, 2, 3], [1, 2]);
    // @ts-expect-error there is no such spacing
    yoktvarim.mesh(isolines([1, 2]), { spacing: 'even' });
    // @ts-expect-error answers are read only
    answer.is = 'drawn';
    const verdict = yoktvarim.checkMesh(isolines([1, 2]), {}, { vertices: new Uint32Array(), indices: new Uint16Array() });
    if (verdict.is === 'open side') return `${verdict.triangle} ${verdict.corner}`;
    const compared = yoktvarim.compareMeshes({ vertices: new Uint32Array(), indices: new Uint16Array() }, { vertices: new Uint32Array(), indices: new Uint16Array() });
    if (compared.is === 'compared') return compared.differences.map(({ what, side, number }) => `${what} ${side} ${number}`).join();
    const shared = yoktvarim.Shared.start(new Uint32Array(9), new Uint16Array(9), { vertices: 3, indices: 3 }, { vertices: 3, indices: 3 });
    if (shared.is === 'started') return shared.draw('first', isolines([1, 1])).is;
    const job = yoktvarim.readJob(bytes);
    if (job.is === 'read') return job.records.map((each) => (each.is === 'record' ? patchOf(each).kind : each.is)).join();
    const written = yoktvarim.writeJob([record(isolines([1, 1]))], 1);
    if (written.is === 'written') return [...jobText(yoktvarim, written.job)].join('');
    const replayed = yoktvarim.replay(bytes);
    return replayed.is === 'differs' ? `${replayed.recorded.answer}` : faultInWords(verdict);
}
