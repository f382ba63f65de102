/** Tessellates a patch by the Vulkan rules, with a WebAssembly module whose every function is proved. */

export declare const ONE_IN_TRIANGLES: 196608;
export declare const ONE_IN_QUADS: 65536;
export declare const GREATEST_TOP: 64;
export declare const VERTEX_WORDS: 12675;
export declare const INDEX_WORDS: 24576;

export type Kind = 'triangles' | 'quads' | 'isolines';

export interface Triangles {
    readonly kind: 'triangles';
    /** Levels of the edges u = 0, v = 0 and w = 0. */
    readonly outer: readonly [number, number, number];
    readonly inner: number;
}

export interface Quads {
    readonly kind: 'quads';
    /** Levels of the edges u = 0, v = 0, u = 1 and v = 1. */
    readonly outer: readonly [number, number, number, number];
    /** Levels of the rows and of the columns. */
    readonly inner: readonly [number, number];
}

export interface Isolines {
    readonly kind: 'isolines';
    /** How many lines, and how many segments along each. */
    readonly outer: readonly [number, number];
}

/** Any number is a level, NaN and the infinities too. It is rounded to a 32-bit float. */
export type Patch = Triangles | Quads | Isolines;

export declare function triangles(outer: readonly [number, number, number], inner: number): Triangles;
export declare function quads(outer: readonly [number, number, number, number], inner: readonly [number, number]): Quads;
export declare function isolines(outer: readonly [number, number]): Isolines;

export interface Settings {
    readonly spacing: 'equal' | 'fractional even' | 'fractional odd';
    /** The way triangles turn. */
    readonly vertexOrder: 'clockwise' | 'counter-clockwise';
    /** Where (0, 0) is when that turn is judged. */
    readonly domainOrigin: 'upper-left' | 'lower-left';
    /** Each point once instead of triangles or lines: the indices 0, 1, 2 and on. */
    readonly pointMode: boolean;
    /** The most segments that a level gives, one less with odd spacing: an even number from 2 to 64. */
    readonly top: number;
}

/** Equal, counter-clockwise, lower-left, no point mode, the top 64, unless named. */
export declare function settings(named?: Partial<Settings>): Settings;

/** An answer has a name and the values that belong to it. It is frozen. */
export type Answer<Name extends string, Values = {}> = Readonly<{ is: Name } & Values>;

export type Discarded = Answer<'discarded'>;
export type BadTop = Answer<'bad top'>;
export type NoRoomForVertices = Answer<'no room for vertices'>;
export type NoRoomForIndices = Answer<'no room for indices'>;
export type NoRoomForFloats = Answer<'no room for floats'>;

/** Three words u, v, w a point; three indices a triangle, two a line, one a dot. */
export interface Lists {
    readonly vertices: Uint32Array;
    readonly indices: Uint16Array;
}

/** Where a level lies against the range it is clamped to, whose ends are inside; an inner NaN is below. */
export type Clamp = 'below' | 'inside' | 'above';

export type Measured = Answer<
    'measured',
    { points: number; indices: number; clamps: { readonly outer: readonly Clamp[]; readonly inner: readonly Clamp[] } }
>;

/** Places count from 0: those of the index list, points, triangles, corners, and the outline's pieces along the walk. */
export type Verdict =
    | Answer<'accepted'>
    | BadTop
    | Answer<'isolines'>
    | Answer<'dots'>
    | Answer<'should be discarded'>
    | Answer<'not threes'>
    | Answer<'unknown index', { place: number }>
    | Answer<'outside', { point: number }>
    | Answer<'equal points', { first: number; second: number }>
    | Answer<'turned', { triangle: number }>
    | Answer<'side twice', { first: number; second: number }>
    | Answer<'open side', { triangle: number; corner: number }>
    | Answer<'missing piece', { piece: number }>;

/** A verdict as a clause, without a capital or a full stop. */
export declare function faultInWords(verdict: Verdict): string;

/** A point or a triangle that only one side has, by its number there; the lowest one, if a triangle is repeated. */
export interface Difference {
    readonly what: 'point' | 'triangle';
    readonly side: 'left' | 'right';
    readonly number: number;
}

export type MeshFault = 'not threes' | 'unknown index' | 'equal points';

export type Comparison =
    | Answer<'compared', { differences: readonly Difference[] }>
    | Answer<'left refused', { fault: MeshFault }>
    | Answer<'right refused', { fault: MeshFault }>;

/** One side of an entry: the number of an answer in the rules, which can be any byte that was recorded, and the two counts. */
export interface Outcome {
    readonly answer: number;
    readonly points: number;
    readonly indices: number;
}

export type Replayed =
    | Answer<'all agree', { entries: number }>
    | Answer<'differs', { entry: number; recorded: Outcome; replayed: Outcome }>
    | Answer<'not a recording'>
    | Answer<'unknown version'>
    | Answer<'cut entry'>;

/** A record of a job file, with the bits of all six levels, outer one to four and inner one and two. */
export type JobRecord = Answer<'record', { kind: Kind; settings: Settings; bits: readonly number[] }>;

export declare function record(patch: Patch, settings?: Partial<Settings>): JobRecord;
export declare function patchOf(record: JobRecord): Patch;

export type Job =
    | Answer<'read', { version: 1 | 2; records: readonly (JobRecord | Answer<'unknown setting', { place: number }> | Answer<'cut record'>)[] }>
    | Answer<'not a job'>
    | Answer<'unknown version'>;

export type Designer = 'first' | 'second';

/** Words of both lists. */
export interface Quota {
    readonly vertices: number;
    readonly indices: number;
}

/** Two designers on one pair of lists: whatever one does, the other's answers, counts and words are the same as without it. */
export interface Shared {
    readonly is: 'started';
    /** Appends points and indices to the designer's part of each list, or neither; indices count from the part's beginning. */
    draw(
        designer: Designer,
        patch: Patch,
        settings?: Partial<Settings>,
    ):
        | Answer<'drawn', { points: number; indices: number }>
        | BadTop
        | Answer<'bad state'>
        | Discarded
        | Answer<'too many points'>
        | NoRoomForVertices
        | NoRoomForIndices;
    /** Gives the room of the designer's part back; the words stay until they are written over. */
    clear(designer: Designer): Answer<'cleared'> | Answer<'bad state'>;
    /** How many words of both lists the designer has used. */
    used(designer: Designer): Quota;
}

export interface Yoktvarim {
    /** How many points and indices drawing would write, and which levels are clamped. */
    measure(patch: Patch, settings?: Partial<Settings>): Measured | Discarded | BadTop;
    /** The points and the indices of a patch, in lists of the right size. */
    mesh(patch: Patch, settings?: Partial<Settings>): Answer<'drawn', Lists> | Discarded | BadTop;
    /** Writes the points to the front of the list; every other answer leaves it as it was. */
    drawPoints(
        patch: Patch,
        settings: Partial<Settings>,
        vertices: Uint32Array,
    ): Answer<'drawn', { points: number }> | Discarded | NoRoomForVertices | BadTop;
    /** Writes the indices to the front of the list; every other answer leaves it as it was. */
    drawIndices(
        patch: Patch,
        settings: Partial<Settings>,
        indices: Uint16Array,
    ): Answer<'drawn', { indices: number }> | Discarded | NoRoomForIndices | BadTop;
    /** Writes points, indices and each coordinate as a float from 0 to 1, into all three lists or none. */
    drawWithFloats(
        patch: Patch,
        settings: Partial<Settings>,
        vertices: Uint32Array,
        indices: Uint16Array,
        floats: Float32Array,
    ): Answer<'drawn', { points: number; indices: number }> | Discarded | NoRoomForVertices | NoRoomForIndices | NoRoomForFloats | BadTop;
    /** Whether a mesh, whoever made it, is a right one of the patch: accepted, or the first kind of fault at its first place. */
    checkMesh(patch: Patch, settings: Partial<Settings>, mesh: Lists): Verdict;
    /** What only one of two triangle meshes has, by coordinates. */
    compareMeshes(left: Lists, right: Lists): Comparison;
    /** Draws every record of a recording again, and compares answers and counts. */
    replay(recording: Uint8Array): Replayed;
    /** What a job file of any length and content holds. */
    readJob(job: Uint8Array): Job;
    /** The job file of some records. Version 1 holds the top 64 only. */
    writeJob(
        records: readonly JobRecord[],
        version?: 1 | 2,
    ): Answer<'written', { job: Uint8Array }> | Answer<'bad top in record', { record: number }>;
    readonly Shared: {
        start(vertices: Uint32Array, indices: Uint16Array, first: Quota, second: Quota): Shared | Answer<'quotas too large'>;
    };
}

/** Loads the module from its bytes or from an address; without either, the file yoktvarim.wasm beside index.js. */
export declare function load(source?: BufferSource | string | URL): Promise<Yoktvarim>;

/** The text that the program tsj writes for a job of any content, in pieces. */
export declare function jobText(yoktvarim: Yoktvarim, bytes: Uint8Array): Generator<string, void>;
