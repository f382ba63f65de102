/* Makes random calls of every function, on lists that lie between guards, and prints how often each answer came and a hash of all
 * words that the calls left: the same lines on every target. It needs no C library; tests/bare has what it uses. */
#include "bare.h"
#include "yoktvarim.h"

enum { ROUNDS = 12800, ROUNDS_PER_LINE = 800 };

/* ---------------------------------------------------------------- chance */

static uint64_t seed = 0x9E3779B97F4A7C15u;

static uint32_t chance(void)
{
    seed ^= seed >> 12;
    seed ^= seed << 25;
    seed ^= seed >> 27;
    return (uint32_t)((seed * 0x2545F4914F6CDD1Du) >> 32);
}

static uint32_t below(uint32_t count)
{
    return (uint32_t)(((uint64_t)chance() * count) >> 32);
}

static int one_in(uint32_t count)
{
    return below(count) == 0;
}

/* A length near the one that is needed. */
static uint32_t near(uint32_t length)
{
    switch (below(6)) {
    case 0: return length == 0 ? 0 : length - 1;
    case 1: return length + 5;
    default: return length;
    }
}

/* ---------------------------------------------------------------- lists between guards */

enum { ARENA = 1 << 20, GUARD = 32, FILL = 0x5A, EDGE = 0xC3, LENT = 16 };

static union {
    unsigned char bytes[ARENA];
    uint64_t words[ARENA / 8];
} arena;
static size_t arena_used;
static struct {
    size_t from, to;
} guards[2 * LENT];
static size_t guard_count;

static void guard(size_t to)
{
    must(to <= ARENA && guard_count < 2 * LENT, "the lists are too large");
    memset(arena.bytes + arena_used, EDGE, to - arena_used);
    guards[guard_count].from = arena_used;
    guards[guard_count++].to = to;
    arena_used = to;
}

/* A list of so many bytes with a guard before and one right behind it, aligned for every type. */
static void *lend(size_t size)
{
    unsigned char *list;
    guard(arena_used + GUARD);
    list = arena.bytes + arena_used;
    must(size <= ARENA - arena_used, "a list is too large");
    memset(list, FILL, size);
    arena_used += size;
    guard((arena_used + GUARD + 15) / 16 * 16);
    return list;
}

/* A list that holds these bytes. */
static void *lend_copy(const void *from, size_t size)
{
    return memcpy(lend(size), from, size);
}

/* ---------------------------------------------------------------- what came of the calls */

enum {
    MEASURE,
    POINTS,
    INDICES,
    FLOATS,
    WRITE_HEADER,
    WRITE_RECORD,
    READ_HEADER,
    READ_RECORD,
    CHECK,
    COMPARE,
    REPLAY,
    START,
    DRAW,
    CLEAR,
    CALLS
};
static const char *const names[CALLS] = {"measure",      "draw_points", "draw_indices", "draw_with_floats", "write_header",
                                         "write_record", "read_header", "read_record",  "check_mesh",       "compare_meshes",
                                         "replay",       "share_start", "share_draw",   "share_clear"};
static uint32_t met[CALLS][256];
static uint64_t hash = 0xCBF29CE484222325u;
static uint32_t calls;

static void mix(uint64_t word)
{
    hash = (hash ^ word) * 0x100000001B3u;
    hash ^= hash >> 29;
}

/* Notes an answer, looks at the guards and takes all lists into the hash. Returns the answer. */
static uint32_t note(int which, uint32_t answer)
{
    must(answer < 256, "an answer that no call has");
    met[which][answer]++;
    calls++;
    for (size_t i = 0; i < guard_count; i++)
        for (size_t at = guards[i].from; at < guards[i].to; at++)
            must(arena.bytes[at] == EDGE, "a word beside a list was written");
    mix((uint64_t)which << 32 | answer);
    for (size_t i = 0; i < arena_used / 8; i++)
        mix(arena.words[i]);
    return answer;
}

/* All lists are given back. */
static void give_back(void)
{
    arena_used = guard_count = 0;
}

/* ---------------------------------------------------------------- patches */

typedef struct patch {
    yoktvarim_settings settings;
    yoktvarim_patterns patterns;
} patch;

static uint32_t level(uint32_t most)
{
    static const uint32_t special[] = {0,          0x80000000, 0x3F800000, 0x3F800001, 0x40000000, 0x427C0000, 0x42800000, 0xBF800000,
                                       0x7F800000, 0xFF800000, 0x7FC00000, 0xFFC12345, 0x7F812345, 1,          0x3F000000};
    union {
        float number;
        uint32_t bits;
    } level;
    if (one_in(16))
        return special[below(sizeof special / sizeof *special)];
    if (one_in(64))
        return chance();
    level.number = (float)(1 + below(64 * most)) / 64.0f;
    return level.bits;
}

static patch any_patch(void)
{
    static const uint8_t counts[5] = {3, 3, 2, 2, 2};
    const uint32_t most = one_in(48) ? 70 : 1 + below(9);
    patch p;
    uint8_t *bytes = &p.settings.kind;
    for (int i = 0; i < 5; i++)
        bytes[i] = (uint8_t)(one_in(64) ? below(256) : below(counts[i]));
    bytes[5] = (uint8_t)(one_in(3) ? one_in(4) ? below(256) : 2 + 2 * below(32) : 64);
    for (int i = 0; i < 4; i++)
        p.patterns.outer[i] = level(most);
    for (int i = 0; i < 2; i++)
        p.patterns.inner[i] = level(most);
    return p;
}

/* ---------------------------------------------------------------- measuring and drawing */

typedef struct mesh {
    uint32_t points[YOKTVARIM_VERTEX_WORDS + 16];
    uint16_t indices[YOKTVARIM_INDEX_WORDS + 16];
    uint32_t point_words, index_words;
} mesh;

static yoktvarim_settings *lend_settings(const patch *p)
{
    return lend_copy(&p->settings, sizeof p->settings);
}
static yoktvarim_levels *lend_levels(const patch *p)
{
    return lend_copy(&p->patterns, sizeof p->patterns);
}

/* The counts of a patch, 0 and 0 if it has no counts; returns the number of the answer. */
static uint32_t measured(const patch *p, uint32_t *counts)
{
    uint32_t *lent = lend(8);
    const uint32_t answer = note(MEASURE, yoktvarim_measure(lend_settings(p), lend_levels(p), lent, lend(6)));
    counts[0] = answer == YOKTVARIM_MEASURED ? lent[0] : 0;
    counts[1] = answer == YOKTVARIM_MEASURED ? lent[1] : 0;
    give_back();
    return answer;
}

/* Draws by two calls into lists about as long as needed, and keeps the mesh where both are drawn. */
static void draw(const patch *p, const uint32_t *counts, mesh *m)
{
    const uint32_t vertex_words = near(3 * counts[0]), index_words = near(counts[1]);
    uint32_t *points = lend(4 * vertex_words);
    const uint32_t first = note(POINTS, yoktvarim_draw_points(lend_settings(p), lend_levels(p), points, vertex_words, lend(4)));
    m->point_words = first == YOKTVARIM_DRAWN ? 3 * counts[0] : 0;
    memcpy(m->points, points, 4 * m->point_words);
    give_back();
    uint16_t *indices = lend(2 * index_words);
    const uint32_t second = note(INDICES, yoktvarim_draw_indices(lend_settings(p), lend_levels(p), indices, index_words, lend(4)));
    m->index_words = second == YOKTVARIM_DRAWN ? counts[1] : 0;
    memcpy(m->indices, indices, 2 * m->index_words);
    give_back();
}

static void draw_with_floats(const patch *p, const uint32_t *counts)
{
    const uint32_t vertex_words = near(3 * counts[0]), index_words = near(counts[1]), float_words = near(3 * counts[0]);
    note(FLOATS, yoktvarim_draw_with_floats(lend_settings(p), lend_levels(p), lend(4 * vertex_words), vertex_words, lend(2 * index_words),
                                            index_words, lend(4 * float_words), float_words, lend(8)));
    give_back();
}

/* ---------------------------------------------------------------- job files */

static void read(const uint8_t *job, uint32_t length, uint32_t version)
{
    const uint64_t at = one_in(4) ? one_in(16) ? UINT64_MAX : below(40) : YOKTVARIM_HEADER_BYTES;
    const uint8_t *bytes = lend_copy(job, length);
    note(READ_HEADER, yoktvarim_read_header(bytes, length, lend(4)));
    note(READ_RECORD, yoktvarim_read_record(bytes, length, version, at, lend(6), lend(24), lend(8), lend(4)));
    give_back();
}

/* A job of one record is written, some byte of it is changed at times, and it is read. */
static void write_and_read(const patch *p)
{
    uint8_t job[YOKTVARIM_HEADER_BYTES + YOKTVARIM_RECORD_BYTES] = {'T', 'S', 'J', 2, 0};
    const uint32_t version = one_in(16) ? below(4) : 1 + below(2);
    uint32_t room = near(YOKTVARIM_HEADER_BYTES), *count = lend(4);
    uint8_t *bytes = lend(room);
    if (note(WRITE_HEADER, yoktvarim_write_header(version, bytes, room, count)) == YOKTVARIM_JOB_WRITTEN)
        memcpy(job, bytes, *count);
    give_back();
    room = near(28 + version), count = lend(4), bytes = lend(room);
    if (note(WRITE_RECORD, yoktvarim_write_record(version, lend_settings(p), lend_copy(&p->patterns, 24), bytes, room, count)) ==
        YOKTVARIM_JOB_WRITTEN)
        memcpy(job + YOKTVARIM_HEADER_BYTES, bytes, *count);
    give_back();
    if (one_in(4))
        job[below(sizeof job)] = (uint8_t)chance();
    read(job, one_in(4) ? below(sizeof job + 1) : sizeof job, version);
}

/* ---------------------------------------------------------------- checking and comparing */

/* One damage of some sort, or no damage. */
static void damage(mesh *m)
{
    const uint32_t at = m->index_words < 3 ? 0 : 3 * below(m->index_words / 3);
    switch (below(10)) {
    case 0: /* a triangle is missing */
        if (m->index_words >= 3) {
            m->index_words -= 3;
            memmove(m->indices + at, m->indices + at + 3, 2 * (m->index_words - at));
        }
        break;
    case 1: /* a triangle is there twice */
        if (m->index_words >= 3) {
            memcpy(m->indices + m->index_words, m->indices + at, 6);
            m->index_words += 3;
        }
        break;
    case 2: /* a triangle turns the other way */
        if (m->index_words >= 3) {
            const uint16_t corner = m->indices[at];
            m->indices[at] = m->indices[at + 1];
            m->indices[at + 1] = corner;
        }
        break;
    case 3: /* another coordinate */
        if (m->point_words > 0)
            m->points[below(m->point_words)] = one_in(2) ? chance() : below(65537);
        break;
    case 4: /* two equal points */
        if (m->point_words >= 6)
            memcpy(m->points + 3 * (1 + below(m->point_words / 3 - 1)), m->points, 12);
        break;
    case 5: /* another index */
        if (m->index_words > 0)
            m->indices[below(m->index_words)] = (uint16_t)below(m->point_words / 3 + 2);
        break;
    case 6: /* a word more */ *(one_in(2) ? &m->point_words : &m->index_words) += 1; break;
    case 7: /* no triangles */ m->index_words = 0; break;
    default: break;
    }
}

static void check(const patch *p, const mesh *m)
{
    note(CHECK, yoktvarim_check_mesh(lend_settings(p), lend_levels(p), lend_copy(m->points, 4 * m->point_words), m->point_words,
                                     lend_copy(m->indices, 2 * m->index_words), m->index_words, lend(16)));
    give_back();
}

/* Compares into a list of so many words; how many differences there are. */
static uint64_t compare(const mesh *left, const mesh *right, uint32_t words)
{
    uint64_t *count = lend(8), found;
    note(COMPARE, yoktvarim_compare_meshes(
                      lend_copy(left->points, 4 * left->point_words), left->point_words, lend_copy(left->indices, 2 * left->index_words),
                      left->index_words, lend_copy(right->points, 4 * right->point_words), right->point_words,
                      lend_copy(right->indices, 2 * right->index_words), right->index_words, lend(8 * words), words, count));
    found = *count;
    give_back();
    return found;
}

/* Checks and compares a mesh with up to two damages. */
static void check_and_compare(const patch *p, const mesh *whole)
{
    static mesh damaged;
    damaged = *whole;
    for (uint32_t times = below(3); times > 0; times--)
        damage(&damaged);
    check(p, &damaged);
    if (one_in(2)) {
        const uint64_t count = one_in(2) ? compare(whole, &damaged, 0) : compare(&damaged, whole, 0);
        compare(whole, &damaged, near((uint32_t)(3 * count)));
    }
}

/* ---------------------------------------------------------------- replaying */

/* A recording of a few entries, which is damaged at times. */
static void replay(void)
{
    enum { ENTRY = 34, MOST = 3 };
    uint8_t recording[YOKTVARIM_HEADER_BYTES + MOST * ENTRY] = {'T', 'S', 'R', 1, 0};
    const uint32_t entries = below(MOST + 1);
    uint32_t length = YOKTVARIM_HEADER_BYTES;
    for (uint32_t i = 0; i < entries; i++, length += ENTRY) {
        patch p = any_patch();
        uint32_t counts[2];
        uint8_t *entry = recording + length;
        p.settings.top = YOKTVARIM_GREATEST_TOP;
        entry[29] = (uint8_t)measured(&p, counts);
        memcpy(entry, &p.settings, 5);
        memcpy(entry + 5, &p.patterns, 24);
        entry[30] = (uint8_t)counts[0], entry[31] = (uint8_t)(counts[0] >> 8);
        entry[32] = (uint8_t)counts[1], entry[33] = (uint8_t)(counts[1] >> 8);
    }
    if (one_in(3))
        recording[below(length)] = (uint8_t)chance();
    if (one_in(4))
        length = below(length + 1);
    note(REPLAY, yoktvarim_replay(lend_copy(recording, length), length, lend(56)));
    give_back();
}

/* ---------------------------------------------------------------- shared lists */

/* A start, a few draws and a clear, on lists and a state that are changed at times. */
static void share(const patch *p)
{
    uint32_t vertex_words = below(900), index_words = below(900);
    const uint32_t part = one_in(8) ? 1 : 2;
    const uint64_t quotas[4] = {below(vertex_words / part + 1), below(index_words / part + 1), below(vertex_words / part + 1),
                                below(index_words / part + 1)};
    uint32_t *vertices = lend(4 * vertex_words);
    uint16_t *indices = lend(2 * index_words);
    yoktvarim_shared *state = lend(sizeof *state);
    note(START, yoktvarim_share_start(vertices, vertex_words, indices, index_words, lend_copy(quotas, sizeof quotas), state));
    yoktvarim_settings *settings = lend_settings(p);
    yoktvarim_levels *levels = lend_levels(p);
    uint32_t *counts = lend(8);
    if (one_in(16))
        ((uint64_t *)state)[below(10)] = below(1000);
    if (one_in(32) && vertex_words > 0)
        vertex_words--;
    for (int times = 0; times < 3; times++)
        note(DRAW, yoktvarim_share_draw(state, one_in(16) ? chance() : below(2), settings, levels, vertices, vertex_words, indices,
                                        index_words, counts));
    note(CLEAR, yoktvarim_share_clear(state, one_in(16) ? chance() : below(2), vertices, vertex_words, indices, index_words));
    give_back();
}

/* One designer draws the same large patch until the own part has too many points. */
static void fill_part(void)
{
    enum { VERTEX_WORDS = 3 * 65536, INDEX_WORDS = 16 * YOKTVARIM_INDEX_WORDS, LEVEL_64 = 0x42800000 };
    static const patch p = {{YOKTVARIM_QUADS, 0, 0, 0, 0, 64}, {{LEVEL_64, LEVEL_64, LEVEL_64, LEVEL_64}, {LEVEL_64, LEVEL_64}}};
    static const yoktvarim_quota quotas[2] = {{VERTEX_WORDS, INDEX_WORDS}, {0, 0}};
    static uint32_t vertices[VERTEX_WORDS];
    static uint16_t indices[INDEX_WORDS];
    static yoktvarim_shared state;
    uint32_t answer = yoktvarim_share_start(vertices, VERTEX_WORDS, indices, INDEX_WORDS, quotas, &state);
    while (answer == YOKTVARIM_SHARE_DONE) {
        answer = note(DRAW, yoktvarim_share_draw(&state, 0, lend_settings(&p), lend_levels(&p), vertices, VERTEX_WORDS, indices,
                                                 INDEX_WORDS, lend(8)));
        give_back();
    }
    for (size_t i = 0; i < VERTEX_WORDS; i++)
        mix(vertices[i]);
    for (size_t i = 0; i < INDEX_WORDS; i++)
        mix(indices[i]);
}

/* ---------------------------------------------------------------- the run */

static void say_line(uint32_t rounds)
{
    say_decimal(rounds);
    say(" rounds, ");
    say_decimal(calls);
    say(" calls: ");
    say_hexadecimal(hash);
    say("\n");
}

/* How often each call gave each answer. */
static void say_answers(void)
{
    for (int which = 0; which < CALLS; which++) {
        say(names[which]);
        for (uint32_t answer = 0; answer < 256; answer++)
            if (met[which][answer] > 0) {
                say(" ");
                say_decimal(answer);
                say(":");
                say_decimal(met[which][answer]);
            }
        say("\n");
    }
}

int run(void)
{
    static mesh drawn;
    for (uint32_t rounds = 1; rounds <= ROUNDS; rounds++) {
        const patch p = any_patch();
        uint32_t counts[2];
        measured(&p, counts);
        draw(&p, counts, &drawn);
        draw_with_floats(&p, counts);
        write_and_read(&p);
        check_and_compare(&p, &drawn);
        replay();
        share(&p);
        if (rounds % ROUNDS_PER_LINE == 0)
            say_line(rounds);
    }
    fill_part();
    say_line(ROUNDS);
    say_answers();
    return 0;
}
