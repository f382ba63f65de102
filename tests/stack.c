/* The greatest stack of each call, measured on a stack that is painted first, against the figures of include/yoktvarim.h. It needs no C
 * library; tests/bare has what it uses. */
#include "bare.h"
#include "yoktvarim.h"

enum { MANY_POINTS = 8200, MANY_TRIANGLES = 8500 };

static const yoktvarim_settings triangles = {YOKTVARIM_TRIANGLES,  YOKTVARIM_EQUAL,      YOKTVARIM_COUNTER_CLOCKWISE,
                                             YOKTVARIM_LOWER_LEFT, YOKTVARIM_PRIMITIVES, YOKTVARIM_GREATEST_TOP};
static const yoktvarim_settings quads = {YOKTVARIM_QUADS,      YOKTVARIM_EQUAL,      YOKTVARIM_COUNTER_CLOCKWISE,
                                         YOKTVARIM_LOWER_LEFT, YOKTVARIM_PRIMITIVES, YOKTVARIM_GREATEST_TOP};
static const yoktvarim_settings even = {YOKTVARIM_QUADS,      YOKTVARIM_FRACTIONAL_EVEN, YOKTVARIM_COUNTER_CLOCKWISE,
                                        YOKTVARIM_LOWER_LEFT, YOKTVARIM_PRIMITIVES,      YOKTVARIM_GREATEST_TOP};
static const yoktvarim_settings odd = {YOKTVARIM_QUADS,      YOKTVARIM_FRACTIONAL_ODD, YOKTVARIM_CLOCKWISE,
                                       YOKTVARIM_UPPER_LEFT, YOKTVARIM_PRIMITIVES,     YOKTVARIM_GREATEST_TOP};
static const yoktvarim_settings lines = {YOKTVARIM_ISOLINES,   YOKTVARIM_EQUAL,      YOKTVARIM_COUNTER_CLOCKWISE,
                                         YOKTVARIM_LOWER_LEFT, YOKTVARIM_PRIMITIVES, YOKTVARIM_GREATEST_TOP};
static const yoktvarim_settings *const all_settings[] = {&triangles, &quads, &even, &odd, &lines};
static const yoktvarim_levels all_levels[] = {{{64, 64, 64, 64}, {64, 64}},
                                              {{63.5f, 63.5f, 63.5f, 63.5f}, {63.5f, 63.5f}},
                                              {{12.3f, 37.7f, 5.1f, 55.5f}, {41.2f, 23.9f}},
                                              {{16, 16, 16, 16}, {16, 16}},
                                              {{4, 4, 4, 4}, {4, 4}},
                                              {{1, 1, 1, 1}, {1, 1}}};
enum { SETTINGS = 5, LEVELS = 6 };

/* A mesh, with room for more than any table takes. */
typedef struct mesh {
    uint32_t points[3 * MANY_POINTS];
    uint16_t indices[3 * MANY_TRIANGLES];
    size_t point_words, index_words;
} mesh;

static mesh left, right;
static uint64_t places[2];
static uint32_t counts[2];
static uint64_t differences[3 * 2 * (MANY_POINTS + MANY_TRIANGLES)];

/* The mesh of a patch. */
static void draw(mesh *m, const yoktvarim_settings *settings, const yoktvarim_levels *levels)
{
    uint32_t points, corners;
    must(yoktvarim_is_drawn(yoktvarim_draw_points(settings, levels, m->points, 3 * MANY_POINTS, &points)), "no points");
    must(yoktvarim_is_drawn(yoktvarim_draw_indices(settings, levels, m->indices, 3 * MANY_TRIANGLES, &corners)), "no indices");
    m->point_words = 3 * (size_t)points;
    m->index_words = corners;
}

/* What is measured, on one input after another: `input` counts them. Returns whether there are more. */
typedef int inputs(int input);

static int patch_call(int input, int (*on)(const yoktvarim_settings *, const yoktvarim_levels *))
{
    on(all_settings[input % SETTINGS], &all_levels[input / SETTINGS]);
    return input + 1 < SETTINGS * LEVELS;
}

static int measure_on(const yoktvarim_settings *settings, const yoktvarim_levels *levels)
{
    yoktvarim_clamps clamps;
    return (int)yoktvarim_measure(settings, levels, counts, &clamps);
}

static int draw_on(const yoktvarim_settings *settings, const yoktvarim_levels *levels)
{
    return (int)yoktvarim_draw_points(settings, levels, left.points, 3 * MANY_POINTS, counts) +
           (int)yoktvarim_draw_indices(settings, levels, left.indices, 3 * MANY_TRIANGLES, counts);
}

static int floats_on(const yoktvarim_settings *settings, const yoktvarim_levels *levels)
{
    static float floats[3 * MANY_POINTS];
    return (int)yoktvarim_draw_with_floats(settings, levels, left.points, 3 * MANY_POINTS, left.indices, 3 * MANY_TRIANGLES, floats,
                                           3 * MANY_POINTS, counts);
}

static int share_on(const yoktvarim_settings *settings, const yoktvarim_levels *levels)
{
    static yoktvarim_shared state;
    static const yoktvarim_quota quotas[2] = {{3 * MANY_POINTS, 3 * MANY_TRIANGLES}, {0, 0}};
    return (int)yoktvarim_share_start(left.points, 3 * MANY_POINTS, left.indices, 3 * MANY_TRIANGLES, quotas, &state) +
           (int)yoktvarim_share_draw(&state, 0, settings, levels, left.points, 3 * MANY_POINTS, left.indices, 3 * MANY_TRIANGLES, counts) +
           (int)yoktvarim_share_clear(&state, 0, left.points, 3 * MANY_POINTS, left.indices, 3 * MANY_TRIANGLES);
}

/* A job of one record, written and read. */
static int job_on(const yoktvarim_settings *settings, const yoktvarim_levels *levels)
{
    static uint8_t job[YOKTVARIM_HEADER_BYTES + YOKTVARIM_RECORD_BYTES];
    yoktvarim_patterns patterns = yoktvarim_patterns_of(levels);
    yoktvarim_settings back;
    uint32_t version, place;
    uint64_t next;
    return (int)yoktvarim_write_header(2, job, sizeof job, &counts[0]) +
           (int)yoktvarim_write_record(2, settings, &patterns, job + YOKTVARIM_HEADER_BYTES, YOKTVARIM_RECORD_BYTES, &counts[1]) +
           (int)yoktvarim_read_header(job, sizeof job, &version) +
           (int)yoktvarim_read_record(job, sizeof job, version, YOKTVARIM_HEADER_BYTES, &back, &patterns, &next, &place);
}

/* A recording of one entry. */
static int replay_on(const yoktvarim_settings *settings, const yoktvarim_levels *levels)
{
    static uint8_t recording[YOKTVARIM_HEADER_BYTES + 34] = {0x54, 0x53, 0x52, 1, 0};
    yoktvarim_patterns patterns = yoktvarim_patterns_of(levels);
    yoktvarim_replay_told told;
    must(yoktvarim_is_written(yoktvarim_write_record(1, settings, &patterns, recording + YOKTVARIM_HEADER_BYTES, 34, &counts[0])),
         "no record");
    return (int)yoktvarim_replay(recording, sizeof recording, &told);
}

static int measure(int input)
{
    return patch_call(input, measure_on);
}
static int drawing(int input)
{
    return patch_call(input, draw_on);
}
static int floats(int input)
{
    return patch_call(input, floats_on);
}
static int sharing(int input)
{
    return patch_call(input, share_on);
}
static int jobs(int input)
{
    return patch_call(input, job_on);
}
static int replaying(int input)
{
    return patch_call(input, replay_on);
}

/* How a mesh is spoilt: not at all, a triangle repeated, the first one missing, the last one missing, every second one missing, two points
 * equal, more points than the tables take, more triangles. */
enum { TOO_MANY_POINTS = 6, TOO_MANY_TRIANGLES, SPOILT };

static void spoil(mesh *m, int how)
{
    size_t i;
    switch (how) {
    case 1:
        memcpy(m->indices + m->index_words, m->indices, 3 * sizeof *m->indices);
        m->index_words += 3;
        break;
    case 2:
        memmove(m->indices, m->indices + 3, (m->index_words - 3) * sizeof *m->indices);
        m->index_words -= 3;
        break;
    case 3: m->index_words -= 3; break;
    case 4:
        for (i = 0; 6 * i + 6 <= m->index_words; i++)
            memcpy(m->indices + 3 * i, m->indices + 6 * i, 3 * sizeof *m->indices);
        m->index_words = 3 * i;
        break;
    case 5:
        memcpy(m->points + m->point_words, m->points, 3 * sizeof *m->points);
        m->point_words += 3;
        break;
    case TOO_MANY_POINTS:
        for (; m->point_words < 3 * MANY_POINTS; m->point_words += 3) {
            m->points[m->point_words] = (uint32_t)m->point_words;
            m->points[m->point_words + 1] = m->points[m->point_words + 2] = 99999;
        }
        break;
    case TOO_MANY_TRIANGLES:
        for (; m->index_words < 3 * MANY_TRIANGLES; m->index_words += 3)
            memcpy(m->indices + m->index_words, m->indices, 3 * sizeof *m->indices);
        break;
    default: break;
    }
}

/* The settings and levels of the meshes that are checked and compared: two large ones and two small ones of each kind with triangles. */
static const struct {
    const yoktvarim_settings *settings;
    int levels;
} meshes[] = {{&quads, 0}, {&triangles, 0}, {&even, 1}, {&quads, 3}, {&triangles, 4}};
enum { MESHES = 5 };

static int checking(int input)
{
    const int which = input % MESHES;
    draw(&left, meshes[which].settings, &all_levels[meshes[which].levels]);
    spoil(&left, input / MESHES);
    (void)!yoktvarim_check_mesh(meshes[which].settings, &all_levels[meshes[which].levels], left.points, left.point_words, left.indices,
                                left.index_words, places);
    return input + 1 < MESHES * SPOILT;
}

static int comparing(int input)
{
    const int which = input % MESHES, other = input / MESHES % MESHES, how = input / MESHES / MESHES;
    /* The search past the tables takes long, and no other stack for another pair. */
    if (how >= TOO_MANY_POINTS && which != other)
        return input + 1 < MESHES * MESHES * SPOILT;
    draw(&left, meshes[which].settings, &all_levels[meshes[which].levels]);
    draw(&right, meshes[other].settings, &all_levels[meshes[other].levels]);
    spoil(&right, how);
    (void)!yoktvarim_compare_meshes(left.points, left.point_words, left.indices, left.index_words, right.points, right.point_words,
                                    right.indices, right.index_words, differences, sizeof differences / sizeof *differences, places);
    return input + 1 < MESHES * MESHES * SPOILT;
}

static inputs *measured;

static void all_inputs(void)
{
    for (int input = 0; measured(input); input++)
        ;
}

static size_t used(inputs *on)
{
    measured = on;
    return stack_of(all_inputs);
}

/* The figures of the header hold on every target. They are those of x86-64 and aarch64; where WebAssembly takes less of its own stack, since
 * two tables share a place there, it has the lower figure beside it. */
#ifdef __wasm__
#define LOWER(figure, on_wasm) (on_wasm)
#else
#define LOWER(figure, on_wasm) (figure)
#endif
_Static_assert(LOWER(0, 20480) <= YOKTVARIM_STACK_DRAW && LOWER(0, 20480) <= YOKTVARIM_STACK_FLOATS &&
                   LOWER(0, 118784) <= YOKTVARIM_STACK_REPLAY && LOWER(0, 20480) <= YOKTVARIM_STACK_SHARE,
               "no figure is above the header's");

/* Whether a figure is right: enough, and less than 8 kB too high. Prints both. */
static int is_right(const char *name, size_t bytes, size_t limit)
{
    const int right_figure = bytes <= limit && limit < bytes + 8192;
    say(name);
    say(": ");
    say_decimal(bytes);
    say(" bytes of stack, the figure is ");
    say_decimal(limit);
    say(right_figure ? "\n" : ": WRONG\n");
    return right_figure;
}

int run(void)
{
    static const struct {
        const char *name;
        inputs *on;
        size_t limit;
    } cases[] = {
        {"measuring", measure, YOKTVARIM_STACK_MEASURE},
        {"drawing", drawing, LOWER(YOKTVARIM_STACK_DRAW, 20480)},
        {"drawing with floats", floats, LOWER(YOKTVARIM_STACK_FLOATS, 20480)},
        {"job files", jobs, YOKTVARIM_STACK_JOB},
        {"checking", checking, YOKTVARIM_STACK_CHECK},
        {"replaying", replaying, LOWER(YOKTVARIM_STACK_REPLAY, 118784)},
        {"shared lists", sharing, LOWER(YOKTVARIM_STACK_SHARE, 20480)},
        {"comparing", comparing, YOKTVARIM_STACK_COMPARE},
    };
    int failed = 0;
    for (size_t i = 0; i < sizeof cases / sizeof *cases; i++)
        failed |= !is_right(cases[i].name, used(cases[i].on), cases[i].limit);
    return failed;
}
