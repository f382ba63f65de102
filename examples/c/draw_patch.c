/* Draws one triangle patch and prints it, measures it and one with clamped levels at two tops, meets each answer that is no
 * drawing, draws points again over indices that are kept, and draws with floats. */
#include <inttypes.h>
#include <stdio.h>

#include "yoktvarim.h"

static uint32_t vertices[YOKTVARIM_VERTEX_WORDS];
static uint16_t indices[YOKTVARIM_INDEX_WORDS];
static float floats[YOKTVARIM_VERTEX_WORDS];

/* Draws into lists of so many words, into both or neither: the room for both is tested before anything is written. */
static yoktvarim_answer draw(const yoktvarim_settings *settings, const yoktvarim_levels *levels, size_t vertex_words, size_t index_words,
                             uint32_t *counts)
{
    yoktvarim_clamps clamps;
    yoktvarim_answer answer = yoktvarim_measure(settings, levels, counts, &clamps);
    if (answer != YOKTVARIM_MEASURED)
        return answer;
    if (vertex_words < 3 * counts[0])
        return YOKTVARIM_NO_ROOM_FOR_VERTICES;
    if (index_words < counts[1])
        return YOKTVARIM_NO_ROOM_FOR_INDICES;
    answer = yoktvarim_draw_points(settings, levels, vertices, vertex_words, &counts[0]);
    if (!yoktvarim_is_drawn(answer))
        return answer;
    return yoktvarim_draw_indices(settings, levels, indices, index_words, &counts[1]);
}

/* Prints what a drawing into both lists came to: a line a point, then a line a triangle. */
static void show_answer(yoktvarim_answer answer, const uint32_t *counts)
{
    switch (answer) {
    case YOKTVARIM_DRAWN:
        printf("drawn %" PRIu32 " %" PRIu32 "\n", counts[0], counts[1]);
        for (uint32_t p = 0; p < counts[0]; p++)
            printf("%" PRIu32 " %" PRIu32 " %" PRIu32 "\n", vertices[3 * p], vertices[3 * p + 1], vertices[3 * p + 2]);
        for (uint32_t i = 0; i < counts[1]; i += 3)
            printf("%u %u %u\n", (unsigned)indices[i], (unsigned)indices[i + 1], (unsigned)indices[i + 2]);
        break;
    case YOKTVARIM_DISCARDED: printf("discarded\n"); break;
    case YOKTVARIM_NO_ROOM_FOR_VERTICES: printf("no room for vertices\n"); break;
    case YOKTVARIM_NO_ROOM_FOR_INDICES: printf("no room for indices\n"); break;
    case YOKTVARIM_UNKNOWN_SETTING: printf("unknown setting at place %" PRIu32 "\n", counts[0]); break;
    case YOKTVARIM_NO_ROOM_FOR_FLOATS: printf("no room for floats\n"); break;
    case YOKTVARIM_BAD_TOP: printf("bad top\n"); break;
    }
}

/* Draws into lists of so many words, and prints what came of it. */
static void show(const yoktvarim_settings *settings, const yoktvarim_levels *levels, size_t vertex_words, size_t index_words)
{
    uint32_t counts[2];
    yoktvarim_answer answer = draw(settings, levels, vertex_words, index_words, counts);
    show_answer(answer, counts);
}

/* Draws with floats, into all three lists or none, and prints what came of it: a line of floats for each point, last. */
static void show_floats(const yoktvarim_settings *settings, const yoktvarim_levels *levels, size_t float_words)
{
    uint32_t counts[2];
    yoktvarim_answer answer = yoktvarim_draw_with_floats(settings, levels, vertices, YOKTVARIM_VERTEX_WORDS, indices, YOKTVARIM_INDEX_WORDS,
                                                         floats, float_words, counts);
    show_answer(answer, counts);
    /* Counts are 0 where nothing was drawn. */
    for (uint32_t p = 0; p < counts[0]; p++)
        printf("%.9g %.9g %.9g\n", (double)floats[3 * p], (double)floats[3 * p + 1], (double)floats[3 * p + 2]);
}

/* The word for a byte of yoktvarim_clamps. */
static const char *word(uint8_t clamp)
{
    switch (clamp) {
    case YOKTVARIM_BELOW: return "below";
    case YOKTVARIM_INSIDE: return "inside";
    case YOKTVARIM_ABOVE: return "above";
    default: return "-"; /* YOKTVARIM_NOT_TOLD: a triangle patch has no such level */
    }
}

/* Measures into counts, and prints them with a word for each level; 0 where the patch was not measured. */
static int show_size(const yoktvarim_settings *settings, const yoktvarim_levels *levels, uint32_t *counts)
{
    yoktvarim_clamps clamps;
    if (yoktvarim_measure(settings, levels, counts, &clamps) != YOKTVARIM_MEASURED)
        return 0;
    printf("measured %" PRIu32 " %" PRIu32 "\n", counts[0], counts[1]);
    printf("outer %s %s %s %s\n", word(clamps.outer[0]), word(clamps.outer[1]), word(clamps.outer[2]), word(clamps.outer[3]));
    printf("inner %s %s\n", word(clamps.inner[0]), word(clamps.inner[1]));
    return 1;
}

/* Draws the indices once, and the points again for each place of a slider that moves the inner level: with odd spacing every level
 * above 1 and up to 3 gives three segments, so the indices stay what they were. 0 where something was not drawn. */
static int slide(yoktvarim_settings settings)
{
    settings.spacing = YOKTVARIM_FRACTIONAL_ODD;
    yoktvarim_levels levels = {.outer = {1, 1, 1}, .inner = {1.5f}};
    uint32_t count;
    if (!yoktvarim_is_drawn(yoktvarim_draw_indices(&settings, &levels, indices, YOKTVARIM_INDEX_WORDS, &count)))
        return 0;
    printf("kept %" PRIu32 "\n", count);
    for (; levels.inner[0] <= 3; levels.inner[0] += 0.5f) {
        if (!yoktvarim_is_drawn(yoktvarim_draw_points(&settings, &levels, vertices, YOKTVARIM_VERTEX_WORDS, &count)))
            return 0;
        const uint32_t *last = &vertices[3 * (count - 1)];
        printf("inner %.1f: last point %" PRIu32 " %" PRIu32 " %" PRIu32 "\n", (double)levels.inner[0], last[0], last[1], last[2]);
    }
    return 1;
}

int main(void)
{
    yoktvarim_settings settings = {
        .kind = YOKTVARIM_TRIANGLES,
        .spacing = YOKTVARIM_EQUAL,
        .vertex_order = YOKTVARIM_COUNTER_CLOCKWISE,
        .domain_origin = YOKTVARIM_LOWER_LEFT,
        .point_mode = YOKTVARIM_PRIMITIVES,
        .top = YOKTVARIM_GREATEST_TOP,
    };
    yoktvarim_levels levels = {.outer = {1, 1, 1}, .inner = {2}};

    /* Lists of these sizes have room for every patch. */
    show(&settings, &levels, YOKTVARIM_VERTEX_WORDS, YOKTVARIM_INDEX_WORDS);

    /* Measuring says how much room one patch needs; a word less is refused. */
    uint32_t counts[2];
    if (!show_size(&settings, &levels, counts))
        return 1;
    show(&settings, &levels, 3 * counts[0] - 1, counts[1]);
    show(&settings, &levels, 3 * counts[0], counts[1] - 1);

    /* It also says which levels lie outside 1 to 64, the range of equal spacing: 0.5 counts as 1, and 100 as 64. */
    yoktvarim_levels clamped = {.outer = {0.5f, 64, 100}, .inner = {2}};
    if (!show_size(&settings, &clamped, counts))
        return 1;

    /* With the top 16 that range is 1 to 16, and 64 counts as 16 too. */
    yoktvarim_settings up_to_16 = settings;
    up_to_16.top = 16;
    if (!show_size(&up_to_16, &clamped, counts))
        return 1;

    if (!slide(settings))
        return 1;

    /* The same four points as floats: a third is no f32, so the centre has the nearest there is. A float less is refused. */
    show_floats(&settings, &levels, YOKTVARIM_VERTEX_WORDS);
    show_floats(&settings, &levels, 3 * 4 - 1);

    levels.outer[1] = 0;
    show(&settings, &levels, YOKTVARIM_VERTEX_WORDS, YOKTVARIM_INDEX_WORDS);

    settings.spacing = 3;
    show(&settings, &levels, YOKTVARIM_VERTEX_WORDS, YOKTVARIM_INDEX_WORDS);

    /* A top is an even number from 2 to 64; any other is reported before everything else, here the spacing. */
    settings.top = 15;
    show(&settings, &levels, YOKTVARIM_VERTEX_WORDS, YOKTVARIM_INDEX_WORDS);
    return 0;
}
