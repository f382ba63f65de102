/* Two designers on one vertex list and one index list: each has its own quota, and no call of one changes what the other gets. */
#include <inttypes.h>
#include <stdio.h>

#include "yoktvarim.h"

enum { WORDS = 48 };

static uint32_t vertices[WORDS];
static uint16_t indices[WORDS];

/* Draws for a designer, and prints the answer's number, the counts, and what the designer has used of both lists. */
static void draw(yoktvarim_shared *state, uint32_t designer, const yoktvarim_settings *settings, const yoktvarim_levels *levels)
{
    uint32_t counts[2];
    yoktvarim_share_answer answer = yoktvarim_share_draw(state, designer, settings, levels, vertices, WORDS, indices, WORDS, counts);
    printf("designer %" PRIu32 ": answer %d, %" PRIu32 " points, %" PRIu32 " indices", designer, (int)answer, counts[0], counts[1]);
    if (designer < 2)
        printf(", used %" PRIu64 " %" PRIu64, state->vertices.share[designer].used, state->indices.share[designer].used);
    printf("\n");
}

int main(void)
{
    const yoktvarim_settings settings = {
        .kind = YOKTVARIM_TRIANGLES,
        .spacing = YOKTVARIM_EQUAL,
        .vertex_order = YOKTVARIM_COUNTER_CLOCKWISE,
        .domain_origin = YOKTVARIM_LOWER_LEFT,
        .point_mode = YOKTVARIM_PRIMITIVES,
        .top = YOKTVARIM_GREATEST_TOP,
    };
    const yoktvarim_levels levels = {.outer = {1, 1, 1}, .inner = {2}};
    yoktvarim_shared state;

    /* Quotas that add up past a list are refused as a whole, and the state is not written. */
    yoktvarim_quota quotas[2] = {{24, 24}, {25, 24}};
    printf("start: %d\n", (int)yoktvarim_share_start(vertices, WORDS, indices, WORDS, quotas, &state));
    quotas[1].vertices = 24;
    if (!yoktvarim_is_done(yoktvarim_share_start(vertices, WORDS, indices, WORDS, quotas, &state)))
        return 1;

    /* A patch of 4 points and 9 indices: two of them fill a quota of 24 words for vertices. */
    draw(&state, 0, &settings, &levels);
    draw(&state, 1, &settings, &levels);
    draw(&state, 0, &settings, &levels);
    draw(&state, 0, &settings, &levels);
    draw(&state, 1, &settings, &levels);

    /* Both parts hold the same indices, counted from the part's beginning. */
    for (int designer = 0; designer < 2; designer++) {
        printf("indices of %d:", designer);
        for (int i = 0; i < 18; i++)
            printf(" %u", (unsigned)indices[24 * designer + i]);
        printf("\n");
    }

    /* Clearing gives the room back. */
    if (!yoktvarim_is_done(yoktvarim_share_clear(&state, 0, vertices, WORDS, indices, WORDS)))
        return 1;
    draw(&state, 0, &settings, &levels);

    /* There are no other designers, and an impossible state is refused before the designer. */
    draw(&state, 2, &settings, &levels);
    state.vertices.share[1].used = 25;
    draw(&state, 0, &settings, &levels);
    return 0;
}
