/* Checks two meshes for one quad patch: its own, and the same with one triangle turned over. */
#include <inttypes.h>
#include <stdio.h>

#include "yoktvarim.h"

static uint32_t points[YOKTVARIM_VERTEX_WORDS];
static uint16_t indices[YOKTVARIM_INDEX_WORDS];

/* Prints the verdict on the first points and indices of the lists. */
static void show(const yoktvarim_settings *settings, const yoktvarim_levels *levels, uint32_t point_count, uint32_t index_count)
{
    uint64_t places[2];
    yoktvarim_verdict verdict = yoktvarim_check_mesh(settings, levels, points, 3 * (size_t)point_count, indices, index_count, places);
    if (yoktvarim_is_accepted(verdict))
        printf("accepted\n");
    else
        printf("fault %u at %" PRIu64 " %" PRIu64 "\n", (unsigned)verdict, places[0], places[1]);
}

int main(void)
{
    yoktvarim_settings settings = {YOKTVARIM_QUADS,      YOKTVARIM_FRACTIONAL_ODD, YOKTVARIM_CLOCKWISE,
                                   YOKTVARIM_UPPER_LEFT, YOKTVARIM_PRIMITIVES,     YOKTVARIM_GREATEST_TOP};
    yoktvarim_levels levels = {{3, 2.5f, 7, 1}, {4, 5}};
    uint32_t point_count, index_count;
    if (!yoktvarim_is_drawn(yoktvarim_draw_points(&settings, &levels, points, YOKTVARIM_VERTEX_WORDS, &point_count)) ||
        !yoktvarim_is_drawn(yoktvarim_draw_indices(&settings, &levels, indices, YOKTVARIM_INDEX_WORDS, &index_count)))
        return 1;
    show(&settings, &levels, point_count, index_count);

    uint16_t corner = indices[31];
    indices[31] = indices[32];
    indices[32] = corner;
    show(&settings, &levels, point_count, index_count); /* triangle 10 */

    indices[32] = UINT16_MAX;
    show(&settings, &levels, point_count, index_count); /* no point has this number */

    points[5] = 1;
    indices[32] = 0;
    show(&settings, &levels, point_count, index_count); /* w of point 1 is not 0 */

    levels.outer[0] = 0;
    show(&settings, &levels, point_count, index_count); /* the patch is discarded */
    show(&settings, &levels, 0, 0);                     /* and these lists are right */

    settings.top = 7;
    show(&settings, &levels, 0, 0);
    return 0;
}
