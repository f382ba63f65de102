// Draws a quad patch and prints how many points and triangles it has.
#include <cstdint>
#include <cstdio>
#include <vector>

#include <yoktvarim.h>

int main()
{
    const yoktvarim_settings settings = {YOKTVARIM_QUADS,      YOKTVARIM_EQUAL,      YOKTVARIM_COUNTER_CLOCKWISE,
                                         YOKTVARIM_LOWER_LEFT, YOKTVARIM_PRIMITIVES, YOKTVARIM_GREATEST_TOP};
    const yoktvarim_levels levels = {{4, 4, 4, 4}, {3, 3}};
    std::vector<std::uint32_t> vertices(YOKTVARIM_VERTEX_WORDS);
    std::vector<std::uint16_t> indices(YOKTVARIM_INDEX_WORDS);
    std::uint32_t points = 0, corners = 0;
    if (!yoktvarim_is_drawn(yoktvarim_draw_points(&settings, &levels, vertices.data(), vertices.size(), &points)) ||
        !yoktvarim_is_drawn(yoktvarim_draw_indices(&settings, &levels, indices.data(), indices.size(), &corners))) {
        std::fprintf(stderr, "the patch is not drawn\n");
        return 1;
    }
    std::printf("%u points, %u triangles\n", static_cast<unsigned>(points), static_cast<unsigned>(corners / 3));
}
