#include "device_levels.h"

#include "failure.h"

#include <algorithm>
#include <cstdio>

namespace
{

// The greatest level of a spacing under a top.
float highest(uint8_t spacing, uint32_t top)
{
    return static_cast<float>(spacing == YOKTVARIM_FRACTIONAL_ODD ? top - 1 : top);
}

struct Counts {
    size_t outer, inner;
};

Counts levels_that_count(uint8_t kind)
{
    switch (kind) {
    case YOKTVARIM_TRIANGLES: return {3, 1};
    case YOKTVARIM_QUADS: return {4, 2};
    default: return {2, 0};
    }
}

// A NaN stays as it is.
float clamped(float level, uint8_t spacing, uint32_t top, uint32_t greatest_level)
{
    const float most = highest(spacing, top), device_most = highest(spacing, greatest_level);
    if (std::min(most, level) > device_most) {
        char words[96];
        std::snprintf(words, sizeof words, "level %.9g is above the device's greatest, %.9g", std::min(most, level), device_most);
        throw Failure(words);
    }
    return top < greatest_level && level > most ? most : level;
}

} // namespace

yoktvarim_levels levels_for_device(const Record &record, const Abilities &abilities)
{
    const yoktvarim_settings &settings = record.settings;
    if (settings.kind == YOKTVARIM_ISOLINES && !abilities.isolines)
        throw Failure("the device has no isolines");
    if (settings.point_mode == YOKTVARIM_POINTS && !abilities.point_mode)
        throw Failure("the device has no point mode");
    const Counts counts = levels_that_count(settings.kind);
    yoktvarim_levels levels = record.levels;
    for (size_t i = 0; i < counts.outer; ++i) {
        // The number of isolines has equal spacing, whatever is asked.
        const bool is_lines = settings.kind == YOKTVARIM_ISOLINES && i == 0;
        const uint8_t spacing = is_lines ? uint8_t{YOKTVARIM_EQUAL} : settings.spacing;
        levels.outer[i] = clamped(levels.outer[i], spacing, settings.top, abilities.greatest_level);
    }
    for (size_t i = 0; i < counts.inner; ++i)
        levels.inner[i] = clamped(levels.inner[i], settings.spacing, settings.top, abilities.greatest_level);
    return levels;
}
