// What a device is given for a record: its levels, or a refusal.
#pragma once

#include "job.h"

// What a device can cut.
struct Abilities {
    uint32_t greatest_level;
    bool isolines;
    bool point_mode;
};

// The levels as they are, unless the record's top is below the device's greatest level: Vulkan has no top, so they are clamped to
// it here. A Failure where the rules ask for a level above the device's greatest one, or the device lacks the record's kind or
// point mode.
yoktvarim_levels levels_for_device(const Record &record, const Abilities &abilities);
