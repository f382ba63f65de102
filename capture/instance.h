// The machine's Vulkan devices, and what each can do.
#pragma once

#include "vulkan_calls.h"

#include <cstdint>
#include <optional>
#include <string>
#include <vector>

// How the primitives come out of the pipeline.
enum class Way { transform_feedback, geometry_shader };

const char *words_of(Way way);

// A device as the loader lists it.
struct Candidate {
    VkPhysicalDevice handle;
    std::string name;
    std::string driver;
    uint32_t greatest_level; // maxTessellationGenerationLevel
    bool is_portable;        // it has VK_KHR_portability_subset, so it may lack the next two
    bool has_isolines;
    bool has_point_mode;
    std::optional<Way> way; // empty where it cannot be captured from
    std::string obstacle;   // why not, in words
};

class Instance
{
public:
    Instance();

    const std::vector<Candidate> &candidates() const { return candidates_; }
    const InstanceCalls &calls() const { return calls_; }

private:
    Loader loader_;
    InstanceCalls calls_;
    Owned<VkInstance> handle_;
    std::vector<Candidate> candidates_;
};

std::optional<uint32_t> graphics_family(const InstanceCalls &calls, VkPhysicalDevice device);
