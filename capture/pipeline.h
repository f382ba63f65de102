// Tessellation pipelines, one for each combination of settings, made when it is first asked for.
#pragma once

#include "device.h"

#include <yoktvarim.h>

#include <map>
#include <vector>

// How many corners a primitive of a patch has.
uint32_t corners_of(const yoktvarim_settings &settings);

class Pipelines
{
public:
    explicit Pipelines(const Device &device);

    // Of the settings only the top is not looked at.
    VkPipeline of(const yoktvarim_settings &settings);

    VkPipelineLayout layout() const { return layout_.get(); }
    VkDescriptorSetLayout set_layout() const { return set_layout_.get(); } // null unless a geometry shader captures
    VkRenderPass render_pass() const { return render_pass_.get(); }

private:
    Owned<VkPipeline> make(const yoktvarim_settings &settings) const;
    Owned<VkPipeline> link(const std::vector<VkPipelineShaderStageCreateInfo> &stages, uint8_t domain_origin) const;

    const Device &device_;
    Owned<VkDescriptorSetLayout> set_layout_;
    Owned<VkPipelineLayout> layout_;
    Owned<VkRenderPass> render_pass_;
    std::map<size_t, Owned<VkPipeline>> made_;
};
