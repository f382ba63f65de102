// Draws one patch on the device and reads back where its primitives' corners lie.
#pragma once

#include "coordinate.h"
#include "device.h"
#include "pipeline.h"

#include <vector>

class Capture
{
public:
    explicit Capture(const Device &device);

    // The corners of every primitive, one primitive after the other; none where the device discards the patch.
    std::vector<Coordinate> draw(const yoktvarim_settings &settings, const yoktvarim_levels &levels);

private:
    void record(VkPipeline pipeline, const yoktvarim_levels &levels) const;
    void submit() const;

    const Device &device_;
    Pipelines pipelines_;
    Buffer counter_; // how many bytes of the captured numbers are used
    Buffer captured_;
    Owned<VkDescriptorPool> descriptors_;
    VkDescriptorSet set_ = VK_NULL_HANDLE;
    Owned<VkFramebuffer> framebuffer_;
    Owned<VkCommandPool> pool_;
    VkCommandBuffer commands_ = VK_NULL_HANDLE;
    Owned<VkFence> fence_;
};
