#include "capture.h"

#include "failure.h"

#include <cstring>

namespace
{

// Twice the triangles of the greatest mesh that the rules know; so many corners can still be numbered with 16 bits.
constexpr VkDeviceSize captured_bytes = 16384 * 3 * sizeof(Coordinate);

constexpr uint64_t forever = ~uint64_t{0};

VkBufferUsageFlags counter_usage(Way way)
{
    return VK_BUFFER_USAGE_TRANSFER_DST_BIT | (way == Way::transform_feedback ? VK_BUFFER_USAGE_TRANSFORM_FEEDBACK_COUNTER_BUFFER_BIT_EXT
                                                                              : VK_BUFFER_USAGE_STORAGE_BUFFER_BIT);
}

VkBufferUsageFlags captured_usage(Way way)
{
    return way == Way::transform_feedback ? VK_BUFFER_USAGE_TRANSFORM_FEEDBACK_BUFFER_BIT_EXT : VK_BUFFER_USAGE_STORAGE_BUFFER_BIT;
}

// A stage of a command buffer and what it does to memory there.
struct Access {
    VkPipelineStageFlags stage;
    VkAccessFlags access;
};

Access capturing(Way way)
{
    if (way == Way::transform_feedback)
        return {VK_PIPELINE_STAGE_TRANSFORM_FEEDBACK_BIT_EXT,
                VK_ACCESS_TRANSFORM_FEEDBACK_WRITE_BIT_EXT | VK_ACCESS_TRANSFORM_FEEDBACK_COUNTER_WRITE_BIT_EXT};
    return {VK_PIPELINE_STAGE_GEOMETRY_SHADER_BIT, VK_ACCESS_SHADER_READ_BIT | VK_ACCESS_SHADER_WRITE_BIT};
}

void barrier(const DeviceCalls &calls, VkCommandBuffer commands, Access before, Access after)
{
    auto memory = structure<VkMemoryBarrier>(VK_STRUCTURE_TYPE_MEMORY_BARRIER);
    memory.srcAccessMask = before.access;
    memory.dstAccessMask = after.access;
    calls.vkCmdPipelineBarrier(commands, before.stage, after.stage, 0, 1, &memory, 0, nullptr, 0, nullptr);
}

Owned<VkDescriptorPool> make_descriptors(const Device &device)
{
    VkDescriptorPoolSize size{VK_DESCRIPTOR_TYPE_STORAGE_BUFFER, 2};
    auto info = structure<VkDescriptorPoolCreateInfo>(VK_STRUCTURE_TYPE_DESCRIPTOR_POOL_CREATE_INFO);
    info.maxSets = 1;
    info.poolSizeCount = 1;
    info.pPoolSizes = &size;
    VkDescriptorPool pool = VK_NULL_HANDLE;
    demand(device.calls().vkCreateDescriptorPool(device.handle(), &info, nullptr, &pool), "vkCreateDescriptorPool");
    return device.own(pool, device.calls().vkDestroyDescriptorPool);
}

// The set that shows the two buffers to the geometry shader. It is destroyed with its pool.
VkDescriptorSet make_set(const Device &device, VkDescriptorPool pool, VkDescriptorSetLayout layout, const Buffer &counter,
                         const Buffer &captured)
{
    auto info = structure<VkDescriptorSetAllocateInfo>(VK_STRUCTURE_TYPE_DESCRIPTOR_SET_ALLOCATE_INFO);
    info.descriptorPool = pool;
    info.descriptorSetCount = 1;
    info.pSetLayouts = &layout;
    VkDescriptorSet set = VK_NULL_HANDLE;
    demand(device.calls().vkAllocateDescriptorSets(device.handle(), &info, &set), "vkAllocateDescriptorSets");

    const VkDescriptorBufferInfo shown[2] = {{counter.handle.get(), 0, VK_WHOLE_SIZE}, {captured.handle.get(), 0, VK_WHOLE_SIZE}};
    auto write = structure<VkWriteDescriptorSet>(VK_STRUCTURE_TYPE_WRITE_DESCRIPTOR_SET);
    write.dstSet = set;
    write.descriptorType = VK_DESCRIPTOR_TYPE_STORAGE_BUFFER;
    write.descriptorCount = 2; // on from binding 0
    write.pBufferInfo = shown;
    device.calls().vkUpdateDescriptorSets(device.handle(), 1, &write, 0, nullptr);
    return set;
}

Owned<VkFramebuffer> make_framebuffer(const Device &device, VkRenderPass pass)
{
    auto info = structure<VkFramebufferCreateInfo>(VK_STRUCTURE_TYPE_FRAMEBUFFER_CREATE_INFO);
    info.renderPass = pass;
    info.width = info.height = info.layers = 1;
    VkFramebuffer framebuffer = VK_NULL_HANDLE;
    demand(device.calls().vkCreateFramebuffer(device.handle(), &info, nullptr, &framebuffer), "vkCreateFramebuffer");
    return device.own(framebuffer, device.calls().vkDestroyFramebuffer);
}

Owned<VkCommandPool> make_pool(const Device &device)
{
    auto info = structure<VkCommandPoolCreateInfo>(VK_STRUCTURE_TYPE_COMMAND_POOL_CREATE_INFO);
    info.flags = VK_COMMAND_POOL_CREATE_RESET_COMMAND_BUFFER_BIT;
    info.queueFamilyIndex = device.queue_family();
    VkCommandPool pool = VK_NULL_HANDLE;
    demand(device.calls().vkCreateCommandPool(device.handle(), &info, nullptr, &pool), "vkCreateCommandPool");
    return device.own(pool, device.calls().vkDestroyCommandPool);
}

// It is destroyed with its pool.
VkCommandBuffer make_commands(const Device &device, VkCommandPool pool)
{
    auto info = structure<VkCommandBufferAllocateInfo>(VK_STRUCTURE_TYPE_COMMAND_BUFFER_ALLOCATE_INFO);
    info.commandPool = pool;
    info.level = VK_COMMAND_BUFFER_LEVEL_PRIMARY;
    info.commandBufferCount = 1;
    VkCommandBuffer commands = VK_NULL_HANDLE;
    demand(device.calls().vkAllocateCommandBuffers(device.handle(), &info, &commands), "vkAllocateCommandBuffers");
    return commands;
}

Owned<VkFence> make_fence(const Device &device)
{
    auto info = structure<VkFenceCreateInfo>(VK_STRUCTURE_TYPE_FENCE_CREATE_INFO);
    VkFence fence = VK_NULL_HANDLE;
    demand(device.calls().vkCreateFence(device.handle(), &info, nullptr, &fence), "vkCreateFence");
    return device.own(fence, device.calls().vkDestroyFence);
}

} // namespace

Capture::Capture(const Device &device)
    : device_(device), pipelines_(device), counter_(device.make_buffer(sizeof(uint32_t), counter_usage(device.way()))),
      captured_(device.make_buffer(captured_bytes, captured_usage(device.way()))),
      framebuffer_(make_framebuffer(device, pipelines_.render_pass())), pool_(make_pool(device)),
      commands_(make_commands(device, pool_.get())), fence_(make_fence(device))
{
    if (device.way() == Way::geometry_shader) {
        descriptors_ = make_descriptors(device);
        set_ = make_set(device, descriptors_.get(), pipelines_.set_layout(), counter_, captured_);
    }
}

std::vector<Coordinate> Capture::draw(const yoktvarim_settings &settings, const yoktvarim_levels &levels)
{
    record(pipelines_.of(settings), levels);
    submit();

    uint32_t used = 0;
    std::memcpy(&used, counter_.mapped, sizeof used);
    const size_t primitive = corners_of(settings) * sizeof(Coordinate);
    // Where another primitive would still have had room, none was left out.
    if (used + primitive > captured_.bytes)
        throw Failure("the device gave more primitives than there is room for");
    if (used % primitive != 0)
        throw Failure("the device gave a part of a primitive");
    const auto *corners = static_cast<const Coordinate *>(captured_.mapped);
    return std::vector<Coordinate>(corners, corners + used / sizeof(Coordinate));
}

void Capture::record(VkPipeline pipeline, const yoktvarim_levels &levels) const
{
    const DeviceCalls &calls = device_.calls();
    const bool feedback = device_.way() == Way::transform_feedback;
    const VkBuffer counter = counter_.handle.get(), captured = captured_.handle.get();
    const VkDeviceSize start = 0;

    auto begin = structure<VkCommandBufferBeginInfo>(VK_STRUCTURE_TYPE_COMMAND_BUFFER_BEGIN_INFO);
    begin.flags = VK_COMMAND_BUFFER_USAGE_ONE_TIME_SUBMIT_BIT;
    demand(calls.vkBeginCommandBuffer(commands_, &begin), "vkBeginCommandBuffer");
    calls.vkCmdFillBuffer(commands_, counter, 0, VK_WHOLE_SIZE, 0);
    barrier(calls, commands_, {VK_PIPELINE_STAGE_TRANSFER_BIT, VK_ACCESS_TRANSFER_WRITE_BIT}, capturing(device_.way()));

    auto pass = structure<VkRenderPassBeginInfo>(VK_STRUCTURE_TYPE_RENDER_PASS_BEGIN_INFO);
    pass.renderPass = pipelines_.render_pass();
    pass.framebuffer = framebuffer_.get();
    pass.renderArea.extent = {1, 1};
    calls.vkCmdBeginRenderPass(commands_, &pass, VK_SUBPASS_CONTENTS_INLINE);
    calls.vkCmdBindPipeline(commands_, VK_PIPELINE_BIND_POINT_GRAPHICS, pipeline);
    calls.vkCmdPushConstants(commands_, pipelines_.layout(), VK_SHADER_STAGE_TESSELLATION_CONTROL_BIT, 0, sizeof levels, &levels);
    if (feedback) {
        calls.vkCmdBindTransformFeedbackBuffersEXT(commands_, 0, 1, &captured, &start, &captured_.bytes);
        calls.vkCmdBeginTransformFeedbackEXT(commands_, 0, 0, nullptr, nullptr);
    } else {
        calls.vkCmdBindDescriptorSets(commands_, VK_PIPELINE_BIND_POINT_GRAPHICS, pipelines_.layout(), 0, 1, &set_, 0, nullptr);
    }
    calls.vkCmdDraw(commands_, 1, 1, 0, 0);
    if (feedback)
        calls.vkCmdEndTransformFeedbackEXT(commands_, 0, 1, &counter, &start);
    calls.vkCmdEndRenderPass(commands_);

    barrier(calls, commands_, capturing(device_.way()), {VK_PIPELINE_STAGE_HOST_BIT, VK_ACCESS_HOST_READ_BIT});
    demand(calls.vkEndCommandBuffer(commands_), "vkEndCommandBuffer");
}

void Capture::submit() const
{
    const DeviceCalls &calls = device_.calls();
    const VkFence fence = fence_.get();
    auto info = structure<VkSubmitInfo>(VK_STRUCTURE_TYPE_SUBMIT_INFO);
    info.commandBufferCount = 1;
    info.pCommandBuffers = &commands_;
    demand(calls.vkQueueSubmit(device_.queue(), 1, &info, fence), "vkQueueSubmit");
    demand(calls.vkWaitForFences(device_.handle(), 1, &fence, VK_TRUE, forever), "vkWaitForFences");
    demand(calls.vkResetFences(device_.handle(), 1, &fence), "vkResetFences");
}
