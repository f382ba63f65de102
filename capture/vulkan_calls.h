// The calls of Vulkan that are used, found at run time, so that a machine without a loader gets a clear line.
#pragma once

#define VK_NO_PROTOTYPES
#define VK_ENABLE_BETA_EXTENSIONS // for VK_KHR_portability_subset
#include <vulkan/vulkan.h>

#include <functional>
#include <memory>
#include <type_traits>

#define GLOBAL_CALLS(X) X(vkEnumerateInstanceVersion) X(vkEnumerateInstanceExtensionProperties) X(vkCreateInstance)

#define INSTANCE_CALLS(X)                                                                                                                  \
    X(vkDestroyInstance)                                                                                                                   \
    X(vkEnumeratePhysicalDevices)                                                                                                          \
    X(vkGetPhysicalDeviceProperties2)                                                                                                      \
    X(vkGetPhysicalDeviceFeatures2)                                                                                                        \
    X(vkGetPhysicalDeviceMemoryProperties)                                                                                                 \
    X(vkGetPhysicalDeviceQueueFamilyProperties)                                                                                            \
    X(vkEnumerateDeviceExtensionProperties)                                                                                                \
    X(vkCreateDevice)                                                                                                                      \
    X(vkGetDeviceProcAddr)

#define DEVICE_CALLS(X)                                                                                                                    \
    X(vkDestroyDevice)                                                                                                                     \
    X(vkGetDeviceQueue)                                                                                                                    \
    X(vkCreateShaderModule)                                                                                                                \
    X(vkDestroyShaderModule)                                                                                                               \
    X(vkCreateDescriptorSetLayout)                                                                                                         \
    X(vkDestroyDescriptorSetLayout)                                                                                                        \
    X(vkCreateDescriptorPool)                                                                                                              \
    X(vkDestroyDescriptorPool)                                                                                                             \
    X(vkAllocateDescriptorSets)                                                                                                            \
    X(vkUpdateDescriptorSets)                                                                                                              \
    X(vkCreatePipelineLayout)                                                                                                              \
    X(vkDestroyPipelineLayout)                                                                                                             \
    X(vkCreateRenderPass)                                                                                                                  \
    X(vkDestroyRenderPass)                                                                                                                 \
    X(vkCreateFramebuffer)                                                                                                                 \
    X(vkDestroyFramebuffer)                                                                                                                \
    X(vkCreateGraphicsPipelines)                                                                                                           \
    X(vkDestroyPipeline)                                                                                                                   \
    X(vkCreateBuffer)                                                                                                                      \
    X(vkDestroyBuffer)                                                                                                                     \
    X(vkGetBufferMemoryRequirements)                                                                                                       \
    X(vkAllocateMemory)                                                                                                                    \
    X(vkFreeMemory)                                                                                                                        \
    X(vkBindBufferMemory)                                                                                                                  \
    X(vkMapMemory)                                                                                                                         \
    X(vkCreateCommandPool)                                                                                                                 \
    X(vkDestroyCommandPool)                                                                                                                \
    X(vkAllocateCommandBuffers)                                                                                                            \
    X(vkBeginCommandBuffer)                                                                                                                \
    X(vkEndCommandBuffer)                                                                                                                  \
    X(vkCreateFence)                                                                                                                       \
    X(vkDestroyFence)                                                                                                                      \
    X(vkResetFences)                                                                                                                       \
    X(vkWaitForFences)                                                                                                                     \
    X(vkQueueSubmit)                                                                                                                       \
    X(vkCmdFillBuffer)                                                                                                                     \
    X(vkCmdPipelineBarrier)                                                                                                                \
    X(vkCmdBeginRenderPass)                                                                                                                \
    X(vkCmdEndRenderPass)                                                                                                                  \
    X(vkCmdBindPipeline)                                                                                                                   \
    X(vkCmdBindDescriptorSets)                                                                                                             \
    X(vkCmdPushConstants)                                                                                                                  \
    X(vkCmdDraw)

// Of VK_EXT_transform_feedback; null where the device was made without it.
#define FEEDBACK_CALLS(X) X(vkCmdBindTransformFeedbackBuffersEXT) X(vkCmdBeginTransformFeedbackEXT) X(vkCmdEndTransformFeedbackEXT)

#define MEMBER(name) PFN_##name name = nullptr;

struct GlobalCalls {
    GLOBAL_CALLS(MEMBER)
    PFN_vkGetInstanceProcAddr vkGetInstanceProcAddr = nullptr;
};

struct InstanceCalls {
    INSTANCE_CALLS(MEMBER)
};

struct DeviceCalls {
    DEVICE_CALLS(MEMBER)
    FEEDBACK_CALLS(MEMBER)
};

#undef MEMBER

// The loader's shared library, kept open.
using Loader = std::shared_ptr<void>;

Loader open_loader();
GlobalCalls global_calls(const Loader &loader);
InstanceCalls instance_calls(const GlobalCalls &global, VkInstance instance);
DeviceCalls device_calls(const InstanceCalls &instance, VkDevice device);

// Throws a Failure that names the call, unless it returned VK_SUCCESS.
void demand(VkResult result, const char *call);

// A structure of Vulkan with its type, and nothing else set.
template <class T> T structure(VkStructureType type)
{
    T made{};
    made.sType = type;
    return made;
}

// A handle that is destroyed with its owner. On a 64-bit machine every handle is a pointer.
template <class T> using Owned = std::unique_ptr<std::remove_pointer_t<T>, std::function<void(T)>>;
