#include "device.h"

#include "failure.h"

namespace
{

Way way_of(const Candidate &candidate)
{
    if (!candidate.way)
        throw Failure(candidate.name + ": " + candidate.obstacle);
    return *candidate.way;
}

// What the device is asked for. Its structures are chained, so it is neither copied nor moved.
struct Request {
    Request(const Candidate &candidate, Way way);
    Request(const Request &) = delete;
    Request &operator=(const Request &) = delete;

    VkPhysicalDeviceFeatures2 features;
    VkPhysicalDeviceTransformFeedbackFeaturesEXT feedback;
    VkPhysicalDevicePortabilitySubsetFeaturesKHR portability;
    std::vector<const char *> extensions;
};

Request::Request(const Candidate &candidate, Way way)
    : features(structure<VkPhysicalDeviceFeatures2>(VK_STRUCTURE_TYPE_PHYSICAL_DEVICE_FEATURES_2)),
      feedback(structure<VkPhysicalDeviceTransformFeedbackFeaturesEXT>(VK_STRUCTURE_TYPE_PHYSICAL_DEVICE_TRANSFORM_FEEDBACK_FEATURES_EXT)),
      portability(
          structure<VkPhysicalDevicePortabilitySubsetFeaturesKHR>(VK_STRUCTURE_TYPE_PHYSICAL_DEVICE_PORTABILITY_SUBSET_FEATURES_KHR))
{
    features.features.tessellationShader = VK_TRUE;
    if (way == Way::transform_feedback) {
        extensions.push_back(VK_EXT_TRANSFORM_FEEDBACK_EXTENSION_NAME);
        feedback.transformFeedback = VK_TRUE;
        features.pNext = &feedback;
    } else {
        features.features.geometryShader = VK_TRUE;
        features.features.vertexPipelineStoresAndAtomics = VK_TRUE;
    }
    if (candidate.is_portable) {
        extensions.push_back(VK_KHR_PORTABILITY_SUBSET_EXTENSION_NAME);
        portability.tessellationIsolines = candidate.has_isolines;
        portability.tessellationPointMode = candidate.has_point_mode;
        portability.pNext = features.pNext;
        features.pNext = &portability;
    }
}

Owned<VkDevice> make_device(const InstanceCalls &calls, const Candidate &candidate, uint32_t family, Way way)
{
    const float priority = 1;
    auto queue = structure<VkDeviceQueueCreateInfo>(VK_STRUCTURE_TYPE_DEVICE_QUEUE_CREATE_INFO);
    queue.queueFamilyIndex = family;
    queue.queueCount = 1;
    queue.pQueuePriorities = &priority;

    const Request request(candidate, way);
    auto info = structure<VkDeviceCreateInfo>(VK_STRUCTURE_TYPE_DEVICE_CREATE_INFO);
    info.pNext = &request.features;
    info.queueCreateInfoCount = 1;
    info.pQueueCreateInfos = &queue;
    info.enabledExtensionCount = static_cast<uint32_t>(request.extensions.size());
    info.ppEnabledExtensionNames = request.extensions.data();
    VkDevice device = VK_NULL_HANDLE;
    demand(calls.vkCreateDevice(candidate.handle, &info, nullptr, &device), "vkCreateDevice");

    auto destroy = reinterpret_cast<PFN_vkDestroyDevice>(calls.vkGetDeviceProcAddr(device, "vkDestroyDevice"));
    return Owned<VkDevice>(device, [destroy](VkDevice owned) { destroy(owned, nullptr); });
}

// A type of memory that the host sees without flushing; one that it reads fast, where there is one.
uint32_t host_memory(const VkPhysicalDeviceMemoryProperties &memory, uint32_t allowed)
{
    const VkMemoryPropertyFlags coherent = VK_MEMORY_PROPERTY_HOST_VISIBLE_BIT | VK_MEMORY_PROPERTY_HOST_COHERENT_BIT;
    for (VkMemoryPropertyFlags wanted : {coherent | VK_MEMORY_PROPERTY_HOST_CACHED_BIT, coherent})
        for (uint32_t type = 0; type < memory.memoryTypeCount; ++type)
            if ((allowed >> type & 1) && (memory.memoryTypes[type].propertyFlags & wanted) == wanted)
                return type;
    throw Failure("the device has no memory that the host can read");
}

} // namespace

Device::Device(const Instance &instance, const Candidate &candidate)
    : way_(way_of(candidate)), queue_family_(graphics_family(instance.calls(), candidate.handle).value()),
      handle_(make_device(instance.calls(), candidate, queue_family_, way_))
{
    instance.calls().vkGetPhysicalDeviceMemoryProperties(candidate.handle, &memory_);
    calls_ = device_calls(instance.calls(), handle_.get());
    calls_.vkGetDeviceQueue(handle_.get(), queue_family_, 0, &queue_);
}

Buffer Device::make_buffer(VkDeviceSize bytes, VkBufferUsageFlags usage) const
{
    auto info = structure<VkBufferCreateInfo>(VK_STRUCTURE_TYPE_BUFFER_CREATE_INFO);
    info.size = bytes;
    info.usage = usage;
    VkBuffer buffer = VK_NULL_HANDLE;
    demand(calls_.vkCreateBuffer(handle(), &info, nullptr, &buffer), "vkCreateBuffer");
    Owned<VkBuffer> owned = own(buffer, calls_.vkDestroyBuffer);
    Owned<VkDeviceMemory> memory = make_memory(buffer);
    demand(calls_.vkBindBufferMemory(handle(), buffer, memory.get(), 0), "vkBindBufferMemory");
    void *mapped = nullptr;
    demand(calls_.vkMapMemory(handle(), memory.get(), 0, VK_WHOLE_SIZE, 0, &mapped), "vkMapMemory");
    return Buffer{bytes, std::move(memory), std::move(owned), mapped};
}

Owned<VkDeviceMemory> Device::make_memory(VkBuffer buffer) const
{
    VkMemoryRequirements needs;
    calls_.vkGetBufferMemoryRequirements(handle(), buffer, &needs);
    auto info = structure<VkMemoryAllocateInfo>(VK_STRUCTURE_TYPE_MEMORY_ALLOCATE_INFO);
    info.allocationSize = needs.size;
    info.memoryTypeIndex = host_memory(memory_, needs.memoryTypeBits);
    VkDeviceMemory memory = VK_NULL_HANDLE;
    demand(calls_.vkAllocateMemory(handle(), &info, nullptr, &memory), "vkAllocateMemory");
    return own(memory, calls_.vkFreeMemory);
}
