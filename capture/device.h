// One of the machine's devices, opened for drawing, and buffers that the host sees.
#pragma once

#include "instance.h"

// Mapped as long as it lives.
struct Buffer {
    VkDeviceSize bytes;
    Owned<VkDeviceMemory> memory;
    Owned<VkBuffer> handle;
    const void *mapped;
};

class Device
{
public:
    // A Failure where the candidate cannot be captured from.
    Device(const Instance &instance, const Candidate &candidate);

    const DeviceCalls &calls() const { return calls_; }
    VkDevice handle() const { return handle_.get(); }
    VkQueue queue() const { return queue_; }
    uint32_t queue_family() const { return queue_family_; }
    Way way() const { return way_; }

    Buffer make_buffer(VkDeviceSize bytes, VkBufferUsageFlags usage) const;

    // The handle with the call that destroys it.
    template <class T> Owned<T> own(T handle, void (*destroy)(VkDevice, T, const VkAllocationCallbacks *)) const
    {
        return Owned<T>(handle, [device = this->handle(), destroy](T owned) { destroy(device, owned, nullptr); });
    }

private:
    Owned<VkDeviceMemory> make_memory(VkBuffer buffer) const;

    Way way_;
    uint32_t queue_family_;
    VkPhysicalDeviceMemoryProperties memory_;
    DeviceCalls calls_;
    Owned<VkDevice> handle_;
    VkQueue queue_;
};
