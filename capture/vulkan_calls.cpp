#include "vulkan_calls.h"

#include "failure.h"

#include <dlfcn.h>

#include <string>

Loader open_loader()
{
    void *library = dlopen("libvulkan.so.1", RTLD_NOW | RTLD_LOCAL);
    if (!library)
        throw Failure(std::string("no Vulkan loader: ") + dlerror());
    return Loader(library, dlclose);
}

GlobalCalls global_calls(const Loader &loader)
{
    GlobalCalls calls;
    calls.vkGetInstanceProcAddr = reinterpret_cast<PFN_vkGetInstanceProcAddr>(dlsym(loader.get(), "vkGetInstanceProcAddr"));
    if (!calls.vkGetInstanceProcAddr)
        throw Failure("no Vulkan loader: libvulkan.so.1 has no vkGetInstanceProcAddr");
#define FIND(name)                                                                                                                         \
    if (!(calls.name = reinterpret_cast<PFN_##name>(calls.vkGetInstanceProcAddr(nullptr, #name))))                                         \
        throw Failure("the Vulkan loader is older than version 1.1: it has no " #name);
    GLOBAL_CALLS(FIND)
#undef FIND
    return calls;
}

InstanceCalls instance_calls(const GlobalCalls &global, VkInstance instance)
{
    InstanceCalls calls;
#define FIND(name)                                                                                                                         \
    if (!(calls.name = reinterpret_cast<PFN_##name>(global.vkGetInstanceProcAddr(instance, #name))))                                       \
        throw Failure("the Vulkan loader has no " #name);
    INSTANCE_CALLS(FIND)
#undef FIND
    return calls;
}

DeviceCalls device_calls(const InstanceCalls &instance, VkDevice device)
{
    DeviceCalls calls;
#define FIND(name) calls.name = reinterpret_cast<PFN_##name>(instance.vkGetDeviceProcAddr(device, #name));
    FEEDBACK_CALLS(FIND)
#undef FIND
#define FIND(name)                                                                                                                         \
    if (!(calls.name = reinterpret_cast<PFN_##name>(instance.vkGetDeviceProcAddr(device, #name))))                                         \
        throw Failure("the device has no " #name);
    DEVICE_CALLS(FIND)
#undef FIND
    return calls;
}

namespace
{

std::string words_of(VkResult result)
{
    switch (result) {
    case VK_ERROR_OUT_OF_HOST_MEMORY: return "the host is out of memory";
    case VK_ERROR_OUT_OF_DEVICE_MEMORY: return "the device is out of memory";
    case VK_ERROR_INITIALIZATION_FAILED: return "the driver could not start";
    case VK_ERROR_DEVICE_LOST: return "the device was lost";
    default: return "Vulkan's result " + std::to_string(result);
    }
}

} // namespace

void demand(VkResult result, const char *call)
{
    if (result != VK_SUCCESS)
        throw Failure(std::string(call) + " failed: " + words_of(result));
}
