#include "instance.h"

#include "failure.h"

#include <algorithm>
#include <cstring>

namespace
{

bool names(const std::vector<VkExtensionProperties> &extensions, const char *name)
{
    return std::any_of(extensions.begin(), extensions.end(),
                       [name](const VkExtensionProperties &found) { return std::strcmp(found.extensionName, name) == 0; });
}

std::vector<VkExtensionProperties> instance_extensions(const GlobalCalls &calls)
{
    constexpr const char *call = "vkEnumerateInstanceExtensionProperties";
    uint32_t count = 0;
    demand(calls.vkEnumerateInstanceExtensionProperties(nullptr, &count, nullptr), call);
    std::vector<VkExtensionProperties> extensions(count);
    demand(calls.vkEnumerateInstanceExtensionProperties(nullptr, &count, extensions.data()), call);
    return extensions;
}

std::vector<VkExtensionProperties> device_extensions(const InstanceCalls &calls, VkPhysicalDevice device)
{
    constexpr const char *call = "vkEnumerateDeviceExtensionProperties";
    uint32_t count = 0;
    demand(calls.vkEnumerateDeviceExtensionProperties(device, nullptr, &count, nullptr), call);
    std::vector<VkExtensionProperties> extensions(count);
    demand(calls.vkEnumerateDeviceExtensionProperties(device, nullptr, &count, extensions.data()), call);
    return extensions;
}

// Devices that have only a part of Vulkan are listed too, where the loader can do so: --list then shows their names and obstacles.
Owned<VkInstance> make_instance(const GlobalCalls &calls)
{
    uint32_t version = 0;
    demand(calls.vkEnumerateInstanceVersion(&version), "vkEnumerateInstanceVersion");
    if (version < VK_API_VERSION_1_1)
        throw Failure("the Vulkan loader is older than version 1.1");

    auto application = structure<VkApplicationInfo>(VK_STRUCTURE_TYPE_APPLICATION_INFO);
    application.pApplicationName = "capture";
    application.apiVersion = VK_API_VERSION_1_1;
    auto info = structure<VkInstanceCreateInfo>(VK_STRUCTURE_TYPE_INSTANCE_CREATE_INFO);
    info.pApplicationInfo = &application;
    const char *portability = VK_KHR_PORTABILITY_ENUMERATION_EXTENSION_NAME;
    if (names(instance_extensions(calls), portability)) {
        info.flags = VK_INSTANCE_CREATE_ENUMERATE_PORTABILITY_BIT_KHR;
        info.enabledExtensionCount = 1;
        info.ppEnabledExtensionNames = &portability;
    }
    VkInstance instance = VK_NULL_HANDLE;
    const VkResult result = calls.vkCreateInstance(&info, nullptr, &instance);
    if (result == VK_ERROR_INCOMPATIBLE_DRIVER)
        throw Failure("no Vulkan driver: the loader found none that it can use");
    demand(result, "vkCreateInstance");

    auto destroy = reinterpret_cast<PFN_vkDestroyInstance>(calls.vkGetInstanceProcAddr(instance, "vkDestroyInstance"));
    return Owned<VkInstance>(instance, [destroy](VkInstance owned) { destroy(owned, nullptr); });
}

std::string version_words(uint32_t version)
{
    return std::to_string(VK_API_VERSION_MAJOR(version)) + "." + std::to_string(VK_API_VERSION_MINOR(version)) + "." +
           std::to_string(VK_API_VERSION_PATCH(version));
}

// The driver's own words where the device has them, else its version.
std::string driver_words(const InstanceCalls &calls, VkPhysicalDevice device, const VkPhysicalDeviceProperties &properties,
                         const std::vector<VkExtensionProperties> &extensions)
{
    if (properties.apiVersion < VK_API_VERSION_1_2 && !names(extensions, VK_KHR_DRIVER_PROPERTIES_EXTENSION_NAME))
        return "driver version " + version_words(properties.driverVersion);
    auto driver = structure<VkPhysicalDeviceDriverProperties>(VK_STRUCTURE_TYPE_PHYSICAL_DEVICE_DRIVER_PROPERTIES);
    auto all = structure<VkPhysicalDeviceProperties2>(VK_STRUCTURE_TYPE_PHYSICAL_DEVICE_PROPERTIES_2);
    all.pNext = &driver;
    calls.vkGetPhysicalDeviceProperties2(device, &all);
    return std::string(driver.driverName) + " " + driver.driverInfo;
}

// The features that are looked at. A structure is asked for only where the device has its extension.
struct Features {
    bool tessellation, geometry, stores, feedback, isolines, point_mode;
};

Features features_of(const InstanceCalls &calls, VkPhysicalDevice device, bool has_feedback, bool is_portable)
{
    auto feedback =
        structure<VkPhysicalDeviceTransformFeedbackFeaturesEXT>(VK_STRUCTURE_TYPE_PHYSICAL_DEVICE_TRANSFORM_FEEDBACK_FEATURES_EXT);
    auto portability =
        structure<VkPhysicalDevicePortabilitySubsetFeaturesKHR>(VK_STRUCTURE_TYPE_PHYSICAL_DEVICE_PORTABILITY_SUBSET_FEATURES_KHR);
    auto all = structure<VkPhysicalDeviceFeatures2>(VK_STRUCTURE_TYPE_PHYSICAL_DEVICE_FEATURES_2);
    if (has_feedback)
        all.pNext = &feedback;
    if (is_portable) {
        portability.pNext = all.pNext;
        all.pNext = &portability;
    }
    calls.vkGetPhysicalDeviceFeatures2(device, &all);
    const VkPhysicalDeviceFeatures &found = all.features;
    return {found.tessellationShader == VK_TRUE,
            found.geometryShader == VK_TRUE,
            found.vertexPipelineStoresAndAtomics == VK_TRUE,
            feedback.transformFeedback == VK_TRUE,
            !is_portable || portability.tessellationIsolines == VK_TRUE,
            !is_portable || portability.tessellationPointMode == VK_TRUE};
}

Candidate look_at(const InstanceCalls &calls, VkPhysicalDevice device)
{
    auto all = structure<VkPhysicalDeviceProperties2>(VK_STRUCTURE_TYPE_PHYSICAL_DEVICE_PROPERTIES_2);
    calls.vkGetPhysicalDeviceProperties2(device, &all);
    const VkPhysicalDeviceProperties &properties = all.properties;
    const std::vector<VkExtensionProperties> extensions = device_extensions(calls, device);
    const bool is_portable = names(extensions, VK_KHR_PORTABILITY_SUBSET_EXTENSION_NAME);
    const Features has = features_of(calls, device, names(extensions, VK_EXT_TRANSFORM_FEEDBACK_EXTENSION_NAME), is_portable);

    Candidate found{};
    found.handle = device;
    found.name = properties.deviceName;
    found.driver = driver_words(calls, device, properties, extensions);
    found.greatest_level = properties.limits.maxTessellationGenerationLevel;
    found.is_portable = is_portable;
    found.has_isolines = has.isolines;
    found.has_point_mode = has.point_mode;
    if (properties.apiVersion < VK_API_VERSION_1_1)
        found.obstacle = "it has Vulkan 1.0 only, which has no domain origin";
    else if (!has.tessellation)
        found.obstacle = "it has no tessellation";
    else if (!graphics_family(calls, device))
        found.obstacle = "it has no graphics queue";
    else if (has.feedback)
        found.way = Way::transform_feedback;
    else if (has.geometry && has.stores)
        found.way = Way::geometry_shader;
    else
        found.obstacle = "it has neither transform feedback nor geometry shaders that store";
    return found;
}

} // namespace

const char *words_of(Way way)
{
    return way == Way::transform_feedback ? "transform feedback" : "geometry shader";
}

std::optional<uint32_t> graphics_family(const InstanceCalls &calls, VkPhysicalDevice device)
{
    uint32_t count = 0;
    calls.vkGetPhysicalDeviceQueueFamilyProperties(device, &count, nullptr);
    std::vector<VkQueueFamilyProperties> families(count);
    calls.vkGetPhysicalDeviceQueueFamilyProperties(device, &count, families.data());
    for (uint32_t family = 0; family < count; ++family)
        if (families[family].queueFlags & VK_QUEUE_GRAPHICS_BIT)
            return family;
    return std::nullopt;
}

Instance::Instance() : loader_(open_loader())
{
    const GlobalCalls global = global_calls(loader_);
    handle_ = make_instance(global);
    calls_ = instance_calls(global, handle_.get());

    uint32_t count = 0;
    demand(calls_.vkEnumeratePhysicalDevices(handle_.get(), &count, nullptr), "vkEnumeratePhysicalDevices");
    std::vector<VkPhysicalDevice> devices(count);
    demand(calls_.vkEnumeratePhysicalDevices(handle_.get(), &count, devices.data()), "vkEnumeratePhysicalDevices");
    for (VkPhysicalDevice device : devices)
        candidates_.push_back(look_at(calls_, device));
    if (candidates_.empty())
        throw Failure("no Vulkan device: the drivers of this machine list none");
}
