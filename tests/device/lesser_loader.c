/* A Vulkan loader that makes devices look lesser than they are, for the tests: the real one, without what LESSER names.
 * LESSER has any of these words: feedback, geometry, tessellation, levels (those above 16), version (1.1), validity (the priority of
 * the queue is wrong then), isolines, dots. With one of the last two the device has VK_KHR_portability_subset, in the place of its
 * last extension. */
#define VK_NO_PROTOTYPES
#define VK_ENABLE_BETA_EXTENSIONS
#include <vulkan/vulkan.h>

#include <dlfcn.h>
#include <stdlib.h>
#include <string.h>

static PFN_vkGetInstanceProcAddr real;
static PFN_vkEnumerateDeviceExtensionProperties real_extensions;
static PFN_vkGetPhysicalDeviceFeatures2 real_features;
static PFN_vkGetPhysicalDeviceProperties2 real_properties;
static PFN_vkCreateDevice real_create;

static int lacks(const char *what)
{
    const char *words = getenv("LESSER");
    return words && strstr(words, what);
}

static int is_portable(void)
{
    return lacks("isolines") || lacks("dots");
}

static VKAPI_ATTR VkResult VKAPI_CALL extensions(VkPhysicalDevice device, const char *layer, uint32_t *count, VkExtensionProperties *found)
{
    VkResult result = real_extensions(device, layer, count, found);
    if (found && lacks("feedback"))
        for (uint32_t i = 0; i < *count; ++i)
            if (strcmp(found[i].extensionName, VK_EXT_TRANSFORM_FEEDBACK_EXTENSION_NAME) == 0)
                strcpy(found[i].extensionName, "VK_EXT_hidden");
    if (found && is_portable())
        strcpy(found[*count - 1].extensionName, VK_KHR_PORTABILITY_SUBSET_EXTENSION_NAME);
    return result;
}

static VKAPI_ATTR void VKAPI_CALL features(VkPhysicalDevice device, VkPhysicalDeviceFeatures2 *found)
{
    real_features(device, found);
    if (lacks("tessellation"))
        found->features.tessellationShader = VK_FALSE;
    if (lacks("geometry"))
        found->features.geometryShader = VK_FALSE;
    for (VkBaseOutStructure *next = found->pNext; next; next = next->pNext)
        if (next->sType == VK_STRUCTURE_TYPE_PHYSICAL_DEVICE_PORTABILITY_SUBSET_FEATURES_KHR) {
            VkPhysicalDevicePortabilitySubsetFeaturesKHR *subset = (VkPhysicalDevicePortabilitySubsetFeaturesKHR *)next;
            subset->tessellationIsolines = !lacks("isolines");
            subset->tessellationPointMode = !lacks("dots");
        }
}

static VKAPI_ATTR void VKAPI_CALL properties(VkPhysicalDevice device, VkPhysicalDeviceProperties2 *found)
{
    real_properties(device, found);
    if (lacks("levels"))
        found->properties.limits.maxTessellationGenerationLevel = 16;
    if (lacks("version"))
        found->properties.apiVersion = VK_API_VERSION_1_0;
}

/* A portable device has to be asked for its extension, which the real one does not have; it is the last one asked for. */
static VKAPI_ATTR VkResult VKAPI_CALL create(VkPhysicalDevice device, const VkDeviceCreateInfo *asked,
                                             const VkAllocationCallbacks *callbacks, VkDevice *made)
{
    VkDeviceCreateInfo rest = *asked;
    if (is_portable()) {
        uint32_t last = rest.enabledExtensionCount - 1;
        if (strcmp(rest.ppEnabledExtensionNames[last], VK_KHR_PORTABILITY_SUBSET_EXTENSION_NAME) != 0)
            return VK_ERROR_EXTENSION_NOT_PRESENT;
        rest.enabledExtensionCount = last;
    }
    VkDeviceQueueCreateInfo queue = *asked->pQueueCreateInfos;
    const float wrong = 2;
    queue.pQueuePriorities = &wrong;
    if (lacks("validity"))
        rest.pQueueCreateInfos = &queue;
    return real_create(device, &rest, callbacks, made);
}

VKAPI_ATTR PFN_vkVoidFunction VKAPI_CALL vkGetInstanceProcAddr(VkInstance instance, const char *name)
{
    if (!real) {
        void *library = dlopen(getenv("REAL_LOADER"), RTLD_NOW | RTLD_LOCAL);
        real = library ? (PFN_vkGetInstanceProcAddr)dlsym(library, "vkGetInstanceProcAddr") : NULL;
        if (!real)
            return NULL;
    }
    PFN_vkVoidFunction found = real(instance, name);
#define HIDE(call, kept, own)                                                                                                              \
    if (found && strcmp(name, call) == 0) {                                                                                                \
        kept = (__typeof__(kept))found;                                                                                                    \
        return (PFN_vkVoidFunction)own;                                                                                                    \
    }
    HIDE("vkEnumerateDeviceExtensionProperties", real_extensions, extensions)
    HIDE("vkGetPhysicalDeviceFeatures2", real_features, features)
    HIDE("vkGetPhysicalDeviceProperties2", real_properties, properties)
    HIDE("vkCreateDevice", real_create, create)
    return found;
}
