#include "pipeline.h"

#include "shaders.h" // made by shaders/embed

namespace
{

// The place of the evaluation shader in its table: the settings' numbers, the last one fastest.
size_t place_of(Way way, const yoktvarim_settings &settings)
{
    size_t place = way == Way::transform_feedback;
    place = 3 * place + settings.kind;
    place = 3 * place + settings.spacing;
    place = 2 * place + settings.vertex_order;
    return 2 * place + settings.point_mode;
}

Owned<VkShaderModule> make_module(const Device &device, const Code &code)
{
    auto info = structure<VkShaderModuleCreateInfo>(VK_STRUCTURE_TYPE_SHADER_MODULE_CREATE_INFO);
    info.codeSize = code.bytes;
    info.pCode = code.words;
    VkShaderModule shader = VK_NULL_HANDLE;
    demand(device.calls().vkCreateShaderModule(device.handle(), &info, nullptr, &shader), "vkCreateShaderModule");
    return device.own(shader, device.calls().vkDestroyShaderModule);
}

VkPipelineShaderStageCreateInfo stage_of(VkShaderStageFlagBits stage, const Owned<VkShaderModule> &shader)
{
    auto info = structure<VkPipelineShaderStageCreateInfo>(VK_STRUCTURE_TYPE_PIPELINE_SHADER_STAGE_CREATE_INFO);
    info.stage = stage;
    info.module = shader.get();
    info.pName = "main";
    return info;
}

// The counter and the captured numbers, as the geometry shader sees them.
Owned<VkDescriptorSetLayout> make_set_layout(const Device &device)
{
    VkDescriptorSetLayoutBinding bindings[2]{};
    for (uint32_t i = 0; i < 2; ++i) {
        bindings[i].binding = i;
        bindings[i].descriptorType = VK_DESCRIPTOR_TYPE_STORAGE_BUFFER;
        bindings[i].descriptorCount = 1;
        bindings[i].stageFlags = VK_SHADER_STAGE_GEOMETRY_BIT;
    }
    auto info = structure<VkDescriptorSetLayoutCreateInfo>(VK_STRUCTURE_TYPE_DESCRIPTOR_SET_LAYOUT_CREATE_INFO);
    info.bindingCount = 2;
    info.pBindings = bindings;
    VkDescriptorSetLayout layout = VK_NULL_HANDLE;
    demand(device.calls().vkCreateDescriptorSetLayout(device.handle(), &info, nullptr, &layout), "vkCreateDescriptorSetLayout");
    return device.own(layout, device.calls().vkDestroyDescriptorSetLayout);
}

Owned<VkPipelineLayout> make_layout(const Device &device, VkDescriptorSetLayout set_layout)
{
    VkPushConstantRange levels{VK_SHADER_STAGE_TESSELLATION_CONTROL_BIT, 0, sizeof(yoktvarim_levels)};
    auto info = structure<VkPipelineLayoutCreateInfo>(VK_STRUCTURE_TYPE_PIPELINE_LAYOUT_CREATE_INFO);
    info.pushConstantRangeCount = 1;
    info.pPushConstantRanges = &levels;
    info.setLayoutCount = set_layout ? 1 : 0;
    info.pSetLayouts = &set_layout;
    VkPipelineLayout layout = VK_NULL_HANDLE;
    demand(device.calls().vkCreatePipelineLayout(device.handle(), &info, nullptr, &layout), "vkCreatePipelineLayout");
    return device.own(layout, device.calls().vkDestroyPipelineLayout);
}

// Nothing is rasterised, so it has no attachments.
Owned<VkRenderPass> make_render_pass(const Device &device)
{
    VkSubpassDescription subpass{};
    subpass.pipelineBindPoint = VK_PIPELINE_BIND_POINT_GRAPHICS;
    auto info = structure<VkRenderPassCreateInfo>(VK_STRUCTURE_TYPE_RENDER_PASS_CREATE_INFO);
    info.subpassCount = 1;
    info.pSubpasses = &subpass;
    VkRenderPass pass = VK_NULL_HANDLE;
    demand(device.calls().vkCreateRenderPass(device.handle(), &info, nullptr, &pass), "vkCreateRenderPass");
    return device.own(pass, device.calls().vkDestroyRenderPass);
}

} // namespace

uint32_t corners_of(const yoktvarim_settings &settings)
{
    if (settings.point_mode == YOKTVARIM_POINTS)
        return 1;
    return settings.kind == YOKTVARIM_ISOLINES ? 2 : 3;
}

Pipelines::Pipelines(const Device &device) : device_(device)
{
    if (device.way() == Way::geometry_shader)
        set_layout_ = make_set_layout(device);
    layout_ = make_layout(device, set_layout());
    render_pass_ = make_render_pass(device);
}

VkPipeline Pipelines::of(const yoktvarim_settings &settings)
{
    Owned<VkPipeline> &pipeline = made_[2 * place_of(device_.way(), settings) + settings.domain_origin];
    if (!pipeline)
        pipeline = make(settings);
    return pipeline.get();
}

Owned<VkPipeline> Pipelines::make(const yoktvarim_settings &settings) const
{
    const Owned<VkShaderModule> pass = make_module(device_, pass_code[0]);
    const Owned<VkShaderModule> levels = make_module(device_, levels_code[0]);
    const Owned<VkShaderModule> coordinate = make_module(device_, coordinate_code[place_of(device_.way(), settings)]);
    Owned<VkShaderModule> append;
    std::vector<VkPipelineShaderStageCreateInfo> stages{stage_of(VK_SHADER_STAGE_VERTEX_BIT, pass),
                                                        stage_of(VK_SHADER_STAGE_TESSELLATION_CONTROL_BIT, levels),
                                                        stage_of(VK_SHADER_STAGE_TESSELLATION_EVALUATION_BIT, coordinate)};
    if (device_.way() == Way::geometry_shader) {
        append = make_module(device_, append_code[corners_of(settings) - 1]);
        stages.push_back(stage_of(VK_SHADER_STAGE_GEOMETRY_BIT, append));
    }
    return link(stages, settings.domain_origin);
}

Owned<VkPipeline> Pipelines::link(const std::vector<VkPipelineShaderStageCreateInfo> &stages, uint8_t domain_origin) const
{
    auto input = structure<VkPipelineVertexInputStateCreateInfo>(VK_STRUCTURE_TYPE_PIPELINE_VERTEX_INPUT_STATE_CREATE_INFO);
    auto assembly = structure<VkPipelineInputAssemblyStateCreateInfo>(VK_STRUCTURE_TYPE_PIPELINE_INPUT_ASSEMBLY_STATE_CREATE_INFO);
    assembly.topology = VK_PRIMITIVE_TOPOLOGY_PATCH_LIST;
    auto origin = structure<VkPipelineTessellationDomainOriginStateCreateInfo>(
        VK_STRUCTURE_TYPE_PIPELINE_TESSELLATION_DOMAIN_ORIGIN_STATE_CREATE_INFO);
    origin.domainOrigin =
        domain_origin == YOKTVARIM_LOWER_LEFT ? VK_TESSELLATION_DOMAIN_ORIGIN_LOWER_LEFT : VK_TESSELLATION_DOMAIN_ORIGIN_UPPER_LEFT;
    auto tessellation = structure<VkPipelineTessellationStateCreateInfo>(VK_STRUCTURE_TYPE_PIPELINE_TESSELLATION_STATE_CREATE_INFO);
    tessellation.pNext = &origin;
    tessellation.patchControlPoints = 1;
    auto raster = structure<VkPipelineRasterizationStateCreateInfo>(VK_STRUCTURE_TYPE_PIPELINE_RASTERIZATION_STATE_CREATE_INFO);
    raster.rasterizerDiscardEnable = VK_TRUE;
    raster.cullMode = VK_CULL_MODE_NONE;
    raster.lineWidth = 1;

    auto info = structure<VkGraphicsPipelineCreateInfo>(VK_STRUCTURE_TYPE_GRAPHICS_PIPELINE_CREATE_INFO);
    info.stageCount = static_cast<uint32_t>(stages.size());
    info.pStages = stages.data();
    info.pVertexInputState = &input;
    info.pInputAssemblyState = &assembly;
    info.pTessellationState = &tessellation;
    info.pRasterizationState = &raster;
    info.layout = layout();
    info.renderPass = render_pass();
    VkPipeline pipeline = VK_NULL_HANDLE;
    demand(device_.calls().vkCreateGraphicsPipelines(device_.handle(), VK_NULL_HANDLE, 1, &info, nullptr, &pipeline),
           "vkCreateGraphicsPipelines");
    return device_.own(pipeline, device_.calls().vkDestroyPipeline);
}
