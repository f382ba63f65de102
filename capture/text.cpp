#include "text.h"

#include <cstdio>
#include <cstring>

namespace
{

// With nine digits no two floats look alike.
std::string float_words(uint32_t bits)
{
    float number;
    std::memcpy(&number, &bits, sizeof number);
    char words[32];
    std::snprintf(words, sizeof words, "%.9g", number);
    return words;
}

} // namespace

std::string title(uint32_t version)
{
    return "TSJ " + std::to_string(version) + "\n";
}

std::string refused(uint32_t number)
{
    return "refused " + std::to_string(number) + "\n";
}

std::string discarded()
{
    return "discarded\n";
}

std::string drawn(const Mesh &mesh, size_t corners, bool floats)
{
    std::string text = "drawn " + std::to_string(mesh.points.size()) + " " + std::to_string(mesh.indices.size()) + "\n";
    for (const Point &point : mesh.points)
        for (size_t i = 0; i < 3; ++i)
            text += (floats ? float_words(point[i]) : std::to_string(point[i])) + (i < 2 ? " " : "\n");
    for (size_t i = 0; i < mesh.indices.size(); ++i)
        text += std::to_string(mesh.indices[i]) + ((i + 1) % corners != 0 ? " " : "\n");
    return text;
}
