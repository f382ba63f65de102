#include "mesh.h"

#include <yoktvarim.h>

#include <algorithm>
#include <cmath>
#include <cstring>
#include <map>

namespace
{

// Far outside every patch, and far from the ends of 64 bits.
constexpr double most_units = 1 << 30;

} // namespace

Units::Units(uint8_t kind) : triangles_(kind == YOKTVARIM_TRIANGLES), one_(triangles_ ? YOKTVARIM_ONE_IN_TRIANGLES : YOKTVARIM_ONE_IN_QUADS)
{
}

int64_t Units::round(double units)
{
    if (std::isnan(units))
        return -1;
    const double nearest = std::floor(std::clamp(units, -most_units, most_units) + 0.5);
    farthest_ = std::max(farthest_, std::abs(units - nearest));
    return static_cast<int64_t>(nearest);
}

Point Units::whole(const Coordinate &coordinate)
{
    const int64_t u = round(coordinate[0] * double(one_));
    int64_t v = round(coordinate[1] * double(one_));
    int64_t w = 0;
    if (triangles_) {
        // Two numbers that both lie half way would leave the edge w = 0 by rounding.
        if (coordinate[2] == 0 && std::abs(u + v - one_) == 1)
            v = one_ - u;
        w = one_ - u - v;
        farthest_ = std::max(farthest_, std::abs(coordinate[2] * double(one_) - double(w)));
    } else {
        w = round(coordinate[2] * double(one_));
    }
    return {static_cast<uint32_t>(u), static_cast<uint32_t>(v), static_cast<uint32_t>(w)};
}

Point bits_of(const Coordinate &coordinate)
{
    Point bits;
    std::memcpy(bits.data(), coordinate.data(), sizeof bits);
    return bits;
}

Mesh number(const std::vector<Point> &corners)
{
    Mesh mesh;
    std::map<Point, uint16_t> numbers;
    for (const Point &corner : corners) {
        const auto [at, is_new] = numbers.emplace(corner, static_cast<uint16_t>(mesh.points.size()));
        if (is_new)
            mesh.points.push_back(corner);
        mesh.indices.push_back(at->second);
    }
    return mesh;
}
