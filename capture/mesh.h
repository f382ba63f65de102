// Points and primitives, numbered as a job's text has them.
#pragma once

#include "coordinate.h"

#include <array>
#include <cstdint>
#include <vector>

// Three whole numbers of units, or the bits of three floats.
using Point = std::array<uint32_t, 3>;

struct Mesh {
    std::vector<Point> points; // in the order of their first appearance, no two equal
    std::vector<uint16_t> indices;
};

// Turns coordinates into whole units of the rules, and remembers how far the farthest was from one.
class Units
{
public:
    explicit Units(uint8_t kind);

    // Of a triangle patch w is what u and v leave. A number below 0 is taken modulo 2^32, and a NaN as -1: no patch has either, so
    // that whoever checks the mesh finds the point outside.
    Point whole(const Coordinate &coordinate);

    double farthest() const { return farthest_; }

private:
    int64_t round(double units);

    bool triangles_;
    int64_t one_;
    double farthest_ = 0;
};

Point bits_of(const Coordinate &coordinate);

Mesh number(const std::vector<Point> &corners);
