// Tests what needs no device: whole units, numbering, the text, and the levels for a device.
#include "device_levels.h"
#include "failure.h"
#include "mesh.h"
#include "text.h"

#include <cmath>
#include <cstdio>
#include <limits>

namespace
{

int failures = 0;

void expect(bool holds, const char *what)
{
    if (!holds) {
        std::printf("not so: %s\n", what);
        ++failures;
    }
}

void whole_units()
{
    Units quads(YOKTVARIM_QUADS);
    expect(quads.whole({0, 1, 0}) == Point{0, 65536, 0}, "the ends of a quad's edge are 0 and 65536");
    expect(quads.whole({0.5f, 0.25f, 0}) == Point{32768, 16384, 0} && quads.farthest() == 0, "halves are whole units");
    expect(quads.whole({-1.0f / 65536, 0, 0}) == Point{4294967295, 0, 0}, "one unit below 0 is written modulo 2^32");
    expect(quads.whole({std::numeric_limits<float>::quiet_NaN(), 0, 0})[0] == 4294967295, "a NaN lies outside");
    quads.whole({0.75f / 65536, 0, 0});
    expect(quads.farthest() == 0.25, "the farthest coordinate is remembered");

    Units triangles(YOKTVARIM_TRIANGLES);
    const float third = 1.0f / 3;
    expect(triangles.whole({third, third, third}) == Point{65536, 65536, 65536}, "the centre of a triangle patch");
    expect(triangles.farthest() > 0 && triangles.farthest() < 0.01, "a float's error shows");
    const float half = 100.5f / 196608;
    expect(triangles.whole({half, 1 - half, 0})[2] == 0, "the edge w = 0 is kept half way between units");
    expect(triangles.whole({1, 1, 0}) == Point{196608, 196608, 4294770688}, "a sum above 1 leaves w outside");
    expect(triangles.whole({std::numeric_limits<float>::infinity(), 0, 0})[0] == 1 << 30, "infinity is far outside");
}

void numbering()
{
    const Point a{0, 0, 0}, b{1, 0, 0}, c{0, 1, 0};
    const Mesh mesh = number({b, a, c, a, b, c});
    expect(mesh.points == std::vector<Point>{b, a, c}, "points are in the order of their first appearance");
    expect(mesh.indices == std::vector<uint16_t>{0, 1, 2, 1, 0, 2}, "equal points have one number");
    expect(drawn(mesh, 3, false) == "drawn 3 6\n1 0 0\n0 0 0\n0 1 0\n0 1 2\n1 0 2\n", "the text of triangles");
    expect(drawn(number({b, a}), 2, false) == "drawn 2 2\n1 0 0\n0 0 0\n0 1\n", "the text of lines");
    expect(drawn(number({bits_of({0.5f, 0.1f, 0})}), 1, true) == "drawn 1 1\n0.5 0.100000001 0\n0\n", "the text of floats");
}

Record record_of(uint8_t kind, uint8_t spacing, uint8_t top, float level)
{
    return {YOKTVARIM_JOB_READ, {kind, spacing, 1, 1, 0, top}, {{level, level, level, level}, {level, level}}};
}

yoktvarim_levels given(const Record &record)
{
    return levels_for_device(record, {64, true, true});
}

bool refuses(const Record &record, const Abilities &abilities)
{
    try {
        levels_for_device(record, abilities);
        return false;
    } catch (const Failure &) {
        return true;
    }
}

void device_levels()
{
    const float infinity = std::numeric_limits<float>::infinity();
    expect(given(record_of(1, 0, 64, infinity)).outer[0] == infinity, "the device clamps at its own greatest level");
    expect(given(record_of(1, 0, 16, infinity)).inner[1] == 16, "a lower top is clamped to before");
    expect(given(record_of(1, 2, 16, 40)).outer[3] == 15, "odd spacing has one less");
    expect(given(record_of(2, 2, 16, 40)).outer[0] == 16, "the number of isolines has equal spacing");
    expect(given(record_of(2, 2, 16, 40)).outer[1] == 15, "the segments of isolines have the spacing asked");
    expect(std::isnan(given(record_of(0, 0, 16, std::nanf(""))).outer[0]), "a NaN stays");
    expect(given(record_of(0, 0, 16, -1)).outer[0] == -1, "a level below stays");
}

void refusals()
{
    const Abilities lesser{16, false, false};
    expect(refuses(record_of(0, 0, 64, 17), lesser), "a level above the device's greatest is refused");
    expect(!refuses(record_of(0, 0, 64, 16), lesser), "the device's greatest level is not refused");
    expect(!refuses(record_of(0, 0, 16, 17), lesser), "a level that the top clamps is not refused");
    Record ignored = record_of(0, 0, 64, 1);
    ignored.levels.outer[3] = 64;
    expect(!refuses(ignored, lesser), "levels that do not count are not looked at");
    expect(refuses(record_of(2, 0, 64, 1), lesser), "isolines are refused where the device has none");
    Record dots = record_of(1, 0, 64, 1);
    dots.settings.point_mode = YOKTVARIM_POINTS;
    expect(refuses(dots, lesser) && !refuses(dots, {16, false, true}), "point mode is refused where the device has none");
}

} // namespace

int main()
{
    whole_units();
    numbering();
    device_levels();
    refusals();
    return failures != 0;
}
