// Draws the records of a job on a Vulkan device and writes what it cut, in the form of tsj.
#include "capture.h"
#include "device.h"
#include "device_levels.h"
#include "failure.h"
#include "job.h"
#include "mesh.h"
#include "options.h"
#include "text.h"

#include <algorithm>
#include <cstdio>

namespace
{

void put(const std::string &text)
{
    if (std::fwrite(text.data(), 1, text.size(), stdout) != text.size())
        throw Failure("standard output cannot be written");
}

void finish()
{
    if (std::fflush(stdout) != 0)
        throw Failure("standard output cannot be written");
}

std::string line_of(size_t number, const Candidate &candidate)
{
    return std::to_string(number) + ": " + candidate.name + ", " + candidate.driver + ", levels up to " +
           std::to_string(candidate.greatest_level) + (candidate.has_isolines ? "" : ", no isolines") +
           (candidate.has_point_mode ? "" : ", no point mode") + ": " +
           (candidate.way ? std::string("captured by ") + words_of(*candidate.way) : "no capture, " + candidate.obstacle) + "\n";
}

void list()
{
    const Instance instance;
    size_t number = 0;
    for (const Candidate &candidate : instance.candidates())
        put(line_of(number++, candidate));
}

const Candidate &choose(const Instance &instance, size_t number)
{
    const size_t count = instance.candidates().size();
    if (number >= count)
        throw Failure("there is no device " + std::to_string(number) + "; the last one is " + std::to_string(count - 1) +
                      " (--list shows them)");
    return instance.candidates()[number];
}

// The levels for the device, record by record, before anything is drawn.
std::vector<yoktvarim_levels> levels_of(const Job &job, const Candidate &candidate)
{
    const Abilities abilities{candidate.greatest_level, candidate.has_isolines, candidate.has_point_mode};
    std::vector<yoktvarim_levels> levels;
    for (const Record &record : job.records) {
        try {
            levels.push_back(yoktvarim_is_read(record.answer) ? levels_for_device(record, abilities) : yoktvarim_levels{});
        } catch (const Failure &failure) {
            throw Failure("record " + std::to_string(levels.size()) + ": " + failure.what());
        }
    }
    return levels;
}

// The text of a patch by the corners that the device gave for it. `farthest` grows to the farthest rounding.
std::string text_of(const std::vector<Coordinate> &corners, const yoktvarim_settings &settings, bool floats, double &farthest)
{
    if (corners.empty())
        return discarded();
    Units units(settings.kind);
    std::vector<Point> points;
    for (const Coordinate &corner : corners) {
        const Point whole = units.whole(corner);
        points.push_back(floats ? bits_of(corner) : whole);
    }
    farthest = std::max(farthest, units.farthest());
    return drawn(number(points), corners_of(settings), floats);
}

// The text is written as a whole: after a failure standard output is empty.
void capture(const Options &options)
{
    const Job job = read_job(options.job);
    const Instance instance;
    const Candidate &candidate = choose(instance, options.device);
    const Device device(instance, candidate);
    const std::vector<yoktvarim_levels> levels = levels_of(job, candidate);
    std::fprintf(stderr, "capture: %s, %s, by %s\n", candidate.name.c_str(), candidate.driver.c_str(), words_of(device.way()));

    Capture drawing(device);
    double farthest = 0;
    std::string text = title(job.version);
    for (size_t i = 0; i < job.records.size(); ++i) {
        const Record &record = job.records[i];
        text += yoktvarim_is_read(record.answer)
                    ? text_of(drawing.draw(record.settings, levels[i]), record.settings, options.floats, farthest)
                    : refused(record.answer);
    }
    put(text);
    finish();
    std::fprintf(stderr, "capture: %zu records; the farthest coordinate was %.3g of a unit from a whole number\n", job.records.size(),
                 farthest);
}

} // namespace

int main(int count, char **words)
{
    try {
        const Options options = read_words(count, words);
        if (options.help)
            put(usage);
        else if (options.list)
            list();
        else
            capture(options);
        finish();
        return 0;
    } catch (const BadCall &call) {
        std::fprintf(stderr, "capture: %s\n", call.what());
        return 2;
    } catch (const std::exception &failure) {
        std::fprintf(stderr, "capture: %s\n", failure.what());
        return 1;
    }
}
