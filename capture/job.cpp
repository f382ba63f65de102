#include "job.h"

#include "failure.h"

#include <cerrno>
#include <cstdio>
#include <cstring>
#include <memory>

namespace
{

std::vector<uint8_t> read_file(const std::string &path)
{
    std::unique_ptr<std::FILE, int (*)(std::FILE *)> opened(nullptr, std::fclose);
    std::FILE *file = stdin;
    if (path != "-") {
        opened.reset(std::fopen(path.c_str(), "rb"));
        file = opened.get();
    }
    if (!file)
        throw Failure(path + ": " + std::strerror(errno));
    std::vector<uint8_t> bytes;
    uint8_t piece[65536];
    bytes.reserve(sizeof piece); // an empty file has to have an address too
    while (size_t count = std::fread(piece, 1, sizeof piece, file))
        bytes.insert(bytes.end(), piece, piece + count);
    if (std::ferror(file))
        throw Failure(path + ": " + std::strerror(errno));
    return bytes;
}

} // namespace

Job read_job(const std::string &path)
{
    const std::vector<uint8_t> bytes = read_file(path);
    Job job{};
    switch (yoktvarim_read_header(bytes.data(), bytes.size(), &job.version)) {
    case YOKTVARIM_JOB_READ: break;
    case YOKTVARIM_JOB_UNKNOWN_VERSION: throw Failure(path + ": a job file of an unknown version");
    default: throw Failure(path + ": not a job file");
    }
    for (size_t at = YOKTVARIM_HEADER_BYTES;;) {
        Record record{};
        yoktvarim_patterns patterns{};
        uint32_t place;
        record.answer = yoktvarim_read_record(bytes.data(), bytes.size(), job.version, at, &record.settings, &patterns, &at, &place);
        if (record.answer == YOKTVARIM_JOB_END)
            return job;
        record.levels = yoktvarim_levels_of(&patterns);
        job.records.push_back(record);
    }
}
