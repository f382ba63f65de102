// A job file, read with the library's own calls.
#pragma once

#include <yoktvarim.h>

#include <cstdint>
#include <string>
#include <vector>

struct Record {
    yoktvarim_job_answer answer; // read, or why it is refused
    yoktvarim_settings settings;
    yoktvarim_levels levels;
};

struct Job {
    uint32_t version;
    std::vector<Record> records;
};

// The job in a file, or on standard input for "-". A Failure where the file cannot be read or is no job.
Job read_job(const std::string &path);
