// The words on the command line.
#pragma once

#include <cstddef>
#include <stdexcept>
#include <string>

// Words that are no call of the program; the message says which.
struct BadCall : std::runtime_error {
    using std::runtime_error::runtime_error;
};

struct Options {
    bool help = false;
    bool list = false;
    bool floats = false;
    size_t device = 0;
    std::string job; // a path, or "-"
};

extern const char *const usage;

Options read_words(int count, char **words);
