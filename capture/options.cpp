#include "options.h"

#include <cerrno>
#include <cstdlib>

const char *const usage =
    "usage: capture [--device N] [--floats] JOB > TEXT\n"
    "       capture --list\n"
    "Cuts every patch of a job file (- for standard input) on a Vulkan device and writes the text that tsj writes, with the\n"
    "device's own points and triangles, lines or dots. Standard error names the device, and how far the farthest coordinate\n"
    "was rounded.\n"
    "  --list      lists the devices of this machine, each with its number\n"
    "  --device N  takes the device of this number, else number 0\n"
    "  --floats    writes each coordinate as the float that the device gave, not as a whole number of units\n"
    "Status 0: every patch was captured; 1: something failed, as standard error says; 2: the words are no call of capture.\n";

namespace
{

size_t device_number(const char *word)
{
    char *end = nullptr;
    errno = 0;
    const unsigned long number = std::strtoul(word, &end, 10);
    if (*word < '0' || *word > '9' || *end != '\0' || errno != 0)
        throw BadCall(std::string("--device takes a number, not ") + word + " (-h for help)");
    return number;
}

} // namespace

Options read_words(int count, char **words)
{
    Options options;
    for (int i = 1; i < count; ++i) {
        const std::string word = words[i];
        if (word == "-h" || word == "--help") {
            options.help = true;
            return options;
        }
        if (word == "--list")
            options.list = true;
        else if (word == "--floats")
            options.floats = true;
        else if (word == "--device" && i + 1 < count)
            options.device = device_number(words[++i]);
        else if (word.empty() || (word[0] == '-' && word != "-") || !options.job.empty())
            throw BadCall("unexpected word '" + word + "' (-h for help)");
        else
            options.job = word;
    }
    if (options.job.empty() != options.list)
        throw BadCall("one job file, or --list, expected (-h for help)");
    return options;
}
