// Sets a text in eight threads, each of which sets a part of it, and prints the number of the widest line.
//
// usage: threads FONT TEXT
//
// All threads read the same font and the same text. Each thread writes to its own array of lines.
#include <algorithm>
#include <fstream>
#include <iostream>
#include <iterator>
#include <string>
#include <thread>
#include <vector>
#include <tfmset.h>

struct Part {
    const char *begin, *end;
    std::vector<tfmset_line> lines;
    uint32_t code = TFMSET_DONE;

    void set(const std::string &font)
    {
        lines.resize(std::count(begin, end, '\n') + 1);
        tfmset_options options = {};
        tfmset_counts counts;
        options.limit = TFMSET_DEFAULT_LIMIT;
        options.policy = TFMSET_SKIP;
        code = tfmset_widths(reinterpret_cast<const uint8_t *>(font.data()), font.size(), &options,
                             reinterpret_cast<const uint8_t *>(begin), end - begin, lines.data(),
                             lines.size(), &counts);
        lines.resize(code == TFMSET_DONE ? counts.lines : 0);
    }
};

static std::string content(const char *name)
{
    std::ifstream file(name, std::ios::binary);
    return {std::istreambuf_iterator<char>(file), {}};
}

int main(int count, char **arguments)
{
    if (count != 3)
        return 1;
    const std::string font = content(arguments[1]), text = content(arguments[2]);
    const size_t threads = 8;
    std::vector<Part> parts(threads);
    const char *at = text.data(), *const end = at + text.size();
    for (size_t i = 0; i < threads; i++) {
        // A part ends after a line feed or at the end of the text, so that no line is cut.
        const char *cut = i + 1 < threads ? std::max(at, text.data() + text.size() * (i + 1) / threads) : end;
        cut = std::find(cut, end, '\n');
        parts[i].begin = at;
        parts[i].end = at = cut == end ? end : cut + 1;
    }

    std::vector<std::thread> running;
    for (Part &part : parts)
        running.emplace_back(&Part::set, &part, std::cref(font));
    for (std::thread &thread : running)
        thread.join();

    size_t line = 0, widest = 0;
    int64_t width = -1;
    for (const Part &part : parts) {
        if (part.code != TFMSET_DONE)
            return 1;
        for (const tfmset_line &each : part.lines) {
            line++;
            if (each.refusal == TFMSET_SET && each.width > width) {
                widest = line;
                width = each.width;
            }
        }
    }
    std::cout << line << " lines, the widest is " << widest << ": " << width << "\n";
}
