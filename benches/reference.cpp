// Prints what `tfmset set FONT FILE...` prints in record format 1 with the step limit LIMIT, on one thread. It isn't
// proved, and doesn't check FONT, which `tfmset check` has to accept. docs/BENCH.md describes it.
//
// Build: c++ -O3 -std=c++17 -o reference benches/reference.cpp
// Usage: reference FONT LIMIT FILE...
//
// A line is set byte by byte. The current symbol is the left boundary at the beginning of a run, and otherwise the last
// character so far, which may still change. What the next byte does after this symbol never changes: its effect is a
// text of items, a width, a number of steps, and a new current symbol. A table keeps the effects that `rewrite` finds.
#include <cstdint>
#include <cstdio>
#include <cstring>
#include <string>
#include <vector>
#include <fcntl.h>
#include <unistd.h>

using std::to_string;
constexpr unsigned LEFT = 256, RIGHT = 257, LINE_END = 258; // symbols; the others are the characters 0 to 255
constexpr size_t LONGEST_LINE = 65535, LONGEST_TEXT = 32;   // in bytes; the text is that of an effect in the table

struct Item { std::string text; int64_t width = 0; };

struct Font {
    std::string bytes = std::string(131068, '\0');
    bool exists[256] = {};
    Item characters[256], kerns[32768], space{" s0"};
    int boundary = -1;             // the code of the right boundary, if there is one
    unsigned rules[257][256] = {}; // the word of the instruction for a symbol and the code after it, or 0
    unsigned bc, ec, infos, instructions, after_instructions;

    unsigned byte(unsigned word, unsigned index) const { return (unsigned char)bytes[4 * word + index]; }
    unsigned pair(unsigned word, unsigned index) const { return byte(word, index) * 256 + byte(word, index + 1); }
    unsigned count(unsigned index) const { return pair(index / 2, index % 2 * 2); } // the twelve counts, lf to np
    int64_t value(unsigned word) const { return (int32_t)((uint32_t)pair(word, 0) << 16 | pair(word, 2)); }
    Item scaled(const std::string &name, unsigned word) const { // at the design size; tex.web, 571 and 572
        int64_t size = value(7) / 16;
        int shift = 20;
        for (; size >= 1 << 23; size /= 2) shift--;
        int64_t width = (value(word) * size) >> shift;
        return {name + to_string(width), width};
    }
    unsigned start(unsigned symbol) const { // the word at which the instructions for a symbol begin, or 0
        unsigned last = after_instructions - 1, info = infos + symbol - bc;
        if (symbol == LEFT) return count(8) && byte(last, 0) == 255 ? instructions + pair(last, 2) : 0;
        if (!exists[symbol] || byte(info, 2) % 4 != 1) return 0;
        unsigned first = instructions + byte(info, 3);
        return byte(first, 0) > 128 ? instructions + pair(first, 2) : first;
    }
    bool read(const char *path) {
        FILE *file = fopen(path, "rb");
        if (!file || fread(&bytes[0], 1, bytes.size(), file) < 48) return false;
        fclose(file);
        bc = count(2), ec = count(3), infos = 6 + count(1);
        unsigned widths = infos + ec + 1 - bc;
        instructions = widths + count(4) + count(5) + count(6) + count(7), after_instructions = instructions + count(8);
        for (unsigned code = bc; code <= ec && code < 256; code++) {
            exists[code] = byte(infos + code - bc, 0) != 0;
            characters[code] = scaled(" c" + to_string(code) + "=", widths + byte(infos + code - bc, 0));
        }
        for (unsigned kern = 0; kern < count(9); kern++) kerns[kern] = scaled(" k", after_instructions + kern);
        if (count(11) >= 2) space = scaled(" s", after_instructions + count(9) + count(10) + 1);
        if (count(8) && byte(instructions, 0) == 255) boundary = (int)byte(instructions, 1);
        for (unsigned symbol = 0; symbol <= LEFT; symbol++)
            for (unsigned word = start(symbol), skip; word; word = skip < 128 ? word + skip + 1 : 0) {
                skip = byte(word, 0);
                unsigned &rule = rules[symbol][byte(word, 1)];
                if (skip <= 128 && !rule) rule = word;
            }
        return true;
    }
};

// What a byte adds to a line, and the current symbol before and after it.
struct Change { unsigned current; std::string text; int64_t width = 0, steps = 0; };

// Makes the steps for the byte after the current symbol until no symbol follows; returns false if they exceed `limit`.
static bool rewrite(const Font &font, unsigned next, int64_t limit, Change &to) {
    bool ends = next == ' ' || next == '\n';
    std::vector<unsigned> ahead; // the symbols after the current one; the nearest is the last of this list
    auto print = [&](const Item &item) { to.text += item.text, to.width += item.width; };
    auto print_symbol = [&](unsigned symbol) { if (symbol < 256) print(font.characters[symbol]); };
    if (!ends) ahead.push_back(next);
    else if (to.current != LEFT && font.boundary >= 0) ahead.push_back(RIGHT);
    while (!ahead.empty()) {
        if (++to.steps > limit) return false;
        unsigned left = to.current, right = ahead.back();
        unsigned rule = font.rules[left][right == RIGHT ? font.boundary : right], op = rule ? font.byte(rule, 2) : 128;
        ahead.pop_back();
        if (op >= 128) { // a kern, or no instruction
            print_symbol(left);
            if (rule) print(font.kerns[font.pair(rule, 2) - 128 * 256]);
            to.current = right;
            continue;
        }
        if (op == 4 || (op > 7 && op != 11)) op = 0;
        unsigned list[3], length = 0, passed = op / 4;
        if (op & 2) list[length++] = left;
        list[length++] = font.byte(rule, 3);
        if (op & 1) list[length++] = right;
        for (unsigned index = 0; index < passed; index++) print_symbol(list[index]);
        for (unsigned index = length - 1; index > passed; index--) ahead.push_back(list[index]);
        to.current = list[passed];
    }
    if (!ends) return true;
    print_symbol(to.current);
    if (next == ' ') print(font.space);
    to.current = next == ' ' ? LEFT : LINE_END;
    return true;
}

struct Effect { char text[LONGEST_TEXT]; int64_t width; uint32_t steps; uint16_t current, length; };

struct Setter {
    enum : uint16_t { NEW, MISSING, LONG, EFFECTS }; // in the table; the numbers of effects begin with EFFECTS
    const Font &font;
    const int64_t limit;
    std::vector<uint16_t> table = std::vector<uint16_t>(259 * 256, NEW); // by the current symbol and the next byte
    std::vector<Effect> effects = std::vector<Effect>(EFFECTS);
    std::string items, output;
    bool refused = false;
    Setter(const Font &font, int64_t limit) : font(font), limit(limit) {}

    // Returns the number of a new effect, or one of the other values of the table.
    uint16_t make(unsigned current, unsigned next) {
        Change to{current, {}};
        if (next != ' ' && next != '\n' && !font.exists[next]) return MISSING;
        if (!rewrite(font, next, 99, to) || to.text.size() > LONGEST_TEXT || effects.size() == UINT16_MAX) return LONG;
        effects.push_back({{}, to.width, (uint32_t)to.steps, (uint16_t)to.current, (uint16_t)to.text.size()});
        to.text.copy(effects.back().text, to.text.size());
        return (uint16_t)(effects.size() - 1);
    }
    // Returns the result of a line, which a line feed follows, up to the width; the text of its items is in `items`.
    std::string result(const unsigned char *line, size_t length, size_t &used) {
        if (length > LONGEST_LINE) return " refused too-long " + to_string(length);
        items.resize(std::max(items.size(), (length + 2) * LONGEST_TEXT));
        int64_t width = 0, steps = 0;
        const unsigned char *at = line;
        char *end = &items[0];
        for (unsigned current = LEFT;;) {
            for (uint16_t cell; (cell = table[current * 256 + *at]) >= EFFECTS; at++) {
                const Effect &effect = effects[cell];
                memcpy(end, effect.text, LONGEST_TEXT);
                end += effect.length, width += effect.width, steps += effect.steps, current = effect.current;
            }
            uint16_t &cell = table[current * 256 + *at];
            if (current == LINE_END || cell == MISSING || steps > limit) break;
            if (cell == NEW) { cell = make(current, *at); continue; }
            Change to{current, {}};
            if (!rewrite(font, *at, limit - steps, to)) break;
            size_t before = (size_t)(end - &items[0]);
            items.resize(before + to.text.size() + (size_t)(line + length + 2 - at) * LONGEST_TEXT);
            end = &items[before] + to.text.copy(&items[before], to.text.size());
            width += to.width, steps += to.steps, current = to.current, at++;
        }
        for (; at < line + length; at++)
            if (*at != ' ' && !font.exists[*at])
                return " refused missing " + to_string(at - line) + " " + to_string(*at);
        if (at == line + length || steps > limit) return " refused steps " + to_string(limit);
        used = (size_t)(end - &items[0]);
        return " set " + to_string(width);
    }
    void set(const std::string &source, int64_t count, const unsigned char *line, size_t length) {
        size_t used = 0;
        std::string begin = result(line, length, used);
        refused |= begin[1] == 'r';
        output.append(source).append(":").append(to_string(count)).append(begin).append(items, 0, used) += '\n';
        if (output.size() > 1 << 16) flush();
    }
    void flush() { fwrite(output.data(), 1, output.size(), stdout), output.clear(); }
    bool set_file(int file, const std::string &source) { // returns whether the file was read to its end
        std::vector<unsigned char> buffer(1 << 16);
        size_t length = 0; // of the bytes whose line has no line feed yet
        int64_t count = 0, got;
        while ((got = read(file, &buffer[length], buffer.size() - length - 2)) > 0) {
            unsigned char *line = &buffer[0], *search = line + length, *stop = search + got, *feed;
            for (; (feed = (unsigned char *)memchr(search, '\n', (size_t)(stop - search))); search = line = feed + 1)
                set(source, ++count, line, (size_t)(feed - line));
            length = (size_t)(stop - line);
            memmove(&buffer[0], line, length);
            if (buffer.size() - length < 1 << 15) buffer.resize(buffer.size() * 2);
        }
        buffer[length] = '\n';
        if (got == 0 && length) set(source, ++count, &buffer[0], length);
        output += source + " end " + (got == 0 ? "complete " : "read ") + to_string(count) + '\n';
        return got == 0;
    }
};

int main(int count, char **arguments) {
    static Font font;
    if (count < 4 || !font.read(arguments[1])) return fputs("usage: reference FONT LIMIT FILE...\n", stderr), 2;
    Setter setter(font, std::stoll(arguments[2]));
    bool complete = true;
    for (int index = 3; index < count; index++)
        complete &= setter.set_file(open(arguments[index], O_RDONLY), to_string(index - 2));
    setter.flush();
    return complete ? setter.refused : 4;
}
