// Lines and fields of .blocks and .prec files as docs/FORMATS.md has them, for the peers that read any such file.
#pragma once
#include <cstdint>
#include <cstdio>
#include <cstdlib>
#include <cstring>
#include <vector>

struct Field {
    const char *begin, *end;
};

inline bool separates(char c) { return c == ' ' || c == '\t' || c == ':' || c == '\r'; }

// The next field of a line, from `at` on.
inline bool next_field(const char *&at, const char *end, Field &field) {
    while (at < end && separates(*at)) at++;
    if (at == end) return false;
    field.begin = at;
    while (at < end && !separates(*at)) at++;
    field.end = at;
    return true;
}

inline bool read_whole(Field f, uint64_t &value) {
    if (f.begin == f.end || f.end - f.begin > 19) return false;
    value = 0;
    for (const char *p = f.begin; p < f.end; p++) {
        unsigned digit = (unsigned char)*p - '0';
        if (digit > 9) return false;
        value = value * 10 + digit;
    }
    return true;
}

inline std::vector<char> read_file(const char *name) {
    FILE *file = fopen(name, "rb");
    if (!file) exit(4);
    fseek(file, 0, SEEK_END);
    std::vector<char> text(ftell(file));
    rewind(file);
    if (fread(text.data(), 1, text.size(), file) != text.size()) exit(4);
    fclose(file);
    return text;
}

// Calls `record(first field, rest of the line, end of the line, number of the line)` for each record, and `too_long(number)`
// for a line that is too long.
template <typename Record, typename TooLong> void each_record(const std::vector<char> &text, Record record, TooLong too_long) {
    uint64_t line = 0;
    for (const char *at = text.data(), *all = at + text.size(); at < all;) {
        line++;
        const char *feed = (const char *)memchr(at, '\n', all - at);
        const char *end = feed ? feed : all;
        if (end - at > 65536) too_long(line);
        Field first;
        if (next_field(at, end, first) && *first.begin != '%') record(first, at, end, line);
        at = end + 1;
    }
}
