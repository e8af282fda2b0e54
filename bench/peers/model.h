// A mine read from plain .upit and .prec files, as generator.cpp and `pit slopes` write them: records and predecessors ascend,
// and fields have one space between them. Other records are refused; of the header of a .upit only NBLOCKS is looked at.
#pragma once
#include <algorithm>
#include <cstdint>
#include <cstdio>
#include <cstdlib>
#include <cstring>
#include <string>
#include <vector>

struct Model {
    uint32_t n = 0;
    std::vector<int64_t> values;         // millionths
    std::vector<uint32_t> first;         // where the predecessors of a block begin; n + 1 entries
    std::vector<uint32_t> predecessors;  // of all blocks, one after the other

    bool has_pair(uint32_t block, uint32_t predecessor) const {
        return std::binary_search(&predecessors[first[block]], &predecessors[first[block + 1]], predecessor);
    }
};

[[noreturn]] inline void stop(const std::string &why) {
    fprintf(stderr, "%s\n", why.c_str());
    exit(4);
}

inline std::vector<char> read_file(const char *name) {
    FILE *file = fopen(name, "rb");
    if (!file) stop(std::string("can't open ") + name);
    fseek(file, 0, SEEK_END);
    std::vector<char> text(ftell(file) + 1);  // a zero behind the last byte stops every reader below
    rewind(file);
    if (fread(text.data(), 1, text.size() - 1, file) != text.size() - 1) stop(std::string("can't read ") + name);
    fclose(file);
    return text;
}

static const uint64_t LARGEST_VALUE = 1'000'000'000'000;

struct Reader {
    const char *at;

    bool is_digit() const { return *at >= '0' && *at <= '9'; }

    void expect(char c) {
        if (*at++ != c) stop("not a plain file");
    }

    uint64_t number() {
        if (!is_digit()) stop("not a plain number");
        uint64_t value = 0;
        for (const char *begin = at; is_digit(); at++) {
            if (at - begin == 18) stop("a number is too long");
            value = value * 10 + (*at - '0');
        }
        return value;
    }

    // A decimal with at most six places, in millionths.
    int64_t millionths() {
        bool minus = *at == '-';
        if (minus) at++;
        uint64_t value = number();
        if (value > LARGEST_VALUE) stop("a value is too large");
        int places = 0;
        if (*at == '.')
            for (at++; is_digit() && places < 6; at++, places++) value = value * 10 + (*at - '0');
        for (; places < 6; places++) value *= 10;
        if (value > LARGEST_VALUE * 1'000'000) stop("a value is too large");
        return minus ? -(int64_t)value : (int64_t)value;
    }

    bool starts_with(const char *word) const { return strncmp(at, word, strlen(word)) == 0; }

    void skip_line() {
        at = strchr(at, '\n');
        if (!at++) stop("a line has no end");
    }
};

inline void read_values(const char *name, Model &model) {
    std::vector<char> text = read_file(name);
    Reader reader{text.data()};
    for (; !reader.starts_with("OBJECTIVE_FUNCTION"); reader.skip_line())
        if (reader.starts_with("NBLOCKS:")) {
            reader.at += strspn(reader.at + 8, " ") + 8;
            model.n = reader.number();
        }
    reader.skip_line();
    model.values.assign(model.n, 0);
    for (uint64_t least = 0; *reader.at && *reader.at != 'E';) {
        uint64_t block = reader.number();
        if (block < least || block >= model.n) stop("values don't stand in the order of the blocks");
        least = block + 1;
        reader.expect(' ');
        model.values[block] = reader.millionths();
        reader.expect('\n');
    }
}

inline void read_predecessors(Reader &reader, uint64_t count, Model &model) {
    for (uint64_t i = 0; i < count; i++) {
        reader.expect(' ');
        uint64_t predecessor = reader.number();
        if (predecessor >= model.n || (i > 0 && predecessor <= model.predecessors.back())) stop("predecessors don't ascend");
        model.predecessors.push_back(predecessor);
    }
    reader.expect('\n');
}

inline void read_pairs(const char *name, Model &model) {
    std::vector<char> text = read_file(name);
    Reader reader{text.data()};
    model.first.assign(1, 0);
    model.first.reserve(model.n + 1);
    model.predecessors.reserve(text.size() / 7);
    while (*reader.at) {
        uint64_t block = reader.number();
        if (block >= model.n || block + 1 < model.first.size()) stop("records don't stand in the order of the blocks");
        model.first.resize(block + 1, model.predecessors.size());
        reader.expect(' ');
        uint64_t count = reader.number();
        read_predecessors(reader, count, model);
        model.first.push_back(model.predecessors.size());
    }
    model.first.resize(model.n + 1, model.predecessors.size());
    model.predecessors.shrink_to_fit();
}

inline Model read_model(const char *prec, const char *upit) {
    Model model;
    read_values(upit, model);
    read_pairs(prec, model);
    return model;
}

using i128 = __int128;

// A number of billionths as a decimal, without trailing zeros.
inline std::string decimal(i128 billionths) {
    bool minus = billionths < 0;
    unsigned __int128 size = minus ? -(unsigned __int128)billionths : billionths;
    std::string digits;
    for (; size > 0 || digits.size() < 10; size /= 10) digits.insert(digits.begin(), '0' + (int)(size % 10));
    std::string fraction = digits.substr(digits.size() - 9);
    fraction.erase(fraction.find_last_not_of('0') + 1);
    return (minus ? "-" : "") + digits.substr(0, digits.size() - 9) + (fraction.empty() ? "" : "." + fraction);
}
