// A peer of `pit slopes --pattern nine`: the same bytes, and nothing proved.
//
//     slopes_writer BLOCKS
//
// Sorts the places once, and looks for each from a cursor an offset, a few steps on or by a binary search. Blocks must be numbered in the order of their records, and
// repeated places aren't looked for.
#include "model.h"

struct Place {
    int32_t z, y, x;
    uint32_t block;

    bool operator<(const Place &o) const { return z != o.z ? z < o.z : y != o.y ? y < o.y : x < o.x; }
};

static int32_t coordinate(Reader &in) {
    in.expect(' ');
    bool minus = *in.at == '-';
    in.at += minus;
    return minus ? -(int32_t)in.number() : (int32_t)in.number();
}

static char *put(char *at, uint32_t number) {
    char digits[10];
    int count = 0;
    do digits[count++] = '0' + number % 10; while (number /= 10);
    while (count) *at++ = digits[--count];
    return at;
}

int main(int count, char **words) {
    if (count != 2) return 2;
    std::vector<Place> places;
    {
        std::vector<char> text = read_file(words[1]);
        for (Reader in{text.data()}; *in.at; in.skip_line()) {
            uint32_t block = in.number();
            int32_t x = coordinate(in), y = coordinate(in), z = coordinate(in);
            places.push_back({z, y, x, block});
        }
    }
    std::vector<Place> sorted = places;
    std::sort(sorted.begin(), sorted.end());
    size_t cursors[9] = {};
    std::vector<char> page(1 << 16);
    char *at = page.data();
    for (const Place &from : places) {
        uint32_t found[9];
        int many = 0;
        for (int i = 0; i < 9; i++) {
            Place to = {from.z + 1, from.y + i / 3 - 1, from.x + i % 3 - 1, 0};
            size_t &cursor = cursors[i];
            if (cursor > 0 && !(sorted[cursor - 1] < to)) cursor = 0;
            for (int steps = 0; steps < 8 && cursor < sorted.size() && sorted[cursor] < to; steps++) cursor++;
            if (cursor < sorted.size() && sorted[cursor] < to) cursor = std::lower_bound(sorted.begin() + cursor, sorted.end(), to) - sorted.begin();
            if (cursor < sorted.size() && !(to < sorted[cursor])) found[many++] = sorted[cursor].block;
        }
        std::sort(found, found + many);
        at = put(at, from.block);
        *at++ = ' ';
        at = put(at, many);
        for (int i = 0; i < many; i++) *at++ = ' ', at = put(at, found[i]);
        *at++ = '\n';
        if (at - page.data() > (1 << 15)) fwrite(page.data(), 1, at - page.data(), stdout), at = page.data();
    }
    fwrite(page.data(), 1, at - page.data(), stdout);
}
