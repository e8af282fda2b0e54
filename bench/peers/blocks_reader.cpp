// A peer of the reading of .blocks files: the same records, and nothing proved. Where several faults stand it may name another.
//
//     blocks_reader BLOCKS
#include "fields.h"

struct Place {
    int32_t x, y, z;
};

static bool read_coordinate(Field f, int32_t &value) {
    bool minus = f.begin < f.end && *f.begin == '-';
    if (minus || (f.begin < f.end && *f.begin == '+')) f.begin++;
    uint64_t size;
    if (!read_whole(f, size) || size > (1ull << 31) - !minus) return false;
    value = minus ? -(int64_t)size : (int64_t)size;
    return true;
}

[[noreturn]] static void fault(const char *name, uint64_t line) {
    fprintf(stderr, "fault: blocks %s(%llu)\n", name, (unsigned long long)line);
    exit(3);
}

static void each_block_once(const std::vector<uint64_t> &blocks, const std::vector<uint64_t> &lines) {
    std::vector<char> seen(blocks.size());
    for (size_t i = 0; i < blocks.size(); i++) {
        if (blocks[i] >= blocks.size()) fault("UnknownBlock", lines[i]);
        if (seen[blocks[i]]) fault("Repeated", lines[i]);
        seen[blocks[i]] = 1;
    }
}

int main(int count, char **words) {
    if (count != 2) return 2;
    std::vector<char> text = read_file(words[1]);
    std::vector<Place> places;
    std::vector<uint64_t> blocks, lines;
    each_record(text, [&](Field first, const char *at, const char *end, uint64_t line) {
        Field f[3];
        for (Field &field : f) if (!next_field(at, end, field)) fault("Text", line);
        uint64_t block;
        Place place;
        if (!read_whole(first, block) || !read_coordinate(f[0], place.x) || !read_coordinate(f[1], place.y)
            || !read_coordinate(f[2], place.z)) fault("Number", line);
        blocks.push_back(block);
        places.push_back(place);
        lines.push_back(line);
    }, [](uint64_t line) { fault("Text", line); });
    each_block_once(blocks, lines);
    printf("%zu blocks\n", blocks.size());
}
