// Makes a synthetic block model: PREFIX.blocks, PREFIX.upit and PREFIX.prec, and PREFIX.toml, the settings of the priced model.
//
//     generator PREFIX BLOCKS NX NY NZ PATTERN SEED GRADE cone|box|deposit
//
// BLOCKS of the NX by NY by NZ cells are kept: below an uneven surface (box, deposit), or within an inverted cone (cone). Some ore
// bodies lie in waste, more of them in larger mines, but for a deposit, which is the same however small its blocks are; GRADE scales
// what they hold. A block's revenue less its cost is its value, so the priced model at factor 1000 is
// the one of the .upit file. The same words give the same bytes on every machine: only + - * / and sqrt are
// used, which are exact to the last bit everywhere (with -ffp-contract=off, as the Makefile has it).
#include <algorithm>
#include <cmath>
#include <cstdint>
#include <cstdio>
#include <cstdlib>
#include <cstring>
#include <string>
#include <utility>
#include <vector>

struct Cell {
    int x, y, z;
};

struct Grid {
    int nx, ny, nz;
    size_t cells() const { return (size_t)nx * ny * nz; }
    size_t index(Cell c) const { return ((size_t)c.z * ny + c.y) * nx + c.x; }
    Cell cell(size_t i) const { return {(int)(i % nx), (int)(i / nx % ny), (int)(i / nx / ny)}; }
    bool holds(Cell c) const { return c.x >= 0 && c.y >= 0 && c.z >= 0 && c.x < nx && c.y < ny && c.z < nz; }
};

// A number from 0 to 1 for each key: the finalizer of SplitMix64 (Steele, Lea and Flood 2014).
static double uniform(uint64_t key) {
    key += 0x9E3779B97F4A7C15;
    key = (key ^ (key >> 30)) * 0xBF58476D1CE4E5B9;
    key = (key ^ (key >> 27)) * 0x94D049BB133111EB;
    return (double)((key ^ (key >> 31)) >> 11) / 9007199254740992.0;
}

// About a standard normal number: the sum of twelve uniform ones.
static double normal(uint64_t key) {
    double sum = -6;
    for (uint64_t i = 0; i < 12; i++) sum += uniform(key * 12 + i);
    return sum;
}

// Smooth noise: normal numbers at the corners of a lattice, and a trilinear mean of them between.
struct Noise {
    uint64_t seed;
    double spacing;

    double corner(int x, int y, int z) const { return normal(((seed * 4096 + z) * 4096 + y) * 4096 + x); }

    double at(double x, double y, double z) const {
        int i = (int)(x / spacing), j = (int)(y / spacing), k = (int)(z / spacing);
        double u = x / spacing - i, v = y / spacing - j, w = z / spacing - k, sum = 0;
        for (int c = 0; c < 8; c++) {
            int a = c & 1, b = c >> 1 & 1, d = c >> 2;
            sum += corner(i + a, j + b, k + d) * (a ? u : 1 - u) * (b ? v : 1 - v) * (d ? w : 1 - w);
        }
        return sum;
    }
};

// Close to exp for small x, and made of products alone.
static double growth(double x) {
    double base = std::max(0.0, 1 + x / 8), square = base * base;
    return square * square * square * square;
}

struct OreBody {
    double x, y, z, along, across, height, richness, cosine, sine;

    // 1 times the richness in the middle, 0 from twice the radii on.
    double grade(Cell c) const {
        double dx = c.x - x, dy = c.y - y;
        double u = (cosine * dx + sine * dy) / along, v = (cosine * dy - sine * dx) / across, w = (c.z - z) / height;
        double left = std::max(0.0, 1 - (u * u + v * v + w * w) / 4);
        return richness * left * left * left * left;
    }
};

static OreBody ore_body(const Grid &g, uint64_t key) {
    auto between = [&](int i, double low, double high) { return low + (high - low) * uniform(key * 16 + i); };
    double t = between(0, -1, 1), turn = 1 + t * t;  // a turn by 2 atan(t)
    return {g.nx * between(1, 0.2, 0.8),   g.ny * between(2, 0.2, 0.8),   g.nz * between(3, 0.15, 0.75),
            g.nx * between(4, 0.06, 0.20), g.ny * between(5, 0.05, 0.15), g.nz * between(6, 0.12, 0.37),
            between(7, 0.6, 1.4),          (1 - t * t) / turn,            2 * t / turn};
}

// The `count` cells that lie deepest below the surface, or nearest to the axis of the cone.
static std::vector<char> kept_cells(const Grid &g, size_t count, bool cone, uint64_t seed) {
    Noise relief{seed * 8 + 1, std::max(6.0, g.nx / 4.0)};
    std::vector<std::pair<float, uint32_t>> scores(g.cells());
    for (size_t i = 0; i < scores.size(); i++) {
        Cell c = g.cell(i);
        double dx = c.x - g.nx / 2.0, dy = (c.y - g.ny / 2.0) * g.nx / g.ny;
        double score = cone ? sqrt(dx * dx + dy * dy) - c.z : c.z - 0.08 * g.nz * relief.at(c.x, c.y, 1);
        scores[i] = {(float)score, (uint32_t)i};
    }
    std::nth_element(scores.begin(), scores.begin() + (count - 1), scores.end());
    std::vector<char> kept(scores.size());
    for (size_t k = 0; k < count; k++) kept[scores[k].second] = 1;
    return kept;
}

struct Offsets {
    std::vector<Cell> list;

    void ring(int level, int least, int most) {
        for (int y = -3; y <= 3; y++)
            for (int x = -3; x <= 3; x++)
                if (int r = x * x + y * y; least <= r && r <= most) list.push_back({x, y, level});
    }
};

// What lies above a block: `five` and `nine` as in `pit slopes`, `cone2` as its cone:2:1:1; `knight` has 13 offsets and
// `cone29` has 29 over three levels.
static Offsets offsets_of(const std::string &pattern) {
    Offsets o;
    o.ring(1, 0, pattern == "nine" ? 2 : 1);
    if (pattern == "knight" || pattern == "cone29") o.ring(2, 5, 5);
    if (pattern == "cone2") o.ring(2, 0, 4);
    if (pattern == "cone29") o.ring(3, 8, 10);
    return o;
}

// Of one block, in cents. No revenue is negative.
struct Amounts {
    int64_t revenue, cost;
    int64_t value() const { return revenue - cost; }
};

struct Mine {
    Grid grid;
    uint64_t seed;
    double scale;
    double deeper;                 // what a tonne costs more for each level of depth
    std::vector<uint32_t> number;  // the block of a cell, or NONE
    std::vector<Cell> place;       // the cell of a block
    std::vector<int> surface;      // the highest kept cell of a column
    std::vector<OreBody> bodies;
    static constexpr uint32_t NONE = UINT32_MAX;

    double grade(Cell c, size_t block) const {
        double sum = 0;
        for (const OreBody &body : bodies) sum += body.grade(c);
        double wide = Noise{seed * 8 + 2, std::max(3.0, grid.nx / 12.0)}.at(c.x, c.y, c.z);
        double near = Noise{seed * 8 + 3, 2}.at(c.x, c.y, c.z);
        return scale * sum * growth(0.45 * wide + 0.35 * near + 0.25 * normal(seed * 8 + 4 + (block << 20)) - 0.2);
    }

    // What the metal brings where that is worth the processing; digging and hauling from the depth, and that processing.
    Amounts amounts(Cell c, double tonnes, double grade) const {
        int depth = surface[(size_t)c.y * grid.nx + c.x] - c.z;
        double ore = std::max(0.0, tonnes * (grade * 22 - 9.5));
        int64_t value = llround((ore - tonnes * (1.3 + deeper * depth)) * 100);
        int64_t revenue = ore > 0 ? llround(tonnes * grade * 22 * 100) : 0;
        return {revenue, revenue - value};
    }
};

static Mine made(Grid grid, size_t count, const std::string &kind, uint64_t seed, double scale) {
    bool cone = kind == "cone", deposit = kind == "deposit";
    Mine mine{grid, seed, scale, deposit ? 0.8 / grid.nz : 0.02, std::vector<uint32_t>(grid.cells(), Mine::NONE), {}, {}, {}};
    mine.surface.assign((size_t)grid.nx * grid.ny, 0);
    std::vector<char> kept = kept_cells(grid, count, cone, seed);
    for (size_t i = 0; i < kept.size(); i++) {
        if (!kept[i]) continue;
        Cell c = grid.cell(i);
        mine.number[i] = mine.place.size();
        mine.place.push_back(c);
        mine.surface[(size_t)c.y * grid.nx + c.x] = c.z;
    }
    int bodies = deposit ? 6 : 3 + (int)(sqrt(sqrt((double)count)) / 4);
    for (int k = 0; k < bodies; k++) mine.bodies.push_back(ore_body(grid, seed * 8 + 5 + ((uint64_t)k << 20)));
    return mine;
}

static FILE *opened(const std::string &name) {
    FILE *file = fopen(name.c_str(), "w");
    if (!file) {
        perror(name.c_str());
        exit(4);
    }
    return file;
}

static std::string decimal(int64_t cents) {
    char text[32];
    snprintf(text, sizeof text, "%s%lld.%02lld", cents < 0 ? "-" : "", llabs(cents) / 100, llabs(cents) % 100);
    return text;
}

// The columns that write_values gives a block, and twenty factors on both sides of 1000.
static void write_settings(const std::string &prefix) {
    FILE *settings = opened(prefix + ".toml");
    fputs("tonnes = 0\n# column 1 is the grade\nrevenue = 2\ncost = 3\nfactors = [300", settings);
    for (int k = 350; k <= 1250; k += 50) fprintf(settings, ", %d", k);
    fputs("]\n", settings);
    fclose(settings);
}

// Both files of values; gives the share of the blocks that are worth something.
static double write_values(const Mine &mine, const std::string &prefix) {
    FILE *blocks = opened(prefix + ".blocks"), *upit = opened(prefix + ".upit");
    size_t positive = 0, n = mine.place.size();
    fprintf(upit, "NAME: %s\nTYPE: UPIT\nNBLOCKS: %zu\nOBJECTIVE_FUNCTION:\n", prefix.substr(prefix.rfind('/') + 1).c_str(), n);
    for (size_t b = 0; b < n; b++) {
        Cell c = mine.place[b];
        int64_t grade = llround(mine.grade(c, b) * 1000);
        int tonnes = 8000 + (int)(200 * uniform(mine.seed * 8 + 6 + ((uint64_t)b << 20)));
        Amounts amounts = mine.amounts(c, tonnes, grade / 1000.0);
        positive += amounts.value() > 0;
        fprintf(blocks, "%zu %d %d %d %d %lld.%03lld %s %s\n", b, c.x, c.y, c.z, tonnes, (long long)grade / 1000,
                (long long)grade % 1000, decimal(amounts.revenue).c_str(), decimal(amounts.cost).c_str());
        fprintf(upit, "%zu %s\n", b, decimal(amounts.value()).c_str());
    }
    fputs("EOF\n", upit);
    fclose(blocks);
    fclose(upit);
    return (double)positive / n;
}

static size_t write_pairs(const Mine &mine, const Offsets &offsets, const std::string &prefix) {
    FILE *prec = opened(prefix + ".prec");
    size_t pairs = 0;
    std::vector<uint32_t> above;
    for (size_t b = 0; b < mine.place.size(); b++) {
        above.clear();
        for (Cell o : offsets.list) {
            Cell c = {mine.place[b].x + o.x, mine.place[b].y + o.y, mine.place[b].z + o.z};
            if (mine.grid.holds(c) && mine.number[mine.grid.index(c)] != Mine::NONE)
                above.push_back(mine.number[mine.grid.index(c)]);
        }
        std::sort(above.begin(), above.end());
        pairs += above.size();
        fprintf(prec, "%zu %zu", b, above.size());
        for (uint32_t p : above) fprintf(prec, " %u", p);
        fputc('\n', prec);
    }
    fclose(prec);
    return pairs;
}

static bool is_one_of(const char *word, std::vector<std::string> words) {
    return std::find(words.begin(), words.end(), word) != words.end();
}

int main(int count, char **words) {
    if (count != 10 || !is_one_of(words[6], {"five", "nine", "knight", "cone2", "cone29"})
        || !is_one_of(words[9], {"cone", "box", "deposit"})) {
        fputs("generator PREFIX BLOCKS NX NY NZ five|nine|knight|cone2|cone29 SEED GRADE cone|box|deposit\n", stderr);
        return 2;
    }
    std::string prefix = words[1];
    size_t n = strtoull(words[2], nullptr, 10);
    Grid grid{atoi(words[3]), atoi(words[4]), atoi(words[5])};
    if (n < 1 || grid.nx < 1 || grid.ny < 1 || grid.nz < 1 || n > grid.cells() || grid.cells() >= Mine::NONE) {
        fputs("so many blocks don't fit into the grid\n", stderr);
        return 2;
    }
    Mine mine = made(grid, n, words[9], strtoull(words[7], nullptr, 10), atof(words[8]));
    double positive = write_values(mine, prefix);
    write_settings(prefix);
    size_t pairs = write_pairs(mine, offsets_of(words[6]), prefix);
    printf("%s: %zu blocks, %zu pairs (%.1f a block), %.0f%% of the blocks worth more than 0\n", prefix.c_str(), n, pairs,
           (double)pairs / n, 100 * positive);
}
