// A peer of `pit solve --periods` and `pit bound`: the richest pit of the mine of blocks and periods, whose pairs are read off
// those of the mine and never written, by highest-label pseudoflow (Hochbaum 2008).
//
//     closure_in_time PREC UPIT BLOCKS WEIGHTS MULTIPLIERS CAPACITIES
//
// The last three are whole numbers with commas between them, one for each period, of one resource, which is the first column of
// BLOCKS after the coordinates. Prints the bound in 10^-15 of a unit, as docs/FORMATS.md has it, and how many nodes the pit has
// in each period.
#include "model.h"

using Amount = __int128;

static const uint32_t NONE = ~0u;

struct Nodes {
    const Model &mine;
    uint32_t periods, count;
    std::vector<Amount> worth;

    uint32_t block(uint32_t node) const { return node % mine.n; }
    bool has_next(uint32_t node) const { return node + mine.n < count; }
};

static std::vector<int64_t> numbers(const char *text) {
    std::vector<int64_t> found;
    for (const char *at = text; *at; at += *at == ',') found.push_back(strtoll(at, (char **)&at, 10));
    return found;
}

static std::vector<int64_t> uses_of(const char *name, uint32_t n) {
    std::vector<char> text = read_file(name);
    std::vector<int64_t> uses(n);
    const char *at = text.data();
    for (uint32_t b = 0; b < n; b++) {
        int64_t fields[5];
        for (int64_t &field : fields) field = strtoll(at, (char **)&at, 10);
        uses[fields[0]] = fields[4];
        at = strchr(at, '\n') + 1;
    }
    return uses;
}

// Trees over the nodes: the root of a strong one has an excess, that of a weak one a lack or nothing. An arc is up where it
// goes from a node to the parent of it.
struct Forest {
    const Nodes &nodes;
    uint32_t n, highest = 1;
    std::vector<Amount> excess, flow;
    std::vector<uint32_t> parent, label, way, child, next, before, looked, waiting, first, last, with;
    std::vector<uint8_t> is_up;

    explicit Forest(const Nodes &given)
        : nodes(given), n(given.count), excess(given.worth), flow(n, 0), parent(n, NONE), label(n, 0), way(n, 0), child(n, NONE),
          next(n, NONE), before(n, NONE), looked(n, NONE), waiting(n, NONE), first(n + 2, NONE), last(n + 2, NONE),
          with(n + 2, 0), is_up(n, 0) {}

    void wait(uint32_t root) {
        uint32_t l = label[root];
        waiting[root] = NONE;
        if (first[l] == NONE) first[l] = root;
        else waiting[last[l]] = root;
        last[l] = root;
    }

    uint32_t taken(uint32_t l) {
        uint32_t root = first[l];
        first[l] = waiting[root];
        return root;
    }

    void link(uint32_t to, uint32_t node) {
        parent[node] = to;
        next[node] = child[to];
        before[node] = NONE;
        if (child[to] != NONE) before[child[to]] = node;
        child[to] = node;
    }

    void unlink(uint32_t node) {
        if (before[node] != NONE) next[before[node]] = next[node];
        else child[parent[node]] = next[node];
        if (next[node] != NONE) before[next[node]] = before[node];
        parent[node] = NONE;
    }

    // A node that this one rests on, one label below the highest; ways that were looked at aren't again.
    uint32_t weak_way(uint32_t node) {
        uint32_t b = nodes.block(node), start = nodes.mine.first[b], own = nodes.mine.first[b + 1] - start, i = way[node];
        for (; i < own; i++) {
            uint32_t other = node - b + nodes.mine.predecessors[start + i];
            if (label[other] == highest - 1) return way[node] = i, other;
        }
        way[node] = own;
        return nodes.has_next(node) && label[node + nodes.mine.n] == highest - 1 ? node + nodes.mine.n : NONE;
    }

    void relabel(uint32_t node) {
        for (uint32_t &at = looked[node]; at != NONE; at = next[at])
            if (label[at] == label[node]) return;
        with[label[node]++]--;
        with[label[node]]++;
        way[node] = 0;
    }

    // Hangs the tree of a strong node below a weak one, and pushes its excess up.
    void merge(uint32_t to, uint32_t node) {
        bool up = true;
        Amount amount = 0;
        for (uint32_t at = node; at != NONE;) {
            uint32_t above = parent[at];
            bool was_up = is_up[at];
            Amount was = flow[at];
            if (above != NONE) unlink(at);
            is_up[at] = up, flow[at] = amount;
            link(to, at);
            to = at, at = above, up = !was_up, amount = was;
        }
        push(to);
    }

    void push(uint32_t node) {
        bool had_excess = true;
        while (excess[node] != 0 && parent[node] != NONE) {
            uint32_t to = parent[node];
            had_excess = excess[to] > 0;
            Amount moved = is_up[node] ? excess[node] : std::min(excess[node], flow[node]);
            flow[node] += is_up[node] ? moved : -moved;
            excess[to] += moved;
            excess[node] -= moved;
            if (excess[node] > 0) unlink(node), wait(node);
            node = to;
        }
        if (excess[node] > 0 && !had_excess) wait(node);
    }

    void lift(uint32_t root) {
        std::vector<uint32_t> stack{root};
        while (!stack.empty()) {
            uint32_t node = stack.back();
            stack.pop_back();
            with[label[node]]--;
            label[node] = n;
            for (uint32_t at = child[node]; at != NONE; at = next[at]) stack.push_back(at);
        }
    }

    uint32_t next_root() {
        for (uint32_t l = highest; l > 0; l--) {
            if (first[l] == NONE) continue;
            highest = l;
            if (with[l - 1]) return taken(l);
            while (first[l] != NONE) lift(taken(l));
        }
        if (first[0] == NONE) return NONE;
        while (first[0] != NONE) {
            uint32_t root = taken(0);
            label[root] = 1, way[root] = 0;
            with[0]--, with[1]++;
            wait(root);
        }
        highest = 1;
        if (with[0]) return taken(1);
        while (first[1] != NONE) lift(taken(1));
        return NONE;
    }

    // Whether a node has found one to hang below.
    bool has_merged(uint32_t node) {
        looked[node] = child[node];
        uint32_t other = weak_way(node);
        if (other != NONE) merge(other, node);
        else relabel(node);
        return other != NONE;
    }

    void search(uint32_t root) {
        uint32_t node = root;
        if (has_merged(node)) return;
        while (node != NONE) {
            while (looked[node] != NONE) {
                uint32_t down = looked[node];
                looked[node] = next[down];
                node = down;
                if (has_merged(node)) return;
            }
            node = parent[node];
            if (node != NONE) relabel(node);
        }
        wait(root);
        highest = std::max(highest, label[root]);
    }

    void solve() {
        for (uint32_t node = 0; node < n; node++) {
            label[node] = excess[node] > 0;
            with[label[node]]++;
            if (label[node]) wait(node);
        }
        for (uint32_t root = next_root(); root != NONE; root = next_root()) search(root);
    }
};

static std::string text_of(Amount amount) {
    std::string text;
    bool minus = amount < 0;
    for (unsigned __int128 left = minus ? -amount : amount; left || text.empty(); left /= 10) text += char('0' + int(left % 10));
    if (minus) text += '-';
    return {text.rbegin(), text.rend()};
}

int main(int count, char **words) {
    if (count != 7) stop("closure_in_time PREC UPIT BLOCKS WEIGHTS MULTIPLIERS CAPACITIES");
    Model mine;
    read_values(words[2], mine);
    read_pairs(words[1], mine);
    std::vector<int64_t> uses = uses_of(words[3], mine.n);
    std::vector<int64_t> weights = numbers(words[4]), multipliers = numbers(words[5]), capacities = numbers(words[6]);
    uint32_t periods = weights.size();
    Nodes nodes{mine, periods, periods * mine.n, {}};
    Amount bound = 0;
    for (uint32_t t = 0; t < periods; t++) bound += (Amount)capacities[t] * multipliers[t] * 1'000'000;
    auto left = [&](uint32_t b, uint32_t t) {
        return (Amount)mine.values[b] * 1000 * weights[t] - (Amount)uses[b] * multipliers[t] * 1'000'000;
    };
    nodes.worth.reserve(nodes.count);
    for (uint32_t t = 0; t < periods; t++)
        for (uint32_t b = 0; b < mine.n; b++) nodes.worth.push_back(left(b, t) - (t + 1 < periods ? left(b, t + 1) : 0));
    Forest forest(nodes);
    forest.solve();
    std::vector<uint32_t> dug(periods, 0);
    for (uint32_t node = 0; node < nodes.count; node++)
        if (forest.label[node] >= nodes.count) bound += nodes.worth[node], dug[node / mine.n]++;
    printf("BOUND %s\n", text_of(bound).c_str());
    for (uint32_t t = 0; t < periods; t++) printf("%u ", dug[t]);
    printf("\n");
}
