// A peer of `pit check`: a plain checker of certificates, which proves nothing of itself.
//
//     checker PREC UPIT CERT
//
// Reads the certificate line by line by the grammar of docs/FORMATS.md, keeps one number and one balance for each block, and
// prints what `pit check` prints (where several refusals stand it may name another). Model files must be plain (model.h).
#include "model.h"

static const size_t LONGEST_LINE = 65536;

[[noreturn]] static void fault(const std::string &what) {
    fprintf(stderr, "fault: certificate %s\n", what.c_str());
    exit(3);
}

[[noreturn]] static void refuse(const std::string &what) {
    printf("REFUSED %s\n", what.c_str());
    exit(1);
}

struct Amount {
    i128 worth, count;

    bool operator<(Amount other) const { return worth < other.worth || (worth == other.worth && count < other.count); }
    bool is_zero() const { return worth == 0 && count == 0; }
    Amount negated() const { return {-worth, -count}; }
    // Both give whether the sum fits.
    bool add(Amount other) {
        return !__builtin_add_overflow(worth, other.worth, &worth) & !__builtin_add_overflow(count, other.count, &count);
    }
    bool subtract(Amount other) {
        return !__builtin_sub_overflow(worth, other.worth, &worth) & !__builtin_sub_overflow(count, other.count, &count);
    }
};
static const Amount ZERO = {0, 0};

class Lines {
  public:
    const char *begin, *end;
    uint64_t line = 0;

    explicit Lines(const char *name) : file(fopen(name, "rb")), buffer(1 << 18) {
        if (!file) stop(std::string("can't open ") + name);
    }

    void next() {
        const char *feed;
        while (!(feed = (const char *)memchr(&buffer[from], '\n', to - from))) more();
        begin = &buffer[from];
        end = feed;
        from += end - begin + 1;
        line++;
        if (end - begin > (long)LONGEST_LINE) fault_here("Text");
    }

    bool at_the_end() {
        if (from == to) refill();
        return from == to;
    }

    [[noreturn]] void fault_here(const char *name) const { fault(name + ("(" + std::to_string(line) + ")")); }

  private:
    FILE *file;
    std::vector<char> buffer;
    size_t from = 0, to = 0;

    bool refill() {
        memmove(buffer.data(), &buffer[from], to - from);
        to -= from;
        from = 0;
        size_t got = fread(&buffer[to], 1, buffer.size() - 1 - to, file);
        to += got;
        return got > 0;
    }

    void more() {
        if (to - from <= LONGEST_LINE && refill()) return;
        if (to - from <= LONGEST_LINE) fault("Truncated");
        line++;
        fault_here("Text");
    }
};

struct Field {
    const char *begin, *end;

    bool is(const char *word) const { return (size_t)(end - begin) == strlen(word) && !memcmp(begin, word, end - begin); }

    // `0`, or an optional minus and digits of which the first isn't 0.
    bool read(i128 &value) const {
        const char *at = begin;
        bool minus = at < end && *at == '-';
        at += minus;
        if (at == end || end - at > 39 || (*at == '0' && (minus || end - at > 1))) return false;
        unsigned __int128 size = 0;
        uint64_t low = 0;
        for (const char *first = at; at < end; at++) {
            if (*at < '0' || *at > '9') return false;
            if (at - first < 18) size = low = low * 10 + (*at - '0');
            else if (__builtin_mul_overflow(size, (unsigned __int128)10, &size)
                     || __builtin_add_overflow(size, (unsigned __int128)(*at - '0'), &size)) return false;
        }
        if (size > ((unsigned __int128)1 << 127) - !minus) return false;
        value = minus ? (i128)-size : (i128)size;
        return true;
    }

    bool read_below(uint32_t n, uint32_t &value) const {
        i128 number;
        if (!read(number) || number < 0 || number >= n) return false;
        value = (uint32_t)number;
        return true;
    }
};

// The fields of a line; five at most stand in any line, and a sixth isn't looked at.
static int split(const Lines &lines, Field fields[6]) {
    int count = 0;
    for (const char *at = lines.begin; count < 6; at++) {
        const char *space = (const char *)memchr(at, ' ', lines.end - at);
        fields[count++] = {at, space ? space : lines.end};
        if (!space) break;
        at = space;
    }
    return count;
}

// The four lines are read before the number of blocks is compared with the mine.
struct Header {
    i128 blocks = 0;
    bool other_price = false, with_counts = false;

    void read(Lines &lines) {
        Field f[6];
        lines.next();
        if (split(lines, f) != 2 || !f[0].is("PITCERT") || !f[1].is("1")) lines.fault_here("Text");
        lines.next();
        if (split(lines, f) != 2 || !f[0].is("BLOCKS")) lines.fault_here("Text");
        if (!f[1].read(blocks) || blocks < 0 || blocks > 1 << 24) lines.fault_here("Number");
        lines.next();
        if (split(lines, f) != 2 || !f[0].is("PRICE")) lines.fault_here("Text");
        other_price = !f[1].is("OBJECTIVE");
        i128 price;
        if (other_price && (!f[1].read(price) || price < 0 || price > 10000)) lines.fault_here("Number");
        lines.next();
        if (split(lines, f) != 2 || !f[0].is("GROUP") || !(f[1].is("WORTH") || f[1].is("PAIR"))) lines.fault_here("Text");
        with_counts = f[1].is("PAIR");
    }
};

class Check {
  public:
    Check(const Model &model, Lines &lines) : model(model), lines(lines) {}

    void run() {
        header.read(lines);
        if (header.blocks != model.n) fault("Number(2)");
        if (header.other_price) fault("WrongPrice");
        in_pit.assign(model.n, 0);
        balances.assign(model.n, ZERO);
        while (body_line()) {}
        if (!lines.at_the_end()) {
            lines.line++;
            lines.fault_here("Text");
        }
        judge();
    }

  private:
    enum Kind { PIT, SOURCE, REST, SINK, END, NONE };

    const Model &model;
    Lines &lines;
    Header header;
    std::vector<char> in_pit;
    std::vector<Amount> balances;  // what enters a block less what leaves it
    Amount from_source = ZERO;
    bool negative = false, fits = true;
    uint32_t over = UINT32_MAX;  // the first block whose amount is over its capacity
    Kind last_kind = PIT;
    uint64_t least_key = 0;  // of the next line of the same kind

    Amount amount_of(uint32_t b) const { return {(i128)model.values[b] * 1000, header.with_counts ? -1 : 0}; }

    static Kind kind_of(const Field *f, int count) {
        static const struct { const char *word; int count; Kind kind; } FORMS[] = {
            {"PIT", 2, PIT}, {"SOURCE", 4, SOURCE}, {"REST", 5, REST}, {"SINK", 4, SINK}, {"END", 1, END}};
        for (auto form : FORMS)
            if (count == form.count && f[0].is(form.word)) return form.kind;
        return NONE;
    }

    bool body_line() {
        Field f[6];
        lines.next();
        Kind kind = kind_of(f, split(lines, f));
        if (kind == NONE) lines.fault_here("Text");
        uint32_t b = 0, p = 0;
        Amount amount = ZERO;
        int amount_at = kind == REST ? 3 : 2;
        if (kind != END && !f[1].read_below(model.n, b)) lines.fault_here("Number");
        if (kind == REST && !f[2].read_below(model.n, p)) lines.fault_here("Number");
        if (kind != END && kind != PIT && !read_amount(f + amount_at, amount)) lines.fault_here("Number");
        in_order(kind, (uint64_t)b << 32 | p);
        if (kind == REST && !model.has_pair(b, p)) lines.fault_here("UnknownPair");
        if (kind != END) take(kind, b, p, amount);
        return kind != END;
    }

    bool read_amount(const Field *f, Amount &amount) const {
        bool read = f[0].read(amount.worth) && f[1].read(amount.count);
        return read && !amount.is_zero() && (header.with_counts || amount.count == 0);
    }

    void in_order(Kind kind, uint64_t key) {
        if (kind != last_kind) least_key = 0;
        if (kind < last_kind || key < least_key) lines.fault_here("OutOfOrder");
        last_kind = kind;
        least_key = key + 1;
    }

    void take(Kind kind, uint32_t b, uint32_t p, Amount amount) {
        negative |= amount < ZERO;
        if (kind == PIT) in_pit[b] = 1;
        if (kind == SOURCE) {
            fits &= balances[b].add(amount) & from_source.add(amount);
            if (capacity(amount_of(b)) < amount) over = std::min(over, b);
        }
        if (kind == REST) fits &= balances[b].subtract(amount) & balances[p].add(amount);
        if (kind == SINK) {
            fits &= balances[b].subtract(amount);
            if (capacity(amount_of(b).negated()) < amount) over = std::min(over, b);
        }
    }

    static Amount capacity(Amount amount) { return amount < ZERO ? ZERO : amount; }

    void judge() {
        refuse_unless_closed();
        if (negative) refuse("Negative");
        if (over != UINT32_MAX) refuse("OverCapacity(" + std::to_string(over) + ")");
        if (!fits) refuse("TooLarge");
        Amount room = ZERO, worth = ZERO;
        uint64_t size = 0;
        for (uint32_t b = 0; b < model.n; b++) {
            if (!balances[b].is_zero()) refuse("Unbalanced(" + std::to_string(b) + ")");
            fits &= room.add(capacity(amount_of(b))) && (!in_pit[b] || worth.add(amount_of(b)));
            size += in_pit[b];
        }
        if (!room.subtract(from_source) || !fits) refuse("TooLarge");
        if (room < worth || worth < room) refuse("NotTight");
        const char *group = header.with_counts ? "" : " GROUP WORTH";
        printf("ACCEPTED %llu %s%s\n", (unsigned long long)size, decimal(worth.worth).c_str(), group);
    }

    void refuse_unless_closed() const {
        for (uint32_t b = 0; b < model.n; b++)
            for (uint32_t i = model.first[b]; in_pit[b] && i < model.first[b + 1]; i++)
                if (uint32_t p = model.predecessors[i]; !in_pit[p])
                    refuse("NotClosed(" + std::to_string(b) + ", " + std::to_string(p) + ")");
    }
};

int main(int count, char **words) {
    if (count != 4) stop("checker PREC UPIT CERT");
    Model model = read_model(words[1], words[2]);
    Lines lines(words[3]);
    Check(model, lines).run();
}
