// Matrices of one rank in C++: a fill by sorting and compressing, products with a vector, a transpose by counting, a product of
// two matrices and a sum. Usage: matrices [WORD [ROUNDS [ROWS [ENTRIES]]]]; without words all of them in turn.
#include "weighed.hpp"

#include <algorithm>
#include <cstdlib>
#include <string>
#include <vector>

struct Entry {
    uint32_t row, col;
    Weighed value;
};

// Compressed rows: where each row begins, and each place's column and number.
struct Crs {
    std::vector<uint64_t> offsets;
    std::vector<uint32_t> cols;
    std::vector<Weighed> values;
};

static bool stands_before(const Entry &a, const Entry &b) { return a.row != b.row ? a.row < b.row : a.col < b.col; }

// Sorts the entries by row and column, and adds those of one place.
static Crs compress(uint32_t rows, std::vector<Entry> entries) {
    std::stable_sort(entries.begin(), entries.end(), stands_before);
    Crs a;
    a.offsets.assign(rows + 1, 0);
    for (size_t i = 0; i < entries.size(); i++) {
        const Entry &e = entries[i];
        if (i > 0 && entries[i - 1].row == e.row && entries[i - 1].col == e.col) {
            a.values.back() = add(a.values.back(), e.value);
        } else {
            a.cols.push_back(e.col);
            a.values.push_back(e.value);
            a.offsets[e.row + 1]++;
        }
    }
    for (uint32_t i = 0; i < rows; i++) a.offsets[i + 1] += a.offsets[i];
    return a;
}

// Entries at random places of a square matrix.
static std::vector<Entry> scattered(uint32_t rows, uint32_t count) {
    std::vector<Entry> entries;
    entries.reserve(count);
    uint64_t state = 7;
    for (uint32_t k = 0; k < count; k++) {
        uint32_t row = uint32_t(next(state) % rows), col = uint32_t(next(state) % rows);
        entries.push_back({row, col, num(int64_t(next(state) % 1000) - 500)});
    }
    return entries;
}

static std::vector<Entry> tridiagonal(uint32_t rows) {
    std::vector<Entry> entries;
    for (uint32_t i = 0; i < rows; i++) {
        if (i > 0) entries.push_back({i, i - 1, num(-1)});
        entries.push_back({i, i, num(2)});
        if (i + 1 < rows) entries.push_back({i, i + 1, num(-1)});
    }
    return entries;
}

// The sum of numbers, each times its place modulo 7.
static Weighed total_of(const std::vector<Weighed> &values) {
    Weighed sum = ZERO;
    for (size_t i = 0; i < values.size(); i++) sum = add(sum, mul(num(int64_t(i % 7)), values[i]));
    return sum;
}

// Each round but the last copies the entries.
static Weighed fill(uint32_t rows, std::vector<Entry> &entries, int rounds) {
    Crs a;
    for (int round = 1; round < rounds; round++) a = compress(rows, entries);
    if (rounds > 0) a = compress(rows, std::move(entries));
    return total_of(a.values);
}

// The structure alone: the total of the columns, each counted among those that are there.
static Weighed structure(uint32_t rows, std::vector<Entry> &entries, int rounds) {
    std::vector<std::pair<uint32_t, uint32_t>> places;
    for (int round = 0; round < rounds; round++) {
        places.clear();
        for (const Entry &e : entries) places.push_back({e.row, e.col});
        std::sort(places.begin(), places.end());
        places.erase(std::unique(places.begin(), places.end()), places.end());
    }
    std::vector<uint32_t> local(rows + 1, 0);
    for (const auto &p : places) local[p.second + 1] = 1;
    for (uint32_t j = 0; j < rows; j++) local[j + 1] += local[j];
    std::vector<Weighed> columns;
    for (const auto &p : places) columns.push_back(num(local[p.second]));
    return total_of(columns);
}

static Weighed &at(Crs &a, uint32_t row, uint32_t col) {
    auto first = a.cols.begin() + a.offsets[row], last = a.cols.begin() + a.offsets[row + 1];
    return a.values[std::lower_bound(first, last, col) - a.cols.begin()];
}

// A copy with each entry added once more, all numbers times 3, and each entry put in place of what is there.
static Weighed change(uint32_t rows, std::vector<Entry> &entries, int rounds) {
    Crs a = compress(rows, entries), b;
    for (int round = 0; round < rounds; round++) {
        b = a;
        for (const Entry &e : entries) at(b, e.row, e.col) = add(at(b, e.row, e.col), e.value);
        for (Weighed &value : b.values) value = mul(num(3), value);
        for (size_t i = 0; i < entries.size(); i += 2) at(b, entries[i].row, entries[i].col) = entries[i].value;
    }
    return total_of(b.values);
}

// The last digit of each index.
static std::vector<Weighed> digits(uint32_t rows) {
    std::vector<Weighed> x;
    for (uint32_t i = 0; i < rows; i++) x.push_back(num(i % 10));
    return x;
}

// y grows by a x, so many times.
static Weighed apply(uint32_t rows, std::vector<Entry> &entries, int rounds) {
    Crs a = compress(rows, entries);
    std::vector<Weighed> x = digits(rows), y(rows, ZERO);
    for (int round = 0; round < rounds; round++)
        for (uint32_t i = 0; i < rows; i++) {
            Weighed sum = y[i];
            for (uint64_t k = a.offsets[i]; k < a.offsets[i + 1]; k++) sum = add(sum, mul(a.values[k], x[a.cols[k]]));
            y[i] = sum;
        }
    return total_of(y);
}

// y grows by the transposed a times x, so many times.
static Weighed transposed(uint32_t rows, std::vector<Entry> &entries, int rounds) {
    Crs a = compress(rows, entries);
    std::vector<Weighed> x = digits(rows), y(rows, ZERO);
    for (int round = 0; round < rounds; round++)
        for (uint32_t i = 0; i < rows; i++)
            for (uint64_t k = a.offsets[i]; k < a.offsets[i + 1]; k++) y[a.cols[k]] = add(y[a.cols[k]], mul(a.values[k], x[i]));
    return total_of(y);
}

static Crs turned(uint32_t rows, const Crs &a) {
    Crs t;
    t.offsets.assign(rows + 1, 0);
    for (uint32_t col : a.cols) t.offsets[col + 1]++;
    for (uint32_t j = 0; j < rows; j++) t.offsets[j + 1] += t.offsets[j];
    t.cols.resize(a.cols.size());
    t.values.resize(a.cols.size());
    std::vector<uint64_t> end(t.offsets.begin(), t.offsets.end() - 1);
    for (uint32_t i = 0; i < rows; i++)
        for (uint64_t k = a.offsets[i]; k < a.offsets[i + 1]; k++) {
            uint64_t to = end[a.cols[k]]++;
            t.cols[to] = i;
            t.values[to] = a.values[k];
        }
    return t;
}

static Weighed transpose(uint32_t rows, std::vector<Entry> &entries, int rounds) {
    Crs a = compress(rows, entries), t;
    for (int round = 0; round < rounds; round++) t = turned(rows, a);
    return total_of(t.values);
}

// A product: each row is gathered in one dense vector, of which what it reached is cleared.
static Crs multiplied(uint32_t rows, const Crs &a, const Crs &b) {
    Crs c;
    c.offsets.push_back(0);
    std::vector<Weighed> dense(rows, ZERO);
    std::vector<uint8_t> is_reached(rows, 0);
    std::vector<uint32_t> reached;
    for (uint32_t i = 0; i < rows; i++) {
        for (uint64_t k = a.offsets[i]; k < a.offsets[i + 1]; k++) {
            uint32_t m = a.cols[k];
            for (uint64_t l = b.offsets[m]; l < b.offsets[m + 1]; l++) {
                uint32_t j = b.cols[l];
                if (!is_reached[j]) is_reached[j] = 1, reached.push_back(j);
                dense[j] = add(dense[j], mul(a.values[k], b.values[l]));
            }
        }
        std::sort(reached.begin(), reached.end());
        for (uint32_t j : reached) {
            c.cols.push_back(j);
            c.values.push_back(dense[j]);
            dense[j] = ZERO;
            is_reached[j] = 0;
        }
        reached.clear();
        c.offsets.push_back(c.cols.size());
    }
    return c;
}

static Weighed product(uint32_t rows, std::vector<Entry> &entries, int rounds) {
    Crs a = compress(rows, entries), b = compress(rows, entries), c;
    for (int round = 0; round < rounds; round++) c = multiplied(rows, a, b);
    return total_of(c.values);
}

// alpha a + beta b, row by row in the order of the columns.
static Crs added(uint32_t rows, Weighed alpha, const Crs &a, Weighed beta, const Crs &b) {
    Crs c;
    c.offsets.push_back(0);
    for (uint32_t i = 0; i < rows; i++) {
        uint64_t k = a.offsets[i], l = b.offsets[i];
        while (k < a.offsets[i + 1] || l < b.offsets[i + 1]) {
            bool first = l == b.offsets[i + 1] || (k < a.offsets[i + 1] && a.cols[k] <= b.cols[l]);
            bool second = k == a.offsets[i + 1] || (l < b.offsets[i + 1] && b.cols[l] <= a.cols[k]);
            c.cols.push_back(first ? a.cols[k] : b.cols[l]);
            Weighed left = first ? mul(alpha, a.values[k++]) : ZERO;
            c.values.push_back(second ? add(left, mul(beta, b.values[l++])) : left);
        }
        c.offsets.push_back(c.cols.size());
    }
    return c;
}

static Weighed sum(uint32_t rows, std::vector<Entry> &entries, int rounds) {
    Crs a = compress(rows, entries), b = compress(rows, entries), c;
    volatile int64_t two = 2, minus = -1;
    for (int round = 0; round < rounds; round++) c = added(rows, num(two), a, num(minus), b);
    return total_of(c.values);
}

static void measure(const std::string &word, int rounds, uint32_t rows, uint32_t count) {
    std::vector<Entry> entries = word == "product" ? tridiagonal(rows) : scattered(rows, count);
    Weighed (*work)(uint32_t, std::vector<Entry> &, int) = fill;
    if (word == "structure") work = structure;
    if (word == "change") work = change;
    if (word == "apply") work = apply;
    if (word == "transposed") work = transposed;
    if (word == "transpose") work = transpose;
    if (word == "product") work = product;
    if (word == "sum") work = sum;
    printf("%s ", word.c_str());
    print(work(rows, entries, rounds));
}

int main(int argc, char **argv) {
    int rounds = argc > 2 ? atoi(argv[2]) : 1;
    uint32_t rows = argc > 3 ? uint32_t(atoi(argv[3])) : 100000;
    uint32_t count = argc > 4 ? uint32_t(atoi(argv[4])) : 300000;
    if (argc > 1) {
        measure(argv[1], rounds, rows, count);
        return 0;
    }
    for (const char *word : {"fill", "structure", "change", "apply", "transposed", "transpose", "product", "sum"})
        measure(word, rounds, rows, count);
}
