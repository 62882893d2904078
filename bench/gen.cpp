// The job that `tpx gen N` makes of a size, in one process, as a yardstick for it: a vector with i + 1 at index i, a matrix with 2 on
// its diagonal and -1 beside it, put in compressed rows from its lines, y = A x, s = A A and z = s x: the same numbers, each value
// kept, each number tested. Products take a matrix as any other. There are no ranks here, so the line `letters` says 0.
//
//   g++ -O2 -march=x86-64-v2 -o gen gen.cpp && ./gen N
#include "weighed.hpp"
#include <algorithm>
#include <cstdlib>
#include <vector>

static void fail(int status) { exit(status); }

static Weighed number(i128 v) { return make(v, v < 0 ? -u128(v) : u128(v)); }

struct Line {
    uint32_t row, col;
    i128 value;
};

// 2 at (i, i), and -1 at (i, i + 1) and at (i + 1, i), where i + 1 is an index.
static std::vector<Line> matrix_lines(uint32_t size) {
    std::vector<Line> lines;
    lines.reserve(3 * size_t(size) - 2);
    for (uint32_t i = 0; i < size; i++) {
        lines.push_back({i, i, 2});
        if (i + 1 == size) break;
        lines.push_back({i, i + 1, -1});
        lines.push_back({i + 1, i, -1});
    }
    return lines;
}

// i + 1 at index i.
static std::vector<Weighed> vector_of(uint32_t size) {
    std::vector<Weighed> x;
    x.reserve(size);
    for (uint32_t i = 0; i < size; i++) x.push_back(number(i128(i) + 1));
    return x;
}

// Compressed rows: where each row begins, and each place's column and number.
struct Crs {
    std::vector<uint64_t> offsets;
    std::vector<uint32_t> cols;
    std::vector<Weighed> values;
};

static bool stands_before(const Line &a, const Line &b) { return a.row != b.row ? a.row < b.row : a.col < b.col; }

// Sorts the lines by row and column, and adds those of one place.
static Crs compress(uint32_t rows, std::vector<Line> lines) {
    std::sort(lines.begin(), lines.end(), stands_before);
    Crs a;
    a.offsets.assign(size_t(rows) + 1, 0);
    a.cols.reserve(lines.size());
    a.values.reserve(lines.size());
    for (size_t k = 0; k < lines.size(); k++) {
        const Line &line = lines[k];
        if (k > 0 && lines[k - 1].row == line.row && lines[k - 1].col == line.col) {
            a.values.back() = add(a.values.back(), number(line.value));
        } else {
            a.cols.push_back(line.col);
            a.values.push_back(number(line.value));
            a.offsets[line.row + 1]++;
        }
    }
    for (uint32_t i = 0; i < rows; i++) a.offsets[i + 1] += a.offsets[i];
    return a;
}

static std::vector<Weighed> applied(const Crs &a, const std::vector<Weighed> &x) {
    std::vector<Weighed> y(a.offsets.size() - 1);
    for (size_t i = 0; i < y.size(); i++) {
        Weighed sum = ZERO;
        for (uint64_t k = a.offsets[i]; k < a.offsets[i + 1]; k++) sum = add(sum, mul(a.values[k], x[a.cols[k]]));
        y[i] = sum;
    }
    return y;
}

// A product of square matrices: each row is gathered in one dense vector, of which what it reached is cleared.
static Crs multiplied(uint32_t rows, const Crs &a, const Crs &b) {
    Crs c;
    c.offsets.reserve(size_t(rows) + 1);
    c.offsets.push_back(0);
    std::vector<Weighed> dense(rows, ZERO);
    std::vector<uint8_t> is_reached(rows, 0);
    std::vector<uint32_t> reached;
    for (uint32_t i = 0; i < rows; i++) {
        for (uint64_t k = a.offsets[i]; k < a.offsets[i + 1]; k++) {
            uint32_t m = a.cols[k];
            for (uint64_t l = b.offsets[m]; l < b.offsets[m + 1]; l++) {
                uint32_t j = b.cols[l];
                if (!is_reached[j]) is_reached[j] = 1, reached.push_back(j);
                dense[j] = add(dense[j], mul(a.values[k], b.values[l]));
            }
        }
        std::sort(reached.begin(), reached.end());
        for (uint32_t j : reached) {
            c.cols.push_back(j);
            c.values.push_back(dense[j]);
            dense[j] = ZERO;
            is_reached[j] = 0;
        }
        reached.clear();
        c.offsets.push_back(c.cols.size());
    }
    return c;
}

static void test(const std::vector<Weighed> &numbers) {
    for (Weighed w : numbers)
        if (w.weight > MAX_WEIGHT) fail(7);
}

// The sum of the values, each with its own magnitude.
static Weighed sum_of(const std::vector<Weighed> &numbers) {
    Weighed sum = ZERO;
    for (Weighed w : numbers) sum = add(sum, number(w.value));
    if (sum.weight > MAX_WEIGHT) fail(7);
    return sum;
}

static void put(i128 v) {
    if (v < 0) putchar('-');
    digits(v < 0 ? -u128(v) : u128(v));
}

int main(int argc, char **argv) {
    long size = argc == 2 ? strtol(argv[1], nullptr, 10) : 0;
    if (size < 1 || size > 1000000) return 2;
    uint32_t n = uint32_t(size);
    std::vector<Weighed> x = vector_of(n);
    Crs a = compress(n, matrix_lines(n));
    std::vector<Weighed> y = applied(a, x);
    Crs s = multiplied(n, a, a);
    std::vector<Weighed> z = applied(s, x);
    test(x);
    test(a.values);
    test(y);
    test(s.values);
    test(z);
    Weighed y_sum = sum_of(y), z_sum = sum_of(z);
    printf("gen %u\nentries %zu\nsum ", n, s.cols.size());
    put(y_sum.value);
    putchar(' ');
    put(z_sum.value);
    printf("\nletters 0\n");
    return 0;
}
