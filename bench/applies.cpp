// A matrix read from coordinate text, put in compressed rows, applied ten times to one vector and the last product printed, in one
// process, as a yardstick for `tpx run`: the same numbers, each value kept, each number tested. The vector is filled, or read from
// array text.
//
//   g++ -O2 -march=x86-64-v2 -o applies applies.cpp && ./applies MATRIX fill NUMBER >/dev/null
//   ./applies MATRIX file VECTOR >/dev/null
#include "weighed.hpp"
#include <algorithm>
#include <cstdlib>
#include <fcntl.h>
#include <unistd.h>
#include <vector>

static const char *at, *end;

static void fail(int status) { _exit(status); }

static void blanks() { while (at < end && (*at == ' ' || *at == '\t' || *at == '\r')) at++; }

static void line_end() {
    blanks();
    if (at < end && *at++ != '\n') fail(5);
}

static uint64_t count() {
    blanks();
    if (at < end && *at == '+') at++;
    const char *from = at;
    uint64_t n = 0;
    while (at < end && *at >= '0' && *at <= '9') n = n * 10 + uint64_t(*at++ - '0');
    if (at == from) fail(5);
    return n;
}

static i128 value() {
    blanks();
    bool minus = at < end && *at == '-';
    if (at < end && (*at == '-' || *at == '+')) at++;
    const char *from = at;
    i128 n = 0;
    while (at < end && *at >= '0' && *at <= '9')
        if (__builtin_mul_overflow(n, i128(10), &n) || __builtin_add_overflow(n, i128(*at++ - '0'), &n)) fail(5);
    if (at == from) fail(5);
    return minus ? -n : n;
}

static Weighed number(i128 v) { return make(v, v < 0 ? -u128(v) : u128(v)); }

// The bytes of a file, which are read from behind its first line.
static std::vector<char> read_file(const char *name) {
    int file = open(name, O_RDONLY);
    if (file < 0) fail(3);
    std::vector<char> bytes;
    static char piece[65536];
    for (ssize_t n; (n = read(file, piece, sizeof piece)) > 0;) bytes.insert(bytes.end(), piece, piece + n);
    close(file);
    at = bytes.data();
    end = at + bytes.size();
    while (at < end && *at != '\n') at++;
    line_end();
    return bytes;
}

struct Entry {
    uint32_t row, col;
    i128 value;
};

struct Lines {
    uint64_t rows, cols;
    std::vector<Entry> entries;
};

static Lines read_matrix(const char *name) {
    std::vector<char> bytes = read_file(name);
    Lines lines;
    lines.rows = count();
    lines.cols = count();
    uint64_t entries = count();
    line_end();
    if (lines.rows > UINT32_MAX || lines.cols > UINT32_MAX) fail(5);
    lines.entries.reserve(entries);
    for (uint64_t k = 0; k < entries; k++) {
        uint64_t i = count(), j = count();
        i128 v = value();
        line_end();
        if (i == 0 || i > lines.rows || j == 0 || j > lines.cols) fail(5);
        lines.entries.push_back({uint32_t(i - 1), uint32_t(j - 1), v});
    }
    return lines;
}

static std::vector<Weighed> read_vector(const char *name, uint64_t rows) {
    std::vector<char> bytes = read_file(name);
    if (count() != rows || count() != 1) fail(5);
    line_end();
    std::vector<Weighed> x;
    x.reserve(rows);
    for (uint64_t k = 0; k < rows; k++) {
        x.push_back(number(value()));
        line_end();
    }
    return x;
}

// Compressed rows: where each row begins, and each place's column and number.
struct Crs {
    std::vector<uint64_t> offsets;
    std::vector<uint32_t> cols;
    std::vector<Weighed> values;
};

static bool stands_before(const Entry &a, const Entry &b) { return a.row != b.row ? a.row < b.row : a.col < b.col; }

// Sorts the entries by row and column, and adds those of one place.
static Crs compress(uint64_t rows, std::vector<Entry> entries) {
    std::sort(entries.begin(), entries.end(), stands_before);
    Crs a;
    a.offsets.assign(rows + 1, 0);
    a.cols.reserve(entries.size());
    a.values.reserve(entries.size());
    for (size_t k = 0; k < entries.size(); k++) {
        const Entry &e = entries[k];
        if (k > 0 && entries[k - 1].row == e.row && entries[k - 1].col == e.col) {
            a.values.back() = add(a.values.back(), number(e.value));
        } else {
            a.cols.push_back(e.col);
            a.values.push_back(number(e.value));
            a.offsets[e.row + 1]++;
        }
    }
    for (uint64_t i = 0; i < rows; i++) a.offsets[i + 1] += a.offsets[i];
    return a;
}

static std::vector<Weighed> applied(const Crs &a, const std::vector<Weighed> &x) {
    std::vector<Weighed> y(a.offsets.size() - 1);
    for (size_t i = 0; i < y.size(); i++) {
        Weighed sum = ZERO;
        for (uint64_t k = a.offsets[i]; k < a.offsets[i + 1]; k++) sum = add(sum, mul(a.values[k], x[a.cols[k]]));
        y[i] = sum;
    }
    return y;
}

static void test(const std::vector<Weighed> &numbers) {
    for (Weighed w : numbers)
        if (w.weight > MAX_WEIGHT) fail(7);
}

static char page[65536];
static size_t used = 0;

static void flush() {
    for (size_t done = 0; done < used;) {
        ssize_t n = write(1, page + done, used - done);
        if (n <= 0) fail(4);
        done += size_t(n);
    }
    used = 0;
}

static void put(i128 v) {
    if (sizeof page - used < 64) flush();
    if (v < 0) page[used++] = '-';
    u128 n = v < 0 ? -u128(v) : u128(v);
    char digit[40];
    size_t from = 40;
    do digit[--from] = char('0' + int(n % 10)), n /= 10;
    while (n != 0);
    memcpy(page + used, digit + from, 40 - from);
    used += 40 - from;
    page[used++] = '\n';
}

int main(int argc, char **argv) {
    if (argc != 4) return 2;
    bool is_filled = strcmp(argv[2], "fill") == 0;
    if (!is_filled && strcmp(argv[2], "file") != 0) return 2;
    Lines lines = read_matrix(argv[1]);
    Crs a = compress(lines.rows, std::move(lines.entries));
    std::vector<Weighed> x;
    if (is_filled) x.assign(lines.cols, num(strtoll(argv[3], nullptr, 10)));
    else x = read_vector(argv[3], lines.cols);
    std::vector<std::vector<Weighed>> values;
    for (int step = 0; step < 10; step++) values.push_back(applied(a, x));
    test(x);
    test(a.values);
    for (const auto &y : values) test(y);
    printf("%%%%MatrixMarket matrix array integer general\n%zu 1\n", values.back().size());
    fflush(stdout);
    for (Weighed w : values.back()) put(w.value);
    flush();
    return 0;
}
