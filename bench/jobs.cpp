// A vector read from array text, updated ten times and printed, in one process, as a yardstick for `tpx run`: the same
// numbers, each value kept, each number tested. y1 = 2 x - x, and each further one is 2 y - x of the one before it.
//
//   g++ -O2 -march=x86-64-v2 -o jobs jobs.cpp && ./jobs FILE >/dev/null
#include "weighed.hpp"
#include <cstdlib>
#include <fcntl.h>
#include <unistd.h>
#include <vector>

static const char *at, *end;

static void fail(int status) { _exit(status); }

static void blanks() { while (at < end && (*at == ' ' || *at == '\t' || *at == '\r')) at++; }

static void line_end() {
    blanks();
    if (at < end && *at++ != '\n') fail(5);
}

static i128 value() {
    blanks();
    bool minus = at < end && *at == '-';
    if (at < end && (*at == '-' || *at == '+')) at++;
    const char *from = at;
    i128 n = 0;
    while (at < end && *at >= '0' && *at <= '9')
        if (__builtin_mul_overflow(n, i128(10), &n) || __builtin_add_overflow(n, i128(*at++ - '0'), &n)) fail(5);
    if (at == from) fail(5);
    return minus ? -n : n;
}

static std::vector<Weighed> read_vector(const char *name) {
    int file = open(name, O_RDONLY);
    if (file < 0) fail(3);
    std::vector<char> bytes;
    static char piece[65536];
    for (ssize_t n; (n = read(file, piece, sizeof piece)) > 0;) bytes.insert(bytes.end(), piece, piece + n);
    at = bytes.data();
    end = at + bytes.size();
    while (at < end && *at != '\n') at++;
    line_end();
    i128 rows = value(), cols = value();
    line_end();
    std::vector<Weighed> x;
    x.reserve(size_t(rows * cols));
    for (i128 k = 0; k < rows * cols; k++) {
        i128 v = value();
        line_end();
        x.push_back(make(v, v < 0 ? -u128(v) : u128(v)));
    }
    return x;
}

static char page[65536];
static size_t used = 0;

static void flush() {
    for (size_t done = 0; done < used;) {
        ssize_t n = write(1, page + done, used - done);
        if (n <= 0) fail(4);
        done += size_t(n);
    }
    used = 0;
}

static void put(i128 v) {
    if (sizeof page - used < 64) flush();
    if (v < 0) page[used++] = '-';
    u128 n = v < 0 ? -u128(v) : u128(v);
    char digit[40];
    size_t from = 40;
    do digit[--from] = char('0' + int(n % 10)), n /= 10;
    while (n != 0);
    memcpy(page + used, digit + from, 40 - from);
    used += 40 - from;
    page[used++] = '\n';
}

int main(int argc, char **argv) {
    if (argc != 2) return 2;
    std::vector<std::vector<Weighed>> values;
    values.push_back(read_vector(argv[1]));
    const Weighed two = num(2), minus = num(-1);
    for (int step = 0; step < 10; step++) {
        const std::vector<Weighed> &x = values[0], &y = values.back();
        std::vector<Weighed> z(y.size());
        for (size_t i = 0; i < y.size(); i++) z[i] = add(mul(two, y[i]), mul(minus, x[i]));
        values.push_back(std::move(z));
    }
    for (const auto &v : values)
        for (Weighed w : v)
            if (w.weight > MAX_WEIGHT) return 7;
    printf("%%%%MatrixMarket matrix array integer general\n%zu 1\n", values.back().size());
    fflush(stdout);
    for (Weighed w : values.back()) put(w.value);
    flush();
    return 0;
}
