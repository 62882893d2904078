// A plain reader of Matrix Market coordinate text, as a yardstick for crates/mm_text: it reads the file in pieces of
// 65,536 bytes into one buffer and makes the same list of entries from it, with the tests that a parser needs anyway.
//
//   g++ -O2 -march=x86-64-v2 -o read read.cpp && ./read FILE
#include <cstdint>
#include <cstdio>
#include <cstdlib>
#include <fcntl.h>
#include <unistd.h>
#include <vector>

struct Line {
    uint64_t row, col;
    __int128 value;
};

static const char *at, *end;

static void fail() { std::puts("bad"); std::exit(1); }

static void blanks() { while (at < end && (*at == ' ' || *at == '\t' || *at == '\r')) at++; }

static uint64_t count() {
    blanks();
    if (at < end && *at == '+') at++;
    const char *from = at;
    uint64_t n = 0;
    while (at < end && *at >= '0' && *at <= '9') n = n * 10 + (uint64_t)(*at++ - '0');
    if (at == from) fail();
    return n;
}

static __int128 value() {
    blanks();
    bool minus = at < end && *at == '-';
    if (at < end && (*at == '-' || *at == '+')) at++;
    const char *from = at;
    __int128 n = 0;
    while (at < end && *at >= '0' && *at <= '9')
        if (__builtin_mul_overflow(n, (__int128)10, &n) || __builtin_add_overflow(n, (__int128)(*at++ - '0'), &n)) fail();
    if (at == from) fail();
    return minus ? -n : n;
}

static void line_end() {
    blanks();
    if (at < end && *at++ != '\n') fail();
}

int main(int argc, char **argv) {
    if (argc != 2) fail();
    int file = open(argv[1], O_RDONLY);
    if (file < 0) fail();
    std::vector<char> bytes;
    static char piece[65536];
    for (ssize_t n; (n = read(file, piece, sizeof piece)) > 0;) bytes.insert(bytes.end(), piece, piece + n);
    at = bytes.data();
    end = at + bytes.size();
    while (at < end && *at != '\n') at++;
    line_end();
    uint64_t rows = count(), cols = count(), entries = count();
    line_end();
    std::vector<Line> lines;
    lines.reserve(entries);
    for (uint64_t k = 0; k < entries; k++) {
        uint64_t i = count(), j = count();
        __int128 v = value();
        line_end();
        if (i == 0 || i > rows || j == 0 || j > cols) fail();
        lines.push_back({i - 1, j - 1, v});
    }
    std::printf("%zu\n", lines.size());
}
