// A plain writer of Matrix Market coordinate text, as a yardstick for crates/mm_text: the same million places, the
// same size of buffer, and the same sink (standard output).
//
//   g++ -O2 -march=x86-64-v2 -o write write.cpp && ./write >/dev/null
#include <chrono>
#include <cstdint>
#include <cstdio>
#include <cstring>
#include <unistd.h>
#include <vector>

struct Shown {
    uint64_t row, col;
    __int128 value;
};

static const size_t PAGE = 65536;

struct Writer {
    char page[PAGE];
    size_t len = 0;

    void flush() {
        size_t done = 0;
        while (done < len) {
            ssize_t n = write(1, page + done, len - done);
            if (n <= 0) _exit(1);
            done += n;
        }
        len = 0;
    }
    void number(unsigned __int128 n) {
        char digits[40];
        size_t at = 40;
        while (n >> 64) {
            digits[--at] = '0' + (char)(n % 10);
            n /= 10;
        }
        uint64_t low = (uint64_t)n;
        do {
            digits[--at] = '0' + (char)(low % 10);
            low /= 10;
        } while (low);
        memcpy(page + len, digits + at, 40 - at);
        len += 40 - at;
    }
    void byte(char c) { page[len++] = c; }
    void cell(const Shown &s) {
        if (PAGE - len < 128) flush();
        number(s.row + 1);
        byte(' ');
        number(s.col + 1);
        byte(' ');
        unsigned __int128 magnitude = s.value;
        if (s.value < 0) {
            byte('-');
            magnitude = -magnitude;
        }
        number(magnitude);
        byte('\n');
    }
};

static std::vector<Shown> many(bool wide) {
    std::vector<Shown> cells;
    cells.reserve(1000000);
    unsigned __int128 value = 1;
    for (uint64_t k = 0; k < 1000000; k++) {
        value = value * 6364136223846793005u + 1442695040888963407u;
        __int128 shown = (__int128)value;
        cells.push_back({k / 5, (k % 5) * 40000 + k % 7, wide ? shown : shown % 100});
    }
    return cells;
}

int main() {
    static Writer out;
    for (int wide = 0; wide < 2; wide++) {
        std::vector<Shown> cells = many(wide);
        for (int run = 0; run < 3; run++) {
            auto start = std::chrono::steady_clock::now();
            const char *head = "%%MatrixMarket matrix coordinate integer general\n1000000 1000000 1000000\n";
            out.len = strlen(head);
            memcpy(out.page, head, out.len);
            for (const Shown &cell : cells) out.cell(cell);
            out.flush();
            auto spent = std::chrono::steady_clock::now() - start;
            fprintf(stderr, "wide %d micros %lld\n", wide,
                    (long long)std::chrono::duration_cast<std::chrono::microseconds>(spent).count());
        }
    }
}
