// The work of crates/letter_bench in C++: four letters of a million entries are laid out, checked and taken apart.
#include <cstdint>
#include <cstdio>
#include <cstring>
#include <vector>

typedef __int128 i128;
typedef unsigned __int128 u128;

static const u128 MAX_WEIGHT = (u128(1) << 127) - 1;
static const uint64_t ENTRIES = 1000000;
static const uint64_t LETTERS = 4;

// Over has value 0 and weight 2^128 - 1.
struct Weighed {
    i128 value;
    u128 weight;
};

static const Weighed OVER = {0, ~u128(0)};

static inline Weighed make(i128 value, u128 weight) {
    u128 magnitude = value < 0 ? -u128(value) : u128(value);
    return weight <= MAX_WEIGHT && magnitude <= weight ? Weighed{value, weight} : OVER;
}

static inline Weighed add(Weighed a, Weighed b) {
    u128 weight;
    if (__builtin_add_overflow(a.weight, b.weight, &weight) || weight > MAX_WEIGHT) return OVER;
    return {a.value + b.value, weight};
}

// A letter: the kind, the number of words, the words, and 32 bytes for each number.
static void lay_out(uint8_t *out, uint64_t sender) {
    out[0] = 22;
    memcpy(out + 1, &ENTRIES, 8);
    uint8_t *words = out + 9;
    uint8_t *numbers = words + 8 * ENTRIES;
    for (uint64_t at = 0; at < ENTRIES; at++) {
        uint64_t index = LETTERS * at + sender % LETTERS;
        memcpy(words + 8 * at, &index, 8);
        Weighed number = make(i128(index), u128(index));
        memcpy(numbers + 32 * at, &number.value, 16);
        memcpy(numbers + 32 * at + 16, &number.weight, 16);
    }
}

static bool take_apart(const uint8_t *bytes, uint64_t len, uint64_t *words, Weighed *numbers) {
    if (len < 9 || bytes[0] != 22) return false;
    uint64_t count;
    memcpy(&count, bytes + 1, 8);
    if (count > (len - 9) / 8) return false;
    uint64_t rest = len - 9 - 8 * count;
    if (rest % 32 != 0) return false;
    if (count == 0 ? rest != 0 : rest / 32 % count != 0) return false;
    for (uint64_t at = 0; at < count; at++) {
        uint64_t word;
        memcpy(&word, bytes + 9 + 8 * at, 8);
        *words += word;
    }
    const uint8_t *places = bytes + 9 + 8 * count;
    Weighed all = {0, 0};
    for (uint64_t at = 0; at < rest / 32; at++) {
        i128 value;
        u128 weight;
        memcpy(&value, places + 32 * at, 16);
        memcpy(&weight, places + 32 * at + 16, 16);
        all = add(all, make(value, weight));
    }
    *numbers = add(*numbers, all);
    return true;
}

static void digits(u128 n) {
    char text[40];
    int at = 40;
    do text[--at] = char('0' + int(n % 10)), n /= 10;
    while (n != 0);
    fwrite(text + at, 1, size_t(40 - at), stdout);
}

int main() {
    std::vector<uint8_t> bytes(9 + 40 * ENTRIES);
    uint64_t words = 0;
    Weighed numbers = {0, 0};
    for (uint64_t sender = 0; sender < LETTERS; sender++) {
        lay_out(bytes.data(), sender);
        take_apart(bytes.data(), bytes.size(), &words, &numbers);
    }
    printf("%llu ", (unsigned long long)words);
    if (numbers.weight > MAX_WEIGHT) {
        puts("over");
        return 0;
    }
    if (numbers.value < 0) putchar('-');
    digits(numbers.value < 0 ? -u128(numbers.value) : u128(numbers.value));
    putchar(' ');
    digits(numbers.weight);
    putchar('\n');
}
