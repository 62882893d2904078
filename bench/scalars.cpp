// The loops of crates/scalar_bench in C++, with __int128 and the overflow builtins.
#include "weighed.hpp"

static const uint64_t COUNT = 10000000;

static Weighed with_sign(uint64_t magnitude, uint8_t extra, bool positive) {
    i128 value = i128(magnitude);
    return make(positive ? value : -value, u128(magnitude) * extra);
}

static void numbers(Weighed *all, uint64_t seed, uint8_t extra) {
    uint64_t state = seed;
    for (int i = 0; i < 256; i++) {
        next(state);
        all[i] = with_sign(1 + state % 1000000, extra, state % 2 == 0);
    }
}

static void signs(Weighed *all) {
    for (int i = 0; i < 256; i++) all[i] = with_sign(1, 1, i % 2 == 0);
}

int main(int argc, char **argv) {
    const char *word = argc > 1 ? argv[1] : "add";
    Weighed left[256], right[256];
    Weighed all = make(-i128(1234567890123456789), u128(12345678901234567890u));
    if (strcmp(word, "mul") == 0) {
        signs(left);
        for (uint64_t i = 0; i < COUNT; i++) all = mul(all, left[i % 256]);
    } else if (strcmp(word, "product") == 0) {
        numbers(left, 7, 3);
        numbers(right, 9, 2);
        for (uint64_t i = 0; i < COUNT; i++) all = add(all, mul(left[i % 256], right[i % 256]));
    } else {
        numbers(left, 7, 3);
        for (uint64_t i = 0; i < COUNT; i++) all = add(all, left[i % 256]);
    }
    print(all);
}
