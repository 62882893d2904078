// Weighed numbers as crates/scalar_laws has them, with __int128 and the overflow builtins.
#pragma once
#include <cstdint>
#include <cstdio>
#include <cstring>

typedef __int128 i128;
typedef unsigned __int128 u128;

static const u128 MAX_WEIGHT = (u128(1) << 127) - 1;

// Over has value 0 and weight 2^128 - 1.
struct Weighed {
    i128 value;
    u128 weight;
};

static const Weighed OVER = {0, ~u128(0)};
static const Weighed ZERO = {0, 0};

static inline Weighed make(i128 value, u128 weight) {
    u128 magnitude = value < 0 ? -u128(value) : u128(value);
    return weight <= MAX_WEIGHT && magnitude <= weight ? Weighed{value, weight} : OVER;
}

static inline Weighed add(Weighed a, Weighed b) {
    u128 weight;
    if (__builtin_add_overflow(a.weight, b.weight, &weight) || weight > MAX_WEIGHT) return OVER;
    return {a.value + b.value, weight};
}

static inline Weighed mul(Weighed a, Weighed b) {
    u128 weight;
    if (__builtin_mul_overflow(a.weight, b.weight, &weight) || weight > MAX_WEIGHT) return OVER;
    return {a.value * b.value, weight};
}

// The number of a value, whose weight is its magnitude.
static inline Weighed num(int64_t value) { return make(value, value < 0 ? -u128(value) : u128(value)); }

static void digits(u128 n) {
    char text[40];
    int at = 40;
    do text[--at] = char('0' + int(n % 10)), n /= 10;
    while (n != 0);
    fwrite(text + at, 1, size_t(40 - at), stdout);
}

static void print(Weighed all) {
    if (all.weight > MAX_WEIGHT) {
        puts("over");
        return;
    }
    if (all.value < 0) putchar('-');
    digits(all.value < 0 ? -u128(all.value) : u128(all.value));
    putchar(' ');
    digits(all.weight);
    putchar('\n');
}

// The next of a sequence of numbers of 64 bits, of which none comes twice.
static inline uint64_t next(uint64_t &state) {
    state ^= state << 13;
    state ^= state >> 7;
    state ^= state << 17;
    return state;
}
