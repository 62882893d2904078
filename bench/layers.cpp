// The layers below a rank in C++: look-ups in a list map, the plans of all ranks between two maps, a transfer, and an
// update.
#include "weighed.hpp"

#include <cstdlib>
#include <unordered_map>
#include <vector>

// Look-ups of 1,000,000 random global indices, so many rounds, half of them of indices that are not there.
static void lookups(int rounds) {
    const uint32_t count = 1000000;
    std::vector<uint64_t> gids;
    uint64_t state = 7;
    for (uint32_t i = 0; i < 2 * count; i++) gids.push_back(next(state));
    std::unordered_map<uint64_t, uint32_t> map;
    map.reserve(count);
    for (uint32_t lid = 0; lid < count; lid++) map.emplace(gids[lid], lid);
    uint64_t sum = 0;
    for (int round = 0; round < rounds; round++)
        for (uint64_t gid : gids) {
            auto found = map.find(gid);
            if (found != map.end()) sum += found->second;
        }
    printf("%llu\n", (unsigned long long)sum);
}

static const uint32_t RANKS = 4;
static const uint8_t WANT = 20, DATA = 22;

static void put_word(std::vector<uint8_t> &bytes, size_t at, uint64_t word) { memcpy(&bytes[at], &word, 8); }

static uint64_t word_at(const std::vector<uint8_t> &bytes, size_t at) {
    uint64_t word;
    memcpy(&word, &bytes[at], 8);
    return word;
}

// Whether the bytes are a letter of this kind with so many numbers a word.
static bool is_letter(const std::vector<uint8_t> &bytes, uint8_t kind, uint64_t numbers) {
    if (bytes.size() < 9 || bytes[0] != kind) return false;
    uint64_t words = word_at(bytes, 1), behind = bytes.size() - 9;
    return words <= behind / 8 && behind - 8 * words == 32 * numbers * words;
}

struct Plan {
    uint32_t same;
    std::vector<uint32_t> permute_to, permute_from;
    std::vector<uint32_t> exports[RANKS], remotes[RANKS];
};

// The contiguous uniform map of a size that RANKS divides, and the cyclic one.
struct Uniform {
    uint64_t each;
    uint64_t global(uint32_t p, uint32_t l) const { return p * each + l; }
    uint32_t owner(uint64_t g) const { return uint32_t(g / each); }
    bool has(uint32_t p, uint64_t g) const { return g / each == p; }
    uint32_t local(uint64_t g) const { return uint32_t(g % each); }
};

static uint64_t cyclic(uint32_t p, uint32_t l) { return uint64_t(l) * RANKS + p; }

// The plans of all ranks from the uniform to the cyclic map of a size, by letters that say what is wanted.
static std::vector<Plan> plans_of(uint64_t size) {
    Uniform source = {size / RANKS};
    uint32_t each = uint32_t(source.each);
    std::vector<Plan> plans(RANKS);
    std::vector<std::vector<uint8_t>> wants(RANKS * RANKS);
    for (uint32_t q = 0; q < RANKS; q++) {
        Plan &mine = plans[q];
        mine.same = 0;
        while (mine.same < each && cyclic(q, mine.same) == source.global(q, mine.same)) mine.same++;
        std::vector<uint64_t> wanted[RANKS];
        for (uint32_t l = mine.same; l < each; l++) {
            uint64_t g = cyclic(q, l);
            if (source.has(q, g)) {
                mine.permute_to.push_back(l);
                mine.permute_from.push_back(source.local(g));
            } else {
                mine.remotes[source.owner(g)].push_back(l);
                wanted[source.owner(g)].push_back(g);
            }
        }
        for (uint32_t p = 0; p < RANKS; p++) {
            if (p == q) continue;
            std::vector<uint8_t> &letter = wants[q * RANKS + p];
            letter.resize(9 + 8 * wanted[p].size());
            letter[0] = WANT;
            put_word(letter, 1, wanted[p].size());
            for (size_t i = 0; i < wanted[p].size(); i++) put_word(letter, 9 + 8 * i, wanted[p][i]);
        }
    }
    for (uint32_t p = 0; p < RANKS; p++)
        for (uint32_t q = 0; q < RANKS; q++) {
            if (p == q) continue;
            const std::vector<uint8_t> &letter = wants[q * RANKS + p];
            if (!is_letter(letter, WANT, 0)) exit(1);
            uint64_t count = word_at(letter, 1);
            for (uint64_t i = 0; i < count; i++) {
                uint64_t g = word_at(letter, 9 + 8 * i);
                if (!source.has(p, g)) exit(1);
                plans[p].exports[q].push_back(source.local(g));
            }
        }
    return plans;
}

static uint64_t sum_of(const std::vector<uint32_t> &positions) {
    uint64_t sum = 0;
    for (uint32_t position : positions) sum += position;
    return sum;
}

// The plans of 4,000,000 indices, made so many times. The size is not known when this is compiled, as in a library.
static void plan(int rounds) {
    volatile uint64_t size = 4000000;
    uint64_t all = 0;
    for (int round = 0; round < rounds; round++)
        for (const Plan &mine : plans_of(size)) {
            all += mine.same + sum_of(mine.permute_to) + sum_of(mine.permute_from);
            for (uint32_t q = 0; q < RANKS; q++) all += sum_of(mine.exports[q]) + sum_of(mine.remotes[q]);
        }
    printf("%llu\n", (unsigned long long)all);
}

// A letter of all 4,000,000 cells of a vector, the last one first, is laid out, checked and taken apart, so many times.
static void transfer(int rounds) {
    const uint32_t count = 4000000;
    std::vector<Weighed> x, y(count, ZERO);
    std::vector<uint64_t> gids;
    std::vector<uint32_t> exports, remotes;
    for (uint32_t l = 0; l < count; l++) x.push_back(num(l)), gids.push_back(l), exports.push_back(count - 1 - l);
    remotes = exports;
    const size_t head = 9 + 8 * size_t(count);
    std::vector<uint8_t> letter(head + 32 * size_t(count));
    for (int round = 0; round < rounds; round++) {
        letter[0] = DATA;
        put_word(letter, 1, exports.size());
        for (size_t i = 0; i < exports.size(); i++) put_word(letter, 9 + 8 * i, gids[exports[i]]);
        for (size_t i = 0; i < exports.size(); i++) memcpy(&letter[head + 32 * i], &x[exports[i]], 32);
        if (!is_letter(letter, DATA, 1) || word_at(letter, 1) != remotes.size()) exit(1);
        for (size_t i = 0; i < remotes.size(); i++) {
            Weighed number;
            memcpy(&number, &letter[head + 32 * i], 32);
            y[remotes[i]] = make(number.value, number.weight);
        }
    }
    Weighed sum = ZERO;
    for (uint32_t l = 0; l < count; l++) sum = add(sum, y[l]);
    print(sum);
}

// y = 2 x - y on 4,000,000 cells, so many times. The factors are not known when this is compiled, as in a library.
static void update(int rounds) {
    const uint32_t count = 4000000;
    std::vector<Weighed> x, y;
    for (uint32_t l = 0; l < count; l++) x.push_back(num(l)), y.push_back(num(1));
    volatile int64_t two = 2, minus = -1;
    Weighed alpha = num(two), beta = num(minus);
    for (int round = 0; round < rounds; round++)
        for (uint32_t l = 0; l < count; l++) y[l] = add(mul(alpha, x[l]), mul(beta, y[l]));
    Weighed sum = ZERO;
    for (uint32_t l = 0; l < count; l++) sum = add(sum, y[l]);
    print(sum);
}

int main(int argc, char **argv) {
    const char *word = argc > 1 ? argv[1] : "update";
    int rounds = argc > 2 ? atoi(argv[2]) : 1;
    if (strcmp(word, "lookups") == 0) lookups(rounds);
    else if (strcmp(word, "plan") == 0) plan(rounds);
    else if (strcmp(word, "transfer") == 0) transfer(rounds);
    else update(rounds);
}
