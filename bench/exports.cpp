// Parts of two ranks for each index, added onto a uniform vector and spread back, on 4 ranks, in one process, as a yardstick for
// `tpx run`: in each transfer every letter is packed, copied once as over a wire, tested and taken apart, with the same bytes, and
// each value is kept. The plans are made once. In the end each number of each value is tested.
//
//   g++ -O2 -march=x86-64-v2 -o exports exports.cpp && ./exports INDICES COLUMNS VALUES ROUNDS
#include "weighed.hpp"
#include <cstdlib>
#include <vector>

static const uint32_t RANKS = 4;
static const uint8_t DATA = 22;
static const uint32_t NOWHERE = UINT32_MAX;

typedef std::vector<Weighed> Part;       // the numbers of one rank: row after row, by local index
typedef std::vector<Part> Vector;        // of all ranks
typedef std::vector<uint8_t> Letter;

// The global indices of each rank, and for each rank where an index stands in its list.
struct Map {
    std::vector<uint64_t> list[RANKS];
    std::vector<uint32_t> at[RANKS];
};

static Map on_lists(uint64_t size, uint32_t (*has)(uint64_t size, uint32_t p, uint64_t g)) {
    Map m;
    for (uint32_t p = 0; p < RANKS; p++) {
        m.at[p].assign(size, NOWHERE);
        for (uint64_t g = 0; g < size; g++)
            if (has(size, p, g)) {
                m.at[p][g] = uint32_t(m.list[p].size());
                m.list[p].push_back(g);
            }
    }
    return m;
}

// The contiguous uniform map.
static uint32_t is_uniform(uint64_t size, uint32_t p, uint64_t g) {
    uint64_t few = size / RANKS, more = size % RANKS;
    uint64_t first = p * few + (p < more ? p : more);
    return g >= first && g < first + few + (p < more ? 1 : 0);
}

// Each index on two ranks: g on g mod 4 and on the next one.
static uint32_t is_shared(uint64_t, uint32_t p, uint64_t g) { return g % RANKS == p || (g + 1) % RANKS == p; }

// What stays on a rank, and the positions of what is sent and of what comes, by rank.
struct Plan {
    std::vector<uint32_t> own_from, own_to, exports[RANKS], remotes[RANKS];
};

// What comes to the rows of the target is sent by the one owner in the source.
static std::vector<Plan> import_plans(uint64_t size, const Map &source, const Map &target) {
    std::vector<uint32_t> owner(size, NOWHERE);
    for (uint32_t p = 0; p < RANKS; p++)
        for (uint64_t g : source.list[p]) owner[g] = p;
    std::vector<Plan> all(RANKS);
    for (uint32_t q = 0; q < RANKS; q++)
        for (uint32_t l = 0; l < target.list[q].size(); l++) {
            uint64_t g = target.list[q][l];
            uint32_t p = owner[g];
            if (source.at[q][g] != NOWHERE) {
                all[q].own_from.push_back(source.at[q][g]);
                all[q].own_to.push_back(l);
            } else if (p != NOWHERE) {
                all[p].exports[q].push_back(source.at[p][g]);
                all[q].remotes[p].push_back(l);
            }
        }
    return all;
}

// What goes back by the same plans.
static std::vector<Plan> turned(const std::vector<Plan> &plans) {
    std::vector<Plan> all(RANKS);
    for (uint32_t p = 0; p < RANKS; p++) {
        all[p].own_from = plans[p].own_to;
        all[p].own_to = plans[p].own_from;
        for (uint32_t q = 0; q < RANKS; q++) {
            all[p].exports[q] = plans[p].remotes[q];
            all[p].remotes[q] = plans[p].exports[q];
        }
    }
    return all;
}

static Letter pack(const Map &map, uint32_t p, uint32_t columns, const Part &x, const std::vector<uint32_t> &positions) {
    uint64_t words = positions.size();
    if (words == 0) return Letter();
    Letter bytes(9 + 8 * words + 32 * words * columns);
    bytes[0] = DATA;
    memcpy(&bytes[1], &words, 8);
    uint8_t *word = &bytes[9], *number = &bytes[9 + 8 * words];
    for (uint32_t l : positions) {
        memcpy(word, &map.list[p][l], 8);
        word += 8;
        for (uint32_t j = 0; j < columns; j++) {
            const Weighed &w = x[uint64_t(l) * columns + j];
            memcpy(number, &w.value, 16);
            memcpy(number + 16, &w.weight, 16);
            number += 32;
        }
    }
    return bytes;
}

static void combine(Weighed &cell, Weighed come, bool sum) { cell = sum ? add(cell, come) : come; }

static void absorb(const Letter &bytes, uint32_t columns, Part &y, const std::vector<uint32_t> &positions, bool sum) {
    uint64_t words;
    if (positions.empty() && bytes.empty()) return;
    if (bytes.size() < 9 || bytes[0] != DATA) exit(9);
    memcpy(&words, &bytes[1], 8);
    if (words != positions.size() || bytes.size() != 9 + 8 * words + 32 * words * columns) exit(9);
    const uint8_t *number = &bytes[9 + 8 * words];
    for (uint32_t l : positions)
        for (uint32_t j = 0; j < columns; j++) {
            i128 value;
            u128 weight;
            memcpy(&value, number, 16);
            memcpy(&weight, number + 16, 16);
            combine(y[uint64_t(l) * columns + j], make(value, weight), sum);
            number += 32;
        }
}

// The target with what comes from the source: added, or in place of what was there.
static Vector transferred(const Map &source, const std::vector<Plan> &plan, uint32_t columns, const Vector &x, Vector y, bool sum) {
    std::vector<Letter> wire;
    for (uint32_t p = 0; p < RANKS; p++)
        for (size_t k = 0; k < plan[p].own_from.size(); k++)
            for (uint32_t j = 0; j < columns; j++)
                combine(y[p][uint64_t(plan[p].own_to[k]) * columns + j], x[p][uint64_t(plan[p].own_from[k]) * columns + j], sum);
    for (uint32_t p = 0; p < RANKS; p++)
        for (uint32_t q = 0; q < RANKS; q++)
            wire.push_back(p == q ? Letter() : pack(source, p, columns, x[p], plan[p].exports[q]));
    for (uint32_t p = 0; p < RANKS; p++)
        for (uint32_t q = 0; q < RANKS; q++)
            if (p != q) {
                Letter given = wire[p * RANKS + q];
                absorb(given, columns, y[q], plan[q].remotes[p], sum);
            }
    return y;
}

static Vector filled(const Map &map, uint32_t columns, Weighed number) {
    Vector x(RANKS);
    for (uint32_t p = 0; p < RANKS; p++) x[p].assign(map.list[p].size() * columns, number);
    return x;
}

int main(int argc, char **argv) {
    if (argc != 5) return 2;
    uint64_t size = strtoull(argv[1], nullptr, 10);
    uint32_t columns = uint32_t(strtoul(argv[2], nullptr, 10)), count = uint32_t(strtoul(argv[3], nullptr, 10));
    int rounds = atoi(argv[4]);
    Map u = on_lists(size, is_uniform), l = on_lists(size, is_shared);
    std::vector<Plan> out = import_plans(size, u, l), back = turned(out);
    Vector zeros = filled(u, columns, ZERO);
    std::vector<Vector> values(count, filled(l, columns, num(1)));
    values.reserve(count * (1 + 2 * size_t(rounds)));
    std::vector<size_t> last;
    for (uint32_t k = 0; k < count; k++) last.push_back(k);
    for (int round = 0; round < rounds; round++)
        for (size_t &parts : last) {
            values.push_back(transferred(l, back, columns, values[parts], zeros, true));
            values.push_back(transferred(u, out, columns, values.back(), filled(l, columns, ZERO), false));
            parts = values.size() - 1;
        }
    Weighed all = ZERO;
    for (const Vector &v : values)
        for (const Part &part : v)
            for (Weighed w : part)
                if (w.weight > MAX_WEIGHT) return 7;
    for (const Part &part : values.back())
        for (Weighed w : part) all = add(all, w);
    print(all);
    return 0;
}
