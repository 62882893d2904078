// A vector that goes from a uniform to a cyclic map and back, on 4 ranks, in one process, as a yardstick for `tpx run`: in each
// move every letter is packed, copied once as over a wire, tested and taken apart, with the same bytes, and each value is kept.
// The plans are made once, by rule. In the end each number of each value is tested.
//
//   g++ -O2 -march=x86-64-v2 -o moves moves.cpp && ./moves SIZE ROUNDS
#include "weighed.hpp"
#include <cstdlib>
#include <vector>

static const uint32_t RANKS = 4;
static const uint8_t DATA = 22;

typedef std::vector<Weighed> Part;       // the numbers of one rank, by local index
typedef std::vector<Part> Vector;        // of all ranks
typedef std::vector<uint8_t> Letter;

// Which global index a rank has at a local index, and the other way.
struct Map {
    uint64_t first[RANKS], step, count[RANKS];
    uint64_t global(uint32_t p, uint64_t l) const { return first[p] + step * l; }
    bool has(uint32_t p, uint64_t g) const {
        return g >= first[p] && (g - first[p]) % step == 0 && (g - first[p]) / step < count[p];
    }
    uint64_t local(uint32_t p, uint64_t g) const { return (g - first[p]) / step; }
};

static Map uniform(uint64_t size) {
    Map m;
    m.step = 1;
    uint64_t next = 0;
    for (uint32_t p = 0; p < RANKS; p++) {
        m.first[p] = next;
        m.count[p] = size / RANKS + (p < size % RANKS ? 1 : 0);
        next += m.count[p];
    }
    return m;
}

static Map cyclic(uint64_t size) {
    Map m;
    m.step = RANKS;
    for (uint32_t p = 0; p < RANKS; p++) {
        m.first[p] = p;
        m.count[p] = size / RANKS + (p < size % RANKS ? 1 : 0);
    }
    return m;
}

// What stays on a rank, and the positions of what is sent and of what comes, by rank.
struct Plan {
    std::vector<uint32_t> own_from, own_to, exports[RANKS], remotes[RANKS];
};

static std::vector<Plan> plans(const Map &source, const Map &target) {
    std::vector<Plan> all(RANKS);
    for (uint32_t q = 0; q < RANKS; q++)
        for (uint64_t l = 0; l < target.count[q]; l++) {
            uint64_t g = target.global(q, l);
            for (uint32_t p = 0; p < RANKS; p++) {
                if (!source.has(p, g)) continue;
                uint32_t from = uint32_t(source.local(p, g));
                if (p == q) {
                    all[q].own_from.push_back(from);
                    all[q].own_to.push_back(uint32_t(l));
                } else {
                    all[p].exports[q].push_back(from);
                    all[q].remotes[p].push_back(uint32_t(l));
                }
            }
        }
    return all;
}

static Letter pack(const Map &map, uint32_t p, const Part &x, const std::vector<uint32_t> &positions) {
    uint64_t words = positions.size();
    Letter bytes(9 + 40 * words);
    bytes[0] = DATA;
    memcpy(&bytes[1], &words, 8);
    uint8_t *word = &bytes[9], *number = &bytes[9 + 8 * words];
    for (uint32_t l : positions) {
        uint64_t g = map.global(p, l);
        memcpy(word, &g, 8);
        memcpy(number, &x[l].value, 16);
        memcpy(number + 16, &x[l].weight, 16);
        word += 8;
        number += 32;
    }
    return bytes;
}

static void absorb(const Letter &bytes, Part &y, const std::vector<uint32_t> &positions) {
    uint64_t words;
    if (bytes.size() < 9 || bytes[0] != DATA) exit(9);
    memcpy(&words, &bytes[1], 8);
    if (words != positions.size() || bytes.size() != 9 + 40 * words) exit(9);
    const uint8_t *number = &bytes[9 + 8 * words];
    for (uint32_t l : positions) {
        i128 value;
        u128 weight;
        memcpy(&value, number, 16);
        memcpy(&weight, number + 16, 16);
        y[l] = make(value, weight);
        number += 32;
    }
}

static Vector moved(const Map &source, const Map &target, const std::vector<Plan> &plan, const Vector &x) {
    Vector y(RANKS);
    std::vector<Letter> wire;
    for (uint32_t p = 0; p < RANKS; p++) {
        y[p].assign(target.count[p], ZERO);
        for (size_t k = 0; k < plan[p].own_from.size(); k++) y[p][plan[p].own_to[k]] = x[p][plan[p].own_from[k]];
    }
    for (uint32_t p = 0; p < RANKS; p++)
        for (uint32_t q = 0; q < RANKS; q++)
            wire.push_back(p == q ? Letter() : pack(source, p, x[p], plan[p].exports[q]));
    for (uint32_t p = 0; p < RANKS; p++)
        for (uint32_t q = 0; q < RANKS; q++)
            if (p != q) {
                Letter given = wire[p * RANKS + q];
                absorb(given, y[q], plan[q].remotes[p]);
            }
    return y;
}

int main(int argc, char **argv) {
    if (argc != 3) return 2;
    uint64_t size = strtoull(argv[1], nullptr, 10);
    int rounds = atoi(argv[2]);
    Map u = uniform(size), c = cyclic(size);
    std::vector<Plan> there = plans(u, c), back = plans(c, u);
    std::vector<Vector> values(1, Vector(RANKS));
    for (uint32_t p = 0; p < RANKS; p++) values[0][p].assign(u.count[p], num(7));
    for (int round = 0; round < rounds; round++) {
        values.push_back(moved(u, c, there, values.back()));
        values.push_back(moved(c, u, back, values.back()));
    }
    Weighed all = ZERO;
    for (const Vector &v : values)
        for (const Part &part : v)
            for (Weighed w : part)
                if (w.weight > MAX_WEIGHT) return 7;
    for (const Part &part : values.back())
        for (Weighed w : part) all = add(all, w);
    print(all);
    return 0;
}
