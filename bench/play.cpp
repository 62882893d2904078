// The play of crates/play_bench in C++: 32 ranks tell one another their words in each phase, over a wire that keeps
// what was posted and what was given. Words: fifo, lifo or seed, and the number of phases.
#include <cstdint>
#include <cstdio>
#include <cstdlib>
#include <cstring>
#include <deque>
#include <map>
#include <set>
#include <string>
#include <tuple>
#include <utility>
#include <vector>

static const uint32_t RANKS = 32;

struct Name {
    uint32_t phase, from, to;
    bool operator<(const Name &o) const {
        return std::tie(phase, from, to) < std::tie(o.phase, o.from, o.to);
    }
    bool operator==(const Name &o) const {
        return phase == o.phase && from == o.from && to == o.to;
    }
};

typedef std::vector<uint8_t> Bytes;

// The wire: the last letter under each name, and the letters given.
struct Wire {
    struct Letter {
        Bytes bytes;
        bool pending;
    };
    std::map<Name, Letter> letters;
    std::vector<std::pair<Name, Bytes>> given;

    void post(const Name &name, const Bytes &bytes) { letters[name] = Letter{bytes, true}; }

    void take(const Name &name, Bytes &into) {
        Letter &letter = letters.at(name);
        into = letter.bytes;
        given.emplace_back(name, letter.bytes);
        letter.pending = false;
    }
};

// The letters in flight in order of posting, and the names delivered. A tree of counts finds the n-th.
struct Flow {
    std::vector<Name> posted;
    std::vector<uint32_t> tree{0};
    std::map<Name, uint32_t> places;
    std::set<Name> delivered;
    uint32_t count = 0;

    static uint32_t low(uint32_t i) { return i & (~i + 1); }

    void post(const Name &name) {
        posted.push_back(name);
        uint32_t place = posted.size();
        places[name] = place;
        uint32_t sum = 1;
        for (uint32_t i = place - 1; i > place - low(place); i -= low(i)) sum += tree[i];
        tree.push_back(sum);
        count++;
    }

    void deliver(const Name &name) {
        auto found = places.find(name);
        for (uint32_t i = found->second; i < tree.size(); i += low(i)) tree[i]--;
        places.erase(found);
        delivered.insert(name);
        count--;
    }

    const Name &nth(uint32_t n) const {
        uint32_t place = 0, step = 1;
        while (step * 2 < tree.size()) step *= 2;
        for (; step; step /= 2)
            if (place + step < tree.size() && tree[place + step] <= n) {
                place += step;
                n -= tree[place];
            }
        return posted[place];
    }
};

// Blocks for letters: the least free one that is large enough is lent.
struct Pool {
    struct Block {
        Bytes bytes;
        size_t len;
        bool lent;
    };
    std::vector<Block> blocks;

    size_t lease(size_t len) {
        size_t best = blocks.size();
        for (size_t i = 0; i < blocks.size(); i++)
            if (!blocks[i].lent && blocks[i].bytes.size() >= len
                && (best == blocks.size() || blocks[i].bytes.size() < blocks[best].bytes.size()))
                best = i;
        if (best == blocks.size()) blocks.push_back(Block{Bytes(len), 0, false});
        blocks[best].len = len;
        blocks[best].lent = true;
        return best;
    }
};

struct Rank {
    uint32_t me, phases, entered = 0;
    Bytes word, heard;
    std::vector<Name> awaited;
    std::map<uint32_t, std::vector<std::pair<Name, Bytes>>> early;
    std::deque<std::pair<Name, size_t>> queue;
    Pool pool;

    void absorb(const Name &name, const Bytes &bytes) {
        if (name.phase == 0) heard.insert(heard.end(), bytes.begin(), bytes.end());
    }

    void pack(const Name &name) {
        size_t said = name.phase == 0 ? 0 : heard.size();
        size_t lease = pool.lease(word.size() + said);
        uint8_t *block = pool.blocks[lease].bytes.data();
        memcpy(block, word.data(), word.size());
        memcpy(block + word.size(), heard.data(), said);
        queue.emplace_back(name, lease);
    }

    void enter() {
        uint32_t phase = entered;
        std::vector<Name> posts, awaits;
        if (phase < phases)
            for (uint32_t other = 0; other < RANKS; other++)
                if (other != me) {
                    posts.push_back(Name{phase, me, other});
                    awaits.push_back(Name{phase, other, me});
                }
        for (const Name &name : posts) pack(name);
        std::vector<std::pair<Name, Bytes>> came;
        auto found = early.find(phase);
        if (found != early.end()) {
            came = std::move(found->second);
            early.erase(found);
        }
        for (auto &letter : came) absorb(letter.first, letter.second);
        for (const Name &name : awaits) {
            bool is_here = false;
            for (auto &letter : came) is_here |= letter.first == name;
            if (!is_here) awaited.push_back(name);
        }
        entered++;
    }

    void work() {
        while (awaited.empty() && entered <= phases) enter();
    }

    bool on_letter(const Name &name, const Bytes &bytes) {
        if (name.phase >= entered) {
            auto &waiting = early[name.phase];
            for (auto &letter : waiting)
                if (letter.first == name) return false;
            waiting.emplace_back(name, bytes);
            return true;
        }
        for (size_t i = 0; i < awaited.size(); i++)
            if (awaited[i] == name) {
                absorb(name, bytes);
                awaited.erase(awaited.begin() + i);
                return true;
            }
        return false;
    }
};

static void post_queued(Rank &rank, Wire &wire, Flow &flow) {
    while (!rank.queue.empty()) {
        auto &post = rank.queue.front();
        Pool::Block &block = rank.pool.blocks[post.second];
        wire.post(post.first, Bytes(block.bytes.begin(), block.bytes.begin() + block.len));
        flow.post(post.first);
        block.lent = false;
        rank.queue.pop_front();
    }
}

int main(int argc, char **argv) {
    std::string order = argc > 1 ? argv[1] : "fifo";
    uint32_t phases = argc > 2 ? atoi(argv[2]) : 4;
    std::vector<Rank> ranks(RANKS);
    for (uint32_t r = 0; r < RANKS; r++) {
        ranks[r].me = r;
        ranks[r].phases = phases;
        ranks[r].word = Bytes{uint8_t('0' + r)};
    }
    Wire wire;
    Flow flow;
    uint64_t seed = 1;
    for (Rank &rank : ranks) {
        rank.work();
        post_queued(rank, wire, flow);
    }
    Bytes bytes;
    while (flow.count) {
        uint32_t at = 0;
        if (order == "lifo") at = flow.count - 1;
        if (order == "seed") {
            seed = seed * 6364136223846793005ull + 1442695040888963407ull;
            at = (seed >> 33) % flow.count;
        }
        Name name = flow.nth(at);
        wire.take(name, bytes);
        flow.deliver(name);
        Rank &rank = ranks[name.to];
        if (rank.on_letter(name, bytes)) {
            rank.work();
            post_queued(rank, wire, flow);
        }
    }
    for (Rank &rank : ranks) {
        printf("[");
        for (size_t i = 0; i < rank.heard.size(); i++) printf(i ? ", %d" : "%d", rank.heard[i]);
        printf("]\n");
    }
}
