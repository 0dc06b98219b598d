// Tables to measure on: one function a family, each table made from its own seed.
#pragma once
#include <algorithm>
#include <cstdint>
#include <string>
#include <vector>

constexpr int HIGHEST_N = 256;
constexpr int HIGHEST_M = 2048;
constexpr uint32_t HIGHEST_DELAY = 1000000;

// A table as the columns that the library is lent; a known of 0 is an unknown delay.
struct Table {
    size_t n = 0;
    std::vector<uint16_t> source, target, offset;
    std::vector<uint32_t> delay;
    std::vector<uint8_t> known;

    size_t m() const { return source.size(); }

    void add(int from, int to, int e, uint32_t a) {
        source.push_back(uint16_t(from));
        target.push_back(uint16_t(to));
        offset.push_back(uint16_t(e));
        delay.push_back(a);
        known.push_back(1);
    }
};

// splitmix64: the same numbers for the same seed everywhere.
struct Random {
    uint64_t state;

    uint64_t draw() {
        state += 0x9e3779b97f4a7c15u;
        uint64_t z = state;
        z = (z ^ (z >> 30)) * 0xbf58476d1ce4e5b9u;
        z = (z ^ (z >> 27)) * 0x94d049bb133111ebu;
        return z ^ (z >> 31);
    }
    int between(int lowest, int highest) { return lowest + int(draw() % uint64_t(highest - lowest + 1)); }
    bool once_in(int times) { return draw() % uint64_t(times) == 0; }

    std::vector<int> order(int n) {
        std::vector<int> order(n);
        for (int i = 0; i < n; i++) order[i] = i;
        for (int i = n - 1; i > 0; i--) std::swap(order[i], order[between(0, i)]);
        return order;
    }
};

struct Size {
    int n, m;
};

// The rules in another file order: a pass must not meet them along the flow by luck.
inline Table mixed(Random& random, const Table& t) {
    Table out;
    out.n = t.n;
    for (int r : random.order(int(t.m()))) {
        out.add(t.source[r], t.target[r], t.offset[r], t.delay[r]);
        out.known.back() = t.known[r];
    }
    return out;
}

// Offset 0 only onward in the order, so that no loop has offset sum 0.
inline void add_onward(Random& random, Table& t, const std::vector<int>& order, uint32_t highest) {
    int from = random.between(0, int(t.n) - 1), to = random.between(0, int(t.n) - 1);
    int lowest = order[from] < order[to] ? 0 : 1;
    int e = random.once_in(3) ? random.between(lowest, 3) : lowest;
    t.add(from, to, e, uint32_t(random.between(0, int(highest))));
}

inline Table random_sparse(Random& random, Size size) {
    Table t;
    t.n = size.n;
    std::vector<int> order = random.order(size.n);
    while (int(t.m()) < size.m) add_onward(random, t, order, HIGHEST_DELAY);
    return t;
}

// A ring through all transitions, and chords.
inline Table strongly_connected(Random& random, Size size, uint32_t highest = HIGHEST_DELAY) {
    Table t;
    t.n = size.n;
    std::vector<int> along = random.order(size.n), place(size.n);
    for (int k = 0; k < size.n; k++) place[along[k]] = k;
    for (int k = 0; k < size.n; k++)
        t.add(along[k], along[(k + 1) % size.n], k + 1 == size.n, uint32_t(random.between(0, int(highest))));
    while (int(t.m()) < size.m) add_onward(random, t, place, highest);
    return mixed(random, t);
}

// A ring of self-timed stages. Where a stage holds a value the rule onward has offset 1 and the rule back offset 0, elsewhere the other way
// round; several wires between two stages are rules beside each other.
inline Table fifo(Random& random, Size size) {
    Table t;
    t.n = size.n;
    int wires = std::max(1, size.m / (2 * size.n));
    int held_once_in = random.between(2, 8);
    for (int i = 0; i < size.n; i++) {
        // The first stage holds a value and the second does not: then neither way round is without a turn.
        bool held = i == 0 || (i != 1 && random.once_in(held_once_in));
        int next = (i + 1) % size.n;
        for (int w = 0; w < wires; w++) {
            t.add(i, next, held, uint32_t(random.between(100, 300)));
            t.add(next, i, !held, uint32_t(random.between(50, 200)));
        }
    }
    return t;
}

// One ring through all transitions, as wide as the rules allow.
inline Table long_ring(Random& random, Size size) {
    Table t;
    t.n = size.n;
    std::vector<int> along = random.order(size.n);
    for (int k = 0; k < size.n; k++)
        for (int w = 0; w < std::max(1, size.m / size.n); w++)
            t.add(along[k], along[(k + 1) % size.n], k + 1 == size.n || random.once_in(10), uint32_t(random.between(0, int(HIGHEST_DELAY))));
    return mixed(random, t);
}

inline Table narrow_ring(Random& random, Size size) { return long_ring(random, {size.n, size.n}); }

inline Table dense(Random& random, Size size) { return strongly_connected(random, {16, size.m}); }

// Few pairs of transitions with many rules each.
inline Table parallel(Random& random, Size size) {
    Table pairs = strongly_connected(random, {size.n / 4, size.m / 16});
    Table t;
    t.n = pairs.n;
    for (int r = 0; r < int(pairs.m()); r++)
        for (int w = 0; w < 16; w++)
            t.add(pairs.source[r], pairs.target[r], pairs.offset[r] + random.between(0, 2), uint32_t(random.between(0, int(HIGHEST_DELAY))));
    return t;
}

inline Table zero_delays(Random& random, Size size) {
    Table t = strongly_connected(random, size);
    std::fill(t.delay.begin(), t.delay.end(), 0);
    return t;
}

inline Table equal_delays(Random& random, Size size) {
    Table t = strongly_connected(random, size);
    std::fill(t.delay.begin(), t.delay.end(), uint32_t(random.between(1, 1000)));
    return t;
}

// Rules onward along a chain, the last listed first, and one rule back: a pass in file order carries a value one step.
inline Table against_the_flow(Random& random, Size size, int e) {
    Table t;
    t.n = size.n;
    int reach = std::max(1, size.m / size.n);
    for (int k = size.n - 1; k > 0; k--)
        for (int step = 1; step <= reach && step <= k; step++) t.add(k - step, k, e, uint32_t(random.between(1, 1000)));
    t.add(size.n - 1, 0, 1, uint32_t(random.between(1, 1000)));
    return t;
}

inline Table backward_chain(Random& random, Size size) { return against_the_flow(random, size, 0); }
inline Table backward_turns(Random& random, Size size) { return against_the_flow(random, size, 1); }

inline Table large_values(Random& random, Size size) {
    Table t = strongly_connected(random, size);
    for (size_t r = 0; r < t.m(); r++) {
        t.offset[r] = uint16_t(random.between(14, 15));
        t.delay[r] = HIGHEST_DELAY - uint32_t(random.between(0, 999));
    }
    return t;
}

// Blocks of eight transitions, some joined one way.
inline Table many_components(Random& random, Size size) {
    Table t;
    t.n = size.n;
    int blocks = size.n / 8;
    for (int b = 0; b < blocks; b++) {
        Table block = strongly_connected(random, {8, size.m / blocks - 1});
        for (size_t r = 0; r < block.m(); r++) t.add(8 * b + block.source[r], 8 * b + block.target[r], block.offset[r], block.delay[r]);
        if (b > 0) t.add(random.between(0, 8 * b - 1), random.between(8 * b, 8 * b + 7), 0, uint32_t(random.between(0, 1000)));
    }
    return mixed(random, t);
}

inline Table turns_of_one(Random& random, Size size) {
    Table t = strongly_connected(random, size);
    std::fill(t.offset.begin(), t.offset.end(), 1);
    return t;
}

inline Table some_unknown(Random& random, Table t) {
    for (uint8_t& known : t.known) known = !random.once_in(10);
    return t;
}

inline Table tenth_unknown(Random& random, Size size) { return some_unknown(random, strongly_connected(random, size, 1000)); }
inline Table fifo_unknown(Random& random, Size size) { return some_unknown(random, fifo(random, size)); }

// Loops inside each other, each a little slower than the one inside; the chain is listed against the flow, so the small ones close first.
inline Table nested(Random& random, Size size) {
    Table t;
    t.n = size.n;
    for (int k = size.n - 1; k > 0; k--) t.add(k - 1, k, 0, uint32_t(1000 + random.between(0, 1)));
    for (int k = 1; k < size.n; k++) t.add(k, 0, std::min(15, 1 + k / 18), uint32_t(random.between(0, 50)));
    while (int(t.m()) < size.m) {
        int from = random.between(1, size.n - 1), to = random.between(0, from - 1);
        t.add(from, to, std::min(15, 2 + (from - to) / 18), uint32_t(random.between(0, 50)));
    }
    return t;
}

// A ring of ratio 279/299 with a loop of ratio 14/15 on it: higher, but round the small loop by less than Boost's tolerance.
inline Table near_tie(Random& random, Size size) {
    Table t;
    t.n = size.n;
    int first = random.between(0, size.n - 20);
    t.add(first, first, 15, 14);
    // Delays 15, 13, 13 and 17 times 14 add up to 279, offsets 14 and 19 times 15 to 299.
    for (int k = 0; k < 20; k++) t.add(first + k, first + (k + 1) % 20, k == 0 ? 14 : 15, k == 0 ? 15 : k <= 2 ? 13 : 14);
    return mixed(random, t);
}

struct Family {
    const char* name;
    Table (*make)(Random&, Size);
    bool counted;  // in the geometric mean
};

inline const std::vector<Family>& families() {
    static const std::vector<Family> all = {
        {"random sparse", random_sparse, true},
        {"strongly connected", [](Random& r, Size s) { return strongly_connected(r, s); }, true},
        {"self-timed FIFO rings", fifo, true},
        {"one long ring", long_ring, true},
        {"dense, 16 transitions", dense, true},
        {"parallel rules", parallel, true},
        {"all delays zero", zero_delays, true},
        {"all delays equal", equal_delays, true},
        {"offset-0 chain backwards", backward_chain, true},
        {"offset-1 chain backwards", backward_turns, true},
        {"offsets 14, 15, long delays", large_values, true},
        {"many components", many_components, true},
        {"all offsets 1", turns_of_one, true},
        {"a tenth unknown", tenth_unknown, true},
        {"FIFO with unknowns", fifo_unknown, true},
        {"nested loops", nested, true},
        {"one ring, 256 rules", narrow_ring, false},
        {"near ties", near_tie, false},
    };
    return all;
}

inline Table make(const Family& family, Size size, uint64_t seed) {
    Random random{seed * 0x2545f4914f6cdd1du + 17};
    return family.make(random, size);
}
