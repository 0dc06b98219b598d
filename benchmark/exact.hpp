// What an answer must be, found in whole numbers by plain means, so that a fast wrong answer fails.
#pragma once
#include <numeric>

#include "tables.hpp"

struct Answer {
    uint64_t p = 0, q = 0;
    std::vector<uint32_t> loop;
    std::vector<uint64_t> schedule;  // left empty where it is not given
};

inline uint32_t delay_at(const Table& t, size_t r, uint32_t unknown) { return t.known[r] ? t.delay[r] : unknown; }

// How far the target must lie above the source at p/q.
inline int64_t weight(const Table& t, size_t r, uint32_t unknown, const Answer& a) {
    return int64_t(a.q * delay_at(t, r, unknown)) - int64_t(a.p * t.offset[r]);
}

// The least values that keep every rule; empty where some loop lies above p/q.
inline std::vector<int64_t> least_schedule(const Table& t, uint32_t unknown, const Answer& a) {
    std::vector<int64_t> x(t.n, 0);
    for (size_t pass = 0; pass <= t.n; pass++) {
        bool rose = false;
        for (size_t r = 0; r < t.m(); r++) {
            int64_t asked = x[t.source[r]] + weight(t, r, unknown, a);
            if (asked > x[t.target[r]]) {
                x[t.target[r]] = asked;
                rose = true;
            }
        }
        if (!rose) return x;
    }
    return {};
}

// The fewest rules from each transition to v along the rules that are kept with nothing to spare; -1 for none.
inline std::vector<int> steps_to(const Table& t, const std::vector<size_t>& tight, int v) {
    std::vector<int> steps(t.n, -1), layer{v};
    steps[v] = 0;
    for (int count = 1; !layer.empty(); count++) {
        std::vector<int> next;
        for (int at : layer)
            for (size_t r : tight)
                if (t.target[r] == at && steps[t.source[r]] < 0) {
                    steps[t.source[r]] = count;
                    next.push_back(t.source[r]);
                }
        layer = next;
    }
    return steps;
}

// The first shortest loop through v along these rules; empty where there is none.
inline std::vector<uint32_t> first_loop(const Table& t, const std::vector<size_t>& tight, int v) {
    std::vector<int> steps = steps_to(t, tight, v);
    int left = -1;
    for (size_t r : tight)
        if (t.source[r] == v && steps[t.target[r]] >= 0 && (left < 0 || steps[t.target[r]] < left)) left = steps[t.target[r]];
    std::vector<uint32_t> loop;
    for (int at = v; left >= 0; left--)
        for (size_t r : tight)
            if (t.source[r] == at && steps[t.target[r]] == left) {
                loop.push_back(uint32_t(r));
                at = t.target[r];
                break;
            }
    return loop;
}

inline std::vector<uint32_t> reported_loop(const Table& t, uint32_t unknown, const Answer& a, const std::vector<int64_t>& x) {
    std::vector<size_t> tight;
    for (size_t r = 0; r < t.m(); r++)
        if (x[t.target[r]] - x[t.source[r]] == weight(t, r, unknown, a)) tight.push_back(r);
    for (size_t v = 0; v < t.n; v++) {
        std::vector<uint32_t> loop = first_loop(t, tight, int(v));
        if (!loop.empty()) return loop;
    }
    return {};
}

// Whether p/q in lowest terms is the quotient of the loop, no loop is above it, and loop and schedule are the ones to report.
inline bool right(const Table& t, uint32_t unknown, const Answer& a) {
    uint64_t delays = 0, offsets = 0;
    for (uint32_t r : a.loop) {
        if (r >= t.m()) return false;
        delays += delay_at(t, r, unknown);
        offsets += t.offset[r];
    }
    if (offsets == 0 || delays * a.q != offsets * a.p || std::gcd(a.p, a.q) != 1) return false;
    std::vector<int64_t> x = least_schedule(t, unknown, a);
    if (x.empty() || reported_loop(t, unknown, a, x) != a.loop) return false;
    return a.schedule.empty() || std::equal(x.begin(), x.end(), a.schedule.begin(), a.schedule.end(), [](int64_t l, uint64_t r) { return uint64_t(l) == r; });
}

// The times of a table without unknown delays, row by row, from the transitions in an order in which offset-0 rules come source first.
inline std::vector<uint64_t> times_of(const Table& t, size_t occurrences) {
    std::vector<int> waits(t.n, 0), order;
    for (size_t r = 0; r < t.m(); r++) waits[t.target[r]] += t.offset[r] == 0;
    for (size_t v = 0; v < t.n; v++)
        if (waits[v] == 0) order.push_back(int(v));
    for (size_t k = 0; k < order.size(); k++)
        for (size_t r = 0; r < t.m(); r++)
            if (t.source[r] == order[k] && t.offset[r] == 0 && --waits[t.target[r]] == 0) order.push_back(t.target[r]);
    std::vector<std::vector<size_t>> into(t.n);
    for (size_t r = 0; r < t.m(); r++) into[t.target[r]].push_back(r);
    std::vector<uint64_t> times(t.n * occurrences, 0);
    for (size_t i = 0; i < occurrences; i++)
        for (int v : order)
            for (size_t r : into[v])
                if (t.offset[r] <= i) times[i * t.n + v] = std::max(times[i * t.n + v], times[(i - t.offset[r]) * t.n + t.source[r]] + t.delay[r]);
    return times;
}
