// Boost's maximum_cycle_ratio on a table with its unknown delays taken as one value.
#pragma once
#include <boost/graph/adjacency_list.hpp>
#include <boost/graph/howard_cycle_ratio.hpp>

#include "tables.hpp"

using Graph = boost::adjacency_list<boost::vecS, boost::vecS, boost::directedS, boost::no_property,
                                    boost::property<boost::edge_weight_t, int, boost::property<boost::edge_weight2_t, int>>>;

inline Graph graph_of(const Table& t, uint32_t unknown) {
    Graph g(t.n);
    for (size_t r = 0; r < t.m(); r++) {
        using Weights = boost::property<boost::edge_weight_t, int, boost::property<boost::edge_weight2_t, int>>;
        int delay = int(t.known[r] ? t.delay[r] : unknown);
        boost::add_edge(t.source[r], t.target[r], Weights(delay, boost::property<boost::edge_weight2_t, int>(t.offset[r])), g);
    }
    return g;
}

// The call as its documentation gives it: the ratio alone, in doubles.
inline double boost_ratio(Graph& g) {
    return boost::maximum_cycle_ratio(g, boost::get(boost::vertex_index, g), boost::get(boost::edge_weight, g), boost::get(boost::edge_weight2, g));
}

struct Fraction {
    int64_t p, q;
};

// The fraction nearest to a double among those whose denominator a loop's offsets can add up to.
inline Fraction nearest(double x) {
    const int64_t most = 15 * HIGHEST_N;
    Fraction best{0, 1};
    double least = 1e300;
    for (int64_t q = 1; q <= most; q++) {
        int64_t p = int64_t(x * double(q) + 0.5);
        double gap = std::abs(x - double(p) / double(q));
        if (gap < least) {
            least = gap;
            best = {p, q};
        }
    }
    return best;
}
