// The library and Boost's maximum_cycle_ratio side by side, in one run and on the same tables; then files, simulation and growth.
// Every answer is checked: a wrong one ends the run with status 1.
#include <cmath>
#include <cstdio>
#include <cstdlib>
#include <cstring>
#include <ctime>
#include <functional>

#include "boost.hpp"
#include "call.hpp"
#include "exact.hpp"
#include "period.h"
#include "tables.hpp"

constexpr int TABLES = 8;  // different tables a family, taken in turn
constexpr Size FULL{HIGHEST_N, HIGHEST_M};

static int rounds = 15;

// -------------------------------------------------------------------------------------------------------------------- time

// Microseconds of this thread on a processor: what else the machine does is left out.
static double now() {
    timespec t;
    clock_gettime(CLOCK_THREAD_CPUTIME_ID, &t);
    return double(t.tv_sec) * 1e6 + double(t.tv_nsec) / 1e3;
}

static double median(std::vector<double> values) {
    std::sort(values.begin(), values.end());
    return values[values.size() / 2];
}

using Call = std::function<void(int)>;

// Microseconds of one call, for each of some calls: the median over rounds, each of which takes the calls in turn, every one through all tables. So what are
// compared are measured within a few milliseconds of each other, and a machine that slows down for a while slows all of them.
static std::vector<double> side_by_side(int tables, const std::vector<Call>& calls) {
    std::vector<std::vector<double>> each(calls.size());
    for (int round = -1; round < rounds; round++)
        for (size_t c = 0; c < calls.size(); c++) {
            double start = now();
            for (int k = 0; k < tables; k++) calls[c](k);
            if (round >= 0) each[c].push_back((now() - start) / tables);
        }
    std::vector<double> medians;
    for (const std::vector<double>& times : each) medians.push_back(median(times));
    return medians;
}

static double measured(int tables, const Call& call) { return side_by_side(tables, {call})[0]; }

[[noreturn]] static void wrong(const char* what, const char* family, int number) {
    printf("WRONG: %s, family '%s', table %d\n", what, family, number);
    exit(1);
}

// ---------------------------------------------------------------------------------------------------------------- analysis

struct Whole {
    period_analysis result;
    uint64_t schedule[HIGHEST_N];
    uint32_t low[HIGHEST_N], high[HIGHEST_N];
};

static void analyse(const Table& t, Whole& out) {
    out.result = call(period_analyse, t.n, t.source.data(), t.m(), t.target.data(), t.m(), t.offset.data(), t.m(), t.delay.data(), t.m(),
                                t.known.data(), t.m(), out.schedule, HIGHEST_N, out.low, HIGHEST_N, out.high, HIGHEST_N);
}

static bool blank(const Table& t) { return std::find(t.known.begin(), t.known.end(), 0) != t.known.end(); }

static bool whole_right(const Table& t, const Whole& w) {
    const period_analysis& a = w.result;
    if (a.refusal != 0 || a.place != 0 || a.low_len > t.n || a.high_len > t.n) return false;
    Answer low{a.low_p, a.low_q, {w.low, w.low + a.low_len}, {}};
    Answer high{a.high_p, a.high_q, {w.high, w.high + a.high_len}, {w.schedule, w.schedule + t.n}};
    bool equal = a.low_p == a.high_p && a.low_q == a.high_q;
    return a.exact == uint32_t(equal) && right(t, 0, low) && right(t, HIGHEST_DELAY, high);
}

// A table beside its graphs: one, or where delays are unknown one for each end, since Boost answers for one filling at a time.
struct Pair {
    Table table;
    std::vector<Graph> graphs;
};

static std::vector<Graph> graphs_of(const Table& t) {
    std::vector<Graph> graphs{graph_of(t, 0)};
    if (blank(t)) graphs.push_back(graph_of(t, HIGHEST_DELAY));
    return graphs;
}

static std::vector<Pair> pairs_of(const Family& family, Size size) {
    std::vector<Pair> pairs;
    for (int k = 0; k < TABLES; k++) {
        Table t = make(family, size, uint64_t(k + 1));
        pairs.push_back({t, graphs_of(t)});
    }
    return pairs;
}

// On how many of the tables a double of Boost's is another fraction than the exact one.
static int boost_wrong(std::vector<Pair>& pairs) {
    int count = 0;
    for (Pair& pair : pairs) {
        Whole w;
        analyse(pair.table, w);
        const period_analysis& a = w.result;
        bool differs = false;
        for (size_t k = 0; k < pair.graphs.size(); k++) {
            Fraction found = nearest(boost_ratio(pair.graphs[k]));
            uint64_t p = k == 0 ? a.low_p : a.high_p, q = k == 0 ? a.low_q : a.high_q;
            differs |= uint64_t(found.p) * q != p * uint64_t(found.q);
        }
        count += differs;
    }
    return count;
}

struct Line {
    double ours, call, built;
    int wrong;
};

static double kept;  // so that no call is left out as unused

static Line line_of(const Family& family, Size size) {
    std::vector<Pair> pairs = pairs_of(family, size);
    static Whole whole;
    for (int k = 0; k < TABLES; k++) {
        analyse(pairs[k].table, whole);
        if (!whole_right(pairs[k].table, whole)) wrong("analysis", family.name, k);
    }
    std::vector<double> times = side_by_side(TABLES, {
        [&](int k) { analyse(pairs[k].table, whole); },
        [&](int k) {
            for (Graph& g : pairs[k].graphs) kept += boost_ratio(g);
        },
        [&](int k) {
            for (Graph& g : graphs_of(pairs[k].table)) kept += boost_ratio(g);
        },
    });
    Line line{times[0], times[1], times[2], 0};
    line.wrong = boost_wrong(pairs);
    return line;
}

static void analysis_part(FILE* data, const char* only) {
    printf("Whole analysis (period range, two loops, schedule), %d tables a family taken in turn, median of %d rounds, microseconds.\n", TABLES, rounds);
    printf("Boost answers one ratio in doubles; where delays are unknown it is called for each end.\n\n");
    printf("%-28s %9s %9s %9s %8s %8s  %s\n", "family", "analysis", "Boost", "built", "/Boost", "/built", "Boost's fraction wrong");
    fprintf(data, "# family analysis boost built\n");
    double log_call = 0, log_built = 0, worst = 0;
    int counted = 0;
    for (const Family& family : families()) {
        if (only && !strstr(family.name, only)) continue;
        Line l = line_of(family, FULL);
        printf("%-28s %9.1f %9.1f %9.1f %8.2f %8.2f  %d of %d%s\n", family.name, l.ours, l.call, l.built, l.ours / l.call, l.ours / l.built, l.wrong, TABLES,
               family.counted ? "" : "  (not in the mean)");
        fflush(stdout);
        fprintf(data, "\"%s\" %.1f %.1f %.1f\n", family.name, l.ours, l.call, l.built);
        if (!family.counted) continue;
        log_call += std::log(l.ours / l.call);
        log_built += std::log(l.ours / l.built);
        worst = std::max(worst, l.ours / l.call);
        counted++;
    }
    if (counted > 0)
        printf("\ngeometric mean of %d families: %.2f of Boost's call, %.2f of it with its graph built; the highest %.2f of Boost's call\n\n", counted,
               std::exp(log_call / counted), std::exp(log_built / counted), worst);
}

// ------------------------------------------------------------------------------------------------------------------- files

#ifndef ANALYSIS_ONLY

static void put_number(std::vector<uint8_t>& bytes, uint32_t value) {
    for (; value >= 128; value >>= 7) bytes.push_back(uint8_t(value | 128));
    bytes.push_back(uint8_t(value));
}

static std::vector<uint8_t> file_of(const Table& t) {
    std::vector<uint8_t> bytes;
    put_number(bytes, uint32_t(t.n));
    put_number(bytes, uint32_t(t.m()));
    for (size_t r = 0; r < t.m(); r++) {
        put_number(bytes, t.source[r]);
        put_number(bytes, t.target[r]);
        put_number(bytes, t.offset[r]);
        put_number(bytes, t.known[r] ? t.delay[r] + 1 : 0);
    }
    return bytes;
}

// Every number at its longest: 16,388 bytes.
static Table longest(int number) {
    Random random{uint64_t(number)};
    Table t;
    t.n = HIGHEST_N;
    while (t.m() < HIGHEST_M)
        t.add(random.between(128, 255), random.between(128, 255), random.between(1, 15), uint32_t(random.between(16383, int(HIGHEST_DELAY))));
    return t;
}

static period_table read(const std::vector<uint8_t>& bytes, Table& t) {
    return call(period_read, bytes.data(), bytes.size(), t.source.data(), t.m(), t.target.data(), t.m(), t.offset.data(), t.m(), t.delay.data(), t.m(),
                       t.known.data(), t.m());
}

static period_count write(const Table& t, std::vector<uint8_t>& out) {
    return call(period_write, t.n, t.source.data(), t.m(), t.target.data(), t.m(), t.offset.data(), t.m(), t.delay.data(), t.m(), t.known.data(), t.m(),
                        out.data(), out.size());
}

static void files_part() {
    std::vector<Table> tables;
    std::vector<std::vector<uint8_t>> files;
    for (int k = 0; k < TABLES; k++) {
        tables.push_back(longest(k));
        files.push_back(file_of(tables[k]));
    }
    static Table into = longest(99);
    static std::vector<uint8_t> out(files[0].size());
    for (int k = 0; k < TABLES; k++) {
        if (files[k].size() != 16388) wrong("the longest file's length", "files", k);
        period_table r = read(files[k], into);
        bool same = into.source == tables[k].source && into.target == tables[k].target && into.offset == tables[k].offset && into.delay == tables[k].delay;
        if (r.refusal != 0 || r.n != HIGHEST_N || r.m != HIGHEST_M || !same) wrong("reading", "files", k);
        period_count w = write(tables[k], out);
        if (w.refusal != 0 || w.count != files[k].size() || out != files[k]) wrong("writing", "files", k);
    }
    double reading = measured(TABLES, [&](int k) { read(files[k], into); });
    double writing = measured(TABLES, [&](int k) { write(tables[k], out); });
    printf("The longest file, 16,388 bytes: read in %.1f, written in %.1f microseconds (%.0f and %.0f million bytes a second).\n\n", reading, writing,
           16388 / reading, 16388 / writing);
}

// -------------------------------------------------------------------------------------------------------------------- bids

using Bytes = std::vector<uint8_t>;

static period_bids_result bids(const Bytes& first, const Bytes& second) { return call(period_bids, first.data(), first.size(), second.data(), second.size()); }

static void analyse(const Bytes& file, Whole& out) {
    out.result = call(period_file_analyse, file.data(), file.size(), out.schedule, HIGHEST_N, out.low, HIGHEST_N, out.high, HIGHEST_N);
}

// Two files of a family side by side, beside the analyses of the two: the better one must cost two readings and two measurings, and no more.
static void bids_of(const Family& family) {
    std::vector<Bytes> files;
    for (int k = 0; k < TABLES; k++) files.push_back(file_of(make(family, FULL, uint64_t(k + 1))));
    static Whole a, b;
    for (int k = 0; k < TABLES; k++) {
        const Bytes &first = files[k], &second = files[(k + 1) % TABLES];
        analyse(first, a), analyse(second, b);
        bool lower = b.result.high_p * a.result.high_q < a.result.high_p * b.result.high_q;
        period_bids_result r = bids(first, second);
        if (r.refusal != 0 || r.place != 0 || r.which != uint32_t(lower) || r.length != (lower ? second : first).size()) wrong("bids", family.name, k);
    }
    std::vector<double> times = side_by_side(TABLES, {
        [&](int k) { kept += bids(files[k], files[(k + 1) % TABLES]).which; },
        [&](int k) { analyse(files[k], a), analyse(files[(k + 1) % TABLES], b); },
    });
    printf("%-28s %9.1f %9.1f %8.2f\n", family.name, times[0], times[1], times[0] / times[1]);
    fflush(stdout);
}

static void bids_part() {
    printf("The better of two files, microseconds, beside the analysis of each of the two from its bytes:\n");
    printf("%-28s %9s %9s %8s\n", "family", "bids", "twice", "/twice");
    for (size_t f : {size_t(1), size_t(2), size_t(8), size_t(13), size_t(15)}) bids_of(families()[f]);
    printf("\n");
}

// ------------------------------------------------------------------------------------------------------------------- rates

static period_rate_result rate(const Table& t, size_t v) {
    return call(period_rate, t.n, t.source.data(), t.m(), t.target.data(), t.m(), t.offset.data(), t.m(), t.delay.data(), t.m(), t.known.data(), t.m(), v);
}

static void rates_part() {
    printf("The rate of one transition beside the whole analysis, %d tables a family taken in turn, microseconds.\n\n", TABLES);
    printf("%-28s %9s %9s %14s\n", "family", "analysis", "rate", "rate/analysis");
    for (const Family& family : families()) {
        std::vector<Table> tables;
        for (int k = 0; k < TABLES; k++) tables.push_back(make(family, FULL, uint64_t(k + 1)));
        static Whole whole;
        std::vector<double> times = side_by_side(TABLES, {
            [&](int k) { analyse(tables[k], whole); },
            [&](int k) { kept += rate(tables[k], size_t(37 * k) % tables[k].n).high_p; },
        });
        printf("%-28s %9.1f %9.1f %14.2f\n", family.name, times[0], times[1], times[1] / times[0]);
    }
    printf("\n");
}

// -------------------------------------------------------------------------------------------------------------- simulation

static std::vector<uint64_t> times(HIGHEST_N * 1024);

static period_status simulate(const Table& t, size_t occurrences) {
    return call(period_simulate, t.n, t.source.data(), t.m(), t.target.data(), t.m(), t.offset.data(), t.m(), t.delay.data(), t.m(), t.known.data(), t.m(),
                           occurrences, times.data(), times.size());
}

static void simulation_of(FILE* data, const char* name, Table (*make_one)(Random&, Size)) {
    std::vector<Table> tables;
    for (int k = 0; k < TABLES; k++) tables.push_back(make({name, make_one, false}, FULL, uint64_t(k + 1)));
    for (int k = 0; k < TABLES; k++)
        if (simulate(tables[k], 1024).refusal != 0 || times != times_of(tables[k], 1024)) wrong("simulation", name, k);
    int all = rounds;
    rounds = std::max(3, rounds / 5);
    double each = measured(TABLES, [&](int k) { simulate(tables[k], 1024); });
    rounds = all;
    printf("%-28s %9.0f microseconds, %.2f nanoseconds for each rule and occurrence\n", name, each, each * 1000 / (1024.0 * tables[0].m()));
    fprintf(data, "\"%s\" %.1f\n", name, each);
}

static Table narrow_backward_chain(Random& random, Size size) { return backward_chain(random, {size.n, size.n}); }

static void simulation_part(FILE* data) {
    printf("Simulation of 256 transitions, 2,048 rules (the chain 2,013), 1,024 occurrences:\n");
    simulation_of(data, "random sparse", random_sparse);
    simulation_of(data, "strongly connected", [](Random& r, Size s) { return strongly_connected(r, s); });
    simulation_of(data, "self-timed FIFO rings", fifo);
    simulation_of(data, "offset-0 chain backwards", backward_chain);
    simulation_of(data, "the same, 256 rules", narrow_backward_chain);
    printf("\n");
}

// ------------------------------------------------------------------------------------------------------ loops of offset 0

// One occurrence is simulated, or refused: little else is done than to tell whether some loop has offset sum 0.
static void loop_of(const char* name, const Table& t, uint32_t refusal, size_t place) {
    period_status status = simulate(t, 1);
    if (status.refusal != refusal || status.place != place) wrong("refusal", name, 0);
    printf("%-44s %9.1f microseconds\n", name, measured(TABLES, [&](int) { simulate(t, 1); }));
}

static Table without_loop(int n) {
    Random random{1};
    Table t;
    t.n = size_t(n);
    for (int r = 0; r < HIGHEST_M; r++) {
        int from = random.between(0, n - 2);
        t.add(from, random.between(from + 1, n - 1), 0, 1);
    }
    return t;
}

static void loops_part() {
    Table chain, bridges;
    chain.n = bridges.n = HIGHEST_N;
    for (int v = HIGHEST_N - 1; v > 0; v--) chain.add(v - 1, v, 0, 1);
    for (int v = 0; v < 252; v++) {
        bridges.add(253, v, 0, 1);
        bridges.add(v, 254, 0, 1);
    }
    for (int v : {252, 254}) {
        bridges.add(v, v + 1, 0, 1);
        bridges.add(v + 1, v, 0, 1);
    }
    printf("Loops of offset 0, one occurrence simulated:\n");
    loop_of("none: a chain of 255 rules listed backwards", chain, 0, 0);
    loop_of("none: 2,048 rules, 256 transitions", without_loop(256), 0, 0);
    loop_of("none: 2,048 rules, 64 transitions", without_loop(64), 0, 0);
    chain.add(255, 0, 0, 1);
    loop_of("the chain closed", chain, 5, 0);
    loop_of("252 transitions between two loops", bridges, 5, 252);
    printf("\n");
}

#endif

// ------------------------------------------------------------------------------------------------------------------ growth

static void growth_part(FILE* data) {
    const Size sizes[] = {{32, 128}, {64, 256}, {64, 512}, {128, 512}, {128, 1024}, {256, 1024}, {256, 2048}};
    printf("Growth of the whole analysis, microseconds (beside it Boost's call):\n%-28s", "family");
    for (Size size : sizes) printf(" %7d/%-6d", size.n, size.m);
    printf("\n");
    for (size_t f : {size_t(1), size_t(2), size_t(8), size_t(13), size_t(15)}) {
        const Family& family = families()[f];
        printf("%-28s", family.name);
        fprintf(data, "\n\n\"%s\"\n", family.name);
        for (Size size : sizes) {
            Line l = line_of(family, size);
            printf(" %6.1f %7.1f", l.ours, l.call);
            fflush(stdout);
            fprintf(data, "%d %d %.1f %.1f\n", size.n, size.m, l.ours, l.call);
        }
        printf("\n");
    }
    printf("\n");
}

static FILE* data_file(const std::string& folder, const char* name) {
    FILE* file = fopen((folder + "/" + name).c_str(), "w");
    if (!file) {
        printf("cannot write %s/%s\n", folder.c_str(), name);
        exit(2);
    }
    return file;
}

// Arguments: the folder for the data files; rounds; a part of a family's name, to measure its analysis alone.
int main(int count, char** words) {
    std::string folder = count > 1 ? words[1] : ".";
    if (count > 2) rounds = atoi(words[2]);
    const char* only = count > 3 ? words[3] : nullptr;
    FILE* analysis = data_file(folder, "analysis.dat");
    analysis_part(analysis, only);
    fclose(analysis);
    if (only) return 0;
#ifndef ANALYSIS_ONLY
    files_part();
    bids_part();
    rates_part();
    FILE* simulation = data_file(folder, "simulation.dat");
    simulation_part(simulation);
    fclose(simulation);
    loops_part();
#endif
    FILE* growth = data_file(folder, "growth.dat");
    growth_part(growth);
    fclose(growth);
    return kept == -1;
}
