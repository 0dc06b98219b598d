/* Calls every function of include/period.h on the laps worked by hand and on each kind of refusal, and compares all results and buffers.
 * Prints 'ok', or each difference, and then ends with status 1. */
#include "period.h"

#include <stdio.h>
#include <string.h>

#define COUNT(a) (sizeof(a) / sizeof((a)[0]))
#define FULL 4

static int bad;

static void same(const char *where, const char *what, unsigned long long got, unsigned long long wanted)
{
    if (got != wanted) {
        printf("%s: %s is %llu, not %llu\n", where, what, got, wanted);
        bad = 1;
    }
}

/* A lap: its columns and its file, and what the calls say of it. */
struct lap {
    const char *name;
    size_t n, m;
    uint16_t source[FULL], target[FULL], offset[FULL];
    uint32_t delay[FULL];
    uint8_t known[FULL];
    size_t file_len;
    uint8_t file[20];
    period_analysis analysis;
    uint64_t schedule[FULL];
    uint32_t low[FULL], high[FULL];
    size_t occurrences;
    period_status simulated;
    uint64_t times[6];
    const char *report;
};

/* A known delay of 5 under an unknown mark (P3, P5) shows that it is not looked at. */
static const struct lap laps[] = {
    {"P1", 2, 2, {0, 1}, {1, 0}, {0, 1}, {3, 4}, {1, 1}, 10, {2, 2, 0, 1, 0, 4, 1, 0, 1, 5},
     {0, 1, 0, 7, 1, 2, 7, 1, 2}, {0, 3}, {0, 1}, {0, 1}, 3, {0, 0}, {0, 3, 7, 10, 14, 17},
     "period 7/1 exact\nlow 0 1\nhigh 0 1\nschedule 1 0 3\n"},
    {"P2", 2, 2, {0, 1}, {1, 0}, {0, 2}, {3, 4}, {1, 255}, 10, {2, 2, 0, 1, 0, 4, 1, 0, 2, 5},
     {0, 1, 0, 7, 2, 2, 7, 2, 2}, {0, 6}, {0, 1}, {0, 1}, 3, {0, 0}, {0, 3, 0, 3, 7, 10},
     "period 7/2 exact\nlow 0 1\nhigh 0 1\nschedule 2 0 6\n"},
    {"P3", 2, 2, {0, 1}, {1, 0}, {0, 1}, {3, 5}, {1, 0}, 10, {2, 2, 0, 1, 0, 4, 1, 0, 1, 0},
     {0, 0, 0, 3, 1, 2, 1000003, 1, 2}, {0, 3}, {0, 1}, {0, 1}, 3, {7, 1}, {0},
     "period from 3/1 to 1000003/1\nlow 0 1\nhigh 0 1\nschedule 1 0 3\n"},
    {"P4", 2, 3, {0, 1, 0}, {1, 0, 0}, {0, 2, 1}, {0, 5, 1000000}, {1, 0, 1}, 16, {2, 3, 0, 1, 0, 1, 1, 0, 2, 0, 0, 0, 1, 0xc1, 0x84, 0x3d},
     {0, 1, 0, 1000000, 1, 1, 1000000, 1, 1}, {0, 0}, {2}, {2}, 3, {7, 1}, {0},
     "period 1000000/1 exact\nlow 2\nhigh 2\nschedule 1 0 0\n"},
    {"P5", 1, 1, {0}, {0}, {1}, {5}, {0}, 6, {1, 1, 0, 0, 1, 0},
     {0, 0, 0, 0, 1, 1, 1000000, 1, 1}, {0}, {0}, {0}, 1, {7, 0}, {0},
     "period from 0/1 to 1000000/1\nlow 0\nhigh 0\nschedule 1 0\n"},
    {"P6", 1, 1, {0}, {0}, {1}, {0}, {1}, 6, {1, 1, 0, 0, 1, 1},
     {0, 1, 0, 0, 1, 1, 0, 1, 1}, {0}, {0}, {0}, 2, {0, 0}, {0, 0},
     "period 0/1 exact\nlow 0\nhigh 0\nschedule 1 0\n"},
    {"P7", 1, 1, {0}, {0}, {0}, {0}, {1}, 6, {1, 1, 0, 0, 0, 1},
     {5, 0, 0, 0, 0, 0, 0, 0, 0}, {0}, {0}, {0}, 2, {5, 0}, {0},
     "refused 5 at 0\n"},
    {"P8", 2, 1, {0}, {1}, {1}, {5}, {1}, 6, {2, 1, 0, 1, 1, 6},
     {6, 0, 0, 0, 0, 0, 0, 0, 0}, {0}, {0}, {0}, 2, {0, 0}, {0, 0, 0, 5},
     "refused 6 at 0\n"},
    {"P9", 1, 0, {0}, {0}, {0}, {0}, {0}, 2, {1, 0},
     {6, 0, 0, 0, 0, 0, 0, 0, 0}, {0}, {0}, {0}, 1, {0, 0}, {0},
     "refused 6 at 0\n"},
};

#define COLUMNS(l) \
    (l)->n, (l)->source, (l)->m, (l)->target, (l)->m, (l)->offset, (l)->m, (l)->delay, (l)->m, (l)->known, (l)->m

/* The buffers of an analysis, filled with 77 beforehand. */
struct buffers {
    uint64_t schedule[FULL];
    uint32_t low[FULL], high[FULL];
};

static void clear(struct buffers *b)
{
    for (size_t i = 0; i < FULL; i++)
        b->schedule[i] = b->low[i] = b->high[i] = 77;
}

static void see_analysis(const char *where, const struct lap *l, period_analysis a, const struct buffers *b)
{
    const period_analysis *w = &l->analysis;
    size_t values = w->refusal ? 0 : l->n;
    same(where, "refusal", a.refusal, w->refusal);
    same(where, "exact", a.exact, w->exact);
    same(where, "place", a.place, w->place);
    same(where, "low p", a.low_p, w->low_p);
    same(where, "low q", a.low_q, w->low_q);
    same(where, "low length", a.low_len, w->low_len);
    same(where, "high p", a.high_p, w->high_p);
    same(where, "high q", a.high_q, w->high_q);
    same(where, "high length", a.high_len, w->high_len);
    for (size_t i = 0; i < FULL; i++) {
        same(where, "schedule", b->schedule[i], i < values ? l->schedule[i] : 77);
        same(where, "low loop", b->low[i], i < w->low_len ? l->low[i] : 77);
        same(where, "high loop", b->high[i], i < w->high_len ? l->high[i] : 77);
    }
}

static void see_rate(const char *where, const struct lap *l, period_rate_result r)
{
    const period_analysis *w = &l->analysis;
    same(where, "rate refusal", r.refusal, w->refusal);
    same(where, "rate exact", r.exact, w->exact);
    same(where, "rate place", r.place, w->place);
    same(where, "rate low p", r.low_p, w->low_p);
    same(where, "rate low q", r.low_q, w->low_q);
    same(where, "rate high p", r.high_p, w->high_p);
    same(where, "rate high q", r.high_q, w->high_q);
}

static void see_times(const char *where, const struct lap *l, period_status s, const uint64_t *times)
{
    size_t values = l->simulated.refusal ? 0 : l->n * l->occurrences;
    same(where, "simulation refusal", s.refusal, l->simulated.refusal);
    same(where, "simulation place", s.place, l->simulated.place);
    for (size_t i = 0; i < 8; i++)
        same(where, "times", times[i], i < values ? l->times[i] : 77);
}

/* A front end of lap 3, transitions 0 and 1, that feeds a loop of lap 10, transitions 2 and 3; no loop reaches transition 4. */
static void see_front_end(void)
{
    static const uint16_t source[] = {0, 1, 1, 2, 3, 4}, target[] = {1, 0, 2, 3, 2, 0}, offset[] = {0, 1, 0, 0, 1, 0};
    static const uint32_t delay[] = {1, 2, 5, 4, 6, 9};
    static const uint8_t known[] = {1, 1, 1, 1, 1, 1};
    static const uint64_t rates[] = {3, 3, 10, 10, 0};
    for (size_t v = 0; v < 5; v++) {
        period_rate_result r = period_rate(5, source, 6, target, 6, offset, 6, delay, 6, known, 6, v);
        same("front end", "refusal", r.refusal, v < 4 ? 0 : PERIOD_FLAT);
        same("front end", "place", r.place, 0);
        same("front end", "exact", r.exact, v < 4);
        same("front end", "low p", r.low_p, rates[v]);
        same("front end", "high p", r.high_p, rates[v]);
        same("front end", "high q", r.high_q, v < 4);
    }
}

static void see_lap(const struct lap *l)
{
    struct buffers b;
    uint64_t times[8];
    uint8_t out[20];
    uint16_t source[FULL], target[FULL], offset[FULL];
    uint32_t delay[FULL];
    uint8_t known[FULL];
    const char *where = l->name;

    clear(&b);
    see_analysis(where, l, period_analyse(COLUMNS(l), b.schedule, FULL, b.low, FULL, b.high, FULL), &b);
    clear(&b);
    see_analysis(where, l, period_file_analyse(l->file, l->file_len, b.schedule, FULL, b.low, FULL, b.high, FULL), &b);
    see_rate(where, l, period_rate(COLUMNS(l), l->n - 1));
    see_rate(where, l, period_file_rate(l->file, l->file_len, 0));

    for (size_t i = 0; i < 8; i++)
        times[i] = 77;
    see_times(where, l, period_simulate(COLUMNS(l), l->occurrences, times, 8), times);
    for (size_t i = 0; i < 8; i++)
        times[i] = 77;
    see_times(where, l, period_file_simulate(l->file, l->file_len, l->occurrences, times, 8), times);

    memset(out, 77, sizeof out);
    period_count c = period_write(COLUMNS(l), out, sizeof out);
    same(where, "write refusal", c.refusal, 0);
    same(where, "write place", c.place, 0);
    same(where, "count", c.count, l->file_len);
    for (size_t i = 0; i < sizeof out; i++)
        same(where, "byte", out[i], i < l->file_len ? l->file[i] : 77);

    for (size_t i = 0; i < FULL; i++)
        source[i] = target[i] = offset[i] = delay[i] = known[i] = 77;
    period_table t = period_read(l->file, l->file_len, source, FULL, target, FULL, offset, FULL, delay, FULL, known, FULL);
    same(where, "read refusal", t.refusal, 0);
    same(where, "read place", t.place, 0);
    same(where, "n", t.n, l->n);
    same(where, "m", t.m, l->m);
    for (size_t i = 0; i < FULL; i++) {
        int in = i < l->m;
        same(where, "source", source[i], in ? l->source[i] : 77);
        same(where, "target", target[i], in ? l->target[i] : 77);
        same(where, "offset", offset[i], in ? l->offset[i] : 77);
        same(where, "delay", delay[i], in ? (l->known[i] ? l->delay[i] : 0) : 77);
        same(where, "known", known[i], in ? l->known[i] != 0 : 77);
    }
}

/* The report, into enough room and into one byte less. */
static void see_report(const struct lap *l)
{
    uint8_t text[100];
    size_t len = strlen(l->report);
    period_count c;
    memset(text, 77, sizeof text);
    c = period_report(l->file, l->file_len, text, len - 1);
    same(l->name, "report without room, refusal", c.refusal, PERIOD_ROOM);
    same(l->name, "report without room, place", c.place, len);
    same(l->name, "report without room, count", c.count, 0);
    same(l->name, "report without room, first byte", text[0], 77);
    c = period_report(l->file, l->file_len, text, sizeof text);
    same(l->name, "report refusal", c.refusal, 0);
    same(l->name, "report place", c.place, 0);
    same(l->name, "report count", c.count, len);
    for (size_t i = 0; i < sizeof text; i++)
        same(l->name, "report byte", text[i], i < len ? (uint8_t)l->report[i] : 77);
}

/* Each buffer and each column of P1 one place short, and the other refusals of a table handed in. */
static void see_refusals(void)
{
    const struct lap *l = &laps[0];
    struct buffers b;
    uint64_t times[8];
    uint8_t out[20];
    uint16_t wide[FULL];
    uint32_t delay[FULL];
    uint8_t known[FULL];
    period_analysis a;
    period_table t;

    clear(&b);
    for (size_t k = 0; k < 4; k++) {
        a = period_analyse(l->n, l->source, 2, l->target, 2 - (k == 0), l->offset, 2 - (k == 1), l->delay, 2 - (k == 2),
                           l->known, 2 - (k == 3), b.schedule, FULL, b.low, FULL, b.high, FULL);
        same("short column", "refusal", a.refusal, PERIOD_ROOM);
        same("short column", "place", a.place, 2);
        /* before everything else: n is outside its limits as well */
        a = period_analyse(0, l->source, 2, l->target, 2 - (k == 0), l->offset, 2 - (k == 1), l->delay, 2 - (k == 2),
                           l->known, 2 - (k == 3), b.schedule, FULL, b.low, FULL, b.high, FULL);
        same("short column, n 0", "refusal", a.refusal, PERIOD_ROOM);
    }
    for (size_t k = 0; k < 3; k++) {
        a = period_analyse(COLUMNS(l), b.schedule, 2 - (k == 0), b.low, 2 - (k == 1), b.high, 2 - (k == 2));
        same("short buffer", "refusal", a.refusal, PERIOD_ROOM);
        same("short buffer", "place", a.place, 2);
    }
    a = period_analyse(0, l->source, 2, l->target, 2, l->offset, 2, l->delay, 2, l->known, 2, b.schedule, FULL, b.low, FULL, b.high, FULL);
    same("n 0", "refusal", a.refusal, PERIOD_RANGE);
    same("n 0", "place", a.place, 0);
    a = period_analyse(1, l->source, 2, l->target, 2, l->offset, 2, l->delay, 2, l->known, 2, b.schedule, FULL, b.low, FULL, b.high, FULL);
    same("target 1 of n 1", "refusal", a.refusal, PERIOD_RANGE);
    same("target 1 of n 1", "place", a.place, 3);
    for (size_t i = 0; i < FULL; i++) {
        same("refused", "schedule", b.schedule[i], 77);
        same("refused", "low", b.low[i], 77);
        same("refused", "high", b.high[i], 77);
    }
    same("rate of 2", "refusal", period_rate(COLUMNS(l), 2).refusal, PERIOD_NAME);
    same("rate of 2", "place", period_rate(COLUMNS(l), 2).place, 2);
    same("no occurrence", "refusal", period_simulate(COLUMNS(l), 0, times, 8).refusal, PERIOD_SPAN);
    same("1025 occurrences", "refusal", period_simulate(COLUMNS(l), 1025, times, 8).refusal, PERIOD_SPAN);
    same("times short", "refusal", period_simulate(COLUMNS(l), 3, times, 5).refusal, PERIOD_ROOM);
    same("times short", "place", period_simulate(COLUMNS(l), 3, times, 5).place, 6);
    same("out short", "refusal", period_write(COLUMNS(l), out, 9).refusal, PERIOD_ROOM);
    same("out short", "place", period_write(COLUMNS(l), out, 9).place, 10);
    for (size_t k = 0; k < 5; k++) {
        t = period_read(l->file, l->file_len, wide, 2 - (k == 0), wide, 2 - (k == 1), wide, 2 - (k == 2), delay, 2 - (k == 3), known, 2 - (k == 4));
        same("column short to read", "refusal", t.refusal, PERIOD_ROOM);
        same("column short to read", "place", t.place, 2);
        same("column short to read", "n", t.n, 0);
        same("column short to read", "m", t.m, 0);
    }
}

/* 2,048 rules are taken, 2,049 are not. */
static void see_limit(void)
{
    static uint16_t zeros[2049], ones[2049];
    static uint32_t delays[2049];
    static uint8_t marks[2049];
    uint64_t schedule[1];
    uint32_t low[1], high[1];
    for (size_t i = 0; i < 2049; i++)
        ones[i] = 1, delays[i] = (uint32_t)i, marks[i] = 1;
    period_analysis a = period_analyse(1, zeros, 2048, zeros, 2048, ones, 2048, delays, 2048, marks, 2048, schedule, 1, low, 1, high, 1);
    same("2048 rules", "refusal", a.refusal, 0);
    same("2048 rules", "p", a.high_p, 2047);
    same("2048 rules", "loop", high[0], 2047);
    a = period_analyse(1, zeros, 2049, zeros, 2049, ones, 2049, delays, 2049, marks, 2049, schedule, 1, low, 1, high, 1);
    same("2049 rules", "refusal", a.refusal, PERIOD_RANGE);
    same("2049 rules", "place", a.place, 1);
}

/* P10, and a number read by itself. */
static void see_bytes(void)
{
    static const struct {
        size_t len;
        uint8_t bytes[3];
        uint32_t refusal;
        size_t place;
    } files[] = {{1, {0x80}, 1, 1}, {2, {0x80, 0x00}, 2, 1}, {3, {0x80, 0x80, 0x80}, 2, 2}, {1, {0x00}, 3, 0}, {3, {0x01, 0x00, 0x00}, 4, 2},
                 {3, {0x80, 0x80, 0x00}, 2, 2}, {2, {0x01, 0x80}, 1, 2}};
    static const uint8_t five[] = {5, 5}, third[] = {0x80, 0x80, 0x01, 9};
    uint64_t schedule[1] = {77};
    uint32_t low[1] = {77}, high[1] = {77};
    period_number_result x;
    for (size_t i = 0; i < COUNT(files); i++) {
        period_analysis a = period_file_analyse(files[i].bytes, files[i].len, schedule, 1, low, 1, high, 1);
        same("P10", "refusal", a.refusal, files[i].refusal);
        same("P10", "place", a.place, files[i].place);
        same("P10", "schedule", schedule[0], 77);
    }
    x = period_number(five, 2, 0, 5);
    same("number", "refusal", x.refusal, 0);
    same("number", "value", x.value, 5);
    same("number", "place", x.place, 0);
    same("number", "rest", x.rest, 1);
    x = period_number(third, 4, 0, 16384);
    same("number 16384", "value", x.value, 16384);
    same("number 16384", "rest", x.rest, 1);
    x = period_number(five, 2, 6, 9);
    same("number below 6", "refusal", x.refusal, PERIOD_RANGE);
    same("number below 6", "value", x.value, 0);
    same("number below 6", "rest", x.rest, 0);
    x = period_number(third, 2, 0, 9);
    same("number cut", "refusal", x.refusal, PERIOD_CUT);
    same("number cut", "place", x.place, 2);
    same("number cut", "rest", x.rest, 0);
}

static void see_pair(const char *where, const struct lap *first, const struct lap *second, period_bids_result wanted)
{
    period_bids_result b = period_bids(first->file, first->file_len, second->file, second->file_len);
    same(where, "bids refusal", b.refusal, wanted.refusal);
    same(where, "bids which", b.which, wanted.which);
    same(where, "bids place", b.place, wanted.place);
    same(where, "bids length", b.length, wanted.length);
}

/* Two files: the lower high end, equal ends, one that cannot be analysed, and neither. */
static void see_bids(void)
{
    see_pair("P2 and P1", &laps[1], &laps[0], (period_bids_result){0, 0, 0, 10});
    see_pair("P3 and P1", &laps[2], &laps[0], (period_bids_result){0, 1, 0, 10});
    see_pair("P4 and P5, equal ends", &laps[3], &laps[4], (period_bids_result){0, 0, 0, 16});
    see_pair("P5 and P4, equal ends", &laps[4], &laps[3], (period_bids_result){0, 0, 0, 6});
    see_pair("P3 and P7", &laps[2], &laps[6], (period_bids_result){0, 0, 0, 10});
    see_pair("P8 and P3", &laps[7], &laps[2], (period_bids_result){0, 1, 0, 10});
    see_pair("P7 and P8", &laps[6], &laps[7], (period_bids_result){PERIOD_LOOP, 0, 0, 0});
    see_pair("P8 and P7", &laps[7], &laps[6], (period_bids_result){PERIOD_FLAT, 0, 0, 0});
}

int main(void)
{
    for (size_t i = 0; i < COUNT(laps); i++) {
        see_lap(&laps[i]);
        see_report(&laps[i]);
    }
    see_front_end();
    see_refusals();
    see_bids();
    see_limit();
    see_bytes();
    if (!bad)
        puts("ok");
    return bad;
}
