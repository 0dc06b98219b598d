/* Vedhrunak's period tool, for C (C99 or later) and C++.
 *
 * Link with target/staticlib/libcperiod.a, which tools/archive makes (x86-64 Linux).
 *
 * WHAT IS VERIFIED. For every input, each function hands back what its comment says and leaves in the lent buffers what its comment says,
 * and nothing else; the promises stand in crates/cperiod/src/lib.rt, and are proved to admit one outcome.
 *
 * WHAT IS NOT VERIFIED, and is the caller's to see to:
 *   - each pointer is valid and aligned for as many elements as the length after it says (with length 0 it must still not be a null pointer);
 *   - no lent output buffer overlaps another buffer, in or out, of the same call;
 *   - no other thread writes to a buffer, or reads an output buffer, during a call;
 *   - this header and the compiler's layout of the structs; the C compiler and the linker; and room on the stack (512 KB were enough for tests/c/check.c, 256 KB were not).
 *
 * A length counts elements, not bytes. No function keeps a pointer, allocates, or has state of its own.
 *
 * REFUSALS. `refusal` 0 is none. A refused call leaves every buffer as it was, and every other field of its result is 0 except `place`.
 *
 * A TABLE AS COLUMNS. n transitions, numbered from 0, and m rules, numbered from 0: m is the length of `source`. Rule r goes from source[r]
 * to target[r] with offset[r]. Where known[r] is 0 its delay is unknown, and delay[r] is not looked at; otherwise its delay is known and is
 * delay[r]. So an unknown delay shares no value with a known one. Where another column is shorter than `source`, the call is refused
 * PERIOD_ROOM with place m, before anything else; what a longer column holds from m on is not looked at. Limits: n 1 to 256, m 0 to 2048,
 * sources and targets below n, offsets 0 to 15, known delays 0 to 1000000; outside them, PERIOD_RANGE with the field's place in file order:
 * n is 0, m is 1, rule r's source, target, offset and delay are 2 + 4r to 5 + 4r. The earliest such field is named.
 *
 * A TABLE AS A FILE. The bytes of a rule file; it is refused PERIOD_CUT, PERIOD_LONG, PERIOD_RANGE or PERIOD_TAIL where it is no such file,
 * before anything else, with the place of the byte, or the file's length where a byte is missing.
 */
#ifndef PERIOD_H
#define PERIOD_H

#include <stddef.h>
#include <stdint.h>

#ifdef __cplusplus
extern "C" {
#endif

/* Numbers of refusal; in brackets what `place` is. */
enum period_refusal {
    PERIOD_OK = 0,
    PERIOD_CUT = 1,      /* the file ends inside or before a number (the file's length) */
    PERIOD_LONG = 2,     /* a number not written with the fewest groups, or with more than three (the byte that breaks the rule:
                          * the third of the number if its top bit is set, otherwise the last, a group of zero) */
    PERIOD_RANGE = 3,    /* a value outside its limits (in a file: the number's first byte; of columns: the field in file order) */
    PERIOD_TAIL = 4,     /* bytes after the last rule (the first such byte) */
    PERIOD_LOOP = 5,     /* a loop with offset sum 0 (the lowest transition on any such loop) */
    PERIOD_FLAT = 6,     /* no loop, or none that reaches the transition whose rate is asked for (0) */
    PERIOD_UNKNOWN = 7,  /* simulation of a table with an unknown delay (the lowest such rule) */
    PERIOD_ROOM = 8,     /* a lent buffer or a column is too short (the length needed) */
    PERIOD_SPAN = 9,     /* occurrences not from 1 to 1024 (0) */
    PERIOD_NAME = 10,    /* rate of a transition not below n (n) */
    PERIOD_WIDE = 11     /* a sum of 2^63 or more (0); proved never to come */
};

/* The period lies between low_p/low_q and high_p/high_q, both attained, each in lowest terms; `exact` is 1 where the two are equal, else 0.
 * low_len and high_len are the numbers of rules of the two loops. */
typedef struct {
    uint32_t refusal;
    uint32_t exact;
    size_t place;
    uint64_t low_p;
    uint64_t low_q;
    size_t low_len;
    uint64_t high_p;
    uint64_t high_q;
    size_t high_len;
} period_analysis;

typedef struct {
    uint32_t refusal;
    uint32_t exact;
    size_t place;
    uint64_t low_p;
    uint64_t low_q;
    uint64_t high_p;
    uint64_t high_q;
} period_rate_result;

/* count: how many bytes were written. */
typedef struct {
    uint32_t refusal;
    size_t place;
    size_t count;
} period_count;

typedef struct {
    uint32_t refusal;
    size_t place;
} period_status;

/* n and m: how many transitions and rules the table has. */
typedef struct {
    uint32_t refusal;
    size_t place;
    size_t n;
    size_t m;
} period_table;

/* rest: how many bytes are left after the number; 0 where it is refused. */
typedef struct {
    uint32_t refusal;
    uint32_t value;
    size_t place;
    size_t rest;
} period_number_result;

/* which: 0 the first file, 1 the second; length: how many bytes of it, from its first on, are the part handed back. */
typedef struct {
    uint32_t refusal;
    uint32_t which;
    size_t place;
    size_t length;
} period_bids_result;

/* ---- a table as columns ---- */

/* The two ends of the period, over all values from 0 to 1000000 of the unknown delays.
 * Left: in schedule[0..n-1] the least schedule at the high end (times multiplied by high_q), with every unknown delay at 1000000; in
 * low[0..low_len-1] and high[0..high_len-1] the rule numbers of the two reported loops. Places past these stay as they were.
 * Each of the three buffers needs n places.
 * Refused, in this order: 8 (a column), 3, 8 (a buffer; place n), 5, 6, 11. */
period_analysis period_analyse(
    size_t n,
    const uint16_t *source, size_t source_len,
    const uint16_t *target, size_t target_len,
    const uint16_t *offset, size_t offset_len,
    const uint32_t *delay, size_t delay_len,
    const uint8_t *known, size_t known_len,
    uint64_t *schedule, size_t schedule_len,
    uint32_t *low, size_t low_len,
    uint32_t *high, size_t high_len);

/* The two ends of the rate of transition v: the largest quotient over the loops from which v can be reached along rules, a loop that v lies on
 * included, over all values of the unknown delays. 5 is a matter of the whole table; 6: no loop reaches v. No buffer is written.
 * Refused, in this order: 8 (a column), 3, 10, 5, 6, 11. */
period_rate_result period_rate(
    size_t n,
    const uint16_t *source, size_t source_len,
    const uint16_t *target, size_t target_len,
    const uint16_t *offset, size_t offset_len,
    const uint32_t *delay, size_t delay_len,
    const uint8_t *known, size_t known_len,
    size_t v);

/* The table's rule file. Left: in out[0..count-1] the bytes of the file; places past these stay as they were.
 * Refused, in this order: 8 (a column; place m), 3, 8 (out; place the length of the file). */
period_count period_write(
    size_t n,
    const uint16_t *source, size_t source_len,
    const uint16_t *target, size_t target_len,
    const uint16_t *offset, size_t offset_len,
    const uint32_t *delay, size_t delay_len,
    const uint8_t *known, size_t known_len,
    uint8_t *out, size_t out_len);

/* The timing simulation. Left: in times[i * n + v] the time of occurrence i of transition v, for i below `occurrences` and v below n;
 * places past these stay as they were.
 * Refused, in this order: 8 (a column), 3, 9, 7, 8 (times; place n * occurrences), 5. */
period_status period_simulate(
    size_t n,
    const uint16_t *source, size_t source_len,
    const uint16_t *target, size_t target_len,
    const uint16_t *offset, size_t offset_len,
    const uint32_t *delay, size_t delay_len,
    const uint8_t *known, size_t known_len,
    size_t occurrences,
    uint64_t *times, size_t times_len);

/* ---- a table as a file ---- */

/* The file's table as columns. Left: in places 0 to m - 1 of each column its rules, a known delay as known 1, an unknown one as known 0 and
 * delay 0; places past these stay as they were.
 * Refused, in this order: 1 to 4 as reading goes, 8 where a column has fewer than m places (place m). */
period_table period_read(
    const uint8_t *bytes, size_t bytes_len,
    uint16_t *source, size_t source_len,
    uint16_t *target, size_t target_len,
    uint16_t *offset, size_t offset_len,
    uint32_t *delay, size_t delay_len,
    uint8_t *known, size_t known_len);

/* As period_analyse, of the file's table. Refused, in this order: 1 to 4 as reading goes, 8 (a buffer; place n), 5, 6, 11. */
period_analysis period_file_analyse(
    const uint8_t *bytes, size_t bytes_len,
    uint64_t *schedule, size_t schedule_len,
    uint32_t *low, size_t low_len,
    uint32_t *high, size_t high_len);

/* As period_rate, of the file's table. Refused, in this order: 1 to 4 as reading goes, 10, 5, 6, 11. */
period_rate_result period_file_rate(const uint8_t *bytes, size_t bytes_len, size_t v);

/* As period_simulate, of the file's table. Refused, in this order: 1 to 4 as reading goes, 9, 7, 8 (times; place n * occurrences), 5. */
period_status period_file_simulate(
    const uint8_t *bytes, size_t bytes_len,
    size_t occurrences,
    uint64_t *times, size_t times_len);

/* What the program `report` prints for the file: four lines for an answer, or the line `refused F at P` where reading or analysis refuses it;
 * that is a text and no refusal of this call. Left: in out[0..count-1] the text, without a zero byte at its end; places past these stay as
 * they were. A text has at most 16384 bytes. Refused: 8 (place: the length of the text). */
period_count period_report(const uint8_t *bytes, size_t bytes_len, uint8_t *out, size_t out_len);

/* One number in groups of seven bits at the front of the bytes: its value and how many bytes are left after it.
 * Refused, in this order: 1, 2, 3 (not from low to high); then value and rest are 0, and places count from the first of the bytes. */
period_number_result period_number(const uint8_t *bytes, size_t bytes_len, uint32_t low, uint32_t high);

/* ---- two files ---- */

/* The better of two bids: the file whose high end is lower; at equal high ends the first. The ends are those of period_file_analyse, compared
 * exactly. A file that cannot be analysed is passed over, and is no refusal of this call where the other can. The part handed back is the whole
 * of that file: it starts where the file starts, and `length` is its length. No buffer is written, and the two files may overlap.
 * Refused, where neither can be analysed, with the first file's number and place, in this order: 1 to 4 as reading goes, 5, 6, 11; then which
 * and length are 0: the empty part at the first file's start. */
period_bids_result period_bids(
    const uint8_t *first, size_t first_len,
    const uint8_t *second, size_t second_len);

#ifdef __cplusplus
}
#endif

#endif
