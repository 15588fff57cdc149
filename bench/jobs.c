/* Who does which job, a pass of each job over its inputs, and whether all give the same answers. */
#include "bench.h"

#include <stdio.h>
#include <string.h>

/* Where valgrind is not installed, nothing is counted. */
#if __has_include(<valgrind/callgrind.h>)
#include <valgrind/callgrind.h>
#else
#define CALLGRIND_TOGGLE_COLLECT
#endif

typedef int64_t recognise_call(const int64_t *, size_t, int64_t *, size_t);
typedef int64_t joins_call(int64_t, int64_t, int64_t, int64_t, int64_t, int64_t, int64_t *, size_t);
typedef int64_t check_call(const uint8_t *, size_t);
typedef int64_t report_call(const uint8_t *, size_t, uint8_t *, size_t);

/* What the last call gave: its area as bytes, and what it returned. */
static union {
    int64_t numbers[24];
    uint8_t text[YARD_REPORT_BYTES];
} area;
static int64_t returned;

static void recognise_one(const struct row *row, const struct curve *c) {
    returned = ((recognise_call *)row->call)(c->p, c->count, area.numbers, YARD_VERDICT_NUMBERS);
}

static void join_one(const struct row *row, const struct ends *e) {
    joins_call *call = (joins_call *)row->call;
    returned = call(e->a[0], e->a[1], e->z[0], e->z[1], e->travel[0], e->travel[1], area.numbers, YARD_JOIN_NUMBERS);
}

static void check_one(const struct row *row, const uint8_t *sheet) {
    returned = ((check_call *)row->call)(sheet, YARD_SHEET_BYTES);
}

static void report_one(const struct row *row, const uint8_t *sheet) {
    returned = ((report_call *)row->call)(sheet, YARD_SHEET_BYTES, area.text, sizeof area.text);
}

/* A sheet in parts, as a cable hands them over. Both checks have the form of the whole one, so its pass times them. */
enum { PART = 64 };

static size_t part_at(size_t at, size_t len) {
    return len - at < PART ? len - at : PART;
}

static int64_t check_in_parts(const uint8_t *s, size_t len) {
    int64_t state[YARD_PARTS_NUMBERS];
    yard_parts_start(state, YARD_PARTS_NUMBERS);
    for (size_t at = 0; at < len; at += PART)
        yard_parts_feed(state, YARD_PARTS_NUMBERS, s + at, part_at(at, len));
    return yard_parts_end(state, YARD_PARTS_NUMBERS);
}

static int64_t plain_check_in_parts(const uint8_t *s, size_t len) {
    struct plain_parts state;
    plain_parts_start(&state);
    for (size_t at = 0; at < len; at += PART)
        plain_parts_feed(&state, s + at, part_at(at, len));
    return plain_parts_end(&state);
}

/* Whether the pass makes a call on input k. */
static int has(const struct row *row, size_t k) {
    return row->takes == ANY || (row->takes & row->curves[k].is) != 0;
}

static void pass_recognise(const struct row *row) {
    for (size_t k = 0; k < CURVES; k++)
        if (has(row, k))
            recognise_one(row, &row->curves[k]);
}

static void pass_joins(const struct row *row) {
    for (size_t k = 0; k < ENDS; k++)
        join_one(row, &ends[k]);
}

static void pass_check(const struct row *row) {
    for (size_t k = 0; k < SHEETS; k++)
        check_one(row, sheets[k]);
}

static void pass_report(const struct row *row) {
    for (size_t k = 0; k < SHEETS; k++)
        report_one(row, sheets[k]);
}

#define CALL(name) (any_call *)name
#define RECOGNISERS(job, over, takes) \
    {job, "library", CALL(yard_recognise), pass_recognise, over, takes}, \
    {job, "plain", CALL(plain_recognise), pass_recognise, over, takes}, \
    {job, "plain, quick", CALL(plain_recognise_quick), pass_recognise, over, takes}, \
    {job, "plain, by legs", CALL(plain_recognise_by_legs), pass_recognise, over, takes}

/* Rows of one job stand together, the library first. */
const struct row rows[] = {
    RECOGNISERS("recognise", curves, ANY),
#ifdef WITH_FLINT
    {"recognise", "FLINT", CALL(flint_recognise), pass_recognise, curves, ANY},
#endif
    RECOGNISERS("recognise: no", curves, NO),
    RECOGNISERS("recognise: near miss", near_misses, ANY),
    RECOGNISERS("recognise: pre", curves, PRE),
    RECOGNISERS("recognise: pre, c = 1", curves, PRE_ONE),
    RECOGNISERS("recognise: pre, c > 1", curves, PRE_MORE),
    RECOGNISERS("recognise: ph", curves, PH),
    RECOGNISERS("recognise: still", curves, STILL),
    {"joins", "library", CALL(yard_joins), pass_joins, NULL, ANY},
    {"joins", "plain", CALL(plain_joins), pass_joins, NULL, ANY},
    {"sheet check", "library", CALL(yard_check), pass_check, NULL, ANY},
    {"sheet check", "plain", CALL(plain_check), pass_check, NULL, ANY},
    {"sheet check, parts of 64", "library", CALL(check_in_parts), pass_check, NULL, ANY},
    {"sheet check, parts of 64", "plain", CALL(plain_check_in_parts), pass_check, NULL, ANY},
    {"sheet check, parts of 64", "library, whole", CALL(yard_check), pass_check, NULL, ANY},
    {"report", "library", CALL(yard_report), pass_report, NULL, ANY},
    {"report", "plain", CALL(plain_report), pass_report, NULL, ANY},
};
const size_t row_count = sizeof rows / sizeof *rows;

static size_t inputs_of(const struct row *row) {
    return row->pass == pass_recognise ? CURVES : row->pass == pass_joins ? ENDS : SHEETS;
}

size_t calls_of(const struct row *row) {
    size_t calls = 0;
    for (size_t k = 0; k < inputs_of(row); k++)
        calls += (size_t)has(row, k);
    return calls;
}

static void one(const struct row *row, size_t k) {
    if (row->pass == pass_recognise)
        recognise_one(row, &row->curves[k]);
    else if (row->pass == pass_joins)
        join_one(row, &ends[k]);
    else if (row->pass == pass_check)
        check_one(row, sheets[k]);
    else
        report_one(row, sheets[k]);
}

void pass_counted(const struct row *row) {
    for (size_t k = 0; k < inputs_of(row); k++)
        if (has(row, k)) {
            CALLGRIND_TOGGLE_COLLECT;
            one(row, k);
            CALLGRIND_TOGGLE_COLLECT;
        }
}

/* One call on input k. The area is not clean before: a call that leaves some of it is found out. */
static void one_on(const struct row *row, size_t k, int junk) {
    memset(&area, junk, sizeof area);
    one(row, k);
}

static size_t area_of(const struct row *row) {
    if (row->pass == pass_report)
        return sizeof area.text;
    return sizeof(int64_t) * (row->pass == pass_recognise ? YARD_VERDICT_NUMBERS
                              : row->pass == pass_joins   ? YARD_JOIN_NUMBERS
                                                          : 0);
}

int all_agree(void) {
    uint8_t expected[sizeof area];
    const struct row *library = rows;
    for (const struct row *row = rows; row < rows + row_count; row++) {
        if (strcmp(row->who, "library") == 0)
            library = row;
        for (size_t k = 0; k < inputs_of(row); k++) {
            one_on(library, k, 1);
            int64_t count = returned;
            memcpy(expected, &area, sizeof area);
            one_on(row, k, 2);
            if (returned < 0 || returned != count || memcmp(expected, &area, area_of(row)) != 0) {
                fprintf(stderr, "bench: %s: input %zu: %s differs from the library\n", row->job, k, row->who);
                return 0;
            }
        }
    }
    return 1;
}
