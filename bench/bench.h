/* What the parts of the benchmark share: the inputs, and the calls that are held against the library's. */
#ifndef BENCH_H
#define BENCH_H

#include "yard.h"

/* CURVES of the mix, and as many near misses. */
enum { CURVES = 3000, ENDS = 2000, SHEETS = 8 };

/* What a curve is; pre with c = 1, and with c above 1. A row takes some of these, or any. */
enum { STILL = 1, NO = 2, PH = 4, PRE_ONE = 8, PRE_MORE = 16, PRE = PRE_ONE | PRE_MORE, ANY = 31 };

struct curve {
    int64_t p[YARD_QUINTIC_NUMBERS];
    size_t count; /* of numbers */
    int is;
};

struct ends {
    int64_t a[2], z[2], travel[2];
};

extern struct curve curves[CURVES];
extern struct curve near_misses[CURVES];
extern struct ends ends[ENDS];
extern uint8_t sheets[SHEETS][YARD_SHEET_BYTES];

/* Fills the four above, with the same inputs in every run. */
void draw_inputs(void);

/* The plain versions in reference/src/plain; quick is with the quick refusal, by legs with the rules on legs. */
int64_t plain_recognise(const int64_t *p, size_t n, int64_t *out, size_t room);
int64_t plain_recognise_quick(const int64_t *p, size_t n, int64_t *out, size_t room);
int64_t plain_recognise_by_legs(const int64_t *p, size_t n, int64_t *out, size_t room);
int64_t plain_joins(int64_t ax, int64_t ay, int64_t zx, int64_t zy, int64_t tx, int64_t ty, int64_t *out, size_t room);
int64_t plain_check(const uint8_t *s, size_t len);
int64_t plain_report(const uint8_t *s, size_t len, uint8_t *text, size_t room);

/* The plain check of a sheet in parts has a state of its own, which needs no more than this. */
struct plain_parts {
    int64_t held[16];
};
void plain_parts_start(struct plain_parts *state);
int64_t plain_parts_feed(struct plain_parts *state, const uint8_t *part, size_t len);
int64_t plain_parts_end(struct plain_parts *state);

/* FLINT's, where it is installed. */
int64_t flint_recognise(const int64_t *p, size_t n, int64_t *out, size_t room);

/* A job as one of those who do it, and one pass of it over its inputs. */
typedef void any_call(void);
struct row {
    const char *job, *who;
    any_call *call;
    void (*pass)(const struct row *row);
    const struct curve *curves; /* that the pass is over; NULL where it is over other inputs */
    int takes;                  /* which of the curves */
};
extern const struct row rows[];
extern const size_t row_count;

/* How many calls a pass makes. */
size_t calls_of(const struct row *row);

/* A pass of which a counter of instructions sees the calls alone. */
void pass_counted(const struct row *row);

/* Whether all answers to the inputs are the same; says the first that are not. */
int all_agree(void);

#endif
