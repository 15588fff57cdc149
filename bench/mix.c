/* The inputs: half of the curves random and not Pythagorean, a third with a pre-image, the rest ph and still; ends
 * with 0 to 4 triples between them; full sheets of those curves; near misses. Drawn from one seed. */
#include "bench.h"

#include <string.h>

struct curve curves[CURVES];
struct curve near_misses[CURVES];
struct ends ends[ENDS];
uint8_t sheets[SHEETS][YARD_SHEET_BYTES];

typedef struct {
    int64_t re, im;
} pair;

static uint64_t draw(uint64_t below) {
    static uint64_t state = 20261115;
    state ^= state << 13;
    state ^= state >> 7;
    state ^= state << 17;
    return (state >> 11) % below;
}

static int64_t part(int64_t limit) {
    return (int64_t)draw(2 * (uint64_t)limit + 1) - limit;
}

static pair draw_pair(int64_t limit) {
    int64_t re = part(limit);
    return (pair){re, part(limit)};
}

static pair sum(pair a, pair b) {
    return (pair){a.re + b.re, a.im + b.im};
}

static pair times(pair a, int64_t k) {
    return (pair){a.re * k, a.im * k};
}

static pair product(pair a, pair b) {
    return (pair){a.re * b.re - a.im * b.im, a.re * b.im + a.im * b.re};
}

/* The points along so many legs, each times kappa. */
static void lay(struct curve *c, const pair *legs, size_t count, pair kappa) {
    pair at = draw_pair(2000);
    c->count = 2 * count + 2;
    for (size_t k = 0;; k++) {
        c->p[2 * k] = at.re;
        c->p[2 * k + 1] = at.im;
        if (k == count)
            return;
        at = sum(at, product(legs[k], kappa));
    }
}

/* The legs of w squared; a quintic's are whole in one of nine, and times three always. */
static void draw_square(struct curve *c) {
    int64_t limit = 1 + (int64_t)draw(60);
    pair w0 = draw_pair(limit), w1 = draw_pair(limit), w2 = draw_pair(limit), kappa = {1, 0};
    if (draw(2))
        kappa = draw_pair(1 + (int64_t)draw(40));
    if (c->count == YARD_CUBIC_NUMBERS) {
        pair legs[] = {product(w0, w0), product(w0, w1), product(w1, w1)};
        lay(c, legs, 3, kappa);
        return;
    }
    pair middle = sum(times(product(w1, w1), 2), product(w0, w2));
    int64_t three = middle.re % 3 == 0 && middle.im % 3 == 0 ? 1 : 3;
    pair legs[] = {times(product(w0, w0), three), times(product(w0, w1), three),
                   {middle.re * three / 3, middle.im * three / 3},
                   times(product(w1, w2), three), times(product(w2, w2), three)};
    lay(c, legs, 5, kappa);
}

/* The legs of f with real coefficients, for a quintic times those of w squared. */
static void draw_with_real_factor(struct curve *c) {
    int64_t limit = 1 + (int64_t)draw(30), f0 = part(limit), f1 = part(limit), f2 = part(limit);
    pair w0 = draw_pair(8), w1 = draw_pair(8), kappa = draw_pair(1 + (int64_t)draw(20));
    if (c->count == YARD_CUBIC_NUMBERS) {
        pair legs[] = {{f0, 0}, {f1, 0}, {f2, 0}};
        lay(c, legs, 3, kappa);
        return;
    }
    pair g0 = product(w0, w0), g1 = product(w0, w1), g2 = product(w1, w1);
    pair legs[] = {times(g0, 6 * f0), times(sum(times(g1, f0), times(g0, f1)), 3),
                   sum(sum(times(g2, f0), times(g1, 4 * f1)), times(g0, f2)),
                   times(sum(times(g2, f1), times(g1, f2)), 3), times(g2, 6 * f2)};
    lay(c, legs, 5, kappa);
}

static void draw_points(struct curve *c) {
    for (size_t k = 0; k < c->count; k++)
        c->p[k] = part(20000);
}

static void draw_still(struct curve *c) {
    for (size_t k = 0; k < c->count; k++)
        c->p[k] = k < 2 ? part(20000) : c->p[k - 2];
}

/* Notes what the curve is, and tells whether that was wanted. */
static int is(struct curve *c, int wanted) {
    int64_t out[YARD_VERDICT_NUMBERS];
    if (plain_recognise(c->p, c->count, out, YARD_VERDICT_NUMBERS) < 0)
        return 0;
    c->is = out[0] == YARD_VERDICT_STILL ? STILL
            : out[0] == YARD_VERDICT_NO  ? NO
            : out[0] == YARD_VERDICT_PH  ? PH
            : out[1] == 1                ? PRE_ONE
                                         : PRE_MORE;
    return (c->is & wanted) != 0;
}

/* A curve that is one of these; one that passes the range, or turns out otherwise, is drawn again. */
static void draw_curve(struct curve *c, int wanted) {
    void (*how)(struct curve *) = wanted == STILL ? draw_still : wanted == NO ? draw_points : wanted == PH ? draw_with_real_factor : draw_square;
    c->count = draw(2) ? YARD_CUBIC_NUMBERS : YARD_QUINTIC_NUMBERS;
    do
        how(c);
    while (!is(c, wanted));
}

static void draw_curves(void) {
    for (size_t k = 0; k < CURVES; k++)
        draw_curve(&curves[k], k % 12 < 6 ? NO : k % 12 < 10 ? PRE : k % 12 < 11 ? PH : STILL);
    for (size_t k = CURVES - 1; k > 0; k--) {
        size_t other = draw(k + 1);
        struct curve kept = curves[k];
        curves[k] = curves[other];
        curves[other] = kept;
    }
}

/* One coordinate of a point between the ends, which are where the rover has to be, is one off; of five curves four had a
 * pre-image and one was ph, as in the mix. */
static void draw_near_misses(void) {
    for (size_t k = 0; k < CURVES; k++) {
        struct curve *c = &near_misses[k];
        do {
            draw_curve(c, k % 5 < 4 ? PRE : PH);
            c->p[2 + draw(c->count - 4)] += draw(2) ? 1 : -1;
        } while (!is(c, NO));
    }
}

static void set_ends(struct ends *e, pair a, pair z, pair travel) {
    *e = (struct ends){{a.re, a.im}, {z.re, z.im}, {travel.re, travel.im}};
}

/* The ends and the travel of a small triple, half of them with a half step. 15, -18, -3 times a pair is a shape with three triples. */
static void draw_triple(struct ends *e, int64_t wanted) {
    int64_t limit = 2 + (int64_t)draw(10);
    pair w0 = draw_pair(limit), v = draw_pair(limit), w2 = draw_pair(limit);
    if (wanted == 3) {
        pair one = draw_pair(5);
        w0 = times(one, 15), v = times(one, -18), w2 = times(one, -3);
    } else if (draw(2))
        v = times(v, 2);
    else
        w0 = times(w0, 2), w2 = times(w2, 2);
    pair a = product(w0, w0), z = product(w2, w2);
    pair beside = sum(product(w0, v), product(v, w2)), middle = sum(product(v, v), times(product(w0, w2), 2));
    pair travel = sum(sum(times(sum(a, z), 6), times(beside, 3)), middle);
    pair sixth = {travel.re / 6, travel.im / 6};
    set_ends(e, a, z, wanted == 0 ? sum(sixth, draw_pair(9)) : sixth);
}

static void draw_apart(struct ends *e) {
    pair a = draw_pair(20000), z = draw_pair(20000);
    set_ends(e, a, z, draw_pair(40000));
}

/* A quarter has random ends, a quarter ends with roots and no triple, and each count an eighth. */
static void draw_ends(void) {
    int64_t out[YARD_JOIN_NUMBERS], found;
    for (size_t k = 0; k < ENDS; k++) {
        int64_t wanted = k % 8 < 4 ? 0 : (int64_t)(k % 8) - 3;
        struct ends *e = &ends[k];
        do {
            if (k % 8 < 2)
                draw_apart(e);
            else
                draw_triple(e, wanted);
            found = plain_joins(e->a[0], e->a[1], e->z[0], e->z[1], e->travel[0], e->travel[1], out, YARD_JOIN_NUMBERS);
        } while (found != wanted);
    }
}

static uint8_t *write_record(uint8_t *to, const struct curve *c) {
    *to++ = (uint8_t)(4 + 4 * c->count);
    *to++ = 0;
    *to++ = 'C';
    *to++ = c->count == YARD_CUBIC_NUMBERS ? '3' : '5';
    for (size_t k = 0; k < c->count; k++)
        for (int byte = 0; byte < 4; byte++)
            *to++ = (uint8_t)((uint64_t)c->p[k] >> (8 * byte));
    return to;
}

static uint8_t *write_header(uint8_t *to, size_t mission) {
    const uint8_t header[] = {YARD_HEADER_BYTES, 0, 'M', 'N', (uint8_t)mission, (uint8_t)(mission >> 8)};
    memcpy(to, header, sizeof header);
    return to + sizeof header;
}

/* The header, 37 cubics and 53 quintics leave two bytes of a sheet, which stay erased; no curves leave fewer. */
static void draw_sheets(void) {
    size_t next = 0;
    for (size_t k = 0; k < SHEETS; k++) {
        int left[] = {37, 53};
        memset(sheets[k], 0xFF, YARD_SHEET_BYTES);
        uint8_t *to = write_header(sheets[k], k);
        while (to < sheets[k] + YARD_SHEET_BYTES - 2) {
            const struct curve *c = &curves[next++ % CURVES];
            if (left[c->count == YARD_QUINTIC_NUMBERS]-- > 0)
                to = write_record(to, c);
        }
    }
}

void draw_inputs(void) {
    draw_curves();
    draw_ends();
    draw_sheets();
    draw_near_misses();
}
