/* Recognition as a user of FLINT would write it: N from the two parts of D, its content, the root of what is left, a
 * Gaussian divisor where the content is not 1, and w = a + ib by two more roots, since |w|^2 = q and
 * Re w^2 = a^2 - b^2. The polynomials are made once and used again in every call. */
#include "bench.h"
#include "gauss.h"

#include <string.h>

typedef struct {
    fmpz_poly_t re, im;
} gauss_poly;

static gauss_poly d, e, w;
static fmpz_poly_t n, q, t;
static gauss g;
static fmpz_t c, norm;

static void init_poly(gauss_poly *p) {
    fmpz_poly_init2(p->re, 9);
    fmpz_poly_init2(p->im, 9);
}

static void init_once(void) {
    static int done;
    if (done++)
        return;
    init_poly(&d), init_poly(&e), init_poly(&w);
    fmpz_poly_init2(n, 9), fmpz_poly_init2(q, 9), fmpz_poly_init2(t, 9);
    init_gauss(&g);
    fmpz_init(c), fmpz_init(norm);
}

/* One part of D by powers of t, from the coordinates of that part. */
static void set_part(fmpz_poly_t part, const int64_t *p, size_t count) {
    int64_t l[5];
    for (size_t j = 0; j < count / 2 - 1; j++)
        l[j] = p[2 * j + 2] - p[2 * j];
    fmpz_poly_zero(part);
    fmpz_poly_set_coeff_si(part, 0, l[0]);
    if (count == YARD_CUBIC_NUMBERS) {
        fmpz_poly_set_coeff_si(part, 1, 2 * (l[1] - l[0]));
        fmpz_poly_set_coeff_si(part, 2, l[2] - 2 * l[1] + l[0]);
        return;
    }
    fmpz_poly_set_coeff_si(part, 1, 4 * (l[1] - l[0]));
    fmpz_poly_set_coeff_si(part, 2, 6 * (l[2] - 2 * l[1] + l[0]));
    fmpz_poly_set_coeff_si(part, 3, 4 * (l[3] - 3 * l[2] + 3 * l[1] - l[0]));
    fmpz_poly_set_coeff_si(part, 4, l[4] - 4 * l[3] + 6 * l[2] - 4 * l[1] + l[0]);
}

/* Whether N = c q^2; c and q are set. FLINT's root has its leading coefficient above zero. */
static int set_speed(void) {
    fmpz_poly_sqr(n, d.re);
    fmpz_poly_sqr(t, d.im);
    fmpz_poly_add(n, n, t);
    fmpz_poly_content(c, n);
    fmpz_poly_scalar_divexact_fmpz(n, n, c);
    return fmpz_poly_sqrt(q, n);
}

/* e = d divided by g, the content of d; its norm must be c. */
static int set_quotient(void) {
    if (fmpz_is_one(c)) {
        fmpz_one(g.re);
        fmpz_zero(g.im);
        fmpz_poly_set(e.re, d.re);
        fmpz_poly_set(e.im, d.im);
        return 1;
    }
    set_content(&g, d.re, d.im);
    set_norm(norm, &g);
    if (!fmpz_equal(norm, c))
        return 0;
    fmpz_poly_scalar_mul_fmpz(e.re, d.re, g.re);
    fmpz_poly_scalar_addmul_fmpz(e.re, d.im, g.im);
    fmpz_poly_scalar_divexact_fmpz(e.re, e.re, c);
    fmpz_poly_scalar_mul_fmpz(e.im, d.im, g.re);
    fmpz_poly_scalar_submul_fmpz(e.im, d.re, g.im);
    fmpz_poly_scalar_divexact_fmpz(e.im, e.im, c);
    return 1;
}

/* Half of the root of 2 p, where it has one: p = 2 a^2 gives a. */
static int half_root(fmpz_poly_t a, fmpz_poly_t p) {
    fmpz_poly_scalar_mul_2exp(p, p, 1);
    if (!fmpz_poly_sqrt(a, p))
        return 0;
    fmpz_poly_scalar_fdiv_2exp(a, a, 1);
    return 1;
}

/* Whether x + iy is a square, that of w = a + ib: q + x = 2 a^2, q - x = 2 b^2 and y = 2ab. */
static int set_root(const fmpz_poly_t x, const fmpz_poly_t y) {
    fmpz_poly_add(t, q, x);
    if (!half_root(w.re, t))
        return 0;
    fmpz_poly_sub(t, q, x);
    if (!half_root(w.im, t))
        return 0;
    fmpz_poly_mul(t, w.re, w.im);
    fmpz_poly_scalar_mul_2exp(t, t, 1);
    if (fmpz_poly_equal(t, y))
        return 1;
    fmpz_poly_neg(w.im, w.im);
    fmpz_poly_neg(t, t);
    return fmpz_poly_equal(t, y);
}

/* Of D = g e: e = w^2, or e = i w^2 with -i e = Im e - i Re e a square, and then i goes to g. */
static int set_preimage(void) {
    if (!set_quotient())
        return 0;
    if (set_root(e.re, e.im))
        return 1;
    fmpz_poly_neg(e.re, e.re);
    fmpz_neg(g.im, g.im);
    fmpz_swap(g.re, g.im);
    return set_root(e.im, e.re);
}

static int leads_negative(int re, int im) {
    return re < 0 || (re == 0 && im < 0);
}

/* The signs of the document, for g and for the highest coefficient of w. */
static void set_signs(void) {
    if (leads_negative(fmpz_sgn(g.re), fmpz_sgn(g.im))) {
        fmpz_neg(g.re, g.re);
        fmpz_neg(g.im, g.im);
        fmpz_poly_neg(w.im, w.im);
        fmpz_poly_swap(w.re, w.im);
    }
    slong a = fmpz_poly_length(w.re), b = fmpz_poly_length(w.im);
    int re = a < b ? 0 : fmpz_sgn(fmpz_poly_lead(w.re)), im = b < a ? 0 : fmpz_sgn(fmpz_poly_lead(w.im));
    if (leads_negative(re, im)) {
        fmpz_poly_neg(w.re, w.re);
        fmpz_poly_neg(w.im, w.im);
    }
}

static void write_preimage(int64_t *out) {
    set_signs();
    out[7] = fmpz_get_si(g.re);
    out[8] = fmpz_get_si(g.im);
    for (slong j = 0; j < 3; j++) {
        out[9 + 2 * j] = fmpz_poly_get_coeff_si(w.re, j);
        out[10 + 2 * j] = fmpz_poly_get_coeff_si(w.im, j);
    }
}

/* For curves in range, and room for the answer; the library's other refusals are not done again. */
int64_t flint_recognise(const int64_t *p, size_t count, int64_t *out, size_t room) {
    init_once();
    memset(out, 0, room * sizeof *out);
    set_part(d.re, p, count);
    set_part(d.im, p + 1, count);
    if (fmpz_poly_is_zero(d.re) && fmpz_poly_is_zero(d.im))
        return YARD_VERDICT_NUMBERS;
    out[0] = YARD_VERDICT_NO;
    if (!set_speed())
        return YARD_VERDICT_NUMBERS;
    out[0] = YARD_VERDICT_PH;
    out[1] = fmpz_get_si(c);
    for (slong j = 0; j < 5; j++)
        out[2 + j] = fmpz_poly_get_coeff_si(q, j);
    if (set_preimage()) {
        out[0] = YARD_VERDICT_PRE;
        write_preimage(out);
    }
    return YARD_VERDICT_NUMBERS;
}
