/* The greatest common divisor of Gaussian numbers by Euclid, over FLINT. */
#include "gauss.h"

void init_gauss(gauss *x) {
    fmpz_init(x->re);
    fmpz_init(x->im);
}

void set_norm(fmpz_t to, const gauss *x) {
    fmpz_mul(to, x->re, x->re);
    fmpz_addmul(to, x->im, x->im);
}

static int is_zero(const gauss *x) {
    return fmpz_is_zero(x->re) && fmpz_is_zero(x->im);
}

/* to = x divided by h and rounded to nearest, with h's norm. */
static void nearest(gauss *to, const gauss *x, const gauss *h, const fmpz_t norm, fmpz_t half) {
    fmpz_fdiv_q_2exp(half, norm, 1);
    fmpz_mul(to->re, x->re, h->re);
    fmpz_addmul(to->re, x->im, h->im);
    fmpz_add(to->re, to->re, half);
    fmpz_fdiv_q(to->re, to->re, norm);
    fmpz_mul(to->im, x->im, h->re);
    fmpz_submul(to->im, x->re, h->im);
    fmpz_add(to->im, to->im, half);
    fmpz_fdiv_q(to->im, to->im, norm);
}

/* g = the greatest common divisor of g and h. A number of FLINT that is all zero bits is 0, and made. */
static void divide_out(gauss *g, gauss *h) {
    static gauss r;
    static fmpz_t norm, half;
    while (!is_zero(h)) {
        set_norm(norm, h);
        nearest(&r, g, h, norm, half);
        fmpz_submul(g->re, r.re, h->re);
        fmpz_addmul(g->re, r.im, h->im);
        fmpz_submul(g->im, r.re, h->im);
        fmpz_submul(g->im, r.im, h->re);
        fmpz_swap(g->re, h->re);
        fmpz_swap(g->im, h->im);
    }
}

void set_content(gauss *g, const fmpz_poly_t re, const fmpz_poly_t im) {
    static gauss h;
    slong length = FLINT_MAX(fmpz_poly_length(re), fmpz_poly_length(im));
    fmpz_zero(g->re);
    fmpz_zero(g->im);
    for (slong j = 0; j < length; j++) {
        fmpz_poly_get_coeff_fmpz(h.re, re, j);
        fmpz_poly_get_coeff_fmpz(h.im, im, j);
        divide_out(g, &h);
    }
}
