/* Gaussian numbers over FLINT, which has none before version 3. */
#ifndef GAUSS_H
#define GAUSS_H

#include <flint/fmpz.h>
#include <flint/fmpz_poly.h>

typedef struct {
    fmpz_t re, im;
} gauss;

void init_gauss(gauss *x);
void set_norm(fmpz_t to, const gauss *x);

/* g = the greatest common divisor of the coefficients of re + i im, other than 0. */
void set_content(gauss *g, const fmpz_poly_t re, const fmpz_poly_t im);

#endif
