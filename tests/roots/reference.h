/* The answers that the roots are held to: the processor's square root, and MPFR's hypotenuse in the format of a double. */
#ifndef REFERENCE_H
#define REFERENCE_H

#include <emmintrin.h>
#include <mpfr.h>

static double hardware_sqrt(double x) { return _mm_cvtsd_f64(_mm_sqrt_sd(_mm_setzero_pd(), _mm_set_sd(x))); }

static mpfr_t arg_x, arg_y, result;

/* 53 digits and the exponents of a double, so that MPFR rounds once, subnormal results and overflow too. */
static void reference_start(void) {
    mpfr_set_emin(-1073);
    mpfr_set_emax(1024);
    mpfr_inits2(53, arg_x, arg_y, result, (mpfr_ptr)0);
}

static double mpfr_hypot_of(double x, double y) {
    mpfr_set_d(arg_x, x, MPFR_RNDN);
    mpfr_set_d(arg_y, y, MPFR_RNDN);
    int inexact = mpfr_hypot(result, arg_x, arg_y, MPFR_RNDN);
    mpfr_subnormalize(result, inexact, MPFR_RNDN);
    return mpfr_get_d(result, MPFR_RNDN);
}

#endif
