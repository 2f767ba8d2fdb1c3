/* Reads records of a class byte, x, y and hypot(x, y) as little-endian
   doubles, and compares the answer with MPFR's, rounded to nearest with the
   exponent range of doubles. Infinity beside a NaN is infinity there too. */
#include <math.h>
#include <mpfr.h>
#include <stdint.h>
#include <stdio.h>
#include <string.h>

static double root(mpfr_t a, mpfr_t b, mpfr_t r, double x, double y) {
    mpfr_set_d(a, x, MPFR_RNDN);
    mpfr_set_d(b, y, MPFR_RNDN);
    int inexact = mpfr_hypot(r, a, b, MPFR_RNDN);
    mpfr_subnormalize(r, inexact, MPFR_RNDN);
    return mpfr_get_d(r, MPFR_RNDN);
}

int main(void) {
    unsigned char record[25];
    uint64_t count[10] = {0}, unequal[10] = {0}, libc[10] = {0};
    mpfr_t a, b, r;
    mpfr_set_default_prec(53);
    mpfr_set_emin(-1073);
    mpfr_set_emax(1024);
    mpfr_inits(a, b, r, (mpfr_ptr)0);
    while (fread(record, 1, 25, stdin) == 25) {
        double d[3];
        memcpy(d, record + 1, 24);
        unsigned class = record[0] % 10;
        double expected = root(a, b, r, d[0], d[1]);
        int same = isnan(expected) ? isnan(d[2]) : memcmp(&expected, &d[2], 8) == 0;
        double other = hypot(d[0], d[1]);
        count[class]++;
        unequal[class] += !same;
        libc[class] += isnan(expected) ? !isnan(other) : memcmp(&expected, &other, 8) != 0;
        if (!same && unequal[class] < 4)
            printf("class %u: %a %a gives %a, MPFR %a\n", class, d[0], d[1], d[2], expected);
    }
    uint64_t sum = 0, wrong = 0;
    for (unsigned k = 0; k < 10; k++) {
        printf("class %u: pairs %llu unequal %llu (hypot of the C library: %llu)\n", k,
               (unsigned long long)count[k], (unsigned long long)unequal[k],
               (unsigned long long)libc[k]);
        sum += count[k];
        wrong += unequal[k];
    }
    printf("pairs %llu unequal %llu, MPFR %s\n", (unsigned long long)sum,
           (unsigned long long)wrong, mpfr_get_version());
    mpfr_clears(a, b, r, (mpfr_ptr)0);
    return wrong != 0 || sum == 0;
}
