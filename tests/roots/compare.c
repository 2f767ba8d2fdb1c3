/* Compares the proved square root with the processor's and the proved hypotenuse with MPFR's, bit for bit (a NaN with any
   NaN), over every class of cases.h. Usage: compare MILLIONS. Prints a line for each class, and the first differences. */
#include "cases.h"
#include "reference.h"
#include "roots.h"
#include <inttypes.h>
#include <stdio.h>
#include <stdlib.h>

static int differs(double a, double b) { return bits_of(a) != bits_of(b) && !(a != a && b != b); }

static uint64_t total, different;

static void line(const char *function, const char *name, uint64_t cases, uint64_t bad) {
    printf("    %s %s: %" PRIu64 " cases, %" PRIu64 " differences\n", function, name, cases, bad);
    total += cases, different += bad;
}

static void compare_sqrt(size_t c, uint64_t n) {
    uint64_t bad = 0;
    seed(1001 + c);
    for (uint64_t i = 0; i < n; i++) {
        uint64_t x = sqrt_classes[c].make(i);
        double ours = sirmolaat_sqrt(float_of(x)), theirs = hardware_sqrt(float_of(x));
        if (differs(ours, theirs) && bad++ < 5)
            printf("sqrt %016" PRIx64 ": %016" PRIx64 ", not %016" PRIx64 "\n", x, bits_of(ours), bits_of(theirs));
    }
    line("sqrt", sqrt_classes[c].name, n, bad);
}

static void compare_hypot(size_t c, uint64_t n) {
    uint64_t bad = 0;
    seed(1101 + c);
    for (uint64_t i = 0; i < n; i++) {
        struct pair p = hypot_classes[c].make(i);
        double x = float_of(p.x), y = float_of(p.y);
        double ours = sirmolaat_hypot(x, y), theirs = mpfr_hypot_of(x, y);
        if (differs(ours, theirs) && bad++ < 5)
            printf("hypot %016" PRIx64 " %016" PRIx64 ": %016" PRIx64 ", not %016" PRIx64 "\n", p.x, p.y, bits_of(ours), bits_of(theirs));
    }
    line("hypot", hypot_classes[c].name, n, bad);
}

int main(int argc, char **argv) {
    uint64_t millions = argc > 1 ? strtoull(argv[1], 0, 10) : 10;
    reference_start();
    printf("    MPFR %s\n", mpfr_get_version());
    for (size_t c = 0; c < SQRT_CLASSES; c++) compare_sqrt(c, millions * sqrt_classes[c].share);
    for (size_t c = 0; c < HYPOT_CLASSES; c++) compare_hypot(c, millions * hypot_classes[c].share);
    printf("    all: %" PRIu64 " cases, %" PRIu64 " differences\n", total, different);
    return different != 0;
}
