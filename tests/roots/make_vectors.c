/* Writes the stored cases: for each class a file of records, arguments and answer, each 8 bytes, the least significant
   first. A NaN answer is stored as 0x7ff8000000000000. Usage: make_vectors DIRECTORY-FOR-SQRT DIRECTORY-FOR-HYPOT */
#include "cases.h"
#include "reference.h"
#include <stdio.h>
#include <stdlib.h>

static FILE *start(const char *directory, const char *name, uint64_t s) {
    char path[4096];
    snprintf(path, sizeof path, "%s/%s", directory, name);
    FILE *f = fopen(path, "wb");
    if (!f) { perror(path); exit(1); }
    seed(s);
    return f;
}

static void put(FILE *f, uint64_t n) {
    unsigned char b[8];
    for (int i = 0; i < 8; i++) b[i] = (unsigned char)(n >> 8 * i);
    if (fwrite(b, 8, 1, f) != 1) { perror("write"); exit(1); }
}

static uint64_t answer(double x) { return x != x ? QUIET : bits_of(x); }

static void finish(FILE *f) {
    if (fclose(f)) { perror("close"); exit(1); }
}

int main(int argc, char **argv) {
    if (argc != 3) return 1;
    reference_start();
    for (size_t c = 0; c < SQRT_CLASSES; c++) {
        FILE *f = start(argv[1], sqrt_classes[c].name, 1 + c);
        for (uint64_t i = 0; i < sqrt_classes[c].stored; i++) {
            uint64_t x = sqrt_classes[c].make(i);
            put(f, x);
            put(f, answer(hardware_sqrt(float_of(x))));
        }
        finish(f);
    }
    for (size_t c = 0; c < HYPOT_CLASSES; c++) {
        FILE *f = start(argv[2], hypot_classes[c].name, 101 + c);
        for (uint64_t i = 0; i < hypot_classes[c].stored; i++) {
            struct pair p = hypot_classes[c].make(i);
            put(f, p.x);
            put(f, p.y);
            put(f, answer(mpfr_hypot_of(float_of(p.x), float_of(p.y))));
        }
        finish(f);
    }
}
