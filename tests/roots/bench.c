/* Times the proved square root and hypotenuse beside the processor's square root instruction, and C's sqrt and hypot or, with
   EARLIER, those of an earlier revision, in nanoseconds a call. Prints two tables in Markdown: calls that do not wait for each other, and calls each of which waits
   for the one before. A class has 2^19 arguments, since a branch predictor learns a shorter sequence by heart. The
   contenders take turns, ROUNDS of them; the arguments are timed in blocks, by processor time, and of each block the
   fastest turn counts, so that other work on the machine disturbs little. */
#include "cases.h"
#include "roots.h"
#include <emmintrin.h>
#include <stdio.h>
#include <time.h>

#define N (1 << 19)
#define ROUNDS 7
#define BLOCKS 16

static double s[N], x[N], y[N];
static volatile double sink, nothing = 0;

static double now(void) {
    struct timespec t;
    clock_gettime(CLOCK_THREAD_CPUTIME_ID, &t);
    return (double)t.tv_sec * 1e9 + (double)t.tv_nsec;
}

/* the instruction, inlined; and C's function, called */
static double instruction(double v) { return _mm_cvtsd_f64(_mm_sqrt_sd(_mm_setzero_pd(), _mm_set_sd(v))); }
#ifdef EARLIER
/* those of an earlier revision, which bench.sh gave these names, in the place of C's */
double earlier_sqrt(double), earlier_hypot(double, double);
#define THEIR "earlier"
static double (*volatile c_sqrt)(double) = earlier_sqrt;
static double (*volatile c_hypot)(double, double) = earlier_hypot;
#else
#define THEIR "C's"
static double (*volatile c_sqrt)(double) = sqrt;
static double (*volatile c_hypot)(double, double) = hypot;
#endif

/* v, but not before r is known */
static double after(double v, double r, __m128d zero) {
    return _mm_cvtsd_f64(_mm_or_pd(_mm_set_sd(v), _mm_and_pd(_mm_set_sd(r), zero)));
}

#define FREE(name, prepare, call) \
    static void name(int from, int end) { \
        uint64_t all = 0; \
        prepare; \
        for (int i = from; i < end; i++) all ^= bits_of(call); \
        sink = (double)all; \
    }
#define CHAIN(name, prepare, call) \
    static void name(int from, int end) { \
        double r = 0; \
        __m128d zero = _mm_set_sd(nothing); \
        prepare; \
        for (int i = from; i < end; i++) r = call; \
        sink = r; \
    }

FREE(free_sqrt, , sirmolaat_sqrt(s[i]))
FREE(free_instruction, , instruction(s[i]))
FREE(free_c_sqrt, double (*f)(double) = c_sqrt, f(s[i]))
FREE(free_hypot, , sirmolaat_hypot(x[i], y[i]))
FREE(free_c_hypot, double (*f)(double, double) = c_hypot, f(x[i], y[i]))
CHAIN(chain_sqrt, , sirmolaat_sqrt(after(s[i], r, zero)))
CHAIN(chain_instruction, , instruction(after(s[i], r, zero)))
CHAIN(chain_c_sqrt, double (*f)(double) = c_sqrt, f(after(s[i], r, zero)))
CHAIN(chain_hypot, , sirmolaat_hypot(after(x[i], r, zero), y[i]))
CHAIN(chain_c_hypot, double (*f)(double, double) = c_hypot, f(after(x[i], r, zero), y[i]))

#define CONTENDERS 5
static void (*const contenders[2][CONTENDERS])(int, int) = {
    {free_sqrt, free_instruction, free_c_sqrt, free_hypot, free_c_hypot},
    {chain_sqrt, chain_instruction, chain_c_sqrt, chain_hypot, chain_c_hypot},
};

static const char *const classes[] = {
    "1 to 1000", "any exponent", "subnormal", "small subnormal", "26 or 27 places apart", "exact", "near ties", "integers",
};
#define CLASSES (sizeof classes / sizeof *classes)

static double from_1(double most) { return 1 + (double)(draw() >> 11) * 0x1p-53 * most; }

static double any_finite(void) {
    for (;;) {
        double v = float_of(draw() & ~SIGN);
        if (v < 0x1p1000) return v;
    }
}

static void fill(size_t class) {
    seed(2001 + class);
    for (int i = 0; i < N; i++) {
        struct pair p;
        switch (class) {
        case 0: x[i] = from_1(999), y[i] = draw() & 1 ? from_1(999) : -from_1(999), s[i] = x[i]; break;
        case 1: x[i] = any_finite(), y[i] = any_finite(), s[i] = x[i]; break;
        case 2: x[i] = float_of(draw() & DIGITS), y[i] = float_of(draw() & DIGITS), s[i] = x[i]; break;
        case 3: x[i] = float_of(of_any_length(40)), y[i] = float_of(of_any_length(40)), s[i] = x[i]; break;
        case 4: x[i] = ldexp(from_1(1), 26 + (int)(draw() & 1)), y[i] = from_1(1), s[i] = x[i]; break;
        case 5: { double k = (double)(draw() >> 40); x[i] = 3 * k, y[i] = 4 * k, s[i] = k * k; break; }
        case 6: p = hypot_near_ties((uint64_t)i), x[i] = float_of(p.x), y[i] = float_of(p.y), s[i] = float_of(sqrt_near_ties((uint64_t)i)); break;
        case 7: x[i] = (double)(draw() >> 40), y[i] = (double)(draw() >> 40), s[i] = x[i]; break;
        }
    }
}

/* one turn of a contender, whose fastest time of each block is kept */
static void turn(void (*contender)(int, int), double *best, int first) {
    for (int b = 0; b < BLOCKS; b++) {
        double t = now();
        contender(N / BLOCKS * b, N / BLOCKS * (b + 1));
        t = now() - t;
        if (first || t < best[b]) best[b] = t;
    }
}

static double mean(const double *best) {
    double sum = 0;
    for (int b = 0; b < BLOCKS; b++) sum += best[b];
    return sum / N;
}

int main(void) {
    static double times[2][CLASSES][CONTENDERS];
    for (size_t k = 0; k < CLASSES; k++) {
        double best[2][CONTENDERS][BLOCKS];
        fill(k);
        for (int round = 0; round < ROUNDS; round++)
            for (int table = 0; table < 2; table++)
                for (int c = 0; c < CONTENDERS; c++) turn(contenders[table][c], best[table][c], round == 0);
        for (int table = 0; table < 2; table++)
            for (int c = 0; c < CONTENDERS; c++) times[table][k][c] = mean(best[table][c]);
    }
    for (int table = 0; table < 2; table++) {
        printf("\n%s\n\n", table ? "Each call waits for the one before, ns a call:" : "Calls that do not wait for each other, ns a call:");
        printf("| arguments | sqrt | instruction | " THEIR " sqrt | sqrt / " THEIR " | hypot | " THEIR " hypot | hypot / " THEIR " |\n");
        printf("|---|---:|---:|---:|---:|---:|---:|---:|\n");
        for (size_t k = 0; k < CLASSES; k++) {
            const double *b = times[table][k];
            printf("| %s | %.1f | %.1f | %.1f | %.2f | %.1f | %.1f | %.2f |\n", classes[k], b[0], b[1], b[2], b[0] / b[2], b[3], b[4], b[3] / b[4]);
        }
    }
}
