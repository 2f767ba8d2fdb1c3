/* The classes of arguments on which the square root and the hypotenuse are tried. Every case is a function of its
   class and its index within the run, so a run can be made again. Arguments are bit patterns, so that NaNs keep theirs. */
#ifndef CASES_H
#define CASES_H

#include <math.h>
#include <stdint.h>
#include <string.h>

static uint64_t bits_of(double x) { uint64_t b; memcpy(&b, &x, 8); return b; }
static double float_of(uint64_t b) { double x; memcpy(&x, &b, 8); return x; }

#define SIGN 0x8000000000000000u
#define INFINITE 0x7ff0000000000000u
#define QUIET 0x7ff8000000000000u
#define LARGEST 0x7fefffffffffffffu
#define HIDDEN 0x0010000000000000u
#define DIGITS 0x000fffffffffffffu

/* splitmix64. Each draw stands in a statement of its own, so that every compiler draws in the same order. */
static uint64_t state;

static void seed(uint64_t s) { state = s * 0x9e3779b97f4a7c15u; }

static uint64_t draw(void) {
    uint64_t z = state += 0x9e3779b97f4a7c15u;
    z = (z ^ z >> 30) * 0xbf58476d1ce4e5b9u;
    z = (z ^ z >> 27) * 0x94d049bb133111ebu;
    return z ^ z >> 31;
}

/* a number from a to b */
static int64_t between(int64_t a, int64_t b) { return a + (int64_t)(draw() % (uint64_t)(b - a + 1)); }

/* an odd number of at most n bits, each length as likely as another */
static uint64_t of_any_length(int n) {
    int64_t length = between(1, n);
    return draw() >> (64 - length) | 1;
}

/* a mantissa, sometimes at an end of its range, with the exponent field e */
static uint64_t with_exponent(int64_t e) {
    uint64_t m = draw() & DIGITS;
    switch (draw() % 8) {
    case 0: m = 0; break;
    case 1: m = DIGITS; break;
    case 2: m = of_any_length(52) & DIGITS; break;
    }
    return (uint64_t)e << 52 | m;
}

struct pair { uint64_t x, y; };

static struct pair make_pair(double x, double y) { return (struct pair){bits_of(x), bits_of(y)}; }

/* ---- square root */

static uint64_t sqrt_random(uint64_t i) { return i % 8 ? draw() & ~SIGN : draw(); }

/* squares of whole numbers, scaled, and their neighbours */
static uint64_t sqrt_exact(uint64_t i) {
    uint64_t k = of_any_length(26);
    return bits_of(ldexp((double)(k * k), 2 * (int)between(-511, 484))) + (i % 3) - 1;
}

/* y with y * y = r modulo 2^t, for an r that is 1 modulo 8: one digit more at each turn */
static uint64_t root_modulo(uint64_t r, int t) {
    uint64_t y = 1;
    for (int j = 3; j < t; j++)
        if ((y * y - r) >> j & 1) y += (uint64_t)1 << (j - 1);
    return y & (((uint64_t)1 << t) - 1);
}

/* Roots next to a tie: an odd y of 54 digits is a midpoint, and where y * y = x * 2^t + r for a small r the root of
   x * 2^t misses y by r / (2 y). No root is a tie. */
static uint64_t sqrt_near_ties(uint64_t i) {
    int t = 54 + (int)(i % 2);
    for (;;) {
        int64_t n = (int64_t)of_any_length(24) - 1;
        int64_t r = 8 * (draw() & 1 ? -n : n) + 1;
        uint64_t low = (uint64_t)1 << (t - 1);
        uint64_t y = root_modulo((uint64_t)r, t) & (low - 1);
        if (t == 54) y += low;
        else if (y < low / 2) y = low - y;
        __int128 square = (__int128)y * y - r;
        uint64_t x = (uint64_t)(square >> t);
        if (y >> 53 != 1 || square & (((__int128)1 << t) - 1) || x >> 53) continue;
        int s = t + 2 * (int)between(-563, 457);
        return bits_of(ldexp((double)x, s));
    }
}

static uint64_t sqrt_subnormal(uint64_t i) { return i % 4 ? of_any_length(52) & DIGITS : draw() & DIGITS; }

/* 2^-1074 to 2^1023 in turn */
static uint64_t power(uint64_t i) { i %= 2098; return i < 52 ? (uint64_t)1 << i : (i - 51) << 52; }

static uint64_t sqrt_powers(uint64_t i) { return power(i); }

/* mantissas of all ones at each exponent in turn, subnormal ones of each length too */
static uint64_t sqrt_ones(uint64_t i) { return i % 2098 < 52 ? power(i + 1) - 1 : power(i) | DIGITS; }

static const uint64_t specials[] = {
    0, 1, 2, DIGITS, HIDDEN, HIDDEN + 1, 0x3fefffffffffffffu, 0x3ff0000000000000u, 0x3ff0000000000001u, LARGEST - 1, LARGEST,
    INFINITE, INFINITE + 1, QUIET - 1, QUIET, QUIET + 1, SIGN - 1,
};
#define SPECIALS (sizeof specials / sizeof *specials)

/* zeros, infinities, NaNs, ends of ranges, each with both signs; and numbers below 0 */
static uint64_t sqrt_special(uint64_t i) {
    if (i < 2 * SPECIALS) return specials[i / 2] | (i % 2 ? SIGN : 0);
    return draw() | SIGN;
}

/* ---- hypotenuse */

/* both orders and all signs */
static struct pair turned(struct pair p) {
    uint64_t r = draw();
    if (r & 1) p.x ^= SIGN;
    if (r & 2) p.y ^= SIGN;
    return r & 4 ? (struct pair){p.y, p.x} : p;
}

/* any bits, and bits whose exponents are near enough to matter to each other */
static struct pair hypot_random(uint64_t i) {
    uint64_t x = draw(), y = draw();
    if (i % 4) {
        int64_t e = (int64_t)(x >> 52 & 2047) - between(0, 30);
        y = (y & ~INFINITE) | (uint64_t)(e < 0 ? 0 : e) << 52;
    }
    return turned((struct pair){x, y});
}

/* A Pythagorean triple whose hypotenuse is odd and of 54 digits, in p and q: an exact tie. */
static void tie(uint64_t i, uint64_t *p, uint64_t *q) {
    static const uint64_t small[][3] = {{3, 4, 5}, {5, 12, 13}, {7, 24, 25}, {15, 8, 17}, {21, 20, 29}, {9, 40, 41}, {33, 56, 65}};
    for (;;) {
        uint64_t c;
        if (i % 4) {
            uint64_t a = (uint64_t)between(1 << 26, (1 << 27) - 1), b = (uint64_t)between(1, (int64_t)a - 1);
            if (!((a + b) & 1)) continue;
            *p = a * a - b * b, *q = 2 * a * b, c = a * a + b * b;
        } else {
            const uint64_t *s = small[draw() % 7];
            uint64_t k = (draw() >> 11) / s[2] * 2 + 1;
            *p = s[0] * k, *q = s[1] * k, c = s[2] * k;
        }
        if (c >> 53 == 1 && !(*p >> 53)) return;
    }
}

static struct pair hypot_ties(uint64_t i) {
    uint64_t p, q;
    tie(i, &p, &q);
    int e = (int)between(-1074, 969);
    return turned(make_pair(ldexp((double)p, e), ldexp((double)q, e)));
}

/* Neighbours of ties; and for a midpoint c and an x below it, the y with x * x + y * y next to c * c, which covers every
   distance of the exponents at which y can decide how x is rounded. */
static struct pair hypot_near_ties(uint64_t i) {
    uint64_t p, q;
    double x, y;
    if (i % 4 == 0) {
        tie(i / 4, &p, &q);
        x = (double)p, y = (double)q;
    } else {
        uint64_t c = ((uint64_t)1 << 53) | draw() >> 11 | 1;
        uint64_t d = of_any_length(52);
        x = (double)(c - d);
        y = (double)sqrtl((long double)d * (long double)(2 * c - d));
    }
    int e = (int)between(-1000, 969);
    struct pair r = make_pair(ldexp(x, e), ldexp(y, e));
    r.y += draw() % 3 - 1;
    return turned(r);
}

/* one or two subnormal arguments; results below, at and above the smallest normal number */
static struct pair hypot_subnormal(uint64_t i) {
    uint64_t x = of_any_length(52) & DIGITS, y = of_any_length(52) & DIGITS;
    switch (i % 5) {
    case 0: break;
    case 1: x = draw() & DIGITS, y = draw() & DIGITS; break;
    case 2: y = with_exponent(between(1, 60)); break;
    case 3: x = draw() & DIGITS, y = (uint64_t)sqrtl(0x1p104L - (long double)x * (long double)x) + draw() % 5 - 2; break;
    case 4: { uint64_t k = of_any_length(49); x = 3 * k, y = 4 * k + draw() % 3 - 1; break; }
    }
    return turned((struct pair){x, y});
}

/* results next to where rounding overflows, (2^54 - 1) * 2^970, and far above it; one triple lies exactly there */
static struct pair hypot_overflow(uint64_t i) {
    if (i == 0) return make_pair(ldexp(6081690782099583.0, 970), ldexp(16956756496728720.0, 970));
    if (i % 8 < 3) {
        uint64_t a = LARGEST - draw() % 4, b = with_exponent(between(1, 2046)), c = with_exponent(2046);
        return turned((struct pair){i % 8 == 1 ? a : c, i % 8 == 2 ? a : b});
    }
    long double t = 0x1p54L - 1;
    double x = (double)(draw() >> 11) * 2;
    double y = (double)sqrtl((t - x) * (t + x));
    struct pair r = make_pair(ldexp(x, 970), ldexp(y, 970));
    if (r.y < LARGEST - 2) r.y += draw() % 5 - 2;
    return turned(r);
}

static struct pair hypot_equal(uint64_t i) {
    uint64_t x = i % 4 ? draw() : with_exponent(between(0, 2046));
    return turned((struct pair){x, x});
}

static struct pair hypot_powers(uint64_t i) {
    uint64_t k = draw() % 2098, d = (i / 4) % 64;
    return turned((struct pair){power(k), power(i % 4 || k < d ? k + d : k - d)});
}

/* every distance of the exponents from 0 to 60 in turn */
static struct pair hypot_distance(uint64_t i) {
    int64_t d = (int64_t)(i % 61), e = between(d, 2046);
    uint64_t x = with_exponent(e), y = with_exponent(e - d);
    return turned((struct pair){x, y});
}

static struct pair hypot_ones(uint64_t i) {
    int64_t d = (int64_t)(i % 61), e = between(d, 2046);
    uint64_t y = i / 61 % 2 ? DIGITS : draw() & DIGITS;
    return turned((struct pair){(uint64_t)e << 52 | DIGITS, (uint64_t)(e - d) << 52 | y});
}

/* zeros, infinities, NaNs and ends of ranges, each beside each other and with both signs */
static struct pair hypot_special(uint64_t i) {
    i %= 4 * SPECIALS * SPECIALS;
    uint64_t x = specials[i / 4 % SPECIALS], y = specials[i / 4 / SPECIALS];
    return (struct pair){x | (i & 1 ? SIGN : 0), y | (i & 2 ? SIGN : 0)};
}

/* ---- all classes: how many cases are stored, and how many of a million the comparison at scale has */

struct sqrt_class { const char *name; uint64_t (*make)(uint64_t); unsigned stored, share; };
struct hypot_class { const char *name; struct pair (*make)(uint64_t); unsigned stored, share; };

static const struct sqrt_class sqrt_classes[] = {
    {"random", sqrt_random, 6000, 400000},
    {"exact", sqrt_exact, 2400, 100000},
    {"near_ties", sqrt_near_ties, 6000, 300000},
    {"subnormal", sqrt_subnormal, 1600, 150000},
    {"powers", sqrt_powers, 2098, 20000},
    {"ones", sqrt_ones, 2098, 20000},
    {"special", sqrt_special, 256, 10000},
};

static const struct hypot_class hypot_classes[] = {
    {"random", hypot_random, 4000, 300000},
    {"ties", hypot_ties, 3000, 100000},
    {"near_ties", hypot_near_ties, 3000, 150000},
    {"subnormal", hypot_subnormal, 2400, 100000},
    {"overflow", hypot_overflow, 1400, 50000},
    {"equal", hypot_equal, 800, 40000},
    {"powers", hypot_powers, 800, 40000},
    {"distance", hypot_distance, 2440, 150000},
    {"ones", hypot_ones, 1220, 50000},
    {"special", hypot_special, 4 * SPECIALS * SPECIALS, 20000},
};

#define SQRT_CLASSES (sizeof sqrt_classes / sizeof *sqrt_classes)
#define HYPOT_CLASSES (sizeof hypot_classes / sizeof *hypot_classes)

#endif
