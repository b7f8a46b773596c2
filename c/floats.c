/* SPDX-License-Identifier: MIT OR Apache-2.0 */
/* Floating point by integers, for programs that use general registers alone: what a compiler calls there in place of the instructions. In the
 * library only the reader of TOML does, where a number has a point or an exponent, and no manifest has such a number: so it is asked of a
 * program that boots from a text. Numbers are those of IEEE 754, of 64 bits, and rounded to the nearest, to even where two are as near. What is no
 * number is told as one and the same. */
#include "floats.h"

#define SIGN (UINT64_C(1) << 63)
#define INFINITE UINT64_C(0x7FF0000000000000)
#define NOTHING UINT64_C(0x7FF8000000000000)
#define FRACTION_BITS 52
#define UNIT (UINT64_C(1) << FRACTION_BITS)
#define MOST_EXPONENT 0x7FF

/* A number that is neither zero nor infinite: fraction * 2^exponent, and the fraction has UNIT as its highest bit. */
struct parts {
    uint64_t fraction;
    int exponent;
};

static uint64_t size_of(uint64_t a) { return a & ~SIGN; }
static uint64_t sign_of(uint64_t a) { return a & SIGN; }
static int is_number(uint64_t a) { return size_of(a) <= INFINITE; }

static struct parts parts_of(uint64_t a) {
    struct parts parts = {a & (UNIT - 1), (int)(size_of(a) >> FRACTION_BITS)};
    if (parts.exponent != 0) {
        parts.fraction |= UNIT;
    } else {
        parts.exponent = 1;
        while (parts.fraction < UNIT) parts.fraction <<= 1, parts.exponent--;
    }
    return parts;
}

/* The number that is nearest to fraction * 2^(exponent - 10), where the fraction is one of 63 bits, its highest is set, and its lowest says whether
 * anything was left behind it. */
static uint64_t rounded(uint64_t sign, uint64_t fraction, int exponent) {
    uint64_t rest;
    for (; exponent < 1 && fraction > 1; exponent++) fraction = fraction >> 1 | (fraction & 1);
    if (fraction >> 62 == 0) exponent = 0;
    if (exponent >= MOST_EXPONENT) return sign | INFINITE;
    rest = fraction & 0x3FF;
    fraction >>= 10;
    if (rest > 0x200 || (rest == 0x200 && fraction & 1)) fraction++;
    /* (a fraction that comes to have one bit more makes the exponent one more) */
    return sign | (((uint64_t)exponent << FRACTION_BITS) + fraction - (exponent ? UNIT : 0));
}

/* A product of 53 bits by 53 has 105 or 106, of which the upper 63 are kept. */
uint64_t __muldf3(uint64_t a, uint64_t b) {
    uint64_t sign = sign_of(a ^ b), high, middle, low, top;
    struct parts x, y;
    int exponent;
    if (!is_number(a) || !is_number(b)) return NOTHING;
    if (size_of(a) == INFINITE || size_of(b) == INFINITE) return size_of(a) == 0 || size_of(b) == 0 ? NOTHING : sign | INFINITE;
    if (size_of(a) == 0 || size_of(b) == 0) return sign;
    x = parts_of(a), y = parts_of(b);
    x.fraction <<= 10, y.fraction <<= 11; /* 2^62 and 2^63 are their highest bits, so that the product's is 2^125 or 2^126 */
    low = (x.fraction & UINT32_MAX) * (y.fraction & UINT32_MAX);
    middle = (x.fraction >> 32) * (y.fraction & UINT32_MAX) + (low >> 32);
    top = (x.fraction & UINT32_MAX) * (y.fraction >> 32) + (middle & UINT32_MAX);
    high = (x.fraction >> 32) * (y.fraction >> 32) + (middle >> 32) + (top >> 32);
    low = top << 32 | (low & UINT32_MAX);
    exponent = x.exponent + y.exponent - 1022;
    if (high >> 62 == 0) {
        high = high << 1 | low >> 63, low <<= 1;
        exponent--;
    }
    return rounded(sign, high | (low != 0), exponent);
}

uint64_t __divdf3(uint64_t a, uint64_t b) {
    uint64_t sign = sign_of(a ^ b), rest, quotient = 0;
    struct parts x, y;
    int exponent;
    if (!is_number(a) || !is_number(b)) return NOTHING;
    if (size_of(a) == INFINITE) return size_of(b) == INFINITE ? NOTHING : sign | INFINITE;
    if (size_of(b) == 0) return size_of(a) == 0 ? NOTHING : sign | INFINITE;
    if (size_of(a) == 0 || size_of(b) == INFINITE) return sign;
    x = parts_of(a), y = parts_of(b);
    exponent = x.exponent - y.exponent + 1023;
    rest = x.fraction;
    if (rest < y.fraction) rest <<= 1, exponent--;
    for (int bit = 0; bit < 63; bit++) {
        quotient <<= 1;
        if (rest >= y.fraction) rest -= y.fraction, quotient |= 1;
        rest <<= 1;
    }
    return rounded(sign, quotient | (rest != 0), exponent);
}

/* What is left behind a shift to the right stays in the lowest bit, so that it counts in the rounding. */
uint64_t __adddf3(uint64_t a, uint64_t b) {
    struct parts x, y;
    uint64_t larger = size_of(a) < size_of(b) ? b : a, smaller = larger == a ? b : a, fraction;
    if (!is_number(a) || !is_number(b)) return NOTHING;
    if (size_of(larger) == INFINITE) return size_of(smaller) == INFINITE && a != b ? NOTHING : larger;
    if (size_of(smaller) == 0) return size_of(larger) == 0 ? a & b : larger;
    x = parts_of(larger), y = parts_of(smaller);
    x.fraction <<= 9, y.fraction <<= 9; /* 2^61 is the highest bit, and a sum's 2^62 */
    for (; y.exponent < x.exponent && y.fraction > 1; y.exponent++) y.fraction = y.fraction >> 1 | (y.fraction & 1);
    fraction = sign_of(a ^ b) ? x.fraction - y.fraction : x.fraction + y.fraction;
    if (fraction == 0) return 0;
    for (x.exponent++; fraction >> 62 == 0; x.exponent--) fraction <<= 1;
    return rounded(sign_of(larger), fraction, x.exponent);
}

uint64_t __subdf3(uint64_t a, uint64_t b) { return __adddf3(a, b ^ SIGN); }

uint64_t __floatundidf(uint64_t number) {
    int exponent = 1023 + 63;
    if (number == 0) return 0;
    while (number >> 63 == 0) number <<= 1, exponent--;
    return rounded(0, number >> 1 | (number & 1), exponent);
}

uint64_t __floatdidf(int64_t number) {
    uint64_t sign = number < 0 ? SIGN : 0;
    return sign | __floatundidf(sign ? -(uint64_t)number : (uint64_t)number);
}

/* Other than 0 where one is no number. */
int __unorddf2(uint64_t a, uint64_t b) { return !is_number(a) || !is_number(b); }

/* Less than, equal to, or greater than 0, as a is to b; `without` where one is no number. */
static int compared(uint64_t a, uint64_t b, int without) {
    if (__unorddf2(a, b)) return without;
    if (a == b || (size_of(a) | size_of(b)) == 0) return 0;
    if (sign_of(a ^ b)) return sign_of(a) ? -1 : 1;
    return (size_of(a) < size_of(b)) == !sign_of(a) ? -1 : 1;
}

int __eqdf2(uint64_t a, uint64_t b) { return compared(a, b, 1); }
int __nedf2(uint64_t a, uint64_t b) { return compared(a, b, 1); }
int __ltdf2(uint64_t a, uint64_t b) { return compared(a, b, 1); }
int __ledf2(uint64_t a, uint64_t b) { return compared(a, b, 1); }
int __gtdf2(uint64_t a, uint64_t b) { return compared(a, b, -1); }
int __gedf2(uint64_t a, uint64_t b) { return compared(a, b, -1); }
