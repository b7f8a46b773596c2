/* SPDX-License-Identifier: MIT OR Apache-2.0 */
/* Floating point by integers beside the processor's own: numbers at random, and each pair of those at which something ends. */
#include <stdbool.h>
#include <stddef.h>
#include <stdint.h>
#include <string.h>
#include "check.h"
#include "floats.h"

#define AT_RANDOM 300000
#define EXPONENT (UINT64_C(0x7FF) << 52)

static uint64_t state = 1;

static uint64_t next(void) {
    state ^= state << 13;
    state ^= state >> 7;
    state ^= state << 17;
    return state;
}

static double number_of(uint64_t bits) {
    double number;
    memcpy(&number, &bits, sizeof number);
    return number;
}

/* Whether bits are a number's, or both are none. */
static bool is(uint64_t bits, double number) {
    uint64_t wanted;
    memcpy(&wanted, &number, sizeof wanted);
    return bits == wanted || (number_of(bits) != number_of(bits) && number != number);
}

static void check_pair(uint64_t a, uint64_t b) {
    double x = number_of(a), y = number_of(b);
    CHECK(is(__adddf3(a, b), x + y));
    CHECK(is(__subdf3(a, b), x - y));
    CHECK(is(__muldf3(a, b), x * y));
    CHECK(is(__divdf3(a, b), x / y));
    CHECK((__unorddf2(a, b) != 0) == (x != x || y != y));
    CHECK((__eqdf2(a, b) == 0) == (x == y));
    CHECK((__nedf2(a, b) != 0) == (x != y));
    CHECK((__ltdf2(a, b) < 0) == (x < y));
    CHECK((__ledf2(a, b) <= 0) == (x <= y));
    CHECK((__gtdf2(a, b) > 0) == (x > y));
    CHECK((__gedf2(a, b) >= 0) == (x >= y));
}

static void check_integer(uint64_t number) {
    CHECK(is(__floatundidf(number), (double)number));
    CHECK(is(__floatdidf((int64_t)number), (double)(int64_t)number));
}

/* Zero, the least and the greatest numbers of each kind, one and its neighbours, the infinite, and none. */
static const uint64_t ends[] = {
    0, 1, 2, 0x000FFFFFFFFFFFFE, 0x000FFFFFFFFFFFFF, 0x0010000000000000, 0x0010000000000001, 0x001FFFFFFFFFFFFF,
    0x0020000000000000, 0x3CA0000000000000, 0x3FE0000000000000, 0x3FEFFFFFFFFFFFFF, 0x3FF0000000000000,
    0x3FF0000000000001, 0x4000000000000000, 0x4340000000000000, 0x433FFFFFFFFFFFFF, 0x7FD0000000000000,
    0x7FE0000000000000, 0x7FEFFFFFFFFFFFFF, 0x7FF0000000000000, 0x7FF8000000000000,
};

int main(void) {
    for (size_t i = 0; i < sizeof ends / sizeof *ends; i++) {
        for (size_t j = 0; j < sizeof ends / sizeof *ends; j++) {
            for (unsigned signs = 0; signs < 4; signs++) check_pair(ends[i] | (uint64_t)(signs & 1) << 63, ends[j] | (uint64_t)(signs >> 1) << 63);
        }
        check_integer(ends[i]);
    }
    for (unsigned i = 0; i < AT_RANDOM; i++) {
        uint64_t a = next(), b = next();
        check_pair(a, b);
        check_pair(a, (b & ~EXPONENT) | ((a + ((b % 5 - 2) << 52)) & EXPONENT)); /* of nearly one size */
        check_integer(a >> b % 64);
    }
    printf("%u pairs of numbers at random, and each pair of %u ends\n", 2 * AT_RANDOM, (unsigned)(4 * (sizeof ends / sizeof *ends)));
    return 0;
}
