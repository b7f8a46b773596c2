/* SPDX-License-Identifier: MIT OR Apache-2.0 */
/* Tries bytes.c, whose functions have other names here, at each place within words, with each size up to two groups of words and more, and
 * each overlap: each byte of the memory is looked at, around the copy too. A sanitizer sees that no word is loaded or stored that isn't
 * aligned. */
#include <stdint.h>
#include <stdio.h>
#include <stdlib.h>
#include "bytes.h"

#define PLACES 80
#define SIZES 145
#define GUARD 16
#define BYTES (GUARD + PLACES + SIZES + GUARD)

/* Each byte of a piece of memory differs from those near it. */
static void fill(unsigned char *bytes) {
    for (unsigned i = 0; i < BYTES; i++) bytes[i] = (unsigned char)(i * 7 + 1);
}

static void check(const unsigned char *found, const unsigned char *wanted, const char *what, unsigned to, unsigned from, unsigned size) {
    for (unsigned i = 0; i < BYTES; i++) {
        if (found[i] == wanted[i]) continue;
        fprintf(stderr, "%s of %u bytes from %u to %u: byte %u\n", what, size, from, to, i);
        exit(1);
    }
}

static void try_moves(unsigned to, unsigned from, unsigned size) {
    static _Alignas(16) unsigned char before[BYTES], found[BYTES], wanted[BYTES];
    fill(before);
    fill(found);
    fill(wanted);
    for (unsigned i = 0; i < size; i++) wanted[GUARD + to + i] = before[GUARD + from + i];
    if (memcpy(found + GUARD + to, before + GUARD + from, size) != found + GUARD + to) exit(2);
    check(found, wanted, "memcpy", to, from, size);
    fill(found);
    if (memmove(found + GUARD + to, found + GUARD + from, size) != found + GUARD + to) exit(2);
    check(found, wanted, "memmove", to, from, size);
}

static void try_set(unsigned to, unsigned size) {
    static _Alignas(16) unsigned char found[BYTES], wanted[BYTES];
    fill(found);
    fill(wanted);
    for (unsigned i = 0; i < size; i++) wanted[GUARD + to + i] = 0xA5;
    if (memset(found + GUARD + to, 0x3A5, size) != found + GUARD + to) exit(2);
    check(found, wanted, "memset", to, to, size);
}

int main(void) {
    for (unsigned size = 0; size < SIZES; size++) {
        for (unsigned to = 0; to < PLACES; to++) {
            for (unsigned from = 0; from < PLACES; from++) try_moves(to, from, size);
            try_set(to, size);
        }
    }
    printf("%u places of copies, moves and fills\n", PLACES * PLACES * SIZES);
    return 0;
}
