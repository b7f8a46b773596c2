/* SPDX-License-Identifier: MIT OR Apache-2.0 */
/* What compiled code asks for by these names. A compiler that isn't told otherwise may make of a loop below a call of the very function
 * that the loop is in, which never ends. This file tells it otherwise by itself, with -ffreestanding or without. */
#include "bytes.h"
#include <stdint.h>

#if defined(__clang__)
#pragma clang attribute push(__attribute__((no_builtin)), apply_to = function)
#elif defined(__GNUC__)
#pragma GCC optimize("no-tree-loop-distribute-patterns")
#else
#error "tell this compiler to make no calls of memcpy, memmove and memset of the loops below"
#endif

/* A word that may stand for bytes of anything. It is loaded and stored only where it is aligned, as a program may run where nothing else
 * is allowed. */
typedef uint64_t __attribute__((__may_alias__)) word;
#define WORD sizeof(word)

/* So many words are moved at a time, where as many are left: all are loaded before the first is stored, so that a compiler can take two
 * by one instruction, and it doesn't matter how the places overlap. */
#define GROUP (8 * WORD)

static size_t behind_word(const unsigned char *at) { return (uintptr_t)at % WORD; }

static void copy_group(unsigned char *to, const unsigned char *from) {
    const word *in = (const word *)from;
    word *out = (word *)to;
    word w0 = in[0], w1 = in[1], w2 = in[2], w3 = in[3], w4 = in[4], w5 = in[5], w6 = in[6], w7 = in[7];
    out[0] = w0, out[1] = w1, out[2] = w2, out[3] = w3, out[4] = w4, out[5] = w5, out[6] = w6, out[7] = w7;
}

/* Two places that are as far behind a word are copied by words. */
static void copy_up(unsigned char *to, const unsigned char *from, size_t size) {
    if (behind_word(to) == behind_word(from)) {
        for (; size > 0 && behind_word(to) != 0; size--) *to++ = *from++;
        for (; size >= GROUP; size -= GROUP, to += GROUP, from += GROUP) copy_group(to, from);
        for (; size >= WORD; size -= WORD, to += WORD, from += WORD) *(word *)to = *(const word *)from;
    }
    for (; size > 0; size--) *to++ = *from++;
}

/* The same from the end on: `to` and `from` are behind the last byte. */
static void copy_down(unsigned char *to, const unsigned char *from, size_t size) {
    if (behind_word(to) == behind_word(from)) {
        for (; size > 0 && behind_word(to) != 0; size--) *--to = *--from;
        for (; size >= GROUP; size -= GROUP) copy_group(to -= GROUP, from -= GROUP);
        for (; size >= WORD; size -= WORD) *(word *)(to -= WORD) = *(const word *)(from -= WORD);
    }
    for (; size > 0; size--) *--to = *--from;
}

void *memcpy(void *to, const void *from, size_t size) {
    copy_up(to, from, size);
    return to;
}

void *memmove(void *to, const void *from, size_t size) {
    if ((uintptr_t)to < (uintptr_t)from) copy_up(to, from, size);
    else copy_down((unsigned char *)to + size, (const unsigned char *)from + size, size);
    return to;
}

void *memset(void *to, int byte, size_t size) {
    unsigned char *at = to;
    word repeated = (unsigned char)byte * UINT64_C(0x0101010101010101);
    for (; size > 0 && behind_word(at) != 0; size--) *at++ = (unsigned char)byte;
    for (; size >= GROUP; size -= GROUP, at += GROUP) {
        word *out = (word *)at;
        out[0] = out[1] = out[2] = out[3] = out[4] = out[5] = out[6] = out[7] = repeated;
    }
    for (; size >= WORD; size -= WORD, at += WORD) *(word *)at = repeated;
    for (; size > 0; size--) *at++ = (unsigned char)byte;
    return to;
}

#if defined(__clang__)
#pragma clang attribute pop
#endif
