/* SPDX-License-Identifier: MIT OR Apache-2.0 */
/* The memory of libgorseplumb.a with no C library: the three functions that gorseplumb.h declares, over an array of
 * GORSEPLUMB_ARRAY_BYTES, of which a block is given and never taken back. A block is aligned to 16. It has no lock: of all
 * machines together one call at a time, since two that overlap may get the same block. It is C11. */
#include "gorseplumb.h"

void *memcpy(void *to, const void *from, size_t size);

#ifndef GORSEPLUMB_ARRAY_BYTES
#define GORSEPLUMB_ARRAY_BYTES (1 << 20) /* lent pages are RAM, so a boot takes little */
#endif

/* A program that wants to know of each block that is asked for defines GORSEPLUMB_ARRAY_TELLS, and this function. */
#ifdef GORSEPLUMB_ARRAY_TELLS
void gorseplumb_array_asked(void);
#else
static void gorseplumb_array_asked(void) {}
#endif

static _Alignas(16) unsigned char memory[GORSEPLUMB_ARRAY_BYTES];
static size_t taken;

struct gorseplumb_block rattle_alloc(size_t size, size_t align) {
    gorseplumb_array_asked();
    size_t whole = ((size != 0 ? size : align) + 15) & ~(size_t)15;
    if (whole > sizeof memory - taken) return (struct gorseplumb_block){false, memory};
    taken += whole;
    return (struct gorseplumb_block){true, memory + taken - whole};
}

struct gorseplumb_block rattle_realloc(void *block, size_t kept, size_t size, size_t align) {
    struct gorseplumb_block moved = rattle_alloc(size, align);
    if (moved.ok) memcpy(moved.at, block, kept);
    return moved;
}

void rattle_dealloc(void *block) { (void)block; }
