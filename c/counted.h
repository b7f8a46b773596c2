/* SPDX-License-Identifier: MIT OR Apache-2.0 */
/* The library's memory in a test: it counts the pieces, and refuses the one of a number. */
#ifndef GORSEPLUMB_COUNTED_H
#define GORSEPLUMB_COUNTED_H

#include <stdlib.h>
#include "gorseplumb.h"

/* How many the library has, how many times it asked since a test began to count, for how many bytes by rattle_alloc, and which time is
 * refused, none at 0. */
static size_t pieces, asked, asked_bytes, refused;

/* Of a list: its own, its pages' addresses, copies of TX, and of the machine its place, owners of pages and transactions. Of no page
 * they have so many bytes, as README.md and docs/PERFORMANCE.md say. */
enum { LIST_PIECES = 6, LIST_BYTES = 103384 };

static struct gorseplumb_block block_at(void *at) {
    static char nothing;
    return (struct gorseplumb_block){at != NULL, at != NULL ? at : &nothing};
}

struct gorseplumb_block rattle_alloc(size_t size, size_t align) {
    if (++asked == refused) return block_at(NULL);
    asked_bytes += size;
    struct gorseplumb_block got = block_at(malloc(size != 0 ? size : align));
    pieces += got.ok;
    return got;
}

struct gorseplumb_block rattle_realloc(void *block, size_t kept, size_t size, size_t align) {
    (void)kept;
    if (++asked == refused) return block_at(NULL);
    return block_at(realloc(block, size != 0 ? size : align));
}

void rattle_dealloc(void *block) {
    pieces--;
    free(block);
}

#endif
