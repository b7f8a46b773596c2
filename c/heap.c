/* SPDX-License-Identifier: MIT OR Apache-2.0 */
/* The memory of libgorseplumb.a over the C library's heap: the three functions that gorseplumb.h declares. Firmware puts its
 * own in their place. */
#include <stdlib.h>
#include "gorseplumb.h"

static struct gorseplumb_block block_at(void *at) {
    static char nothing;
    return (struct gorseplumb_block){at != NULL, at != NULL ? at : &nothing};
}

struct gorseplumb_block rattle_alloc(size_t size, size_t align) { return block_at(malloc(size != 0 ? size : align)); }

struct gorseplumb_block rattle_realloc(void *block, size_t kept, size_t size, size_t align) {
    (void)kept;
    return block_at(realloc(block, size != 0 ? size : align));
}

void rattle_dealloc(void *block) { free(block); }
