/* SPDX-License-Identifier: MIT OR Apache-2.0 */
/* A struct in memory that can only be read, for tests of questions. It moves there for a question, and what it is copied
 * from is used again for an operation. Who includes this defines _DEFAULT_SOURCE. */
#ifndef GORSEPLUMB_SHOWN_H
#define GORSEPLUMB_SHOWN_H

#include <string.h>
#include <sys/mman.h>
#include "check.h"
#include "gorseplumb.h"

static const void *read_only(const void *it, size_t size) {
    enum { ROOM = 65536 }; /* whole pages, however large they are */
    static void *place;
    if (place == NULL) {
        place = mmap(NULL, ROOM, PROT_READ | PROT_WRITE, MAP_PRIVATE | MAP_ANONYMOUS, -1, 0);
        CHECK(place != MAP_FAILED);
    }
    CHECK(mprotect(place, ROOM, PROT_READ | PROT_WRITE) == 0);
    memcpy(place, it, size);
    CHECK(mprotect(place, ROOM, PROT_READ) == 0);
    return place;
}

static const struct gorseplumb_machine *shown(const struct gorseplumb_machine *held) { return read_only(held, sizeof *held); }

#endif
