/* SPDX-License-Identifier: MIT OR Apache-2.0 */
/* How the library has firmware settle what it wrote. The crates write that to a descriptor that no file has, by `write`. c/archive has the
 * linker wrap that `write` by the function below, and puts this file into the archive. So a program must have a gorseplumb_settle, and the
 * program's own `write` remains its own. */
#include <stddef.h>
#include <stdint.h>
#include "gorseplumb.h"

#define SETTLES (-0xFFA)

struct settling {
    uint64_t endpoint; /* its identifier */
    uint64_t address;
    uint64_t size;
};

void *memcpy(void *to, const void *from, size_t size);
ptrdiff_t __wrap_write(int descriptor, const void *bytes, size_t size);

ptrdiff_t __wrap_write(int descriptor, const void *bytes, size_t size) {
    struct settling asked;
    if (descriptor != SETTLES || size != sizeof asked) return -1;
    memcpy(&asked, bytes, sizeof asked);
    gorseplumb_settle((uint16_t)asked.endpoint, asked.address, asked.size);
    return (ptrdiff_t)size;
}
