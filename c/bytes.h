/* SPDX-License-Identifier: MIT OR Apache-2.0 */
/* What compiled code asks for by these names, as C has them. */
#ifndef GORSEPLUMB_BYTES_H
#define GORSEPLUMB_BYTES_H

#include <stddef.h>

void *memcpy(void *to, const void *from, size_t size);
void *memmove(void *to, const void *from, size_t size);
void *memset(void *to, int byte, size_t size);

#endif
