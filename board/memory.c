/* SPDX-License-Identifier: MIT OR Apache-2.0 */
/* The memory that libgorseplumb.a asks of the firmware is that of c/array.c: a boot takes little, and no operation any. */
#include "board.h"
#include "text.h"

void gorseplumb_array_asked(void);

static bool ended;

void end_memory(void) { ended = true; }

void gorseplumb_array_asked(void) {
    if (ended) stop("an operation asks for memory");
}
