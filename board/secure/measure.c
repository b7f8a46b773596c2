/* SPDX-License-Identifier: MIT OR Apache-2.0 */
/* Who has the processor for how long, where the emulator counts an instruction as a nanosecond. */
#include "calls.h"
#include "processor.h"
#include "secure.h"
#include "text.h"

#ifndef MEASURE
#define MEASURE 0
#endif

static uint64_t had[HAVING], since;
static enum having now;

void has_processor(enum having next) {
    if (!MEASURE) return;
    DO("isb");
    uint64_t at = read_cntpct_el0();
    had[now] += at - since;
    since = at;
    now = next;
}

static void put_part(const char *name, enum having of, uint64_t rounds) {
    put_text(name);
    put_decimal(had[of] * (UINT64_C(1000000000) / read_cntfrq_el0()) / rounds);
}

/* The normal world's program asks for the feature 0 before what it measures, and behind it, with the number of rounds. */
void measure_call(const struct gorseplumb_registers *registers) {
    uint64_t rounds = registers->x[2];
    if (!MEASURE || (uint32_t)registers->x[0] != FFA_FEATURES || (uint32_t)registers->x[1] != 0) return;
    if (rounds != 0) {
        put_part("measured: the core ", CORE, rounds);
        put_part(", the firmware ", FIRMWARE, rounds);
        put_part(", the partition ", PARTITION, rounds);
        put_part(", TF-A and the normal world ", NORMAL_WORLD, rounds);
        put_text("\n");
    }
    for (unsigned i = 0; i < HAVING; i++) had[i] = 0;
}
