/* SPDX-License-Identifier: MIT OR Apache-2.0 */
/* TF-A's test partition (TSP). */
#include "access.h"
#include "stand_in.h"

/* The page of the normal world's serial line, where TSP prints. No table of the library has a device, so each access faults. */
#define LINE UINT64_C(0x09000)

const bool has_stage_1 = true;

bool serve_beside(struct context *partition) { return serve_register(partition); }

bool serve_line(struct context *partition, uint64_t syndrome, uint64_t address) {
    if (!is_described(syndrome) || address >> 12 != LINE) return false;
    do_access(partition, syndrome, address);
    return true;
}

bool admit_call(uint64_t *x, uint32_t *lock) {
    (void)x;
    (void)lock;
    return true;
}

void note_run(bool runs, const uint64_t *x) {
    (void)runs;
    (void)x;
}
