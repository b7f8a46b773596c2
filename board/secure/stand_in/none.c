/* SPDX-License-Identifier: MIT OR Apache-2.0 */
/* The partitions of board/linux need nothing but the library. */
#include "stand_in.h"

const bool has_stage_1 = false;

bool serve_beside(struct context *partition) {
    (void)partition;
    return false;
}

bool serve_line(struct context *partition, uint64_t syndrome, uint64_t address) {
    (void)partition;
    (void)syndrome;
    (void)address;
    return false;
}

bool admit_call(uint64_t *x, uint32_t *lock) {
    (void)x;
    (void)lock;
    return true;
}

void note_run(bool runs, const uint64_t *x) {
    (void)runs;
    (void)x;
}
