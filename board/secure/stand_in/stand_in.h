/* SPDX-License-Identifier: MIT OR Apache-2.0 */
/* What one sort of partitions needs of the firmware, and the library does not do. Each other file of this folder defines all of it, and run.sh links one:
 * none.c for the partitions of board/linux, tsp.c for TF-A's test partition, optee.c for OP-TEE. The firmware calls all functions with its lock. */
#ifndef BOARD_SECURE_STAND_IN_H
#define BOARD_SECURE_STAND_IN_H

#include "board.h"
#include "calls.h"

#define FFA_SECONDARY_EP_REGISTER UINT32_C(0xC4000087)

/* Whether the partition has a translation of its own. */
extern const bool has_stage_1;

/* Serves a call of the partition that the library does not get, and returns whether it was one. */
bool serve_beside(struct context *partition);

/* Serves an access of the partition to its serial line, and returns whether it was one. */
bool serve_line(struct context *partition, uint64_t syndrome, uint64_t address);

/* The normal world makes a call, x0 to x7. Returns whether the firmware serves it. If not, x0 to x7 are the answer. This may release the lock and take it
 * again. */
bool admit_call(uint64_t *x, uint32_t *lock);

/* A partition begins to run on this processor, or the normal world runs there again, with x0 to x7. */
void note_run(bool runs, const uint64_t *x);

/* Answers FFA_SECONDARY_EP_REGISTER with FFA_SUCCESS, and does nothing for it, since a partition has one execution context. Returns whether it was that. */
static inline bool serve_register(struct context *partition) {
    if ((uint32_t)partition->x[0] != FFA_SECONDARY_EP_REGISTER) return false;
    partition->x[0] = FFA_SUCCESS;
    for (unsigned i = 1; i < 8; i++) partition->x[i] = 0;
    return true;
}

#endif
