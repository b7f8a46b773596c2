/* SPDX-License-Identifier: MIT OR Apache-2.0 */
/* The firmware of a secure world that TF-A boots. It is at S-EL2, partitions are at S-EL1, and TF-A's dispatcher at EL3 passes calls of the normal world.
 * It uses files of board/ and board/linux for the processor and for the library's answers. */
#ifndef BOARD_SECURE_SECURE_H
#define BOARD_SECURE_SECURE_H

#include "board.h"

/* The manifest, and the list of endpoints that place.c of board/linux reads. images.S has both. */
extern const char manifest_text[], endpoint_list[];

/* Makes this processor ready for partitions. */
void begin_partitions(void);

/* Serves a call that the normal world made on this processor: x0 to x7 of its context, which are the answer when this returns. A partition may work for
 * the call. If an interrupt of the normal world stops the partition, the answer is FFA_INTERRUPT. */
void serve_call_of_normal_world(struct board *board);

/* Runs the partition at a place for the first time, by FFA_RUN in the name of the normal world, and returns when the partition waits. If the list of
 * endpoints has an address of boot information, the partition begins with it in x0, and not with FFA_RUN (DEN0077A, 5.4). */
void serve_first_run(struct board *board, uint32_t place);

/* interrupts.c: makes this processor ready for interrupts; returns whether an interrupt of the secure world, or of the normal world, is pending. */
void begin_interrupts(void);
bool is_secure_due(void);
bool is_normal_due(void);

/* note_due notes, at a call of the normal world, whether an interrupt is pending that the normal world has not taken. is_masked returns whether the normal
 * world seems to mask its interrupts on this processor, which S-EL2 cannot see: some calls in a row came with an interrupt pending, and no timer was set
 * again. No interrupt may then stop a partition, because it would stop the partition again and again. */
void note_due(void);
bool is_masked(void);

/* Gives this processor to the normal world, and serves its calls from then on. The first processor registers where the others begin. */
_Noreturn void serve_normal_world(struct board *board, bool first);

/* Passes x0 to x17 to the dispatcher. When this returns, they are the next call. */
void to_normal_world(uint64_t *x);

/* All vector registers. They are the normal world's, except while a partition runs. The firmware uses only general registers. */
struct vectors {
    uint64_t fpcr, fpsr;
    uint64_t q[64];
};
void take_vectors(struct vectors *vectors);
void give_vectors(const struct vectors *vectors);

/* Says who has the processor from here on, in a firmware that measures. */
enum having { NORMAL_WORLD, FIRMWARE, CORE, PARTITION, HAVING };
void has_processor(enum having next);

/* If a call begins or ends a measurement, prints how long each had the processor since the last one. */
void measure_call(const struct gorseplumb_registers *registers);

#endif
