/* SPDX-License-Identifier: MIT OR Apache-2.0 */
/* What Linux's driver and the partitions agree on: a direct request has a word of these in x3, and what it is about behind that; its
 * answer has 0 in x3, or what the core refused. For C and for the kernel. */
#ifndef BOARD_LINUX_WORK_H
#define BOARD_LINUX_WORK_H

#define WORK_ADD 1     /* answers x4 to x7, each one more */
#define WORK_FILL 2    /* retrieves the memory of the handle x4, fills it with words of the seed x5, and relinquishes */
#define WORK_HOLD 3    /* the same, and keeps it */
#define WORK_DROP 4    /* relinquishes the memory of the handle x4 */
#define WORK_YIELD 5   /* yields x4 times, and then answers x4 */
#define WORK_NARROW 6  /* answers x4 in the form of 32 bits */
#define WORK_TAKE 7    /* x4 answers with the sum of the bytes of the message in RX, x5 with how many there are, and RX is released */
#define WORK_NOTIFY 8  /* sets the notifications x4 of the sender */
#define WORK_SPIN 9    /* goes round x4 times before it answers */
#define WORK_LISTEN 10 /* maps the buffers, for a message to find them */
#define WORK_BIND 11   /* wants the notifications x4 of the sender */
#define WORK_LOOK 12   /* x4 answers with the notifications that the normal world has set */
#define WORK_TOLD 13   /* x4 answers with those that were there when it had cycles, x5 with how many bytes of messages, since this was asked last */

/* WORK_FILL and WORK_HOLD answer with the sum of what was there in x4, and the pages in x5. Where x6 is 1 they read alone. */
#define WORK_READS 1

/* Where it has cycles and finds notifications of the normal world's, it sets the same of the normal world; a message in RX it takes. */

/* The word at a place of memory that is filled. */
#define WORK_WORD(seed, place) ((seed) ^ ((place) * 0x9E3779B97F4A7C15ULL))

#endif
