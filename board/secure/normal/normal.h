/* SPDX-License-Identifier: MIT OR Apache-2.0 */
/* The normal world's program. It calls the manager by SMC, through TF-A's dispatcher, prints what it is answered, and says `ok` or `FAILED` of what
 * has to hold. Its partner is the partition of board/linux/partition, or, with OF_TSP, TF-A's test partition, or, with OF_OPTEE, OP-TEE. */
#ifndef BOARD_SECURE_NORMAL_H
#define BOARD_SECURE_NORMAL_H

#include <stdbool.h>
#include <stdint.h>
#include "calls.h"
#include "work.h"

#ifndef OF_TSP
#define OF_TSP 0
#endif
#ifndef OF_OPTEE
#define OF_OPTEE 0
#endif

/* What TSP knows (TF-A 2.8, bl32/tsp/tsp_ffa_main.c): it answers x4; it retrieves a share of the handle x4, adds 1 to its first byte, relinquishes,
 * and answers that byte; the same of a lend. */
#define TSP_ECHO 1
#define TSP_SHARE 3
#define TSP_LEND 5

#define NOT_SUPPORTED UINT32_C(0xFFFFFFFF)
#define INVALID UINT32_C(0xFFFFFFFE)
#define BUSY UINT32_C(0xFFFFFFFC)
#define DENIED UINT32_C(0xFFFFFFFA)

#define PARTITION_1 UINT32_C(0x8001)

/* Of the pages that the manifest gives the normal world the first two are TX and RX, and so many from here on are shared and lent. */
#define BUFFER_TX ((unsigned char *)0x48800000)
#define BUFFER_RX ((unsigned char *)0x48801000)
#define PAGES UINT64_C(0x48900000)

/* A word of them. */
static inline volatile uint64_t *word(uint64_t place) { return (volatile uint64_t *)(PAGES + 8 * place); }

/* start.S */
void call(uint64_t *x);
uint64_t probe(uint64_t address);
void fill_vectors(const uint64_t *words);
void keep_vectors(uint64_t *words);
void second_begin(void);

/* A call, and its answer, which stands until the next one. */
uint64_t *ask(uint64_t x0, uint64_t x1, uint64_t x2, uint64_t x3);

/* A direct request to a partition, with these in x3 to x5. */
uint64_t *request(uint32_t receiver, uint64_t x3, uint64_t x4, uint64_t x5);

/* Sends the first pages to a partition by FFA_MEM_SHARE or FFA_MEM_LEND: what it answers, with the handle in x2 and x3. */
uint64_t *send(uint32_t function, uint32_t receiver, uint32_t pages, uint32_t flags);

/* The handle in an answer to that, and a reclaim of its memory. */
static inline uint64_t handle_in(const uint64_t *x) { return (uint32_t)x[2] | x[3] << 32; }
uint64_t *reclaim(uint64_t handle, uint32_t flags);

static inline bool is_success(const uint64_t *x) { return (uint32_t)x[0] == FFA_SUCCESS; }
static inline bool is_error(const uint64_t *x, uint32_t code) { return (uint32_t)x[0] == FFA_ERROR && (uint32_t)x[2] == code; }

void say(const char *what, const uint64_t *x);
void want(const char *what, bool holds);

/* interrupts.c, by the timer of this processor. A partition is asked to work: `x` is what that answers; is this FFA_INTERRUPT, or what it has
 * worked? It works until it is stopped, and the interrupt is taken; it goes on; or it works to its end, and is stopped every now and then: how often. */
void begin_work(uint64_t *x, uint32_t receiver);
bool is_interrupt(const uint64_t *x, uint32_t of);
bool is_worked(const uint64_t *x);
bool stop_work(uint64_t *x, uint32_t receiver);
void go_on(uint64_t *x, uint32_t receiver);
uint64_t work_interrupted(uint64_t *x, uint32_t receiver);

/* What the program tries, in this order. */
void try_setup(void);
void try_messages(void);
void try_interrupts(void);
void try_memory(void);
void try_reach(void);
void try_two(void);
void try_optee(void);
void measure(void);

#endif
