/* SPDX-License-Identifier: MIT OR Apache-2.0 */
/* What a partition asks of the core. Each answers 0, or the code of what the core refuses. */
#ifndef BOARD_LINUX_CORE_H
#define BOARD_LINUX_CORE_H

#include <stdbool.h>
#include <stdint.h>

struct registers {
    uint64_t x[8];
};

#define PAGE_BYTES 4096

/* Where a partition has what, so many bytes from its first page on: behind its code and its stack. */
#define TX 0x4000
#define RX 0x5000
#define VARIABLES 0x6000
#define MAPPED 0x7000 /* whether the buffers are mapped */
#define TOLD 0x7008   /* what was there when it had cycles */

/* Memory that was retrieved, as the response in RX tells of it (DEN0077A, 5.11). */
struct range {
    uint64_t address;
    uint32_t pages, zero;
};

struct composite {
    uint32_t pages, ranges;
    uint64_t zero;
    struct range range[];
};

static inline const struct composite *retrieved(const unsigned char *base) { return (const struct composite *)(base + RX + 64); }

/* Of a pair of endpoints in a register: the caller's own, its partner, and the pair the other way round. */
static inline uint16_t own_of(uint64_t pair) { return (uint16_t)pair; }
static inline uint16_t partner_of(uint64_t pair) { return (uint16_t)(pair >> 16); }
static inline uint32_t swapped(uint64_t pair) { return (uint32_t)pair << 16 | (uint32_t)pair >> 16; }

/* start.S: a call with these registers, which are what it answers then. */
void call(struct registers *of);

uint32_t ask(struct registers *of);
/* Once: what was mapped stays so. */
uint32_t map_buffers(unsigned char *base);
uint32_t release(void);

/* Of a pair of who retrieves and who sent. The response stays in RX until it is released. */
uint32_t retrieve(uint64_t pair, uint64_t handle, unsigned char *base);
uint32_t relinquish(uint64_t pair, uint64_t handle, unsigned char *base);

#endif
