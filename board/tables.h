/* SPDX-License-Identifier: MIT OR Apache-2.0 */
/* The processor's side of the machine's stage 2 tables: which are walked, and when what they said is forgotten. */
#ifndef BOARD_TABLES_H
#define BOARD_TABLES_H

#include <stdbool.h>
#include <stdint.h>

/* What may be left out, for board/run.sh to show that the comparison finds it. */
#ifndef SETTLE
#define SETTLE 1 /* translations are forgotten where the core asks for it */
#endif
#ifndef WRONG_ROOT
#define WRONG_ROOT 0 /* the partition 8001 runs with the tables of the next endpoint */
#endif

/* 1 where EL2 is the secure world's. An endpoint has two spaces of addresses there, the secure one, by VSTTBR_EL2, and the non-secure one, by
 * VTTBR_EL2: its own stage 1 chooses, by NS, and without one it has the secure one. Both are walked by the one table that the core has for
 * it: whichever it takes, it reaches what the core grants, and nothing else. The normal world is below another EL2, and nobody walks its. */
#ifndef SECURE
#define SECURE 0
#endif

/* Fields of HCR_EL2 (DDI 0487), of which each firmware says what it has while an endpoint runs: VM and TSC at least. */
#define HCR_VM (UINT64_C(1) << 0)         /* stage 2 is on */
#define HCR_INTERRUPTS (UINT64_C(7) << 3) /* FMO, IMO, AMO: interrupts go to EL2 */
#define HCR_DC (UINT64_C(1) << 12)        /* EL1 has no translation of its own, and memory is normal and write-back */
#define HCR_WAITS (UINT64_C(3) << 13)     /* TWI, TWE: WFI and WFE trap */
#define HCR_TSC (UINT64_C(1) << 19)       /* an SMC traps */
#define HCR_RW (UINT64_C(1) << 31)        /* EL1 is AArch64 */

/* Turns stage 2 on for EL1, with this HCR_EL2, and with no table of the machine walked yet. */
void begin_tables(uint64_t hcr);

/* Has EL1 walk the tables of the endpoint at a place of the manifest, whose level 1 table this is. */
void walk_tables(uint32_t place, uint64_t root);

/* What gorseplumb_settle has to do, which each firmware defines. */
void settle_tables(uint16_t endpoint, uint64_t address, uint64_t size);

/* How often translations had to be forgotten, and of how many pages. */
struct settled {
    uint64_t times, pages;
};
struct settled all_settled(void);

/* After a call: what it did is seen by whoever runs next, on each processor. */
void after_call(uint32_t function, uint32_t answer);

/* After the machine was made, and its programs stored. */
void after_boot(void);

/* What a walk of the tables that EL1 walks now says of an address: whether it may be read, and written. It asks the processor. */
bool walk_reads(uint64_t address);
bool walk_writes(uint64_t address);

#endif
