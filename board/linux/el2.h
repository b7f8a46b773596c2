/* SPDX-License-Identifier: MIT OR Apache-2.0 */
/* EL2's registers for guests: endpoints of which one at a time runs, and of which the normal world alone has timers and interrupts. */
#ifndef BOARD_LINUX_EL2_H
#define BOARD_LINUX_EL2_H

#include <stdint.h>

/* Makes a processor ready for guests, with this HCR_EL2. */
void begin_el2(uint64_t hcr);

/* The timers of EL1, and the priority above which interrupts come. While a partition runs they are put aside, so that it changes none of them, and
 * nothing comes: what is due of the normal world waits until that runs again. */
struct timers {
    uint64_t virtual_control, virtual_value, physical_control, physical_value, priority;
};
void put_aside(struct timers *of);
void put_back(const struct timers *of);

/* Or they go on: they are read, and put back as they were whatever a partition made of them. And nothing comes until then. */
void note_timers(struct timers *of);
void let_nothing_through(void);

/* In a firmware that tells the core of interrupts: what is due of the normal world, as the first of its timers, comes to EL2 though these are put
 * aside, until they are put back. */
void let_interrupts_come(const struct timers *of);
void let_none_come(void);

#endif
