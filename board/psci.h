/* SPDX-License-Identifier: MIT OR Apache-2.0 */
/* Power of the board's processors (PSCI, DEN0022), which QEMU itself answers. */
#ifndef BOARD_PSCI_H
#define BOARD_PSCI_H

#include <stdbool.h>
#include <stdint.h>

/* Has a processor that is off begin at second_start (start.S), with all that was written so far: whether it does. */
bool start_processor(uint64_t number);

#endif
