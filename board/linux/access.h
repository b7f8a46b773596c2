/* SPDX-License-Identifier: MIT OR Apache-2.0 */
/* Accesses to devices, which are done in place of who made them: the syndrome of the abort says what they are. */
#ifndef BOARD_LINUX_ACCESS_H
#define BOARD_LINUX_ACCESS_H

#include "endpoint.h"
#include "processor.h"

/* Fields of a data abort's syndrome (DDI 0487, ESR_EL2): it says what the instruction was (ISV), how many bytes it asked for, and whether it
 * stored. */
static inline bool is_described(uint64_t syndrome) { return class_of(syndrome) == CLASS_DATA_BELOW && (syndrome >> 24 & 1) != 0; }
static inline unsigned size_of(uint64_t syndrome) { return 1u << (syndrome >> 22 & 3); }
static inline bool is_write(uint64_t syndrome) { return (syndrome >> 6 & 1) != 0; }

/* The register that a described access stores or loads. Register 31 is the zero register. */
uint64_t read_register(const struct context *context, uint64_t syndrome);
void write_register(struct context *context, uint64_t syndrome, uint64_t value);

/* Does one that is described, which ends its instruction: the word that was stored, or loaded. */
uint64_t do_access(struct context *context, uint64_t syndrome, uint64_t address);

#endif
