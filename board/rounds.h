/* SPDX-License-Identifier: MIT OR Apache-2.0 */
/* A program that goes round and does nothing but count, in all of its registers: whatever stops it meanwhile may change none of them. */
#ifndef BOARD_ROUNDS_H
#define BOARD_ROUNDS_H

#include "endpoint.h"

/* Has the endpoint go round, as its operation says. */
void begin_rounds(struct endpoint *endpoint);

/* Whether its registers are those that it began with, and so many rounds on, as it tells itself. */
bool kept_registers(const struct endpoint *endpoint);

/* What was done in the last round, where that is to be told: an operation with what came of it. */
void put_rounds(const struct endpoint *endpoint);

/* How often all programs went round whose loops have ended. */
uint64_t all_rounds(void);

#endif
