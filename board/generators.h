/* SPDX-License-Identifier: MIT OR Apache-2.0 */
/* The firmware's side of generators, which make up operations at EL1: what it tells them, and takes from them. */
#ifndef BOARD_GENERATORS_H
#define BOARD_GENERATORS_H

#include "board.h"

/* Begins so many operations, which are the same for the same seed. */
void begin_generators(struct board *board, uint64_t seed, uint64_t count);

/* Whether the endpoint that runs has an operation to make up. */
bool generators_go_on(void);

/* The generator of the endpoint that runs asks, or tells, by its registers. */
void serve_question(struct board *board);

/* The operation that it made up. */
struct operation take_made(struct board *board);

#endif
