/* SPDX-License-Identifier: MIT OR Apache-2.0 */
/* A second processor that runs an endpoint of the board: it loads from, stores into and fetches from pages without end, while the first
 * runs the scene, and sees that each access gives what the core granted before or behind that moment. */
#ifndef BOARD_WATCH_H
#define BOARD_WATCH_H

#include "board.h"

/* Starts the second processor for the endpoint at a place, with so many pages from an address on, of which each is so many bytes
 * behind the one before. */
void begin_watch(struct board *board, uint32_t place, uint64_t first, uint32_t count, uint64_t step);

/* Around each operation of the first processor that may change what the second sees. One lock stands round all calls on the machine: they take
 * it and release it. The second processor takes it before it tries once more what faulted. Without a beginning the end does nothing. */
void begin_change(void);
void end_change(struct board *board);

/* Stops the second processor, and prints what it saw. */
void end_watch(void);

#endif
