/* SPDX-License-Identifier: MIT OR Apache-2.0 */
/* What an endpoint is doing, and how it ends: for run.c and fetch.c. */
#ifndef BOARD_DOING_H
#define BOARD_DOING_H

#include "board.h"

/* An exception that fits nothing that was asked for: it is printed, for the comparison to find it, and the board stops. */
_Noreturn void unexpected(struct board *board, const char *what);

/* Has the program do what its table has at a place; with the address and the value of an access. */
void dispatch(struct endpoint *endpoint, unsigned place);
void dispatch_access(struct endpoint *endpoint, unsigned place, enum phase phase);

/* What came of the operation was printed: the program asks what is next. */
void settle(struct endpoint *endpoint);
void settle_fault(struct endpoint *endpoint, const char *kind);

/* The name of a fault that stage 2 gave. */
const char *fault_of(struct board *board, uint64_t syndrome);

/* The name of a fault that EL1 gave, by its own syndrome and address: an access that isn't aligned, or an address that is too large for stage 1. */
const char *own_fault_of(struct board *board, uint64_t syndrome, uint64_t address);

/* Of a fetch: it begins; the word at its address was loaded, or can't be; a word was executed at an address. */
void begin_fetch(struct endpoint *endpoint);
void looked(struct endpoint *endpoint, bool faulted, uint32_t word);
void settle_fetch(struct board *board, uint32_t word, uint64_t address);

/* The program is back from a fetch by itself. */
void fetch_returned(struct board *board);

/* An exception while a single step is on its way. */
void serve_step(struct board *board, uint64_t syndrome);

#endif
