/* SPDX-License-Identifier: MIT OR Apache-2.0 */
/* Exceptions that nothing goes on behind, or that somebody is to read of. */
#ifndef BOARD_EXCEPTION_H
#define BOARD_EXCEPTION_H

#include <stdint.h>

/* The rest of a line that says whose exception it is: its syndrome, the address that it is about, and where the program was. */
void put_exception(uint64_t syndrome, uint64_t address, uint64_t counter);

#endif
