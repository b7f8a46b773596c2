/* SPDX-License-Identifier: MIT OR Apache-2.0 */
/* Operations, as lines of a trace have them, and what comes of them, as the program ffaplay prints it. */
#ifndef BOARD_OPERATION_H
#define BOARD_OPERATION_H

#include <stdbool.h>
#include <stdint.h>

/* The last two go round: until a word is loaded that is awaited, or so many times, with a store in each. No trace has a line of these, but one of
 * the last load or store. */
enum operation_kind { NOTHING, CALL, LOAD, STORE, FETCH, SHOW, AWAIT, SPIN };

struct operation {
    enum operation_kind kind;
    uint64_t address;
    unsigned size;  /* of an access: 1, 2, 4 or 8; of rounds 0, where the last isn't told */
    uint64_t value; /* of a store; what is awaited; how many times */
    uint64_t x[8];  /* of a call */
};

/* Reads the next line of a trace and moves *at behind it. A comment and an empty line are NOTHING, which the end of the text is too. A line that isn't
 * of a trace stops the board, which says its number. */
struct operation read_operation(const char **at);

/* Stops the board at a place of the scene, and says the number of that line and why. */
_Noreturn void stop_at(const char *at, const char *why);

/* An operation as a line of the trace, behind `> `. */
void put_operation(const struct operation *operation);

/* What came of one, as a line behind `< `. */
void put_registers(uint32_t runner, const uint64_t *x);
void put_resumed(uint32_t runner);
void put_data(uint64_t value, unsigned size);
void put_done(void);
void put_fault(const char *kind);

#endif
