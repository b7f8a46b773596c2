/* SPDX-License-Identifier: MIT OR Apache-2.0 */
/* Text over the board's serial line, and words that are read. */
#ifndef BOARD_TEXT_H
#define BOARD_TEXT_H

#include <stdbool.h>
#include <stdint.h>

void put_text(const char *text);
void put_hex(uint64_t value, unsigned digits); /* upper case, with so many digits */
void put_number(uint64_t value);               /* upper case, with no leading zeros */
void put_decimal(uint64_t value);
bool same_text(const char *one, const char *other);

/* Reads the word at *at, ends before a space, LF or NUL, and moves *at behind it and one space: whether it is hexadecimal. */
bool take_hex(const char **at, uint64_t *value, unsigned *digits);

/* Whether the word at *at is this one: moves *at behind it and one space. */
bool take_word(const char **at, const char *word);

/* Ends the board's run: says why where it is no good end, and turns the board off. */
_Noreturn void stop(const char *why);
_Noreturn void end_well(void);

#endif
