/* SPDX-License-Identifier: MIT OR Apache-2.0 */
/* For a program in which no processor walks the tables, as a test bench: nothing is to be settled. Where one does, firmware has a
 * gorseplumb_settle of its own in the place of this file. */
#include "gorseplumb.h"

void gorseplumb_settle(uint16_t endpoint, uint64_t address, uint64_t size) { (void)endpoint, (void)address, (void)size; }
