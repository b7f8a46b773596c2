/* SPDX-License-Identifier: MIT OR Apache-2.0 */
/* Lends adjacent pages, by an address and a count, and takes them back. You need this header if your pages are one
 * array. It is C, and not proved. Each step is a call of the library, which is proved. */
#ifndef GORSEPLUMB_LENDING_H
#define GORSEPLUMB_LENDING_H

#include "gorseplumb.h"

/* Makes a list of these pages. Returns GORSEPLUMB_OK, or an answer of gorseplumb_begin_lending or gorseplumb_lend_span.
 * If the answer is not GORSEPLUMB_OK, nothing has changed. */
static inline enum gorseplumb_answer gorseplumb_lend_all(struct gorseplumb_lent *lent, struct gorseplumb_page *pages, uint32_t count) {
    struct gorseplumb_span span = {pages, count};
    enum gorseplumb_answer answer = gorseplumb_begin_lending(lent, count);
    return answer == GORSEPLUMB_OK && count != 0 ? gorseplumb_lend_span(lent, &span) : answer;
}

/* Takes pages back, and ends the list. Returns true if the list had exactly these pages in this order. */
static inline bool gorseplumb_take_all_back(struct gorseplumb_lent *lent, struct gorseplumb_page *pages, uint32_t count) {
    for (uint32_t i = count; i > 0; i--) {
        struct gorseplumb_slot slot = {false, 0};
        if (gorseplumb_take_back(lent, &slot) != GORSEPLUMB_OK || slot.at != &pages[i - 1]) return false;
    }
    return gorseplumb_end_lending(lent) == GORSEPLUMB_OK;
}

#endif
