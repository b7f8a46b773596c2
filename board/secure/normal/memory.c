/* SPDX-License-Identifier: MIT OR Apache-2.0 */
#include "normal.h"
#include "text.h"

#define WORDS 1024 /* of two pages */

static void try_share(void) {
    bool filled = true;
    for (uint64_t i = 0; i < WORDS; i++) *word(i) = i;
    uint64_t *x = send(FFA_MEM_SHARE, PARTITION_1, 2, 0);
    uint64_t handle = handle_in(x);
    say("FFA_MEM_SHARE of two pages", x);
    want("a share has a handle", is_success(x));
    x = request(PARTITION_1, WORK_FILL, handle, 99);
    say("a request to retrieve, fill and relinquish them", x);
    want("the partition saw what the normal world wrote", x[3] == 0 && x[4] == WORDS * (WORDS - 1) / 2);
    for (uint64_t i = 0; i < WORDS; i++) filled = filled && *word(i) == WORK_WORD(UINT64_C(99), i);
    want("and the normal world sees what it wrote", filled);
    want("the share is reclaimed", is_success(reclaim(handle, 0)));
    want("and not twice", is_error(reclaim(handle, 0), INVALID));
}

/* The core has taken the lender's right, and nothing holds the lender to it. */
static void tell_of_lent_page(void) {
    put_text("note: of a page that it has lent the normal world loads ");
    put_number(probe(PAGES));
    put_text("\n");
}

static void try_lend(void) {
    uint64_t handle = handle_in(send(FFA_MEM_LEND, PARTITION_1, 2, 1));
    uint64_t *x = request(PARTITION_1, WORK_HOLD, handle, 5);
    want("a borrower sees zeros where they were asked for", x[3] == 0 && x[4] == 0);
    want("a reclaim while it holds the pages is refused", is_error(reclaim(handle, 0), DENIED));
    tell_of_lent_page();
    want("the borrower gives them up", request(PARTITION_1, WORK_DROP, handle, 0)[3] == 0);
    want("they are reclaimed with zeros", is_success(reclaim(handle, 1)) && *word(1) == 0);
}

/* TSP sees the first byte of what it retrieves, and leaves one more there. */
static void try_tsp(uint32_t function, uint64_t asked, const char *what) {
    *word(0) = 7;
    uint64_t handle = handle_in(send(function, PARTITION_1, 2, 0));
    uint64_t *x = request(PARTITION_1, asked, handle, 0);
    say(what, x);
    want("TSP saw 7 and made 8 of it", x[3] == 8 && *word(0) == 8);
    want("and has given it up", is_success(reclaim(handle, 0)));
}

void try_memory(void) {
    if (OF_TSP) {
        try_tsp(FFA_MEM_SHARE, TSP_SHARE, "a request to TSP, of a share");
        try_tsp(FFA_MEM_LEND, TSP_LEND, "a request to TSP, of a lend");
    } else {
        try_share();
        try_lend();
    }
}
