/* SPDX-License-Identifier: MIT OR Apache-2.0 */
/* Faults of pages that stay. While another processor's call is on its way one of them may fault. That call has ended, as the lock is here: the
 * instruction is tried again. Where it faults again with no call since, the fault is the endpoint's. */
#include "guest.h"

static uint64_t again;

uint64_t all_tried_again(void) { return again; }

bool is_tried_again(struct board *board, uint64_t address) {
    static struct tried {
        uint64_t counter, address, calls;
    } tried[GORSEPLUMB_MOST_PROCESSORS];
    struct tried *last = &tried[this_processor()], now = {running(board)->context.pc, address, all_calls()};
    bool is_as_last = last->counter == now.counter && last->address == now.address && last->calls == now.calls;
    if (!SEVERAL || is_as_last) return false;
    *last = now;
    again++;
    return true;
}
