/* SPDX-License-Identifier: MIT OR Apache-2.0 */
#include "normal.h"

#define VECTOR_WORDS 64

/* A request that the partner answers, with vector registers full of the normal world's own. */
static void try_request(void) {
    static uint64_t before[VECTOR_WORDS], behind[VECTOR_WORDS];
    bool same = true;
    for (unsigned i = 0; i < VECTOR_WORDS; i++) before[i] = UINT64_C(0x1122334455667788) * (i + 1);
    fill_vectors(before);
    uint64_t *x = OF_TSP ? request(PARTITION_1, TSP_ECHO, 0x5A, 0) : request(PARTITION_1, WORK_ADD, 1, 2);
    keep_vectors(behind);
    say("a direct request", x);
    if (OF_TSP) want("TSP answers what it was sent", (uint32_t)x[3] == 0x5A);
    else want("the partition adds 1", x[3] == 0 && x[4] == 2 && x[5] == 3);
    for (unsigned i = 0; i < VECTOR_WORDS; i++) same = same && before[i] == behind[i];
    want("vector registers are the normal world's own", same);
}

/* Cycles, which the partition of board/linux takes: it yields, is run again, and answers in the end. */
static void try_cycles(void) {
    uint64_t *x = request(PARTITION_1, WORK_YIELD, 2, 0);
    say("a request to a partition that yields", x);
    want("it yields", (uint32_t)x[0] == FFA_YIELD);
    want("and again", (uint32_t)ask(FFA_RUN, (uint64_t)PARTITION_1 << 16, 0, 0)[0] == FFA_YIELD);
    x = ask(FFA_RUN, (uint64_t)PARTITION_1 << 16, 0, 0);
    say("the second FFA_RUN", x);
    want("and then answers", (uint32_t)x[0] == (FFA_MSG_SEND_DIRECT_RESP | WITH_64_BITS));
    want("another that is run waits again", (uint32_t)ask(FFA_RUN, (uint64_t)(PARTITION_1 + 1) << 16, 0, 0)[0] == FFA_MSG_WAIT);
}

void try_messages(void) {
    try_request();
    want("a request to nobody is refused", is_error(request(0x8009, 0, 0, 0), INVALID));
    want("one in a partition's name by the dispatcher", is_error(request(0x80020000 | PARTITION_1, 0, 0, 0), INVALID));
    want("one in the dispatcher's name too", is_error(request(0xFFFF0000 | PARTITION_1, 0, 0, 0), INVALID));
    if (!OF_TSP) try_cycles();
}
