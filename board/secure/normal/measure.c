/* SPDX-License-Identifier: MIT OR Apache-2.0 */
/* What takes how long. Before and behind each the manager is asked for the feature 0, by which its firmware counts too. */
#include "normal.h"
#include "text.h"

#define ROUNDS 1000

static uint64_t counter(void) {
    uint64_t value;
    __asm__ volatile("isb; mrs %0, cntpct_el0" : "=r"(value) : : "memory");
    return value;
}

static void ask_dispatcher(void) { ask(FFA_ID_GET, 0, 0, 0); }
static void ask_core(void) { ask(FFA_FEATURES, FFA_RXTX_MAP | WITH_64_BITS, 0, 0); }
static void ask_partition(void) { request(PARTITION_1, OF_TSP ? TSP_ECHO : WORK_ADD, 1, 2); }
static void share(void) { reclaim(handle_in(send(FFA_MEM_SHARE, PARTITION_1, 1, 0)), 0); }

static void share_and_use(void) {
    uint64_t handle = handle_in(send(FFA_MEM_SHARE, PARTITION_1, 1, 0));
    request(PARTITION_1, OF_TSP ? TSP_SHARE : WORK_FILL, handle, 0);
    reclaim(handle, 0);
}

static void measure_one(const char *what, void (*of)(void)) {
    uint64_t frequency;
    __asm__("mrs %0, cntfrq_el0" : "=r"(frequency));
    ask(FFA_FEATURES, 0, 0, 0);
    uint64_t begin = counter();
    for (unsigned i = 0; i < ROUNDS; i++) of();
    uint64_t took = counter() - begin;
    ask(FFA_FEATURES, 0, ROUNDS, 0);
    put_text("measured: ");
    put_text(what);
    put_text(" ");
    put_decimal(took * (UINT64_C(1000000000) / frequency) / ROUNDS);
    put_text("\n");
}

void measure(void) {
    measure_one("FFA_ID_GET, which the dispatcher answers:", ask_dispatcher);
    measure_one("FFA_FEATURES, which the core answers:", ask_core);
    measure_one("a direct request and its response:", ask_partition);
    measure_one("a share of a page and its reclaim:", share);
    measure_one("a share, a retrieve, a relinquish and a reclaim:", share_and_use);
}
