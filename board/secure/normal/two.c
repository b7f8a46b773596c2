/* SPDX-License-Identifier: MIT OR Apache-2.0 */
/* Two processors of the normal world call at once. The second is turned on for it, turns itself off, and comes once more. */
#include "bytes.h"
#include "normal.h"
#include "text.h"
#include "timer.h"

/* DEN0022, 5.1 */
#define PSCI_CPU_OFF UINT64_C(0x84000002)
#define PSCI_CPU_ON UINT64_C(0xC4000003)
#define PSCI_AFFINITY_INFO UINT64_C(0xC4000004)
#define OFF 1

#define SECOND 1
#define REQUESTS 150 /* of each, each time */
#define LONG 50      /* in one of so many the partition works until it has been stopped some times */

void second_world(void);

/* What each counts. */
static volatile struct {
    uint64_t wrong, busy, interrupts;
} counts[2];

/* What is done next, which both begin at once; and how far the second is. */
static volatile uint32_t begun, ended;
static volatile bool works;
static uint64_t stopped[8];

/* How often the second was turned on. */
static unsigned times;

/* Where a partition works for the other processor it is busy, and is asked again: how often it was. */
static uint64_t add(uint32_t receiver, uint64_t number, bool *right) {
    for (uint64_t busy = 0;; busy++) {
        uint64_t x[8] = {FFA_MSG_SEND_DIRECT_REQ | WITH_64_BITS, receiver, 0, WORK_ADD, number, 3 * number};
        call(x);
        if (is_error(x, BUSY)) continue;
        *right = x[3] == 0 && x[4] == number + 1 && x[5] == 3 * number + 1;
        return busy;
    }
}

static uint64_t work(unsigned processor, uint32_t receiver, bool *right) {
    for (uint64_t busy = 0;; busy++) {
        uint64_t x[8];
        counts[processor].interrupts += work_interrupted(x, receiver);
        if (is_error(x, BUSY)) continue;
        *right = is_worked(x);
        return busy;
    }
}

static void request_once(unsigned processor, uint32_t receiver, unsigned number) {
    bool right;
    uint64_t busy = number % LONG == 0 ? work(processor, receiver, &right) : add(receiver, 2 * number + processor, &right);
    counts[processor].wrong += !right;
    counts[processor].busy += busy;
}

/* Each has a partition for itself, and then both take turns. */
static void request_own(unsigned processor) {
    for (unsigned i = 0; i < REQUESTS; i++) request_once(processor, PARTITION_1 + processor, i);
}

static void request_both(unsigned processor) {
    for (unsigned i = 0; i < REQUESTS; i++) request_once(processor, PARTITION_1 + ((processor + i) & 1), i);
}

/* While a partition works for the first, the second has another. */
static void request_meanwhile(void) {
    bool right;
    while (works) {
        counts[SECOND].busy += add(PARTITION_1 + 1, counts[SECOND].interrupts++, &right);
        counts[SECOND].wrong += !right;
    }
}

/* What was stopped on the first goes on on the second. */
static void go_on_here(void) {
    go_on(stopped, PARTITION_1);
    counts[SECOND].wrong += !is_worked(stopped);
}

static void begin(uint32_t what) {
    for (unsigned i = 0; i < 2; i++) counts[i].wrong = counts[i].busy = counts[i].interrupts = 0;
    begun = what;
}

static void await(uint32_t what) {
    while (ended != what) continue;
    want("each answer to two processors is right", counts[0].wrong + counts[SECOND].wrong == 0);
}

void second_world(void) {
    begin_timer();
    ended = 0;
    for (uint32_t i = 1; i <= 4; i++) {
        while (begun < i) continue;
        if (i == 1) request_own(SECOND);
        if (i == 2) request_both(SECOND);
        if (i == 3) request_meanwhile();
        if (i == 4) go_on_here();
        ended = i;
    }
    counts[SECOND].wrong += !stop_work(stopped, PARTITION_1 + 1);
    call((uint64_t[8]){PSCI_CPU_OFF});
}

/* Says of what a number is, and since when the second processor is there for it. */
static void note(const char *what, const char *of, uint64_t count) {
    put_text("note: the second processor was turned on ");
    put_text(times == 1 ? "once" : "twice");
    put_text("; ");
    put_text(what);
    put_text(of);
    put_decimal(count);
    put_text("\n");
}

static void try_each(const char *what, void (*of)(unsigned processor), uint32_t number) {
    begin(number);
    of(0);
    await(number);
    note(what, ", interrupts of partitions: ", counts[0].interrupts + counts[SECOND].interrupts);
    note(what, ", calls that found a partition busy: ", counts[0].busy + counts[SECOND].busy);
}

static void try_meanwhile(void) {
    uint64_t x[8];
    works = true;
    begin(3);
    begin_work(x, PARTITION_1);
    works = false;
    counts[0].wrong += !is_worked(x);
    await(3);
    note("a partition works for the first", ", requests of the second meanwhile: ", counts[SECOND].interrupts);
    want("a partition that works for one holds up no other", counts[SECOND].interrupts >= 2 && counts[SECOND].busy == 0);
}

static void try_moved(void) {
    want("a partition that works is stopped on one processor", stop_work(stopped, PARTITION_1));
    begin(4);
    await(4);
}

static void request_from_two(void) {
    begun = 0;
    ended = UINT32_MAX;
    times++;
    want("a second processor is turned on", ask(PSCI_CPU_ON, SECOND, (uint64_t)(uintptr_t)second_begin, 0)[0] == 0);
    while (ended != 0) continue;
    try_each("each processor has a partition for itself", request_own, 1);
    want("who has a partition for itself doesn't find it busy", counts[0].busy + counts[SECOND].busy == 0);
    try_each("both take turns with two partitions", request_both, 2);
    try_meanwhile();
    try_moved();
    while (ask(PSCI_AFFINITY_INFO, SECOND, 0, 0)[0] != OFF) continue;
    want("what was stopped on a processor that is turned off", counts[SECOND].wrong == 0);
    go_on(stopped, PARTITION_1 + 1);
    want("goes on on the other", is_worked(stopped));
}

void try_two(void) {
    request_from_two();
    request_from_two();
}
