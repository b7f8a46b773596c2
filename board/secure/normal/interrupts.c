/* SPDX-License-Identifier: MIT OR Apache-2.0 */
/* Interrupts while a partition works: those of EL2's timer, which this program takes by hand, as EL2 masks all. What the manager is to answer is
 * FFA_INTERRUPT, with the interrupt pending still, and behind FFA_RUN the partition goes on. */
#include "normal.h"
#include "text.h"
#include "timer.h"

/* Microseconds between two interrupts, and how long the partition works, in its rounds. */
#define PERIOD 300
#define ROUNDS 4000000

/* How often at most a partition is stopped by what nobody takes. */
#define MOST_UNTAKEN 8

bool is_interrupt(const uint64_t *x, uint32_t of) { return (uint32_t)x[0] == FFA_INTERRUPT && (uint32_t)x[1] == of << 16; }

void begin_work(uint64_t *x, uint32_t receiver) {
    uint64_t asked[8] = {FFA_MSG_SEND_DIRECT_REQ | WITH_64_BITS, receiver, 0, WORK_SPIN, ROUNDS};
    for (unsigned i = 0; i < 8; i++) x[i] = asked[i];
    call(x);
}

bool is_worked(const uint64_t *x) { return (uint32_t)x[0] == (FFA_MSG_SEND_DIRECT_RESP | WITH_64_BITS) && x[3] == 0 && x[4] == ROUNDS; }

bool stop_work(uint64_t *x, uint32_t receiver) {
    set_timer(PERIOD);
    begin_work(x, receiver);
    return is_interrupt(x, receiver) && take_timer();
}

void go_on(uint64_t *x, uint32_t receiver) {
    uint64_t run[8] = {FFA_RUN, (uint64_t)receiver << 16};
    for (unsigned i = 0; i < 8; i++) x[i] = run[i];
    call(x);
}

uint64_t work_interrupted(uint64_t *x, uint32_t receiver) {
    uint64_t interrupts = 0;
    set_timer(PERIOD);
    begin_work(x, receiver);
    while (is_interrupt(x, receiver) && take_timer()) {
        interrupts++;
        set_timer(PERIOD);
        go_on(x, receiver);
    }
    stop_timer();
    return interrupts;
}

/* Meanwhile the partition is busy, and another one isn't. */
static void try_stopped(void) {
    uint64_t x[8];
    want("a partition that works is stopped", stop_work(x, PARTITION_1));
    want("it is busy then", is_error(request(PARTITION_1, WORK_ADD, 1, 2), BUSY));
    want("and another isn't", request(PARTITION_1 + 1, WORK_ADD, 1, 2)[4] == 2);
    go_on(x, PARTITION_1);
    want("it goes on, and answers", is_worked(x));
}

/* An interrupt that isn't taken, as where they are masked, doesn't stop it for good. */
static void try_untaken(void) {
    uint64_t x[8];
    unsigned times = 0;
    set_timer(PERIOD);
    for (begin_work(x, PARTITION_1); is_interrupt(x, PARTITION_1); times++) go_on(x, PARTITION_1);
    want("an interrupt that isn't taken stops it some times", times >= 1 && times <= MOST_UNTAKEN);
    want("and it answers", is_worked(x));
    want("the interrupt is pending still", take_timer());
}

void try_interrupts(void) {
    uint64_t x[8];
    begin_timer();
    uint64_t interrupts = work_interrupted(x, PARTITION_1);
    want("a timer stops a partition that works", interrupts >= 1);
    want("and it answers", is_worked(x));
    put_text("note: it was stopped ");
    put_decimal(interrupts);
    put_text(" times\n");
    try_stopped();
    try_untaken();
}
