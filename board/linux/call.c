/* SPDX-License-Identifier: MIT OR Apache-2.0 */
/* Calls of endpoints: HVC and SMC, by the identifier in x0 (DEN0028). */
#include "calls.h"
#include "guest.h"
#include "tables.h"
#include "text.h"

static uint64_t calls, interrupts;

uint64_t all_calls(void) { return calls; }
uint64_t all_interrupts(void) { return interrupts; }

void begin_call(struct board *board, const struct gorseplumb_registers *registers) { record_call(board, registers); }

void end_call(struct board *board, const struct gorseplumb_registers *registers, const struct gorseplumb_outcome *outcome) {
    calls++;
    record_answer(board, registers, outcome);
    notify(&board->machine);
}

void begin_interrupt(struct board *board) { (void)board; }

/* An interrupt stops a partition alone: Linux takes its own. */
void end_interrupt(struct board *board, const struct gorseplumb_outcome *outcome) {
    (void)board;
    interrupts++;
    record_interrupt(outcome);
}

void gorseplumb_settle(uint16_t endpoint, uint64_t address, uint64_t size) { settle_tables(endpoint, address, size); }

void serve_trap(struct board *board) {
    struct context *context = &running(board)->context;
    if (running_place(board) == 0 && serve_feature(context)) return;
    if (is_ffa((uint32_t)context->x[0])) serve_call(board);
    else if (running_place(board) == 0) serve_power_call(board, context);
    else stop("a partition made a call that isn't FF-A's");
}
