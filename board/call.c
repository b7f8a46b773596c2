/* SPDX-License-Identifier: MIT OR Apache-2.0 */
#include "board.h"
#include "calls.h"
#include "tables.h"
#include "text.h"

/* What may be done otherwise, for board/run.sh to show that the comparison finds it. */
#ifndef WRITE_RESUMED
#define WRITE_RESUMED 0 /* a partition that goes on has registers written */
#endif
#ifndef TELL_INTERRUPTS
#define TELL_INTERRUPTS 1 /* the core is told of interrupts; else the firmware alone answers the normal world */
#endif

static struct gorseplumb_registers first_registers(const struct context *context) {
    struct gorseplumb_registers registers;
    for (unsigned i = 0; i < 8; i++) registers.x[i] = context->x[i];
    return registers;
}

/* Another endpoint runs than who called, or was interrupted. */
static void switch_to(struct board *board, uint32_t next) {
    save_system(&running(board)->context);
    board->places[this_processor()] = next;
    load_system(&running(board)->context);
}

/* Whoever runs next has its registers: those that come with the outcome, or its own where it goes on behind an interrupt. */
static void take_outcome(struct board *board, const struct gorseplumb_outcome *outcome) {
    uint32_t next = place_of(outcome->runner);
    bool resumes = SEVERAL && outcome->kind == GORSEPLUMB_KIND_RESUMED;
    if ((outcome->kind != GORSEPLUMB_KIND_REGISTERS && !resumes) || next >= board->count) stop("the core's outcome is none of a call");
    if (next != running_place(board)) switch_to(board, next);
    if (resumes && !WRITE_RESUMED) return;
    for (unsigned i = 0; i < 8; i++) running(board)->context.x[i] = outcome->x[i];
}

/* What the core is asked next is of whoever runs on this processor. */
static void select_processor(struct board *board) {
    if (SEVERAL && !gorseplumb_select(&board->machine, this_processor())) stop("the core has no such processor");
}

static struct gorseplumb_outcome ask_core(struct board *board, const struct gorseplumb_registers *registers) {
    select_processor(board);
    if (SEVERAL) DO("dsb ish"); /* the caller may have written its TX on another processor */
    return gorseplumb_call(&board->machine, registers);
}

void serve_call(struct board *board) {
    struct gorseplumb_registers registers = first_registers(&running(board)->context);
    begin_call(board, &registers);
    struct gorseplumb_outcome outcome = ask_core(board, &registers);
    after_call((uint32_t)registers.x[0], (uint32_t)outcome.x[0]);
    end_call(board, &registers, &outcome);
    take_outcome(board, &outcome);
}

#if SEVERAL
static struct gorseplumb_outcome tell_core(struct board *board) {
    select_processor(board);
    if (TELL_INTERRUPTS) return gorseplumb_interrupt(&board->machine);
    return (struct gorseplumb_outcome){.x = {FFA_INTERRUPT, (uint64_t)running(board)->identifier << 16}};
}

void serve_interrupt(struct board *board) {
    begin_interrupt(board);
    struct gorseplumb_outcome outcome = tell_core(board);
    end_interrupt(board, &outcome);
    if (outcome.kind != GORSEPLUMB_KIND_DONE) take_outcome(board, &outcome);
}
#endif
