/* SPDX-License-Identifier: MIT OR Apache-2.0 */
/* Calls, and the partitions at S-EL1 that serve them. */
#include "bytes.h"
#include "calls.h"
#include "el2.h"
#include "guest.h"
#include "lock.h"
#include "processor.h"
#include "secure.h"
#include "stand_in.h"
#include "tables.h"
#include "text.h"

SYSTEM_REGISTER(cnthctl_el2)
SYSTEM_REGISTER(cptr_el2)
SYSTEM_REGISTER(hpfar_el2)
SYSTEM_REGISTER(vmpidr_el2)

/* With 1 a partition leaves by itself if an interrupt of the normal world is pending (DEN0077A, managed exit): it gets a virtual FIQ, and answers its
 * request with a response that says so. With 0 the interrupt stops the partition at once. */
#ifndef MANAGED
#define MANAGED 0
#endif
#define HCR_VF (UINT64_C(1) << 6)

/* HCR_EL2 (DDI 0487) while a partition runs. DC is 0 if the partition has a translation of its own. Interrupts go to EL2, so the registers of the
 * interrupt controller's processor interface that a partition reaches are virtual ones, and only VF signals anything there. */
static uint64_t partition_hcr(void) { return HCR_VM | HCR_TSC | HCR_RW | HCR_INTERRUPTS | HCR_WAITS | (has_stage_1 ? 0 : HCR_DC); }

/* VMPIDR_EL2: the number 0 for a partition's one execution context, on whatever processor it runs. */
#define FIRST_CONTEXT (UINT64_C(1) << 31)

/* CNTHCTL_EL2: EL1 may read the counter (EL1PCTEN), and use no physical timer. */
#define COUNTER 1

/* CPTR_EL2: vector registers trap (TFP), except while a partition runs. So an instruction of the firmware that names one ends the run. */
#define VECTORS_TRAP UINT64_C(0x37FF)
#define VECTORS_DO_NOT UINT64_C(0x33FF)

#define CLASS_WAIT 0x01 /* WFI or WFE */

/* The lock around all that the library and this firmware do with the machine. A partition runs without it. */
static uint32_t lock;

static uint64_t calls;

uint64_t all_calls(void) { return calls; }

void begin_partitions(void) {
    begin_el2(partition_hcr());
    write_vmpidr_el2(FIRST_CONTEXT);
    write_cnthctl_el2(COUNTER);
    write_cptr_el2(VECTORS_TRAP);
    DO("isb");
    begin_interrupts();
}

void begin_line(void) {}

void gorseplumb_settle(uint16_t endpoint, uint64_t address, uint64_t size) { settle_tables(endpoint, address, size); }

void begin_call(struct board *board, const struct gorseplumb_registers *registers) {
    record_call(board, registers);
    measure_call(registers);
    has_processor(CORE);
}

void end_call(struct board *board, const struct gorseplumb_registers *registers, const struct gorseplumb_outcome *outcome) {
    has_processor(FIRMWARE);
    calls++;
    record_answer(board, registers, outcome);
    notify(&board->machine);
}

void begin_interrupt(struct board *board) { (void)board; }

void end_interrupt(struct board *board, const struct gorseplumb_outcome *outcome) {
    (void)board;
    record_interrupt(outcome);
}

void serve_trap(struct board *board) {
    struct context *context = &running(board)->context;
    if (serve_beside(context)) return;
    if (!is_ffa((uint32_t)context->x[0])) stop("a partition made a call that is not of FF-A");
    serve_call(board);
}

static uint64_t address_of_fault(void) { return read_hpfar_el2() >> 4 << 12 | (read_far_el2() & 0xFFF); }

static void serve_fault(struct board *board, uint64_t syndrome) {
    uint64_t address = address_of_fault();
    if (serve_line(&running(board)->context, syndrome, address)) return;
    if (status_of(syndrome) == STATUS_TRANSLATION && is_tried_again(board, address)) return;
    tell(running(board), "abort", syndrome, address);
    stop("a partition's abort");
}

static void serve(struct board *board, uint64_t syndrome) {
    struct context *context = &running(board)->context;
    switch (class_of(syndrome)) {
    case CLASS_SMC:
        context->pc += 4; /* the program counter of a trapped SMC is the SMC's own */
        serve_trap(board);
        break;
    case CLASS_HVC:
        serve_trap(board);
        break;
    case CLASS_WAIT:
        context->pc += 4;
        break;
    case CLASS_FETCH_BELOW:
    case CLASS_DATA_BELOW:
        serve_fault(board, syndrome);
        break;
    default:
        tell(running(board), "an exception that nobody serves", syndrome, read_far_el2());
        stop("exception");
    }
}

/* The partition gets a virtual FIQ, and no other interrupt until the normal world runs. */
static void ask_to_leave(void) {
    let_nothing_through();
    write_hcr_el2(partition_hcr() | HCR_VF);
    DO("isb");
}

/* An interrupt of the normal world stops the partition or has it leave. It stays pending, for the normal world to take. A partition that runs for the
 * first time has no request to answer, so it is always stopped. */
static void tell_interrupt(struct board *board, bool is_first) {
    if (is_secure_due()) stop("an interrupt of the secure world's own");
    if (MANAGED && !is_first) ask_to_leave();
    else serve_interrupt(board);
}

/* Partitions run until the normal world does, on the processor that called. */
static void run_partitions(struct board *board, bool is_first) {
    struct timers of_normal_world;
    struct vectors vectors;
    note_run(true, normal_world(board)->context.x);
    note_timers(&of_normal_world);
    if (is_masked()) let_nothing_through();
    write_cptr_el2(VECTORS_DO_NOT);
    DO("isb");
    take_vectors(&vectors);
    while (running_place(board) != 0) {
        struct context *context = &running(board)->context;
        walk_tables(running_place(board), running(board)->root);
        release_lock(&lock);
        has_processor(PARTITION);
        bool interrupted = enter(context);
        has_processor(FIRMWARE);
        take_lock(&lock);
        if (interrupted) tell_interrupt(board, is_first);
        else serve(board, read_esr_el2());
    }
    if (MANAGED) write_hcr_el2(partition_hcr());
    give_vectors(&vectors);
    write_cptr_el2(VECTORS_TRAP);
    put_back(&of_normal_world);
    DO("isb");
    note_run(false, normal_world(board)->context.x);
}

void serve_first_run(struct board *board, uint32_t place) {
    uint64_t *x = normal_world(board)->context.x, *of_partition = board->endpoints[place].context.x, information = of_partition[0];
    memcpy(x, (uint64_t[8]){FFA_RUN, (uint64_t)identifier_of(place) << 16}, 8 * sizeof *x);
    take_lock(&lock);
    serve_call(board);
    if (information != 0) memcpy(of_partition, (uint64_t[8]){information}, 8 * sizeof *x);
    if (running_place(board) != 0) run_partitions(board, true);
    release_lock(&lock);
}

void serve_call_of_normal_world(struct board *board) {
    uint64_t *x = normal_world(board)->context.x;
    take_lock(&lock);
    if (admit_call(x, &lock) && !serve_feature(&normal_world(board)->context)) serve_call(board);
    if (running_place(board) != 0) run_partitions(board, false);
    release_lock(&lock);
}
