/* SPDX-License-Identifier: MIT OR Apache-2.0 */
/* The processor as Linux and as partitions have it, and the change from one to another. */
#include "el2.h"
#include "guest.h"
#include "lock.h"
#include "processor.h"
#include "tables.h"
#include "text.h"

SYSTEM_REGISTER(cnthctl_el2)

/* The fields of registers are those of DDI 0487, under the register's name.
 *
 * HCR_EL2 while Linux runs: interrupts are Linux's, and so is stage 1. */
#define LINUX_HCR (HCR_VM | HCR_TSC | HCR_RW)

/* And while a partition runs. Interrupts would go to EL2, so the registers of the interrupt controller's processor interface that a
 * partition reaches are virtual ones, which nothing signals. */
#define PARTITION_HCR (LINUX_HCR | HCR_INTERRUPTS | HCR_DC | HCR_WAITS)

/* SCTLR_EL1 as Linux's boot protocol wants it: no translation and no caches. */
#define LINUX_SCTLR UINT64_C(0x30D00800)

/* CNTHCTL_EL2: EL1 may use the physical counter and timer (EL1PCTEN, EL1PCEN), or nothing of them. */
#define COUNTERS 3

/* Bit I of a saved state: whoever has it takes no interrupt. */
#define MASKS_INTERRUPTS (UINT64_C(1) << 7)

/* Whether a processor is Linux's now; else what is put aside of it there. */
static struct of_linux {
    bool runs;
    struct timers timers;
} of_linux[GORSEPLUMB_MOST_PROCESSORS];

/* One lock stands round all that the firmware does for an endpoint on any processor. */
static uint32_t lock;

/* What is due comes while a partition runs, if Linux could take it then: where it called with interrupts masked it would be interrupted again and
 * again. */
static void suspend_linux(struct board *board, struct of_linux *of) {
    put_aside(&of->timers);
    write_cnthctl_el2(0);
    write_hcr_el2(PARTITION_HCR);
    if (SEVERAL && (normal_world(board)->context.state & MASKS_INTERRUPTS) == 0) let_interrupts_come(&of->timers);
    of->runs = false;
}

static void resume_linux(struct of_linux *of) {
    if (SEVERAL) let_none_come();
    write_hcr_el2(LINUX_HCR);
    write_cnthctl_el2(COUNTERS);
    put_back(&of->timers);
    of->runs = true;
}

void begin_guests(struct board *board) {
    begin_el2(PARTITION_HCR);
    normal_world(board)->context.system[AT_sctlr_el1] = LINUX_SCTLR;
    load_system(&normal_world(board)->context);
}

/* The processor is made that of who runs next. */
static void change_guest(struct board *board) {
    struct of_linux *of = &of_linux[this_processor()];
    bool wants_linux = running_place(board) == 0;
    if (of->runs && !wants_linux) suspend_linux(board, of);
    if (!of->runs && wants_linux) resume_linux(of);
}

static void serve(struct board *board, uint64_t syndrome) {
    switch (class_of(syndrome)) {
    case CLASS_SMC:
        running(board)->context.pc += 4; /* one that is trapped is at the program counter still */
        serve_trap(board);
        break;
    case CLASS_HVC:
        serve_trap(board);
        break;
    case CLASS_FETCH_BELOW:
    case CLASS_DATA_BELOW:
        serve_abort(board, syndrome);
        break;
    default:
        tell(running(board), "an exception that nobody serves", syndrome, read_far_el2());
        stop("exception");
    }
}

/* Interrupts come to EL2 while a partition runs. What is due stays so, for Linux to take when it runs. */
static void tell_interrupt(struct board *board) {
    if (SEVERAL) serve_interrupt(board);
    else stop("an interrupt");
}

_Noreturn void run_guests(struct board *board) {
    for (;;) {
        change_guest(board);
        walk_tables(running_place(board), running(board)->root);
        bool interrupted = enter(&running(board)->context);
        take_lock(&lock);
        if (interrupted) tell_interrupt(board);
        else serve(board, read_esr_el2());
        release_lock(&lock);
    }
}
