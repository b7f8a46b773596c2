/* SPDX-License-Identifier: MIT OR Apache-2.0 */
/* Aborts of stage 2. The core's tables have RAM alone, so Linux's devices abort too, and are told from the rest here. */
#include "guest.h"
#include "processor.h"
#include "text.h"

SYSTEM_REGISTER(hpfar_el2)
SYSTEM_REGISTER(vbar_el1)
SYSTEM_REGISTER(elr_el1)
SYSTEM_REGISTER(spsr_el1)
SYSTEM_REGISTER(esr_el1)
SYSTEM_REGISTER(far_el1)
SYSTEM_REGISTER(sctlr_el1)

/* Fields of a syndrome and of a saved state (DDI 0487, ESR_EL2 and SPSR_EL2). */
#define LONG_INSTRUCTION (UINT64_C(1) << 25)
#define WALK_OF_STAGE_1 (UINT64_C(1) << 7)
#define WRITE (UINT64_C(1) << 6)
#define EXTERNAL 0x10
#define MODE 0xF
#define MODE_EL0 0
#define MODE_EL1_OWN_STACK 5
#define MASKED_EL1 UINT64_C(0x3C5)
#define KEPT (UINT64_C(1) << 24 | UINT64_C(1) << 22) /* DIT and PAN stay as they are */
#define PAN (UINT64_C(1) << 22)
#define SPAN (UINT64_C(1) << 23) /* of SCTLR_EL1: an exception doesn't set PAN */

/* Where a table of vectors has synchronous exceptions. */
#define FROM_SHARED_STACK 0x000
#define FROM_OWN_STACK 0x200
#define FROM_EL0 0x400

static uint64_t vector_of(uint64_t state) {
    if ((state & MODE) == MODE_EL0) return FROM_EL0;
    return (state & MODE) == MODE_EL1_OWN_STACK ? FROM_OWN_STACK : FROM_SHARED_STACK;
}

static uint64_t external_syndrome(uint64_t syndrome, bool from_el0) {
    bool fetch = class_of(syndrome) == CLASS_FETCH_BELOW;
    uint64_t class = fetch ? (from_el0 ? CLASS_FETCH_BELOW : CLASS_FETCH_SAME) : (from_el0 ? CLASS_DATA_BELOW : CLASS_DATA_SAME);
    return class << 26 | (syndrome & LONG_INSTRUCTION) | (fetch ? 0 : syndrome & WRITE) | EXTERNAL;
}

/* Linux has an exception of its own: it reached for what isn't there, as memory behind a broken bus. The registers of EL1 are the
 * processor's while Linux runs. */
static void hand_to_linux(struct context *context, uint64_t syndrome) {
    write_esr_el1(external_syndrome(syndrome, (context->state & MODE) == MODE_EL0));
    write_far_el1(read_far_el2());
    write_elr_el1(context->pc);
    write_spsr_el1(context->state);
    context->pc = read_vbar_el1() + vector_of(context->state);
    context->state = MASKED_EL1 | (context->state & KEPT) | (read_sctlr_el1() & SPAN ? 0 : PAN);
}

/* The register holds where Linux's own translation led, for each fault that a device can give. */
static uint64_t address_of_fault(void) { return read_hpfar_el2() >> 4 << 12 | (read_far_el2() & 0xFFF); }

void serve_abort(struct board *board, uint64_t syndrome) {
    struct endpoint *endpoint = running(board);
    uint64_t address = address_of_fault();
    bool translation = status_of(syndrome) == STATUS_TRANSLATION;
    if (running_place(board) == 0 && translation && serve_device(&endpoint->context, syndrome, address)) return;
    if (translation && is_tried_again(board, address)) return;
    if (running_place(board) != 0) {
        tell(endpoint, "abort", syndrome, address);
        stop("a partition's abort");
    }
    if (syndrome & WALK_OF_STAGE_1) {
        tell(endpoint, "abort of a walk", syndrome, address);
        stop("Linux has no access to its own tables");
    }
    tell(endpoint, "external abort", syndrome, address);
    hand_to_linux(&endpoint->context, syndrome);
}
