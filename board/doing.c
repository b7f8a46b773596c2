/* SPDX-License-Identifier: MIT OR Apache-2.0 */
#include "doing.h"
#include "exception.h"
#include "layout.h"
#include "processor.h"
#include "text.h"

_Noreturn void unexpected(struct board *board, const char *what) {
    struct endpoint *endpoint = running(board);
    put_text("< unexpected ");
    put_text(what);
    put_text(" of ");
    put_hex(endpoint->identifier, 4);
    put_exception(read_esr_el2(), read_far_el2(), endpoint->context.pc);
    stop("unexpected");
}

static void go_to(struct endpoint *endpoint, const uint32_t *place) {
    endpoint->context.pc = endpoint->program + 4 * (uint64_t)(place - program_begin);
}

void dispatch(struct endpoint *endpoint, unsigned place) {
    endpoint->context.x[16] = place;
    go_to(endpoint, program_dispatch);
}

void dispatch_access(struct endpoint *endpoint, unsigned place, enum phase phase) {
    endpoint->phase = phase;
    endpoint->context.x[1] = endpoint->operation.address;
    endpoint->context.x[2] = endpoint->operation.value;
    dispatch(endpoint, place);
}

void settle(struct endpoint *endpoint) {
    endpoint->phase = SETTLED;
    go_to(endpoint, program_next);
}

void settle_fault(struct endpoint *endpoint, const char *kind) {
    put_fault(kind);
    settle(endpoint);
}

const char *fault_of(struct board *board, uint64_t syndrome) {
    switch (status_of(syndrome)) {
    case STATUS_TRANSLATION:
        return "translation";
    case STATUS_PERMISSION:
        return "permission";
    case STATUS_ACCESS_FLAG:
        return "access-flag";
    default:
        unexpected(board, "fault");
    }
}

const char *own_fault_of(struct board *board, uint64_t syndrome, uint64_t address) {
    if (address != running(board)->operation.address) unexpected(board, "address at EL1");
    if (class_of(syndrome) == CLASS_PC_ALIGNMENT || status_of(syndrome) == STATUS_ALIGNMENT) return "alignment";
    if (status_of(syndrome) != STATUS_ADDRESS_SIZE || address >> 32 == 0) unexpected(board, "fault at EL1");
    return "translation";
}
