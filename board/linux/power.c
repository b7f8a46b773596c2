/* SPDX-License-Identifier: MIT OR Apache-2.0 */
/* What Linux asks of firmware beside FF-A: versions and power (PSCI, DEN0022; SMCCC, DEN0028). There is one processor, which runs, or the firmware has
 * QEMU start others. */
#include "guest.h"
#include "psci.h"
#include "tables.h"
#include "text.h"

#define NOT_SUPPORTED UINT64_MAX
#define INVALID_PARAMETERS (UINT64_MAX - 1)
#define ALREADY_ON (UINT64_MAX - 3)
#define SUCCESS 0

#define SMCCC_VERSION UINT32_C(0x80000000)
#define SMCCC_ARCH_FEATURES UINT32_C(0x80000001)
#define PSCI_VERSION UINT32_C(0x84000000)
#define PSCI_MIGRATE_INFO_TYPE UINT32_C(0x84000006)
#define PSCI_SYSTEM_OFF UINT32_C(0x84000008)
#define PSCI_SYSTEM_RESET UINT32_C(0x84000009)
#define PSCI_FEATURES UINT32_C(0x8400000A)
#define PSCI_CPU_ON UINT32_C(0xC4000003)

#define VERSION(major, minor) ((uint64_t)(major) << 16 | (minor))
#define NOTHING_TO_MIGRATE 2

/* Linux's arm_ffa driver wants SMCCC 1.2, and asks for SMCCC's version only where PSCI_FEATURES knows it. */
static uint64_t feature(uint32_t function) {
    switch (function) {
    case SMCCC_VERSION:
    case PSCI_VERSION:
    case PSCI_MIGRATE_INFO_TYPE:
    case PSCI_SYSTEM_OFF:
    case PSCI_SYSTEM_RESET:
    case PSCI_FEATURES:
        return SUCCESS;
    default:
        return NOT_SUPPORTED;
    }
}

/* Linux begins on another processor at an address of its own, with a word in x0. */
static uint64_t turn_on(struct board *board, uint64_t number, uint64_t first, uint64_t told) {
    if (number == 0 || number >= GORSEPLUMB_MOST_PROCESSORS) return INVALID_PARAMETERS;
    struct endpoint *linux_there = &board->others[number];
    if (linux_there->program != 0) return ALREADY_ON;
    linux_there->program = first;
    linux_there->root = board->endpoints[0].root;
    begin_context(&linux_there->context, first);
    linux_there->context.x[0] = told;
    return start_processor(number) ? SUCCESS : INVALID_PARAMETERS;
}

static uint64_t answer(struct board *board, const struct context *context) {
    switch ((uint32_t)context->x[0]) {
    case SMCCC_VERSION:
        return VERSION(1, 2);
    case SMCCC_ARCH_FEATURES:
        return (uint32_t)context->x[1] == SMCCC_VERSION ? SUCCESS : NOT_SUPPORTED;
    case PSCI_VERSION:
        return VERSION(1, 1);
    case PSCI_MIGRATE_INFO_TYPE:
        return NOTHING_TO_MIGRATE;
    case PSCI_FEATURES:
        return feature((uint32_t)context->x[1]);
    case PSCI_CPU_ON:
        return SEVERAL ? turn_on(board, context->x[1], context->x[2], context->x[3]) : NOT_SUPPORTED;
    default:
        return NOT_SUPPORTED;
    }
}

static void put_settled(void) {
    put_text("# settled ");
    put_decimal(all_settled().times);
    put_text(" times, ");
    put_decimal(all_settled().pages);
    put_text(" pages\n");
    if (!SEVERAL) return;
    put_text("# interrupts of partitions: ");
    put_decimal(all_interrupts());
    put_text("; faults tried again: ");
    put_decimal(all_tried_again());
    put_text("\n");
}

void serve_power_call(struct board *board, struct context *context) {
    uint32_t function = (uint32_t)context->x[0];
    if (function == PSCI_SYSTEM_OFF) {
        begin_line();
        put_settled();
        end_well();
    }
    if (function == PSCI_SYSTEM_RESET) {
        begin_line();
        stop("Linux wants a reset");
    }
    context->x[0] = answer(board, context);
    begin_line();
    put_text("# call ");
    put_number(function);
    put_text(" that isn't FF-A's: ");
    put_number(context->x[0]);
    put_text("\n");
}
