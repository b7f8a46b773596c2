/* SPDX-License-Identifier: MIT OR Apache-2.0 */
/* The interrupts by which the normal world hears of notifications. */
#include "calls.h"
#include "guest.h"
#include "tables.h"
#include "text.h"

#ifndef NOTIFY
#define NOTIFY SEVERAL /* 1 interrupts Linux where a notification is pending for it, and tells it of that interrupt */
#endif

/* Linux has notifications only where FFA_FEATURES tells it of interrupts (DEN0077A), and it wants such that a processor sends
 * itself: 0 to 7 are its own. The core knows of no interrupt, and answers NOT_SUPPORTED. What Linux asks behind the schedule
 * receiver's a machine of FF-A 1.2 serves, as this one. Its interrupt has the lower number, and so is taken first: behind the
 * other there may be nobody to tell of any more. */
#define PENDING_INTERRUPT 1
#define PENDING_NUMBER UINT64_C(9)
#define RECEIVER_INTERRUPT 2
#define RECEIVER_NUMBER UINT64_C(8)

/* Whether Linux has asked, and was told of one. */
static bool is_told;

/* The number of an interrupt that the firmware sends, or 0. */
static uint64_t number_of(uint32_t feature) {
    if (NOTIFY && feature == PENDING_INTERRUPT) return PENDING_NUMBER;
    return SEVERAL && feature == RECEIVER_INTERRUPT ? RECEIVER_NUMBER : 0;
}

bool serve_feature(struct context *context) {
    uint64_t number = number_of((uint32_t)context->x[1]);
    if ((uint32_t)context->x[0] != FFA_FEATURES || number == 0) return false;
    begin_line();
    put_text("# the firmware answers FFA_FEATURES of an interrupt: ");
    put_number(number);
    put_text("\n");
    for (unsigned i = 0; i < 8; i++) context->x[i] = 0;
    context->x[0] = FFA_SUCCESS;
    context->x[2] = number;
    is_told = true;
    return true;
}

/* The processor sends it itself; where EL2 is the secure world's, as one of the other world's. */
static void send(uint64_t number) {
    uint64_t of = number << 24 | UINT64_C(1) << this_processor();
    if (SECURE) __asm__ volatile("msr icc_asgi1r_el1, %0" : : "r"(of) : "memory");
    else __asm__ volatile("msr icc_sgi1r_el1, %0" : : "r"(of) : "memory");
}

/* Linux is interrupted, on the processor that called, where something is due and wasn't before: it asks for all that is then. */
static void send_where_due(bool is_due, bool *was_due, uint64_t number) {
    if (is_due && !*was_due) send(number);
    *was_due = is_due;
}

void notify(const struct gorseplumb_machine *machine) {
    static bool was_pending, was_due;
    if (!is_told) return;
    if (NOTIFY) send_where_due(gorseplumb_npi_pending(machine, 0), &was_pending, PENDING_NUMBER);
    if (SEVERAL) send_where_due(gorseplumb_sri_pending(machine), &was_due, RECEIVER_NUMBER);
}
