/* SPDX-License-Identifier: MIT OR Apache-2.0 */
/* What TF-A's dispatcher hands the manager: calls of the normal world, and messages of its own (TF-A, services/std_svc/spmd). */
#include "calls.h"
#include "secure.h"
#include "text.h"

#define FFA_SECONDARY_EP_REGISTER UINT32_C(0xC4000087)
#define PSCI_CPU_OFF UINT32_C(0x84000002)

/* Identifiers, and messages of the framework (DEN0077A, FFA_MSG_SEND_DIRECT_REQ). No caller of the normal world has the dispatcher's: TF-A refuses
 * what calls in the name of the secure world. */
#define DISPATCHER UINT32_C(0xFFFF)
#define MANAGER UINT32_C(0x8000)
#define POWER UINT32_C(0x80000000)
#define POWER_ANSWER UINT32_C(0x80000002)
#define VERSION UINT32_C(0x80000008)
#define VERSION_ANSWER UINT32_C(0x80000009)

void second_start(void);

static void set(uint64_t *x, uint64_t x0, uint64_t x1, uint64_t x2, uint64_t x3) {
    for (unsigned i = 4; i < 8; i++) x[i] = 0;
    x[0] = x0, x[1] = x1, x[2] = x2, x[3] = x3;
}

static void answer(uint64_t *x, uint32_t message, uint64_t value) {
    set(x, FFA_MSG_SEND_DIRECT_RESP, (uint64_t)MANAGER << 16 | DISPATCHER, message, value);
}

/* FFA_VERSION comes as a message, and the core is asked as if the normal world had called it. Of a processor that is turned off nothing is to be
 * kept: the normal world runs there, and what it had stopped there goes on on another. */
static void serve_message(struct board *board, uint64_t *x) {
    uint32_t message = (uint32_t)x[2];
    if (message == VERSION) {
        set(x, FFA_VERSION, x[3], 0, 0);
        serve_call_of_normal_world(board);
        answer(x, VERSION_ANSWER, x[0]);
    } else if (message == POWER && (uint32_t)x[3] == PSCI_CPU_OFF) {
        answer(x, POWER_ANSWER, 0);
    } else {
        stop("the dispatcher has a message that nobody knows");
    }
}

static bool is_message(const uint64_t *x) { return (uint32_t)x[0] == FFA_MSG_SEND_DIRECT_REQ && (uint32_t)x[1] >> 16 == DISPATCHER; }

static void register_second(struct context *context) {
    set(context->x, FFA_SECONDARY_EP_REGISTER, (uint64_t)(uintptr_t)second_start, 0, 0);
    to_normal_world(context->x);
    if ((uint32_t)context->x[0] != (FFA_SUCCESS | WITH_64_BITS)) stop("the dispatcher doesn't take where other processors begin");
}

/* The first FFA_MSG_WAIT of a processor says that it is ready. */
_Noreturn void serve_normal_world(struct board *board, bool first) {
    struct context *context = &normal_world(board)->context;
    if (first) register_second(context);
    set(context->x, FFA_MSG_WAIT, 0, 0, 0);
    for (;;) {
        has_processor(NORMAL_WORLD);
        to_normal_world(context->x);
        note_due();
        has_processor(FIRMWARE);
        if (is_message(context->x)) serve_message(board, context->x);
        else serve_call_of_normal_world(board);
    }
}
