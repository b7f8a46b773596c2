/* SPDX-License-Identifier: MIT OR Apache-2.0 */
#include "normal.h"

/* Requests that OP-TEE answers at once, in w3 (OP-TEE 4.10, core/arch/arm/include/sm/optee_smc.h and optee_ffa.h). */
#define GET_API_VERSION 0
#define GET_OS_VERSION 1

static uint64_t *request_32(uint32_t function) { return ask(FFA_MSG_SEND_DIRECT_REQ, PARTITION_1, 0, function); }
static bool is_response(const uint64_t *x) { return (uint32_t)x[0] == FFA_MSG_SEND_DIRECT_RESP && (uint32_t)x[1] == PARTITION_1 << 16; }

static void list_versions(void) {
    uint64_t *x = request_32(GET_API_VERSION);
    say("OP-TEE's interface", x);
    want("OP-TEE's interface has version 1.0", is_response(x) && x[3] == 1 && x[4] == 0);
    x = request_32(GET_OS_VERSION);
    say("OP-TEE's version", x);
    want("OP-TEE has a version", is_response(x) && x[3] >= 4);
}

void try_optee(void) {
    list_versions();
    want("OP-TEE is not run while it waits", is_error(ask(FFA_RUN, PARTITION_1 << 16, 0, 0), DENIED));
    list_versions();
}
