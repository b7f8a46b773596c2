/* SPDX-License-Identifier: MIT OR Apache-2.0 */
/* A TEE that has no applications: each session that Linux wants to open is refused, in the memory in which Linux asks. */
#include "tee.h"
#include "calls.h"

#define GET_API_VERSION 0
#define GET_OS_VERSION 1
#define EXCHANGE_CAPABILITIES 2
#define UNREGISTER_MEMORY 3
#define ENABLE_NOTIFICATIONS 5
#define CALL_WITH_ARGUMENT UINT32_C(0x80000000)

#define HAS_NOTIFICATIONS 2
#define OK 0
#define BUSY UINT32_C(0xFFFF000D)
#define BAD_PARAMETERS UINT32_C(0xFFFF0006)
#define ITEM_NOT_FOUND UINT32_C(0xFFFF0008)
#define NOT_SUPPORTED UINT32_C(0xFFFF000A)

/* What a call is about stands in memory. */
#define OPEN_SESSION 0
struct argument {
    uint32_t command, function, session, cancel, zero, result, origin, parameters;
};

/* Pieces of memory that Linux has shared and that are retrieved, each of one range. */
#define MOST_PIECES 32
struct piece {
    uint64_t handle, address, bytes;
};

static struct piece *piece_of(uint64_t handle, unsigned char *base) {
    struct piece *pieces = (struct piece *)(base + VARIABLES);
    for (unsigned i = 0; i < MOST_PIECES; i++) {
        if (pieces[i].handle == handle) return &pieces[i];
    }
    return 0;
}

static uint64_t handle_of(const struct registers *request) { return (uint32_t)request->x[4] | request->x[5] << 32; }

/* Memory is retrieved when it is used first, and given up when Linux says so. */
static struct piece *reach(const struct registers *request, unsigned char *base) {
    struct piece *piece = piece_of(handle_of(request), base);
    if (piece != 0) return piece;
    piece = piece_of(0, base);
    if (piece == 0 || retrieve(request->x[1], handle_of(request), base)) return 0;
    *piece = (struct piece){handle_of(request), retrieved(base)->range[0].address, PAGE_BYTES * (uint64_t)retrieved(base)->range[0].pages};
    return release() ? 0 : piece;
}

static uint32_t forget(const struct registers *request, unsigned char *base) {
    struct piece *piece = piece_of(handle_of(request), base);
    if (piece == 0) return OK;
    *piece = (struct piece){0};
    return relinquish(request->x[1], handle_of(request), base);
}

/* The argument stands in a piece, so many bytes from its start on. */
static uint32_t call_with_argument(const struct registers *request, unsigned char *base) {
    const struct piece *piece = reach(request, base);
    uint64_t at = (uint32_t)request->x[6];
    if (piece == 0) return BUSY;
    if (at % 8 != 0 || at + sizeof(struct argument) > piece->bytes) return BAD_PARAMETERS;
    struct argument *argument = (struct argument *)(piece->address + at);
    argument->result = argument->command == OPEN_SESSION ? ITEM_NOT_FOUND : OK;
    return OK;
}

/* The notification that Linux wants from here on is set at once, for it to be seen. */
static uint32_t enable(const struct registers *request) {
    struct registers of = {{FFA_NOTIFICATION_SET, swapped(request->x[1]), 0, UINT64_C(1) << (request->x[4] & 31), 0}};
    return ask(&of) ? NOT_SUPPORTED : OK;
}

void serve_tee(struct registers *request, unsigned char *base) {
    uint64_t *x = request->x;
    switch ((uint32_t)x[3]) {
    case GET_API_VERSION:
    case GET_OS_VERSION:
        x[3] = 1;
        x[4] = x[5] = 0;
        break;
    case EXCHANGE_CAPABILITIES:
        x[3] = OK;
        x[4] = 0;
        x[5] = HAS_NOTIFICATIONS;
        x[6] = 0;
        break;
    case UNREGISTER_MEMORY:
        x[3] = forget(request, base);
        break;
    case ENABLE_NOTIFICATIONS:
        x[3] = enable(request);
        break;
    case CALL_WITH_ARGUMENT:
        x[3] = call_with_argument(request, base);
        x[4] = 0;
        break;
    default:
        x[3] = NOT_SUPPORTED;
    }
}
