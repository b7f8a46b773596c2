/* SPDX-License-Identifier: MIT OR Apache-2.0 */
/* A service that turns letters into capitals, in memory that its client shares. */
#include "service.h"

#define MANAGEMENT 0xFF
#define CAPITALS 1 /* the one interface that there is */

#define GET_VERSION 0
#define RETRIEVE_MEMORY 1
#define RELINQUISH_MEMORY 2
#define SERVICE_INFO 3

#define VERSION 1
#define OK 0
#define FAILED 1

/* The memory that is shared with the service: one piece at a time, of one range. */
struct shared {
    uint64_t handle, address, bytes;
};

static struct shared *shared_of(unsigned char *base) { return (struct shared *)(base + VARIABLES); }

static uint64_t handle_of(const struct registers *request) { return (uint32_t)request->x[4] | request->x[5] << 32; }

static uint32_t take(const struct registers *request, unsigned char *base) {
    struct shared *shared = shared_of(base);
    if (shared->handle != 0) return FAILED;
    uint32_t refused = retrieve(request->x[1], handle_of(request), base);
    if (refused) return refused;
    shared->handle = handle_of(request);
    shared->address = retrieved(base)->range[0].address;
    shared->bytes = (uint64_t)retrieved(base)->range[0].pages * PAGE_BYTES;
    return release();
}

static uint32_t give_up(const struct registers *request, unsigned char *base) {
    struct shared *shared = shared_of(base);
    if (shared->handle != handle_of(request)) return FAILED;
    uint32_t refused = relinquish(request->x[1], shared->handle, base);
    if (!refused) *shared = (struct shared){0};
    return refused;
}

static void manage(struct registers *request, unsigned char *base) {
    switch (request->x[3] & 0xFFFF) {
    case GET_VERSION:
        request->x[4] = VERSION;
        break;
    case RETRIEVE_MEMORY:
        request->x[4] = take(request, base);
        break;
    case RELINQUISH_MEMORY:
        request->x[4] = give_up(request, base);
        break;
    case SERVICE_INFO:
        request->x[4] = OK;
        request->x[5] = CAPITALS;
        break;
    default:
        request->x[4] = FAILED;
    }
}

static void turn(unsigned char *text, uint64_t bytes) {
    for (uint64_t i = 0; i < bytes; i++) {
        if (text[i] >= 'a' && text[i] <= 'z') text[i] -= 'a' - 'A';
    }
}

void serve(struct registers *request, unsigned char *base) {
    const struct shared *shared = shared_of(base);
    if (INTERFACE_OF(request->x[3]) == MANAGEMENT) {
        manage(request, base);
    } else if (shared->handle != handle_of(request) || request->x[6] > shared->bytes) {
        request->x[4] = FAILED;
    } else {
        turn((unsigned char *)shared->address, request->x[6]);
        request->x[4] = OK;
        request->x[5] = OK;
    }
}
