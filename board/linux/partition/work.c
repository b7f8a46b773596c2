/* SPDX-License-Identifier: MIT OR Apache-2.0 */
/* The work of a partition. */
#include "work.h"
#include "calls.h"
#include "core.h"
#include "service.h"
#include "tee.h"

void work(struct registers *request, unsigned char *base);

/* Classes of notifications, and of the manager's the one that says that a message stands in RX. */
#define OF_NORMAL_WORLD 2
#define OF_MANAGER 4
#define MESSAGE 1

struct message {
    uint32_t flags, zero, at, endpoints, size;
};

/* Reads memory, and fills it where it isn't to be read alone: the sum of what was there. */
static uint64_t fill(uint64_t seed, bool reads, const struct composite *of) {
    uint64_t sum = 0, place = 0;
    for (uint32_t i = 0; i < of->ranges; i++) {
        volatile uint64_t *words = (volatile uint64_t *)of->range[i].address;
        for (uint64_t at = 0; at < of->range[i].pages * UINT64_C(512); at++, place++) {
            sum += words[at];
            if (!reads) words[at] = WORK_WORD(seed, place);
        }
    }
    return sum;
}

static uint32_t fill_offered(struct registers *request, bool keep, unsigned char *base) {
    uint64_t handle = request->x[4];
    uint32_t refused = retrieve(request->x[1], handle, base);
    if (refused) return refused;
    request->x[4] = fill(request->x[5], request->x[6] == WORK_READS, retrieved(base));
    request->x[5] = retrieved(base)->pages;
    refused = release();
    return refused || keep ? refused : relinquish(request->x[1], handle, base);
}

static uint32_t yield(uint64_t times) {
    uint32_t refused = 0;
    for (; times > 0 && !refused; times--) {
        struct registers of = {{FFA_YIELD}};
        refused = ask(&of);
    }
    return refused;
}

static uint32_t take_message(struct registers *request, const unsigned char *base) {
    const struct message *message = (const struct message *)(base + RX);
    request->x[4] = 0;
    request->x[5] = message->size;
    for (uint32_t i = 0; i < message->size; i++) request->x[4] += base[RX + message->at + i];
    return release();
}

static uint32_t notify(const struct registers *request) {
    struct registers of = {{FFA_NOTIFICATION_SET, swapped(request->x[1]), 0, (uint32_t)request->x[4], request->x[4] >> 32}};
    return ask(&of);
}

static uint32_t bind(const struct registers *request) {
    struct registers of = {{FFA_NOTIFICATION_BIND, (uint32_t)request->x[1], 0, (uint32_t)request->x[4], request->x[4] >> 32}};
    return ask(&of);
}

static uint32_t look(struct registers *request) {
    struct registers of = {{FFA_NOTIFICATION_GET, own_of(request->x[1]), OF_NORMAL_WORLD}};
    uint32_t refused = ask(&of);
    request->x[4] = (uint32_t)of.x[4] | of.x[5] << 32;
    return refused;
}

/* What was there when it had cycles. */
struct told {
    uint64_t notifications, bytes;
};

static struct told *told_of(unsigned char *base) { return (struct told *)(base + TOLD); }

/* What it was notified of is set of the normal world, which wants the same. A message, of which RX is emptied behind the cycles,
 * is taken, if it stands there still. */
static void use_cycles(uint16_t own, unsigned char *base) {
    const struct message *message = (const struct message *)(base + RX);
    struct registers of = {{FFA_NOTIFICATION_GET, own, OF_NORMAL_WORLD | OF_MANAGER}};
    if (ask(&of)) return;
    struct registers set = {{FFA_NOTIFICATION_SET, (uint32_t)own << 16, 0, of.x[4], of.x[5]}};
    if (of.x[6] & MESSAGE && release() == 0) told_of(base)->bytes += message->size;
    if ((of.x[4] | of.x[5]) == 0) return;
    told_of(base)->notifications |= (uint32_t)of.x[4] | of.x[5] << 32;
    ask(&set);
}

static uint32_t tell(struct registers *request, unsigned char *base) {
    struct told *told = told_of(base);
    request->x[4] = told->notifications;
    request->x[5] = told->bytes;
    *told = (struct told){0};
    return 0;
}

static uint32_t do_work(struct registers *request, unsigned char *base) {
    switch (request->x[3]) {
    case WORK_ADD:
        for (unsigned i = 4; i < 8; i++) request->x[i]++;
        return 0;
    case WORK_FILL:
    case WORK_HOLD:
        return fill_offered(request, request->x[3] == WORK_HOLD, base);
    case WORK_DROP:
        return relinquish(request->x[1], request->x[4], base);
    case WORK_YIELD:
        return yield(request->x[4]);
    case WORK_TAKE:
        return take_message(request, base);
    case WORK_NOTIFY:
        return notify(request);
    case WORK_SPIN:
        for (volatile uint64_t i = 0; i < request->x[4]; i++) continue;
        return 0;
    case WORK_LISTEN:
        return map_buffers(base);
    case WORK_BIND:
        return bind(request);
    case WORK_LOOK:
        return look(request);
    case WORK_TOLD:
        return tell(request, base);
    default:
        return 0;
    }
}

/* What is given is a request, or cycles, which are given back. */
void work(struct registers *request, unsigned char *base) {
    uint32_t function = (uint32_t)request->x[0];
    if ((function & ~WITH_64_BITS) != FFA_MSG_SEND_DIRECT_REQ) {
        use_cycles(partner_of(request->x[1]), base);
        *request = (struct registers){{FFA_MSG_WAIT}};
        return;
    }
    bool narrow = own_of(request->x[1]) != TEE_IDENTIFIER && request->x[3] == WORK_NARROW;
    if (own_of(request->x[1]) == TEE_IDENTIFIER) serve_tee(request, base);
    else if (INTERFACE_OF(request->x[3]) != 0) serve(request, base);
    else request->x[3] = do_work(request, base);
    request->x[0] = FFA_MSG_SEND_DIRECT_RESP | (narrow ? 0 : function & WITH_64_BITS);
    request->x[1] = swapped(request->x[1]);
    request->x[2] = 0;
}
