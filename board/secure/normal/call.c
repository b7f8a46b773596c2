/* SPDX-License-Identifier: MIT OR Apache-2.0 */
#include "bytes.h"
#include "normal.h"

/* A descriptor of FF-A 1.1 with one receiver and one range (DEN0077A, 5.11). */
struct sent {
    uint16_t sender, attributes;
    uint32_t flags;
    uint64_t handle, tag;
    uint32_t access_bytes, accesses, access_at, zeros[3];
    uint16_t receiver;
    uint8_t permissions, access_flags;
    uint32_t composite_at;
    uint64_t zero;
    uint32_t pages, ranges;
    uint64_t nothing;
    uint64_t address;
    uint32_t range_pages, none;
};

#define NORMAL_CACHED_SHARED 0x2F
#define READ_AND_WRITE 2

static uint64_t answered[8];

uint64_t *ask(uint64_t x0, uint64_t x1, uint64_t x2, uint64_t x3) {
    memcpy(answered, (uint64_t[8]){x0, x1, x2, x3}, sizeof answered);
    call(answered);
    return answered;
}

uint64_t *request(uint32_t receiver, uint64_t x3, uint64_t x4, uint64_t x5) {
    memcpy(answered, (uint64_t[8]){FFA_MSG_SEND_DIRECT_REQ | WITH_64_BITS, receiver, 0, x3, x4, x5}, sizeof answered);
    call(answered);
    return answered;
}

uint64_t *send(uint32_t function, uint32_t receiver, uint32_t pages, uint32_t flags) {
    struct sent sent = {.attributes = function == FFA_MEM_SHARE ? NORMAL_CACHED_SHARED : 0, .flags = flags, .access_bytes = 16, .accesses = 1,
        .access_at = 48, .receiver = (uint16_t)receiver, .permissions = READ_AND_WRITE, .composite_at = 64, .pages = pages, .ranges = 1,
        .address = PAGES, .range_pages = pages};
    memcpy(BUFFER_TX, &sent, sizeof sent);
    return ask(function, sizeof sent, sizeof sent, 0);
}

uint64_t *reclaim(uint64_t handle, uint32_t flags) { return ask(FFA_MEM_RECLAIM, (uint32_t)handle, handle >> 32, flags); }
