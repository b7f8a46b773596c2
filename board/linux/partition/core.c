/* SPDX-License-Identifier: MIT OR Apache-2.0 */
#include "core.h"
#include "bytes.h"
#include "calls.h"

/* Descriptors (DEN0077A, 5.11 and 16). */
struct wanted {
    uint16_t sender, attributes;
    uint32_t flags;
    uint64_t handle, tag;
    uint32_t access_bytes, accesses, access_at, zeros[3];
    uint16_t receiver;
    uint8_t permissions, access_flags;
    uint32_t composite_at;
    uint64_t zero;
};

struct given_up {
    uint64_t handle;
    uint32_t flags, endpoints;
    uint16_t endpoint, zeros[3];
};

uint32_t ask(struct registers *of) {
    call(of);
    return (uint32_t)of->x[0] == FFA_ERROR ? (uint32_t)of->x[2] : 0;
}

uint32_t map_buffers(unsigned char *base) {
    uint64_t *mapped = (uint64_t *)(base + MAPPED);
    struct registers map = {{FFA_RXTX_MAP | WITH_64_BITS, (uint64_t)(base + TX), (uint64_t)(base + RX), 1}};
    uint32_t refused = *mapped ? 0 : ask(&map);
    if (!refused) *mapped = 1;
    return refused;
}

uint32_t release(void) {
    struct registers of = {{FFA_RX_RELEASE}};
    return ask(&of);
}

uint32_t retrieve(uint64_t pair, uint64_t handle, unsigned char *base) {
    struct wanted wanted = {.sender = partner_of(pair), .handle = handle, .access_bytes = 16, .accesses = 1, .access_at = 48, .receiver = own_of(pair)};
    struct registers of = {{FFA_MEM_RETRIEVE_REQ | WITH_64_BITS, sizeof wanted, sizeof wanted}};
    uint32_t refused = map_buffers(base);
    if (refused) return refused;
    memcpy(base + TX, &wanted, sizeof wanted);
    return ask(&of);
}

uint32_t relinquish(uint64_t pair, uint64_t handle, unsigned char *base) {
    struct given_up given_up = {.handle = handle, .endpoints = 1, .endpoint = own_of(pair)};
    struct registers of = {{FFA_MEM_RELINQUISH}};
    memcpy(base + TX, &given_up, sizeof given_up);
    return ask(&of);
}
