/* SPDX-License-Identifier: MIT OR Apache-2.0 */
#include "tables.h"
#include "calls.h"
#include "endpoint.h"
#include "gorseplumb.h"
#include "processor.h"

SYSTEM_REGISTER(par_el1)

/* The assembler knows these by their numbers alone. */
SYSTEM_REGISTER(s3_4_c2_c6_0)
SYSTEM_REGISTER(s3_4_c2_c6_2)
#define write_vsttbr_el2 write_s3_4_c2_c6_0
#define write_vstcr_el2 write_s3_4_c2_c6_2

/* The fields of registers are those of DDI 0487, under the register's name.
 *
 * VTCR_EL2: T0SZ 32, SL0 1, write-back walks (IRGN0, ORGN0) that are inner shareable (SH0), TG0 0 and 40 bits of physical address (PS). */
#define VTCR (UINT64_C(32) | UINT64_C(1) << 6 | UINT64_C(5) << 8 | UINT64_C(3) << 12 | UINT64_C(2) << 16 | UINT64_C(1) << 31)

/* In the secure state. VTCR_EL2: what a non-secure address leads to is non-secure (NSA), and tables are secure (NSW 0). VSTCR_EL2: T0SZ 32, SL0 1,
 * TG0 0; what a secure address leads to is secure (SA 0), and so are tables (SW 0). */
#define NSA (UINT64_C(1) << 30)
#define VSTCR (UINT64_C(32) | UINT64_C(1) << 6 | UINT64_C(1) << 31)
#define NON_SECURE_SPACE (UINT64_C(1) << 63) /* of TLBI IPAS2E1IS */

/* VTTBR_EL2.VMID has 8 bits, as VTCR_EL2.VS is 0. Endpoints have 1 and on. */
#define ROOT_OF(vttbr) ((vttbr) & ((UINT64_C(1) << 48) - 1))
#define VMID_IN(vttbr) ((vttbr) >> 48)
#define VMID_OF(place) ((place) + UINT64_C(1))
#define UNUSED_VMID 255

/* What a boot has settled at its end, which isn't counted. */
#define ALL_ADDRESSES (UINT64_C(1) << 32)

/* Up to so many pages are forgotten one by one. */
#define MOST_SINGLY 16

static _Alignas(4096) const uint64_t maps_nothing[512];

static void load_root(uint64_t root, uint64_t vmid) {
    write_vttbr_el2(root | vmid << 48);
    if (SECURE) write_vsttbr_el2(root);
    DO("isb");
}

void begin_tables(uint64_t hcr) {
    write_vtcr_el2(SECURE ? VTCR | NSA : VTCR);
    if (SECURE) write_vstcr_el2(VSTCR);
    load_root((uintptr_t)maps_nothing, UNUSED_VMID);
    write_hcr_el2(hcr);
    DO("isb");
}

void walk_tables(uint32_t place, uint64_t root) { load_root(root, VMID_OF(place)); }

/* Has every processor forget what came of one endpoint's tables for these pages. The VMID in VTTBR_EL2 says whose; nothing is walked
 * there meanwhile. */
static void forget(uint32_t place, uint64_t address, uint64_t size) {
    uint64_t walked = read_vttbr_el2();
    load_root((uintptr_t)maps_nothing, VMID_OF(place));
    if (size <= MOST_SINGLY * GORSEPLUMB_PAGE_SIZE) {
        for (uint64_t page = address; page < address + size; page += GORSEPLUMB_PAGE_SIZE) {
            __asm__ volatile("tlbi ipas2e1is, %0" : : "r"(page >> 12) : "memory");
            if (SECURE) __asm__ volatile("tlbi ipas2e1is, %0" : : "r"(page >> 12 | NON_SECURE_SPACE) : "memory");
        }
        DO("dsb ish");
        DO("tlbi vmalle1is");
    } else {
        DO("tlbi vmalls12e1is");
    }
    DO("dsb ish");
    load_root(ROOT_OF(walked), VMID_IN(walked));
}

static struct settled settled;

void settle_tables(uint16_t endpoint, uint64_t address, uint64_t size) {
    DO("dsb ishst");
    if (size == 0 || (SECURE && endpoint == 0)) return;
    if (size < ALL_ADDRESSES) {
        settled.times++;
        settled.pages += size / GORSEPLUMB_PAGE_SIZE;
    }
    if (SETTLE) forget(place_of(endpoint), address, size);
}

struct settled all_settled(void) { return settled; }

/* Whether a call that ends well may change bytes of pages, or who has them. */
static bool changes_bytes(uint32_t function) {
    switch (function & ~WITH_64_BITS) {
    case FFA_MEM_DONATE:
    case FFA_MEM_LEND:
    case FFA_MEM_SHARE:
    case FFA_MEM_RETRIEVE_REQ:
    case FFA_MEM_RELINQUISH:
    case FFA_MEM_RECLAIM:
    case FFA_PARTITION_INFO_GET:
    case FFA_MSG_SEND2:
        return true;
    default:
        return false;
    }
}

void after_call(uint32_t function, uint32_t answer) {
    DO("dsb ishst");
    if (answer != FFA_ERROR && changes_bytes(function)) DO("ic ialluis");
    DO("dsb ish");
    DO("isb");
}

void after_boot(void) {
    DO("dsb ishst");
    DO("ic ialluis");
    DO("dsb ish");
    DO("isb");
}

static bool walk_ended_well(void) {
    DO("isb");
    return (read_par_el1() & 1) == 0;
}

bool walk_reads(uint64_t address) {
    __asm__ volatile("at s12e1r, %0" : : "r"(address) : "memory");
    return walk_ended_well();
}

bool walk_writes(uint64_t address) {
    __asm__ volatile("at s12e1w, %0" : : "r"(address) : "memory");
    return walk_ended_well();
}
