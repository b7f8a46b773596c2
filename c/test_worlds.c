/* SPDX-License-Identifier: MIT OR Apache-2.0 */
/* Machines of FF-A 1.2, which tell non-secure memory from secure memory: what a retrieve's response says of it, and which
 * sends are refused. Numbers and answers are by reasoning, or the standard's, as in test.c. */
#include <stdio.h>
#include "check.h"
#include "gorseplumb_ffa.h"
#include "heap.c"

static struct gorseplumb_machine machine;

void gorseplumb_settle(uint16_t endpoint, uint64_t address, uint64_t size) {
    (void)endpoint, (void)address, (void)size;
    CHECK(false); /* RAM is of the heap */
}

#define CALL(...) GORSEPLUMB_CALL(&machine, __VA_ARGS__)
#define NORMAL_PAGE 0x40010000
#define SECURE_PAGE 0x40020000

/* The normal world and two partitions, each with 16 pages, of which the last two are its TX and RX. */
static struct gorseplumb_manifest two_partitions(uint32_t ffa) {
    struct gorseplumb_manifest manifest = {.ram_base = 0x40000000, .ram_blocks = 1, .endpoint_count = 3, .ffa = ffa};
    for (uint32_t place = 0; place < 3; place++) {
        struct gorseplumb_endpoint *endpoint = &manifest.endpoints[place];
        endpoint->uuid[0] = (uint8_t)place;
        endpoint->region_count = 1;
        endpoint->regions[0] = (struct gorseplumb_region){0x40010000 + 0x10000 * place, 16, GORSEPLUMB_WRITE};
    }
    return manifest;
}

static uint64_t tx_of(uint32_t place) { return 0x4001E000 + 0x10000 * (uint64_t)place; }
static uint64_t rx_of(uint32_t place) { return tx_of(place) + 0x1000; }

static void put(uint64_t address, uint64_t value) {
    CHECK(gorseplumb_store(&machine, address, 8, value).kind == GORSEPLUMB_KIND_DONE);
}

/* The partition of this place runs from the normal world, until it waits. */
static void enter(uint32_t place) {
    CHECK(CALL(GORSEPLUMB_FFA_RUN, gorseplumb_pair(gorseplumb_identifier(place), 0)).runner == gorseplumb_identifier(place));
}

static void leave(void) { CHECK(CALL(GORSEPLUMB_FFA_MSG_WAIT).runner == GORSEPLUMB_NORMAL_WORLD); }

/* What begins each descriptor of a place, of which the access descriptor names an endpoint. */
static void begin(uint32_t place, uint64_t header, uint64_t handle, uint64_t access) {
    const uint64_t tx = tx_of(place);
    put(tx, header);
    put(tx + 0x08, handle);
    put(tx + 0x18, 0x0000000100000010);
    put(tx + 0x20, 0x30);
    put(tx + 0x30, access);
}

/* A share of one page, or of two, by a place with an endpoint. */
static struct gorseplumb_outcome shares(uint32_t place, uint16_t with, uint64_t page, uint64_t other) {
    const uint64_t tx = tx_of(place), count = other ? 2 : 1;
    begin(place, 0x2F0000 | gorseplumb_identifier(place), 0, 0x0000004000020000 | with);
    put(tx + 0x40, count << 32 | count);
    put(tx + 0x50, page);
    put(tx + 0x58, 1);
    put(tx + 0x60, other);
    put(tx + 0x68, other ? 1 : 0);
    return CALL(GORSEPLUMB_FFA_MEM_SHARE, 0x50 + 0x10 * count, 0x50 + 0x10 * count);
}

/* The memory attributes that a place is told of a share by its retrieve. */
static uint64_t attributes(uint32_t place, uint16_t sender, uint64_t handle) {
    begin(place, sender, handle, 0x20000 | gorseplumb_identifier(place));
    CHECK(gorseplumb_function_of(CALL(GORSEPLUMB_FFA_MEM_RETRIEVE_REQ, 0x40, 0x40)) == GORSEPLUMB_FFA_MEM_RETRIEVE_RESP);
    struct gorseplumb_outcome told = gorseplumb_load(&machine, rx_of(place) + 2, 2);
    CHECK(told.kind == GORSEPLUMB_KIND_DATA);
    CHECK(gorseplumb_function_of(CALL(GORSEPLUMB_FFA_RX_RELEASE)) == GORSEPLUMB_FFA_SUCCESS);
    return told.value;
}

static uint64_t properties(uint32_t function) {
    struct gorseplumb_outcome told = CALL(GORSEPLUMB_FFA_FEATURES, function);
    CHECK(gorseplumb_function_of(told) == GORSEPLUMB_FFA_SUCCESS && told.x[3] == 0);
    return told.x[2];
}

static void maps(uint32_t place) {
    CHECK(gorseplumb_function_of(CALL(GORSEPLUMB_FFA_RXTX_MAP_64, tx_of(place), rx_of(place), 1)) == GORSEPLUMB_FFA_SUCCESS);
}

/* The normal world, in whose place the machine boots, shares a page with 8001, and donates it another. 8001 runs then, and retrieves
 * both: it is told these attributes. */
static void begins(uint32_t ffa, uint64_t told) {
    const uint16_t first = gorseplumb_identifier(1);
    struct gorseplumb_manifest manifest = two_partitions(ffa);
    CHECK(gorseplumb_boot_manifest(&machine, &manifest) == GORSEPLUMB_OK);
    maps(0);
    CHECK(gorseplumb_handle_of(shares(0, first, NORMAL_PAGE, 0)) == 1);
    begin(0, 0, 0, 0x0000004000000000 | first);
    put(tx_of(0) + 0x50, NORMAL_PAGE + 0x1000);
    CHECK(gorseplumb_handle_of(CALL(GORSEPLUMB_FFA_MEM_DONATE, 0x60, 0x60)) == 2);
    enter(2);
    maps(2);
    leave();
    enter(1);
    maps(1);
    CHECK(attributes(1, GORSEPLUMB_NORMAL_WORLD, 1) == told && attributes(1, GORSEPLUMB_NORMAL_WORLD, 2) == told);
}

/* 8001 is refused a share. */
static void mixed(struct gorseplumb_outcome told, uint32_t size) {
    struct gorseplumb_registers share = GORSEPLUMB_REGISTERS(GORSEPLUMB_FFA_MEM_SHARE, size, size);
    struct gorseplumb_reason reason;
    CHECK(gorseplumb_error_of(told) == GORSEPLUMB_ERROR_DENIED && gorseplumb_why_call(&machine, &share, &reason));
    CHECK(reason.error == GORSEPLUMB_ERROR_DENIED && reason.check == GORSEPLUMB_CHECK_WORLDS_MIXED);
}

/* Secure pages aren't offered to the normal world, nor beside non-secure ones; what it donated may be offered to it. */
static void serves_1_2(void) {
    const uint16_t first = gorseplumb_identifier(1), second = gorseplumb_identifier(2);
    begins(GORSEPLUMB_FFA_1_2, 0x6F);
    CHECK(properties(GORSEPLUMB_FFA_MEM_RETRIEVE_REQ) == 2 && properties(GORSEPLUMB_FFA_MEM_RETRIEVE_REQ_64) == 2);
    CHECK(properties(GORSEPLUMB_FFA_MEM_LEND) == 0);
    mixed(shares(1, GORSEPLUMB_NORMAL_WORLD, SECURE_PAGE, 0), 0x60);
    mixed(shares(1, second, SECURE_PAGE, NORMAL_PAGE + 0x1000), 0x70);
    mixed(shares(1, second, NORMAL_PAGE + 0x1000, SECURE_PAGE), 0x70);
    CHECK(gorseplumb_handle_of(shares(1, GORSEPLUMB_NORMAL_WORLD, NORMAL_PAGE + 0x1000, 0)) == gorseplumb_of_halves(1, first));
    CHECK(gorseplumb_handle_of(shares(1, second, SECURE_PAGE, 0)) == gorseplumb_of_halves(2, first));
    leave();
    CHECK(properties(GORSEPLUMB_FFA_MEM_RETRIEVE_REQ) == 6 && properties(GORSEPLUMB_FFA_MEM_RETRIEVE_REQ_64) == 6);
    CHECK(attributes(0, first, gorseplumb_of_halves(1, first)) == 0x6F);
    enter(2);
    CHECK(attributes(2, first, gorseplumb_of_halves(2, first)) == 0x2F);
    CHECK(gorseplumb_end_heap(&machine) == GORSEPLUMB_OK);
}

/* In FF-A 1.1 all of that may be, and nothing is said of it. */
static void serves_1_1(void) {
    const uint16_t first = gorseplumb_identifier(1), second = gorseplumb_identifier(2);
    begins(GORSEPLUMB_FFA_1_1, 0x2F);
    CHECK(properties(GORSEPLUMB_FFA_MEM_RETRIEVE_REQ) == 0 && properties(GORSEPLUMB_FFA_MEM_RETRIEVE_REQ_64) == 0);
    CHECK(gorseplumb_handle_of(shares(1, GORSEPLUMB_NORMAL_WORLD, SECURE_PAGE, 0)) == gorseplumb_of_halves(1, first));
    CHECK(gorseplumb_handle_of(shares(1, second, SECURE_PAGE + 0x1000, NORMAL_PAGE + 0x1000)) == gorseplumb_of_halves(2, first));
    CHECK(gorseplumb_end_heap(&machine) == GORSEPLUMB_OK);
}

/* No machine serves another version: what tells of no machine comes before what makes none. */
static void serves_no_other(void) {
    struct gorseplumb_manifest manifest = two_partitions(2);
    CHECK(gorseplumb_boot_manifest(&machine, &manifest) == GORSEPLUMB_MANIFEST_WRONG_KIND);
    manifest.ram_blocks = 0;
    CHECK(gorseplumb_boot_manifest(&machine, &manifest) == GORSEPLUMB_MANIFEST_WRONG_KIND);
    manifest.endpoints[1].version = 2;
    CHECK(gorseplumb_boot_manifest(&machine, &manifest) == GORSEPLUMB_MANIFEST_WRONG_KIND);
    manifest.endpoints[1].version = 3;
    CHECK(gorseplumb_boot_manifest(&machine, &manifest) == GORSEPLUMB_MANIFEST_VERSION);
}

/* The normal world asks for 1.0, and then for 1.1 while it has buffers. It is told the machine's version. If the form of 1.0 is kept, it is
 * told no size of the information. */
static void versions(uint32_t ffa, uint64_t served, uint64_t size, uint64_t again) {
    struct gorseplumb_manifest manifest = two_partitions(ffa);
    CHECK(gorseplumb_boot_manifest(&machine, &manifest) == GORSEPLUMB_OK);
    CHECK(CALL(GORSEPLUMB_FFA_VERSION, 0x10000).x[0] == served);
    maps(0);
    struct gorseplumb_outcome told = CALL(GORSEPLUMB_FFA_PARTITION_INFO_GET);
    CHECK(gorseplumb_function_of(told) == GORSEPLUMB_FFA_SUCCESS && told.x[2] == 2 && told.x[3] == size);
    CHECK(CALL(GORSEPLUMB_FFA_VERSION, 0x10001).x[0] == again);
    CHECK(gorseplumb_end_heap(&machine) == GORSEPLUMB_OK);
}

int main(void) {
    serves_1_2();
    serves_1_1();
    serves_no_other();
    versions(GORSEPLUMB_FFA_1_2, 0x10002, 0, 0xFFFFFFFF);
    versions(GORSEPLUMB_FFA_1_1, 0x10001, 24, 0x10001);
    puts("ok");
    return 0;
}
