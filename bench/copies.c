/* SPDX-License-Identifier: MIT OR Apache-2.0 */
/* Counts the bytes that the library has copied by memcpy and memmove and cleared by memset, for each of the four calls on memory: of a
 * transaction of one page, and of one with as many ranges as there may be, over lent pages. bench/copies has the linker send these
 * functions here. */
#include <inttypes.h>
#include <stdio.h>
#include <stdlib.h>
#include <string.h>
#include "gorseplumb.h"
#include "gorseplumb_ffa.h"
#include "lending.h"

#define RAM_PAGES (4 * 512)
#define PARTITION 0x8001
#define TX UINT64_C(0x4001E000)
#define TX_OF_PARTITION UINT64_C(0x4002E000)
#define PAGES UINT64_C(0x40200000)

static const char manifest[] =
    "ram_base = 0x40000000\nram_blocks = 4\n"
    "[[endpoint]]\nversion = \"1.1\"\nproperties = 6\nregions = [\n"
    "    { base = 0x40010000, pages = 16, rights = \"rw\" },\n"
    "    { base = 0x40200000, pages = 512, rights = \"rw\" },\n]\n"
    "[[endpoint]]\nversion = \"1.1\"\nuuid = \"00112233-4455-6677-8899-aabbccddeeff\"\nproperties = 15\n"
    "regions = [{ base = 0x40020000, pages = 16, rights = \"rw\" }]\n";

static struct gorseplumb_page pages[RAM_PAGES];
static struct gorseplumb_machine machine;
static uint64_t copied, cleared;

void *__real_memcpy(void *to, const void *from, size_t size);
void *__real_memmove(void *to, const void *from, size_t size);
void *__real_memset(void *to, int byte, size_t size);
void *__wrap_memcpy(void *to, const void *from, size_t size);
void *__wrap_memmove(void *to, const void *from, size_t size);
void *__wrap_memset(void *to, int byte, size_t size);

void *__wrap_memcpy(void *to, const void *from, size_t size) {
    copied += size;
    return __real_memcpy(to, from, size);
}

void *__wrap_memmove(void *to, const void *from, size_t size) {
    copied += size;
    return __real_memmove(to, from, size);
}

void *__wrap_memset(void *to, int byte, size_t size) {
    cleared += size;
    return __real_memset(to, byte, size);
}

static void stop(const char *why) {
    fprintf(stderr, "copies: %s\n", why);
    exit(1);
}

static struct gorseplumb_outcome call(uint64_t x0, uint64_t x1, uint64_t x2, uint64_t x3) {
    struct gorseplumb_registers registers = {{x0, x1, x2, x3}};
    struct gorseplumb_outcome told = gorseplumb_call(&machine, &registers);
    if (told.kind != GORSEPLUMB_KIND_REGISTERS || gorseplumb_is_error(told)) stop("a call is refused");
    return told;
}

static void store(uint64_t address, uint64_t value) {
    if (gorseplumb_store(&machine, address, 8, value).kind != GORSEPLUMB_KIND_DONE) stop("a store faults");
}

/* Makes a call, and prints what it copied and cleared. */
static struct gorseplumb_outcome count(const char *name, uint64_t x0, uint64_t x1, uint64_t x2) {
    uint64_t copied_before = copied, cleared_before = cleared;
    struct gorseplumb_outcome told = call(x0, x1, x2, 0);
    printf("  %-10s %6" PRIu64 " bytes copied, %6" PRIu64 " cleared\n", name, copied - copied_before, cleared - cleared_before);
    return told;
}

/* A lend of so many ranges of a page by the normal world to the partition, its retrieve, its relinquish and its reclaim. */
static void transaction(uint64_t ranges) {
    uint64_t size = 80 + 16 * ranges, header[] = {0, 0, 0, 1ull << 32 | 16, 48, 0, 64ull << 32 | 2 << 16 | PARTITION, 0, ranges << 32 | ranges, 0};
    printf("%" PRIu64 " ranges, a descriptor of %" PRIu64 " bytes:\n", ranges, size);
    for (uint64_t i = 0; i < 10; i++) store(TX + 8 * i, header[i]);
    for (uint64_t i = 0; i < ranges; i++) {
        store(TX + 80 + 16 * i, PAGES + 2 * GORSEPLUMB_PAGE_SIZE * i);
        store(TX + 88 + 16 * i, 1);
    }
    uint64_t handle = gorseplumb_handle_of(count("lend", GORSEPLUMB_FFA_MEM_LEND, size, size));
    call(GORSEPLUMB_FFA_RUN, gorseplumb_pair(PARTITION, 0), 0, 0);
    uint64_t asked[] = {0, handle, 0, 1ull << 32 | 16, 48, 0, 6 << 16 | PARTITION, 0};
    for (uint64_t i = 0; i < 8; i++) store(TX_OF_PARTITION + 8 * i, asked[i]);
    count("retrieve", GORSEPLUMB_FFA_MEM_RETRIEVE_REQ, 64, 64);
    store(TX_OF_PARTITION, handle);
    store(TX_OF_PARTITION + 8, 1ull << 32);
    store(TX_OF_PARTITION + 16, PARTITION);
    count("relinquish", GORSEPLUMB_FFA_MEM_RELINQUISH, 0, 0);
    call(GORSEPLUMB_FFA_MSG_WAIT, 0, 0, 0);
    count("reclaim", GORSEPLUMB_FFA_MEM_RECLAIM, gorseplumb_low_half(handle), gorseplumb_high_half(handle));
}

int main(void) {
    struct gorseplumb_lent lent = {0};
    if (gorseplumb_lend_all(&lent, pages, RAM_PAGES) != GORSEPLUMB_OK) stop("no pages were lent");
    if (gorseplumb_boot_lent(&machine, &lent, (const uint8_t *)manifest, sizeof manifest - 1) != GORSEPLUMB_OK)
        stop("the manifest is refused");
    call(GORSEPLUMB_FFA_RXTX_MAP, TX, TX + GORSEPLUMB_PAGE_SIZE, 1);
    call(GORSEPLUMB_FFA_RUN, gorseplumb_pair(PARTITION, 0), 0, 0);
    call(GORSEPLUMB_FFA_RXTX_MAP, TX_OF_PARTITION, TX_OF_PARTITION + GORSEPLUMB_PAGE_SIZE, 1);
    call(GORSEPLUMB_FFA_MSG_WAIT, 0, 0, 0);
    transaction(1);
    transaction(GORSEPLUMB_MOST_RANGES);
    transaction(1);
    return 0;
}
