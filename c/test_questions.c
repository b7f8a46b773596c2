/* SPDX-License-Identifier: MIT OR Apache-2.0 */
/* The questions, asked of a struct in memory that can only be read: how many pages a list has; and of the machine of
 * machine.toml.h, whose endpoint 0000 has the 16 pages from 40010000 on, 8001 those from 40020000 and 8002 those from
 * 40030000, while 8001 lends a page to 8002 and shares one with it; and of no machine. Addresses of tables are as
 * docs/MANIFEST.md has them, handles and descriptors as docs/MEMORY.md. */
#define _DEFAULT_SOURCE
#include <stdio.h>
#include <string.h>
#include "../board/calls.h"
#include "check.h"
#include "gorseplumb.h"
#include "heap.c"
#include "machine.toml.h"

#include "shown.h"

enum { RAM_PAGES = 512, LENT = 33, SHARED = 34 };

static const uint64_t FIRST_HANDLE = 0x0000800100000001, SECOND_HANDLE = 0x0000800100000002;

static struct gorseplumb_machine machine;

void gorseplumb_settle(uint16_t endpoint, uint64_t address, uint64_t size) {
    (void)endpoint, (void)address, (void)size;
    CHECK(false); /* RAM is of the heap */
}

static void calls(uint16_t runner, uint32_t answer, struct gorseplumb_registers given) {
    struct gorseplumb_outcome told = gorseplumb_call(&machine, &given);
    CHECK(told.kind == GORSEPLUMB_KIND_REGISTERS && told.runner == runner && told.x[0] == answer);
}

#define CALL(runner, answer, ...) calls(runner, answer, (struct gorseplumb_registers){{__VA_ARGS__}})

static void stores(uint64_t address, uint64_t value) {
    CHECK(gorseplumb_store(&machine, address, 8, value).kind == GORSEPLUMB_KIND_DONE);
}

/* An endpoint has its access to a page by this, and has some where that is something. */
static void is_granted(uint16_t endpoint, uint32_t page, uint32_t kind, uint64_t handle) {
    struct gorseplumb_grant grant = gorseplumb_granted(shown(&machine), endpoint, page);
    CHECK(grant.kind == kind && grant.handle == handle);
    uint32_t access = gorseplumb_access(shown(&machine), endpoint, page);
    CHECK((kind == GORSEPLUMB_GRANT_NONE) == (access == 0 || access == GORSEPLUMB_NOTHING));
}

/* The run from a page on ends with this page, and has this owner, this handle or none, and these accesses. */
static void runs(uint32_t from, uint32_t last, uint32_t owner, uint64_t handle, uint32_t first, uint32_t second,
                 uint32_t third) {
    struct gorseplumb_cert_run run;
    memset(&run, 0x5A, sizeof run);
    CHECK(gorseplumb_cert_run(shown(&machine), from, &run) && run.first == from && run.last == last && run.owner == owner);
    CHECK(run.has_handle == (handle != 0) && run.handle == handle);
    const uint32_t access[GORSEPLUMB_MOST_ENDPOINTS] = {first, second, third};
    CHECK(memcmp(run.access, access, sizeof access) == 0);
}

static void has_no_run(uint32_t from) {
    struct gorseplumb_cert_run run, before;
    memset(&run, 0x5A, sizeof run);
    memset(&before, 0x5A, sizeof before);
    CHECK(!gorseplumb_cert_run(shown(&machine), from, &run) && memcmp(&run, &before, sizeof run) == 0);
}

/* The runs one behind the other have each page once, and say of it what the other questions say. */
static void certified(void) {
    static const uint16_t endpoints[] = {0, 0x8001, 0x8002};
    struct gorseplumb_cert_run run;
    uint32_t next = 0;
    for (; gorseplumb_cert_run(shown(&machine), next, &run); next = run.last + 1) {
        CHECK(run.first == next && run.last < RAM_PAGES);
        for (uint32_t page = run.first; page <= run.last; page++) {
            CHECK(gorseplumb_owner(shown(&machine), page) == run.owner);
            for (int place = 0; place < 3; place++) {
                CHECK(gorseplumb_access(shown(&machine), endpoints[place], page) == run.access[place]);
            }
        }
    }
    CHECK(next == RAM_PAGES);
}

static void first_state(void) {
    CHECK(gorseplumb_runner(shown(&machine)) == 0 && gorseplumb_endpoints(shown(&machine)) == 3);
    CHECK(gorseplumb_ram_base(shown(&machine)) == 0x40000000 && gorseplumb_ram_blocks(shown(&machine)) == 1);
    CHECK(gorseplumb_root(shown(&machine), 0) == 0x40000000 && gorseplumb_root(shown(&machine), 0x8001) == 0x40003000 &&
          gorseplumb_root(shown(&machine), 0x8002) == 0x40006000);
    CHECK(gorseplumb_root(shown(&machine), 0x8000) == GORSEPLUMB_NOTHING && gorseplumb_root(shown(&machine), 1) == GORSEPLUMB_NOTHING &&
          gorseplumb_root(shown(&machine), 0x8003) == GORSEPLUMB_NOTHING);
    for (uint32_t page = 0; page <= RAM_PAGES; page++) {
        is_granted(0, page, page / 16 == 1 ? GORSEPLUMB_GRANT_OWN : GORSEPLUMB_GRANT_NONE, 0);
        is_granted(0x8001, page, page / 16 == 2 ? GORSEPLUMB_GRANT_OWN : GORSEPLUMB_GRANT_NONE, 0);
        is_granted(0x8000, page, GORSEPLUMB_GRANT_NONE, 0);
        is_granted(0x8003, page, GORSEPLUMB_GRANT_NONE, 0);
    }
    runs(0, 15, 0x8000, 0, 0, 0, 0);
    runs(16, 31, 0, 0, 3, 0, 0);
    runs(32, 47, 0x8001, 0, 0, 7, 0);
    runs(48, 63, 0x8002, 0, 0, 0, 3);
    runs(64, 511, 0x8000, 0, 0, 0, 0);
    /* A run may begin at any of its pages. */
    runs(20, 31, 0, 0, 3, 0, 0);
    runs(511, 511, 0x8000, 0, 0, 0, 0);
    has_no_run(RAM_PAGES);
    has_no_run(UINT32_MAX);
    certified();
}

/* 8001, which runs, offers 8002 a page by a descriptor of 96 bytes, with the right to read and write. */
static void offers(uint32_t call, uint64_t attributes, uint64_t address) {
    stores(0x4002E000, 0x8001 | attributes << 16);
    stores(0x4002E018, 0x0000000100000010);
    stores(0x4002E020, 0x30);
    stores(0x4002E030, 0x0000004000028002);
    stores(0x4002E040, 0x0000000100000001);
    stores(0x4002E050, address);
    stores(0x4002E058, 1);
    CALL(0x8001, FFA_SUCCESS, call, 0x60, 0x60);
}

/* 8002, which runs, retrieves what has this handle, by a descriptor of 64 bytes. */
static void retrieves(uint64_t handle) {
    stores(0x4003E000, 0x8001);
    stores(0x4003E008, handle);
    stores(0x4003E018, 0x0000000100000010);
    stores(0x4003E020, 0x30);
    stores(0x4003E030, 0x0000000000028002);
    CALL(0x8002, FFA_MEM_RETRIEVE_RESP, FFA_MEM_RETRIEVE_REQ, 0x40, 0x40);
    CALL(0x8002, FFA_SUCCESS, FFA_RX_RELEASE);
}

static void transactions(void) {
    CALL(0x8002, FFA_RUN, FFA_RUN, 0x80020000);
    CALL(0x8002, FFA_SUCCESS, FFA_RXTX_MAP, 0x4003E000, 0x4003F000, 1);
    CALL(0, FFA_MSG_WAIT, FFA_MSG_WAIT);
    CALL(0x8001, FFA_RUN, FFA_RUN, 0x80010000);
    CALL(0x8001, FFA_SUCCESS, FFA_RXTX_MAP, 0x4002E000, 0x4002F000, 1);
    CHECK(gorseplumb_runner(shown(&machine)) == 0x8001);
    offers(FFA_MEM_LEND, 0, 0x40021000);
    offers(FFA_MEM_SHARE, 0x2F, 0x40022000);
    is_granted(0x8001, LENT, GORSEPLUMB_GRANT_NONE, 0);
    is_granted(0x8002, LENT, GORSEPLUMB_GRANT_NONE, 0);
    is_granted(0x8001, SHARED, GORSEPLUMB_GRANT_SHARED, SECOND_HANDLE);
    is_granted(0x8002, SHARED, GORSEPLUMB_GRANT_NONE, 0);
    runs(32, 32, 0x8001, 0, 0, 7, 0);
    runs(LENT, LENT, 0x8001, FIRST_HANDLE, 0, 0, 0);
    runs(SHARED, SHARED, 0x8001, SECOND_HANDLE, 0, 7, 0);
    runs(35, 47, 0x8001, 0, 0, 7, 0);
    CALL(0, FFA_MSG_WAIT, FFA_MSG_WAIT);
    CALL(0x8002, FFA_RUN, FFA_RUN, 0x80020000);
    retrieves(FIRST_HANDLE);
    retrieves(SECOND_HANDLE);
    is_granted(0x8001, LENT, GORSEPLUMB_GRANT_NONE, 0);
    is_granted(0x8002, LENT, GORSEPLUMB_GRANT_HELD, FIRST_HANDLE);
    is_granted(0x8001, SHARED, GORSEPLUMB_GRANT_SHARED, SECOND_HANDLE);
    is_granted(0x8002, SHARED, GORSEPLUMB_GRANT_HELD, SECOND_HANDLE);
    is_granted(0, LENT, GORSEPLUMB_GRANT_NONE, 0);
    runs(LENT, LENT, 0x8001, FIRST_HANDLE, 0, 0, 3);
    runs(SHARED, SHARED, 0x8001, SECOND_HANDLE, 0, 7, 3);
    certified();
    CHECK(gorseplumb_root(shown(&machine), 0x8002) == 0x40006000 && gorseplumb_ram_blocks(shown(&machine)) == 1);
}

/* Each question is answered of no machine. */
static void without(void) {
    static struct gorseplumb_page page;
    CHECK(gorseplumb_runner(shown(&machine)) == GORSEPLUMB_NOTHING && gorseplumb_endpoints(shown(&machine)) == GORSEPLUMB_NOTHING);
    CHECK(gorseplumb_ram_base(shown(&machine)) == GORSEPLUMB_NOTHING && gorseplumb_ram_blocks(shown(&machine)) == GORSEPLUMB_NOTHING);
    CHECK(gorseplumb_root(shown(&machine), 0) == GORSEPLUMB_NOTHING && gorseplumb_owner(shown(&machine), 0) == GORSEPLUMB_NOTHING);
    CHECK(gorseplumb_access(shown(&machine), 0, 16) == GORSEPLUMB_NOTHING && !gorseplumb_npi_pending(shown(&machine), 0));
    CHECK(!gorseplumb_read_page(shown(&machine), 0, &page));
    is_granted(0, 16, GORSEPLUMB_GRANT_NONE, 0);
    has_no_run(0);
}

/* A machine of two blocks at a base. */
static void stands_at(uint32_t base) {
    struct gorseplumb_manifest manifest = {.ram_base = base, .ram_blocks = 2, .endpoint_count = 1};
    manifest.endpoints[0].region_count = 1;
    manifest.endpoints[0].regions[0] = (struct gorseplumb_region){base + 0x200000, 1, GORSEPLUMB_READ};
    CHECK(gorseplumb_boot_manifest(&machine, &manifest) == GORSEPLUMB_OK);
    CHECK(gorseplumb_ram_base(shown(&machine)) == base && gorseplumb_ram_blocks(shown(&machine)) == 2);
    CHECK(gorseplumb_root(shown(&machine), 0) == base && gorseplumb_root(shown(&machine), 0x8001) == GORSEPLUMB_NOTHING &&
          gorseplumb_endpoints(shown(&machine)) == 1);
    runs(512, 512, 0, 0, 1, 0, 0);
    runs(513, 1023, 0x8000, 0, 0, 0, 0);
}

/* From the lowest base to the highest, and at the end of a GiB. */
static void elsewhere(void) {
    static const uint32_t bases[] = {0x00200000, 0x0E200000, 0x3FC00000, 0xF8000000, 0xFFC00000};
    struct gorseplumb_lent none = {0};
    for (size_t i = 0; i < sizeof bases / sizeof *bases; i++) {
        stands_at(bases[i]);
        CHECK(gorseplumb_end(&machine, &none) == GORSEPLUMB_OK);
    }
}

static uint64_t lent_pages(const struct gorseplumb_lent *list) {
    return gorseplumb_lent_pages(read_only(list, sizeof *list));
}

static void lists(void) {
    static struct gorseplumb_page pages[3];
    struct gorseplumb_lent list = {0};
    struct gorseplumb_span span = {pages, 3};
    CHECK(lent_pages(&list) == 0);
    CHECK(gorseplumb_begin_lending(&list, 3) == GORSEPLUMB_OK && lent_pages(&list) == 0);
    CHECK(gorseplumb_lend_span(&list, &span) == GORSEPLUMB_OK && lent_pages(&list) == 3);
    for (uint64_t left = 3; left > 0; left--) {
        struct gorseplumb_slot slot = {0};
        CHECK(gorseplumb_take_back(&list, &slot) == GORSEPLUMB_OK && lent_pages(&list) == left - 1);
    }
    CHECK(gorseplumb_end_lending(&list) == GORSEPLUMB_OK && lent_pages(&list) == 0);
}

int main(void) {
    struct gorseplumb_lent none = {0};
    lists();
    without();
    CHECK(gorseplumb_boot(&machine, (const uint8_t *)manifest_text, sizeof manifest_text - 1) == GORSEPLUMB_OK);
    first_state();
    transactions();
    CHECK(gorseplumb_end(&machine, &none) == GORSEPLUMB_OK);
    without();
    elsewhere();
    puts("ok");
    return 0;
}
