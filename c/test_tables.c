/* SPDX-License-Identifier: MIT OR Apache-2.0 */
/* Machines whose tables stand amid RAM, with regions before them and behind, and where tables and regions may not stand. Numbers and answers
 * are by reasoning, or the standard's, as in test.c. */
#include <stdio.h>
#include <string.h>
#include "check.h"
#include "gorseplumb_ffa.h"
#include "heap.c"
#include "lending.h"

/* RAM is a block, so each of the three endpoints has three pages of tables: 40100000 to 40108FFF. */
enum { RAM_PAGES = 512, TABLES = 256, EACH = 3, ENDPOINTS = 3, BEHIND = TABLES + ENDPOINTS * EACH };

#define RAM UINT64_C(0x40000000)
#define ADDRESS(page) (RAM + GORSEPLUMB_PAGE_SIZE * (uint64_t)(page))
#define CALL(...) GORSEPLUMB_CALL(&machine, __VA_ARGS__)

static struct gorseplumb_machine machine;
static struct gorseplumb_page pages[RAM_PAGES];
static size_t settlings;

void gorseplumb_settle(uint16_t endpoint, uint64_t address, uint64_t size) {
    (void)endpoint, (void)address;
    settlings += size != 0;
}

static struct gorseplumb_region region(uint32_t page, uint32_t count, uint32_t rights) {
    return (struct gorseplumb_region){(uint32_t)ADDRESS(page), count, rights};
}

/* 0000 has RAM's first pages and those just behind the tables, 8001 those just before them, and 8002 RAM's last. */
static struct gorseplumb_manifest around_tables(void) {
    struct gorseplumb_manifest manifest = {.ram_base = RAM, .ram_blocks = 1, .endpoint_count = ENDPOINTS, .tables = TABLES};
    for (uint32_t place = 0; place < ENDPOINTS; place++) {
        manifest.endpoints[place].uuid[0] = (uint8_t)place;
        manifest.endpoints[place].region_count = place == 0 ? 2 : 1;
    }
    manifest.endpoints[0].regions[0] = region(0, 16, GORSEPLUMB_WRITE);
    manifest.endpoints[0].regions[1] = region(BEHIND, 16, GORSEPLUMB_WRITE);
    manifest.endpoints[1].regions[0] = region(TABLES - 16, 16, GORSEPLUMB_WRITE | GORSEPLUMB_EXECUTE);
    manifest.endpoints[2].regions[0] = region(RAM_PAGES - 16, 16, GORSEPLUMB_READ);
    return manifest;
}

/* Whose a page is at first, by these regions. */
static uint32_t owner(uint32_t page) {
    if (page < 16 || (page >= BEHIND && page < BEHIND + 16)) return 0;
    if (page >= TABLES - 16 && page < TABLES) return 0x8001;
    return page >= RAM_PAGES - 16 ? 0x8002 : 0x8000;
}

static bool faults(struct gorseplumb_outcome told) {
    return told.kind == GORSEPLUMB_KIND_FAULT && told.value == GORSEPLUMB_FAULT_TRANSLATION;
}

static void puts_word(uint64_t address, uint64_t value) { CHECK(gorseplumb_store(&machine, address, 8, value).kind == GORSEPLUMB_KIND_DONE); }

static bool loads(uint64_t address, uint64_t value) {
    struct gorseplumb_outcome told = gorseplumb_load(&machine, address, 8);
    return told.kind == GORSEPLUMB_KIND_DATA && told.value == value;
}

/* The word at a place in a page. */
static uint64_t word_of(uint32_t page, uint32_t place) {
    static struct gorseplumb_page bytes;
    uint64_t word = 0;
    CHECK(gorseplumb_read_page(&machine, page, &bytes));
    for (uint32_t i = 8; i > 0; i--) word = word << 8 | bytes.bytes[8 * place + i - 1];
    return word;
}

/* Each level 1 table stands where it has to, and leads to its endpoint's level 2 table and on to level 3: valid words that name a table end
 * in binary 11, and others in 0 (DDI 0487, D8.3). RAM is in the second GiB, and its block is the first there. */
static void tables_stand(void) {
    for (uint32_t place = 0; place < ENDPOINTS; place++) {
        uint32_t first = TABLES + place * EACH;
        CHECK(gorseplumb_root(&machine, gorseplumb_identifier(place)) == ADDRESS(first));
        CHECK(word_of(first, 1) == ADDRESS(first + 1) + 3 && word_of(first + 1, 0) == ADDRESS(first + 2) + 3);
        CHECK(word_of(first, 0) % 2 == 0 && word_of(first + 2, TABLES) % 2 == 0);
    }
}

static void enter(uint16_t endpoint) { CHECK(CALL(GORSEPLUMB_FFA_RUN, gorseplumb_pair(endpoint, 0)).runner == endpoint); }

static void leave(void) { CHECK(CALL(GORSEPLUMB_FFA_MSG_WAIT).runner == GORSEPLUMB_NORMAL_WORLD); }

/* Whoever runs reads pages that are its own, and no others. */
static void reads_its_own(uint16_t endpoint) {
    for (uint32_t page = 0; page < RAM_PAGES; page++) {
        CHECK(faults(gorseplumb_load(&machine, ADDRESS(page), 1)) == (owner(page) != endpoint));
    }
}

/* Pages of tables are nobody's, and all others those of the regions. */
static void pages_are_apart(void) {
    struct gorseplumb_cert_run run;
    for (uint32_t page = 0; page < RAM_PAGES; page++) {
        CHECK(gorseplumb_owner(&machine, page) == owner(page));
        for (uint32_t place = 0; place < ENDPOINTS; place++) {
            uint16_t endpoint = gorseplumb_identifier(place);
            CHECK((gorseplumb_access(&machine, endpoint, page) != 0) == (owner(page) == endpoint));
        }
    }
    reads_its_own(GORSEPLUMB_NORMAL_WORLD);
    for (uint32_t place = 1; place < ENDPOINTS; place++) {
        enter(gorseplumb_identifier(place));
        reads_its_own(gorseplumb_identifier(place));
        leave();
    }
    CHECK(gorseplumb_cert_run(&machine, TABLES, &run) && run.first == TABLES && run.last == BEHIND - 1 && run.owner == 0x8000);
    CHECK(run.has_handle == 0 && run.access[0] == 0 && run.access[1] == 0 && run.access[2] == 0);
    CHECK(faults(gorseplumb_store(&machine, ADDRESS(TABLES), 1, 0)) && faults(gorseplumb_load(&machine, ADDRESS(BEHIND) - 8, 8)));
}

static void audited(void) {
    static struct gorseplumb_cert_run runs[RAM_PAGES];
    size_t count = 0;
    for (uint32_t next = 0; gorseplumb_cert_run(&machine, next, &runs[count]); count++) next = runs[count].last + 1;
    CHECK(gorseplumb_audit(&machine, runs, count) == GORSEPLUMB_OK);
}

/* TX and RX of an endpoint: the last two of the first 16 pages from this one on. */
static void maps(uint32_t first) {
    CHECK(gorseplumb_function_of(CALL(GORSEPLUMB_FFA_RXTX_MAP_64, ADDRESS(first + 14), ADDRESS(first + 15), 1)) == GORSEPLUMB_FFA_SUCCESS);
}

/* What begins a descriptor for 8001, at a TX. */
static void begin(uint64_t tx, uint64_t header, uint64_t handle, uint64_t access) {
    puts_word(tx, header);
    puts_word(tx + 0x08, handle);
    puts_word(tx + 0x18, 0x0000000100000010);
    puts_word(tx + 0x20, 0x30);
    puts_word(tx + 0x30, access);
}

/* 0000 sends 8001 its first page and its first behind the tables, in a share: the answer. */
static struct gorseplumb_outcome shares(void) {
    begin(ADDRESS(14), 0x2F0000, 0, 0x0000004000028001);
    puts_word(ADDRESS(14) + 0x40, 0x0000000200000002);
    puts_word(ADDRESS(14) + 0x50, ADDRESS(0));
    puts_word(ADDRESS(14) + 0x58, 1);
    puts_word(ADDRESS(14) + 0x60, ADDRESS(BEHIND));
    puts_word(ADDRESS(14) + 0x68, 1);
    return CALL(GORSEPLUMB_FFA_MEM_SHARE, 0x70, 0x70);
}

/* 8001, which runs, retrieves what has the handle 1. */
static void retrieves(void) {
    begin(ADDRESS(TABLES - 2), 0, 1, 0x28001);
    CHECK(gorseplumb_function_of(CALL(GORSEPLUMB_FFA_MEM_RETRIEVE_REQ, 0x40, 0x40)) == GORSEPLUMB_FFA_MEM_RETRIEVE_RESP);
    CHECK(gorseplumb_function_of(CALL(GORSEPLUMB_FFA_RX_RELEASE)) == GORSEPLUMB_FFA_SUCCESS);
}

static void gives_up(void) {
    puts_word(ADDRESS(TABLES - 2), 1);
    puts_word(ADDRESS(TABLES - 2) + 8, 0x0000000100000000);
    CHECK(gorseplumb_store(&machine, ADDRESS(TABLES - 2) + 16, 2, 0x8001).kind == GORSEPLUMB_KIND_DONE);
    CHECK(gorseplumb_function_of(CALL(GORSEPLUMB_FFA_MEM_RELINQUISH)) == GORSEPLUMB_FFA_SUCCESS);
}

/* A share from both sides of the tables is used, given up and reclaimed. */
static void share(void) {
    maps(0);
    puts_word(ADDRESS(0), 0x11);
    puts_word(ADDRESS(BEHIND), 0x22);
    CHECK(gorseplumb_handle_of(shares()) == 1);
    enter(0x8001);
    maps(TABLES - 16);
    CHECK(faults(gorseplumb_load(&machine, ADDRESS(0), 8)) && faults(gorseplumb_load(&machine, ADDRESS(BEHIND), 8)));
    retrieves();
    CHECK(loads(ADDRESS(0), 0x11) && loads(ADDRESS(BEHIND), 0x22) && faults(gorseplumb_load(&machine, ADDRESS(BEHIND) - 8, 8)));
    puts_word(ADDRESS(0), 0x33);
    puts_word(ADDRESS(BEHIND), 0x44);
    audited();
    gives_up();
    CHECK(faults(gorseplumb_load(&machine, ADDRESS(0), 8)) && faults(gorseplumb_load(&machine, ADDRESS(BEHIND), 8)));
    leave();
    CHECK(loads(ADDRESS(0), 0x33) && loads(ADDRESS(BEHIND), 0x44));
    CHECK(gorseplumb_function_of(CALL(GORSEPLUMB_FFA_MEM_RECLAIM, 1)) == GORSEPLUMB_FFA_SUCCESS);
    tables_stand();
    audited();
}

/* Nobody may send a page of tables: it isn't the caller's own. */
static void table_is_not_sent(void) {
    struct gorseplumb_registers given = GORSEPLUMB_REGISTERS(GORSEPLUMB_FFA_MEM_SHARE, 0x70, 0x70);
    struct gorseplumb_reason reason;
    CHECK(gorseplumb_handle_of(shares()) == 2);
    CHECK(gorseplumb_function_of(CALL(GORSEPLUMB_FFA_MEM_RECLAIM, 2)) == GORSEPLUMB_FFA_SUCCESS);
    puts_word(ADDRESS(14) + 0x60, ADDRESS(BEHIND - 1));
    CHECK(gorseplumb_error_of(gorseplumb_make_call(&machine, given)) == GORSEPLUMB_ERROR_DENIED);
    CHECK(gorseplumb_why_call(&machine, &given, &reason) && reason.check == GORSEPLUMB_CHECK_PAGE_UNSENDABLE);
    CHECK(reason.about == GORSEPLUMB_ABOUT_PAGE && reason.page == BEHIND - 1 && reason.obstacle == GORSEPLUMB_OBSTACLE_MANAGERS_PAGE);
}

static void on_the_heap(void) {
    struct gorseplumb_manifest manifest = around_tables();
    struct gorseplumb_machine copy = {0};
    CHECK(gorseplumb_boot_manifest(&machine, &manifest) == GORSEPLUMB_OK);
    tables_stand();
    pages_are_apart();
    audited();
    share();
    table_is_not_sent();
    CHECK(gorseplumb_copy(&copy, &machine) == GORSEPLUMB_OK && gorseplumb_end_heap(&machine) == GORSEPLUMB_OK);
    machine = copy;
    tables_stand();
    CHECK(gorseplumb_end_heap(&machine) == GORSEPLUMB_OK && settlings == 0);
}

static bool is_filled(const struct gorseplumb_page *page, uint8_t byte) {
    for (int i = 0; i < GORSEPLUMB_PAGE_SIZE; i++) {
        if (page->bytes[i] != byte) return false;
    }
    return true;
}

/* Pages have the bytes that the lender left in those of regions, or zeros in all; and tables stand amid them. */
static void has_bytes(bool held) {
    CHECK(settlings == ENDPOINTS);
    settlings = 0;
    tables_stand();
    for (uint32_t page = 0; page < RAM_PAGES; page++) {
        if (page < TABLES || page >= BEHIND) CHECK(is_filled(&pages[page], held && owner(page) != 0x8000 ? 0xA5 : 0));
    }
}

static void in_lent_pages(void) {
    struct gorseplumb_manifest manifest = around_tables();
    struct gorseplumb_lent list = {0};
    memset(pages, 0xA5, sizeof pages);
    CHECK(gorseplumb_lend_all(&list, pages, RAM_PAGES) == GORSEPLUMB_OK);
    manifest.tables = RAM_PAGES - ENDPOINTS * EACH + 1;
    CHECK(gorseplumb_boot_preloaded_manifest(&machine, &list, &manifest) == GORSEPLUMB_MANIFEST_TABLES_OUTSIDE);
    for (uint32_t page = 0; page < RAM_PAGES; page++) CHECK(is_filled(&pages[page], 0xA5));
    manifest.tables = TABLES;
    CHECK(gorseplumb_boot_preloaded_manifest(&machine, &list, &manifest) == GORSEPLUMB_OK);
    has_bytes(true);
    CHECK(loads(ADDRESS(0), 0xA5A5A5A5A5A5A5A5) && loads(ADDRESS(BEHIND), 0xA5A5A5A5A5A5A5A5));
    enter(0x8002);
    CHECK(gorseplumb_load(&machine, ADDRESS(RAM_PAGES) - 1, 1).value == 0xA5);
    CHECK(gorseplumb_end(&machine, &list) == GORSEPLUMB_OK);
    CHECK(gorseplumb_boot_lent_manifest(&machine, &list, &manifest) == GORSEPLUMB_OK);
    has_bytes(false);
    share();
    CHECK(gorseplumb_end(&machine, &list) == GORSEPLUMB_OK && gorseplumb_take_all_back(&list, pages, RAM_PAGES));
}

/* What a boot of these numbers answers, which leaves nothing behind. */
static enum gorseplumb_answer answer(const struct gorseplumb_manifest *manifest) {
    enum gorseplumb_answer told = gorseplumb_boot_manifest(&machine, manifest);
    if (told == GORSEPLUMB_OK) CHECK(gorseplumb_end_heap(&machine) == GORSEPLUMB_OK);
    CHECK(!machine.live);
    return told;
}

/* 8001 has these pages in the stead of those before the tables. */
static enum gorseplumb_answer with_region(uint32_t page, uint32_t count) {
    struct gorseplumb_manifest manifest = around_tables();
    manifest.endpoints[0].region_count = 1;
    manifest.endpoints[1].regions[0] = region(page, count, GORSEPLUMB_WRITE);
    return answer(&manifest);
}

/* No region has a page of a table, and those next to tables may be some. */
static void regions_beside_tables(void) {
    CHECK(with_region(TABLES - 1, 1) == GORSEPLUMB_OK && with_region(BEHIND, 1) == GORSEPLUMB_OK);
    CHECK(with_region(16, TABLES - 16) == GORSEPLUMB_OK && with_region(BEHIND, 100) == GORSEPLUMB_OK);
    static const uint32_t over[][2] = {{TABLES - 1, 2}, {TABLES, 1}, {TABLES + 4, 1}, {BEHIND - 1, 1}, {BEHIND - 1, 2}, {TABLES - 1, 11}, {16, 256}};
    for (size_t i = 0; i < sizeof over / sizeof over[0]; i++) CHECK(with_region(over[i][0], over[i][1]) == GORSEPLUMB_MANIFEST_REGION_OUTSIDE);
    /* RAM's first page isn't the tables', and the one before it isn't RAM's. */
    CHECK(with_region((uint32_t)-1, 2) == GORSEPLUMB_MANIFEST_REGION_OUTSIDE && with_region(RAM_PAGES, 1) == GORSEPLUMB_MANIFEST_REGION_OUTSIDE);
    CHECK(with_region(RAM_PAGES - 17, 2) == GORSEPLUMB_MANIFEST_REGION_OVERLAP);
}

/* RAM has all tables; and which cause comes first. */
static void where_tables_stand(void) {
    struct gorseplumb_manifest manifest = around_tables();
    manifest.endpoints[2].regions[0] = region(300, 1, GORSEPLUMB_READ);
    manifest.tables = RAM_PAGES - ENDPOINTS * EACH;
    CHECK(answer(&manifest) == GORSEPLUMB_OK);
    for (uint32_t i = 1; i <= 10; i++) {
        manifest.tables = RAM_PAGES - ENDPOINTS * EACH + i;
        CHECK(answer(&manifest) == GORSEPLUMB_MANIFEST_TABLES_OUTSIDE);
    }
    static const uint32_t far[] = {0x80000000, 0xFFFFFFF7, UINT32_MAX};
    for (size_t i = 0; i < sizeof far / sizeof far[0]; i++) {
        manifest.tables = far[i];
        CHECK(answer(&manifest) == GORSEPLUMB_MANIFEST_TABLES_OUTSIDE);
    }
    manifest.endpoints[0].uuid[0] = 1;
    CHECK(answer(&manifest) == GORSEPLUMB_MANIFEST_TABLES_OUTSIDE);
    manifest.endpoint_count = 0;
    CHECK(answer(&manifest) == GORSEPLUMB_MANIFEST_ENDPOINT_COUNT);
    manifest.ram_blocks = 33;
    CHECK(answer(&manifest) == GORSEPLUMB_MANIFEST_RAM_BLOCKS);
}

/* RAM of two blocks: four pages for each endpoint, and a page of the second block is its level 3 table's. */
static void two_blocks(void) {
    struct gorseplumb_manifest manifest = around_tables();
    manifest.ram_blocks = 2;
    manifest.tables = 1024 - ENDPOINTS * 4;
    CHECK(gorseplumb_boot_manifest(&machine, &manifest) == GORSEPLUMB_OK);
    for (uint32_t place = 0; place < ENDPOINTS; place++) {
        CHECK(gorseplumb_root(&machine, gorseplumb_identifier(place)) == ADDRESS(1024 - ENDPOINTS * 4 + place * 4));
    }
    CHECK(gorseplumb_load(&machine, RAM, 1).kind == GORSEPLUMB_KIND_DATA && gorseplumb_owner(&machine, 1023) == 0x8000);
    audited();
    CHECK(gorseplumb_end_heap(&machine) == GORSEPLUMB_OK);
    manifest.tables++;
    CHECK(answer(&manifest) == GORSEPLUMB_MANIFEST_TABLES_OUTSIDE);
}

int main(void) {
    on_the_heap();
    in_lent_pages();
    regions_beside_tables();
    where_tables_stand();
    two_blocks();
    puts("ok");
    return 0;
}
