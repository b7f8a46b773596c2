/* SPDX-License-Identifier: MIT OR Apache-2.0 */
/* The first row of the manual, a lend that is retrieved, given up and reclaimed, what the border answers out of order, pages
 * that are lent and given back, with their bytes or cleared, what then boots in them, what is to be settled, what has changed, what is
 * pending, and each piece of memory refused in turn. */
#include <stdio.h>
#include <string.h>
#include "check.h"
#include "counted.h"
#include "gorseplumb.h"
#include "lending.h"
#include "machine.toml.h"

/* Functions answer a number of 32 bits. */
_Static_assert(sizeof(enum gorseplumb_answer) == sizeof(uint32_t), "an enum is 32 bits wide");

static struct gorseplumb_machine machine;

/* What the library had settled of pages, the first of it. */
#define MOST_SETTLED 8
static struct settling {
    uint64_t endpoint, address, size;
} settled[MOST_SETTLED];
static size_t settlings;

/* How often no pages were to be settled, as behind zeros, and of the last time where, and what page 33 began with then. */
static size_t waits;
static uint64_t waited_at;
static uint8_t waited_over;

static struct gorseplumb_page pages[1024];

void gorseplumb_settle(uint16_t endpoint, uint64_t address, uint64_t size) {
    if (size == 0) {
        waits++;
        waited_at = address;
        waited_over = pages[33].bytes[0];
        return;
    }
    if (settlings < MOST_SETTLED) settled[settlings] = (struct settling){endpoint, address, size};
    settlings++;
}

/* A call, which is to give these registers to this runner. Registers that aren't given are zero. */
#define CALL(runner_, x0, x1, x2, x3, ...) \
    do { \
        struct gorseplumb_registers given = {{__VA_ARGS__}}; \
        struct gorseplumb_outcome told = gorseplumb_call(&machine, &given); \
        CHECK(told.kind == GORSEPLUMB_KIND_REGISTERS && told.runner == (runner_) && told.value == 0); \
        const uint64_t wanted[8] = {x0, x1, x2, x3}; \
        CHECK(memcmp(told.x, wanted, sizeof wanted) == 0); \
    } while (0)

static void stores(uint64_t address, uint64_t value) {
    struct gorseplumb_outcome told = gorseplumb_store(&machine, address, 8, value);
    CHECK(told.kind == GORSEPLUMB_KIND_DONE && told.runner == 0 && told.value == 0);
}

static void loads(uint64_t address, uint32_t size, uint64_t value) {
    struct gorseplumb_outcome told = gorseplumb_load(&machine, address, size);
    CHECK(told.kind == GORSEPLUMB_KIND_DATA && told.value == value);
}

static void faults(struct gorseplumb_outcome told, uint64_t fault) { CHECK(told.kind == GORSEPLUMB_KIND_FAULT && told.value == fault); }

/* No operation has changed anybody's access since the last that was told. */
static void nothing_changed(void) {
    static struct gorseplumb_change change;
    memset(&change, 0x5A, sizeof change);
    CHECK(!gorseplumb_take_change(&machine, &change) && change.endpoint == 0x5A5A5A5A && change.ranges[63].size == 0x5A5A5A5A5A5A5A5A);
}

/* The last operation has changed the access of this endpoint to this page, and to no other, which is told once. */
static void changed(uint32_t endpoint, uint64_t address) {
    static struct gorseplumb_change change;
    memset(&change, 0x5A, sizeof change);
    CHECK(gorseplumb_take_change(&machine, &change) && change.endpoint == endpoint && change.range_count == 1);
    CHECK(change.ranges[0].address == address && change.ranges[0].size == GORSEPLUMB_PAGE_SIZE);
    for (int place = 1; place < GORSEPLUMB_MOST_RANGES; place++) CHECK(change.ranges[place].address == 0 && change.ranges[place].size == 0);
    nothing_changed();
}

static const uint8_t *text = (const uint8_t *)manifest_text;
static const size_t text_size = sizeof manifest_text - 1;

static void first_row(void) {
    CALL(0, 0x84000061, 0, 0, 0, 0x84000069);
    CHECK(gorseplumb_store(&machine, 0x40010000, 1, 0x2A).kind == GORSEPLUMB_KIND_DONE);
    loads(0x40010000, 1, 0x2A);
    faults(gorseplumb_load(&machine, 0x40020000, 1), GORSEPLUMB_FAULT_TRANSLATION);
    faults(gorseplumb_load(&machine, 0x40010001, 2), GORSEPLUMB_FAULT_ALIGNMENT);
    faults(gorseplumb_fetch(&machine, 0x40010000), GORSEPLUMB_FAULT_PERMISSION);
    CHECK(gorseplumb_runner(&machine) == 0 && gorseplumb_endpoints(&machine) == 3);
    CHECK(gorseplumb_owner(&machine, 0) == 0x8000 && gorseplumb_owner(&machine, 16) == 0 && gorseplumb_owner(&machine, 63) == 0x8002);
    CHECK(gorseplumb_owner(&machine, 511) == 0x8000 && gorseplumb_owner(&machine, 512) == GORSEPLUMB_NOTHING);
    for (uint32_t page = 0; page < 513; page++) {
        uint32_t rights = page < 512 ? page / 16 : 0;
        CHECK(gorseplumb_access(&machine, 0, page) == (rights == 1 ? 3u : 0u));
        CHECK(gorseplumb_access(&machine, 0x8001, page) == (rights == 2 ? 7u : 0u));
        CHECK(gorseplumb_access(&machine, 0x8002, page) == (rights == 3 ? 3u : 0u));
        CHECK(gorseplumb_access(&machine, 0x8000, page) == 0 && gorseplumb_access(&machine, 0x1234, page) == 0);
    }
    static struct gorseplumb_page bytes;
    CHECK(gorseplumb_read_page(&machine, 16, &bytes) && bytes.bytes[0] == 0x2A && bytes.bytes[1] == 0);
    CHECK(!gorseplumb_read_page(&machine, 512, &bytes) && !gorseplumb_read_page(&machine, UINT32_MAX, &bytes));
    nothing_changed();
}

static void lend(void) {
    CALL(0, 0x84000061, 0, 0, 0, 0x84000066, 0x4001E000, 0x4001F000, 1);
    CALL(0x8002, 0x8400006D, 0x80020000, 0, 0, 0x8400006D, 0x80020000);
    CALL(0x8002, 0x84000061, 0, 0, 0, 0x84000066, 0x4003E000, 0x4003F000, 1);
    CALL(0, 0x8400006B, 0x80020000, 0, 0, 0x8400006B);
    CALL(0x8001, 0x8400006D, 0x80010000, 0, 0, 0x8400006D, 0x80010000);
    CALL(0x8001, 0x84000061, 0, 0, 0, 0x84000066, 0x4002E000, 0x4002F000, 1);

    /* 8001 lends the page at 40021000 to 8002, and has it no more. */
    stores(0x4002E000, 0x8001);
    stores(0x4002E018, 0x0000000100000010);
    stores(0x4002E020, 0x30);
    stores(0x4002E030, 0x0000004000028002);
    stores(0x4002E040, 0x0000000100000001);
    stores(0x4002E050, 0x40021000);
    stores(0x4002E058, 1);
    CALL(0x8001, 0x84000061, 0, 1, 0x8001, 0x84000072, 0x60, 0x60);
    faults(gorseplumb_load(&machine, 0x40021000, 1), GORSEPLUMB_FAULT_TRANSLATION);
    changed(0x8001, 0x40021000);
    CHECK(gorseplumb_access(&machine, 0x8001, 33) == 0);

    /* 8002 retrieves it, and stores a byte. */
    CALL(0, 0x8400006B, 0x80010000, 0, 0, 0x8400006B);
    CALL(0x8002, 0x8400006D, 0x80020000, 0, 0, 0x8400006D, 0x80020000);
    stores(0x4003E000, 0x8001);
    stores(0x4003E008, 0x0000800100000001);
    stores(0x4003E018, 0x0000000100000010);
    stores(0x4003E020, 0x30);
    stores(0x4003E030, 0x0000000000028002);
    CALL(0x8002, 0x84000075, 0x60, 0x60, 0, 0x84000074, 0x40, 0x40);
    loads(0x4003F000, 8, 0x00000010002F8001);
    CHECK(gorseplumb_access(&machine, 0x8002, 33) == 3);
    changed(0x8002, 0x40021000);
    CHECK(gorseplumb_store(&machine, 0x40021000, 1, 0x5A).kind == GORSEPLUMB_KIND_DONE);

    /* A reclaim is denied while it is held, and gives the byte back afterwards. */
    CALL(0, 0x8400006B, 0x80020000, 0, 0, 0x8400006B);
    CALL(0x8001, 0x8400006D, 0x80010000, 0, 0, 0x8400006D, 0x80010000);
    CALL(0x8001, 0x84000060, 0, 0xFFFFFFFA, 0, 0x84000077, 1, 0x8001);
    nothing_changed();
    CALL(0, 0x8400006B, 0x80010000, 0, 0, 0x8400006B);
    CALL(0x8002, 0x8400006D, 0x80020000, 0, 0, 0x8400006D, 0x80020000);
    stores(0x4003E000, 0x0000800100000001);
    stores(0x4003E008, 0x0000000100000000);
    CHECK(gorseplumb_store(&machine, 0x4003E010, 2, 0x8002).kind == GORSEPLUMB_KIND_DONE);
    CALL(0x8002, 0x84000061, 0, 0, 0, 0x84000076);
    changed(0x8002, 0x40021000);
    faults(gorseplumb_load(&machine, 0x40021000, 1), GORSEPLUMB_FAULT_TRANSLATION);
    CALL(0, 0x8400006B, 0x80020000, 0, 0, 0x8400006B);
    CALL(0x8001, 0x8400006D, 0x80010000, 0, 0, 0x8400006D, 0x80010000);
    CALL(0x8001, 0x84000061, 0, 0, 0, 0x84000077, 1, 0x8001);
    changed(0x8001, 0x40021000);
    loads(0x40021000, 1, 0x5A);
    CALL(0x8001, 0x84000060, 0, 0xFFFFFFFE, 0, 0x84000077, 1, 0x8001);
    nothing_changed();
}

/* Notifications are pending for these endpoints, and for nobody else. */
static void pending_for(bool first, bool second) {
    for (uint32_t endpoint = 0; endpoint <= UINT16_MAX; endpoint++) {
        CHECK(gorseplumb_npi_pending(&machine, (uint16_t)endpoint) == ((endpoint == 0x8001 && first) || (endpoint == 0x8002 && second)));
    }
}

/* 8001 lets 0000 set a bit, and 8002 lets 8001: each is pending from where it is set to where it is got. */
static void pending(void) {
    pending_for(false, false);
    CALL(0x8002, 0x8400006D, 0x80020000, 0, 0, 0x8400006D, 0x80020000);
    CALL(0x8002, 0x84000061, 0, 0, 0, 0x8400007F, 0x80018002, 0, 0, 0x80);
    CALL(0, 0x8400006B, 0x80020000, 0, 0, 0x8400006B);
    CALL(0x8001, 0x8400006D, 0x80010000, 0, 0, 0x8400006D, 0x80010000);
    CALL(0x8001, 0x84000061, 0, 0, 0, 0x8400007F, 0x00008001, 0, 8);
    pending_for(false, false);
    CALL(0x8001, 0x84000061, 0, 0, 0, 0x84000081, 0x80018002, 0, 0, 0x80);
    pending_for(false, true);
    CALL(0, 0x8400006B, 0x80010000, 0, 0, 0x8400006B);
    CALL(0, 0x84000061, 0, 0, 0, 0x84000081, 0x00008001, 0, 8);
    pending_for(true, true);
    /* 8001 asks for the bits of partitions, of which it has none, and then for those of the normal world. */
    CALL(0x8001, 0x8400006D, 0x80010000, 0, 0, 0x8400006D, 0x80010000);
    CALL(0x8001, 0x84000061, 0, 0, 0, 0x84000082, 0x8001, 1);
    pending_for(true, true);
    struct gorseplumb_registers get = {{0x84000082, 0x8001, 2}};
    struct gorseplumb_outcome got = gorseplumb_call(&machine, &get);
    CHECK(got.kind == GORSEPLUMB_KIND_REGISTERS && got.x[0] == 0x84000061 && got.x[2] == 0 && got.x[4] == 8);
    pending_for(false, true);
    CALL(0, 0x8400006B, 0x80010000, 0, 0, 0x8400006B);
    CALL(0x8002, 0x8400006D, 0x80020000, 0, 0, 0x8400006D, 0x80020000);
    CALL(0x8002, 0x84000061, 0, 0, 0x80, 0x84000082, 0x8002, 15);
    pending_for(false, false);
    CALL(0, 0x8400006B, 0x80020000, 0, 0, 0x8400006B);
}

static void out_of_order(void) {
    struct gorseplumb_registers none = {{0}};
    static struct gorseplumb_page bytes;
    struct gorseplumb_lent untouched = {0};
    CHECK(gorseplumb_end(&machine, &untouched) == GORSEPLUMB_OK && gorseplumb_end(&machine, &untouched) == GORSEPLUMB_NO_MACHINE);
    CHECK(!machine.live && machine.at == NULL && !untouched.live);
    CHECK(gorseplumb_call(&machine, &none).kind == GORSEPLUMB_KIND_NO_MACHINE &&
          gorseplumb_fetch(&machine, 0).kind == GORSEPLUMB_KIND_NO_MACHINE);
    CHECK(gorseplumb_load(&machine, 0, 1).kind == GORSEPLUMB_KIND_NO_MACHINE &&
          gorseplumb_store(&machine, 0, 1, 0).kind == GORSEPLUMB_KIND_NO_MACHINE);
    CHECK(gorseplumb_load(&machine, 0, 3).kind == GORSEPLUMB_KIND_BAD_SIZE &&
          gorseplumb_store(&machine, 0, 0, 0).kind == GORSEPLUMB_KIND_BAD_SIZE && !machine.live);
    CHECK(gorseplumb_runner(&machine) == GORSEPLUMB_NOTHING && gorseplumb_endpoints(&machine) == GORSEPLUMB_NOTHING);
    CHECK(gorseplumb_owner(&machine, 0) == GORSEPLUMB_NOTHING);
    nothing_changed();
    CHECK(gorseplumb_access(&machine, 0, 0) == GORSEPLUMB_NOTHING && !gorseplumb_read_page(&machine, 0, &bytes) &&
          !gorseplumb_npi_pending(&machine, 0));
    CHECK(gorseplumb_boot(&machine, (const uint8_t *)"", 0) == 4 && !machine.live);
    CHECK(gorseplumb_boot(&machine, (const uint8_t *)"\xFF", 1) == 2 && gorseplumb_boot(&machine, (const uint8_t *)"a = ", 4) == 2);
    CHECK(gorseplumb_boot(&machine, text, text_size) == GORSEPLUMB_OK);
    CHECK(gorseplumb_store(&machine, 0x40010000, 1, 0x2A).kind == GORSEPLUMB_KIND_DONE);
    CHECK(gorseplumb_boot(&machine, text, text_size) == GORSEPLUMB_OCCUPIED);
    loads(0x40010000, 1, 0x2A);
    for (uint32_t size = 0; size < 20; size++) {
        bool is_size = size == 1 || size == 2 || size == 4 || size == 8;
        CHECK(gorseplumb_load(&machine, 0x40010000, size).kind == (is_size ? GORSEPLUMB_KIND_DATA : GORSEPLUMB_KIND_BAD_SIZE));
        CHECK(gorseplumb_store(&machine, 0x40010000, size, 0).kind == (is_size ? GORSEPLUMB_KIND_DONE : GORSEPLUMB_KIND_BAD_SIZE));
    }
    /* A machine is moved with its struct. */
    struct gorseplumb_machine moved = machine;
    machine = (struct gorseplumb_machine){0};
    CHECK(gorseplumb_runner(&moved) == 0 && gorseplumb_end(&moved, &untouched) == GORSEPLUMB_OK);
}

static struct gorseplumb_lent list;

/* All memory that a machine in lent pages takes beside them is asked for here: so much, whichever endpoints it has, and 12 bytes for each
 * page. */
static void memory_of_lists(void) {
    for (uint32_t count = 0; count <= 16384; count += 512) {
        asked_bytes = 0;
        CHECK(gorseplumb_begin_lending(&list, count) == GORSEPLUMB_OK && asked_bytes == LIST_BYTES + 12 * (size_t)count);
        CHECK(gorseplumb_end_lending(&list) == GORSEPLUMB_OK);
    }
}

static void lists(void) {
    struct gorseplumb_slot slot = {0}, full = {true, &pages[0]};
    CHECK(gorseplumb_lend(&list, &full) == GORSEPLUMB_NO_LIST && full.live && gorseplumb_take_back(&list, &slot) == GORSEPLUMB_NO_LIST);
    CHECK(gorseplumb_end_lending(&list) == GORSEPLUMB_NO_LIST && gorseplumb_lent_pages(&list) == 0);
    CHECK(gorseplumb_boot_lent(&machine, &list, text, text_size) == GORSEPLUMB_NO_LIST);
    CHECK(gorseplumb_end(&machine, &list) == GORSEPLUMB_NO_MACHINE);
    CHECK(gorseplumb_begin_lending(&list, 4) == GORSEPLUMB_OK && gorseplumb_begin_lending(&list, 4) == GORSEPLUMB_OCCUPIED);
    CHECK(gorseplumb_lend(&list, &slot) == GORSEPLUMB_NO_PAGE && gorseplumb_take_back(&list, &slot) == GORSEPLUMB_NO_PAGE);
    CHECK(gorseplumb_lend(&list, &full) == GORSEPLUMB_OK && !full.live && gorseplumb_lend(&list, &full) == GORSEPLUMB_NO_PAGE);
    CHECK(gorseplumb_lent_pages(&list) == 1 && gorseplumb_end_lending(&list) == GORSEPLUMB_HAS_PAGES);
    slot = (struct gorseplumb_slot){true, &pages[1]};
    CHECK(gorseplumb_take_back(&list, &slot) == GORSEPLUMB_OCCUPIED && slot.at == &pages[1]);
    CHECK(gorseplumb_boot_lent(&machine, &list, text, text_size) == GORSEPLUMB_WRONG_COUNT && gorseplumb_lent_pages(&list) == 1);
    CHECK(gorseplumb_boot_lent(&machine, &list, text, 4) == 2 && gorseplumb_lent_pages(&list) == 1);
    slot.live = false;
    CHECK(gorseplumb_take_back(&list, &slot) == GORSEPLUMB_OK && slot.live && slot.at == &pages[0]);
    CHECK(gorseplumb_end_lending(&list) == GORSEPLUMB_OK && !list.live && pieces == 0);
}

/* A page of the list comes back, with the byte that it was filled with. */
static void comes_back(const struct gorseplumb_page *page, uint8_t byte) {
    struct gorseplumb_slot slot = {0};
    CHECK(gorseplumb_take_back(&list, &slot) == GORSEPLUMB_OK && slot.live && slot.at == page);
    for (int i = 0; i < GORSEPLUMB_PAGE_SIZE; i++) CHECK(page->bytes[i] == byte);
}

/* Pages side by side go to the list by one call. */
static void spans(void) {
    struct gorseplumb_span none = {0}, span = {&pages[3], 4};
    struct gorseplumb_slot slot = {true, &pages[9]};
    for (int i = 0; i < 10; i++) memset(&pages[i], 0x10 + i, sizeof pages[i]);
    CHECK(gorseplumb_lend_span(&list, &span) == GORSEPLUMB_NO_LIST && gorseplumb_lend_span(&list, &none) == GORSEPLUMB_NO_LIST &&
          !list.live);
    CHECK(span.at == &pages[3] && span.pages == 4);
    CHECK(gorseplumb_begin_lending(&list, 6) == GORSEPLUMB_OK && gorseplumb_lend_span(&list, &none) == GORSEPLUMB_NO_PAGE &&
          gorseplumb_lent_pages(&list) == 0);
    CHECK(gorseplumb_lend(&list, &slot) == GORSEPLUMB_OK);
    /* There is room for four more, and the list has them behind the one that it had. */
    asked = 0;
    CHECK(gorseplumb_lend_span(&list, &span) == GORSEPLUMB_OK && asked == 0 && span.at == NULL && span.pages == 0);
    CHECK(gorseplumb_lent_pages(&list) == 5 && gorseplumb_lend_span(&list, &span) == GORSEPLUMB_NO_PAGE &&
          gorseplumb_lent_pages(&list) == 5);
    span = (struct gorseplumb_span){&pages[1], 1};
    CHECK(gorseplumb_lend_span(&list, &span) == GORSEPLUMB_OK && asked == 0 && gorseplumb_lent_pages(&list) == 6);
    /* There is none for two more, for which one piece of memory is asked. */
    span = (struct gorseplumb_span){&pages[7], 2};
    CHECK(gorseplumb_lend_span(&list, &span) == GORSEPLUMB_OK && asked == 1 && gorseplumb_lent_pages(&list) == 8);
    static const int order[] = {9, 3, 4, 5, 6, 1, 7, 8};
    for (int i = 7; i >= 0; i--) comes_back(&pages[order[i]], (uint8_t)(0x10 + order[i]));
    CHECK(gorseplumb_end_lending(&list) == GORSEPLUMB_OK && pieces == 0);
}

/* The machine of machine.toml.h as numbers. */
static struct gorseplumb_manifest row_manifest(void) {
    struct gorseplumb_manifest manifest = {.ram_base = 0x40000000, .ram_blocks = 1, .endpoint_count = 3};
    static const uint8_t uuid[16] = {0x00, 0x11, 0x22, 0x33, 0x44, 0x55, 0x66, 0x77, 0x88, 0x99, 0xAA, 0xBB, 0xCC, 0xDD, 0xEE, 0xFF};
    for (uint32_t place = 0; place < 3; place++) {
        struct gorseplumb_endpoint *endpoint = &manifest.endpoints[place];
        endpoint->properties = place == 0 ? 6 : 15;
        endpoint->region_count = 1;
        endpoint->regions[0] = (struct gorseplumb_region){0x40010000 + 0x10000 * place, 16, GORSEPLUMB_WRITE};
        if (place != 0) memcpy(endpoint->uuid, uuid, sizeof uuid);
    }
    manifest.endpoints[1].regions[0].rights |= GORSEPLUMB_EXECUTE;
    manifest.endpoints[2].uuid[0] = 0x10;
    return manifest;
}

/* What a boot of these numbers answers, which leaves nothing behind. */
static uint32_t refusal(const struct gorseplumb_manifest *manifest) {
    struct gorseplumb_lent untouched = {0};
    uint32_t answer = gorseplumb_boot_manifest(&machine, manifest);
    if (answer == GORSEPLUMB_OK) CHECK(gorseplumb_end(&machine, &untouched) == GORSEPLUMB_OK);
    CHECK(!machine.live && pieces == 0);
    return answer;
}

static void numbers(void) {
    struct gorseplumb_manifest right = row_manifest(), manifest;
    struct gorseplumb_lent untouched = {0};
    CHECK(gorseplumb_boot_manifest(&machine, &right) == GORSEPLUMB_OK && gorseplumb_boot_manifest(&machine, &right) == GORSEPLUMB_OCCUPIED);
    first_row();
    pending();
    lend();
    CHECK(gorseplumb_end(&machine, &untouched) == GORSEPLUMB_OK);
#define REFUSED(answer_, ...) \
    do { \
        manifest = right; \
        __VA_ARGS__; \
        CHECK(refusal(&manifest) == (answer_)); \
    } while (0)
    REFUSED(GORSEPLUMB_OK, manifest.endpoints[1].version = 1);
    REFUSED(GORSEPLUMB_MANIFEST_WRONG_KIND, manifest.endpoints[2].regions[0].rights = 2);
    REFUSED(GORSEPLUMB_MANIFEST_WRONG_KIND, manifest.endpoints[0].regions[0].rights = 0);
    REFUSED(GORSEPLUMB_MANIFEST_RAM_BASE, manifest.ram_base = 0x40100000);
    REFUSED(GORSEPLUMB_MANIFEST_RAM_BASE, manifest.ram_base = 0);
    REFUSED(GORSEPLUMB_MANIFEST_RAM_BLOCKS, manifest.ram_blocks = 33);
    /* RAM lies in one GiB. */
    REFUSED(GORSEPLUMB_MANIFEST_RAM_BLOCKS, manifest.ram_base = 0x3FE00000, manifest.ram_blocks = 2);
    REFUSED(GORSEPLUMB_MANIFEST_RAM_BLOCKS, manifest.ram_base = 0xFFE00000, manifest.ram_blocks = 2);
    REFUSED(GORSEPLUMB_MANIFEST_REGION_OUTSIDE, manifest.ram_base = 0x3FE00000);
    REFUSED(GORSEPLUMB_MANIFEST_ENDPOINT_COUNT, manifest.endpoint_count = 0);
    REFUSED(GORSEPLUMB_MANIFEST_ENDPOINT_COUNT, manifest.endpoint_count = 9);
    REFUSED(GORSEPLUMB_MANIFEST_UUID, memset(manifest.endpoints[1].uuid, 0, 16));
    REFUSED(GORSEPLUMB_MANIFEST_UUID, manifest.endpoints[0].uuid[15] = 1);
    REFUSED(GORSEPLUMB_MANIFEST_PROPERTY, manifest.endpoints[1].properties = 16);
    REFUSED(GORSEPLUMB_MANIFEST_PROPERTY, manifest.endpoints[0].properties = 1);
    REFUSED(GORSEPLUMB_MANIFEST_REGION_COUNT, manifest.endpoints[2].region_count = 0);
    REFUSED(GORSEPLUMB_MANIFEST_REGION_COUNT, manifest.endpoints[2].region_count = 17);
    REFUSED(GORSEPLUMB_MANIFEST_REGION_OUTSIDE, manifest.endpoints[0].regions[0].base = 0x40008000);
    REFUSED(GORSEPLUMB_MANIFEST_REGION_OUTSIDE, manifest.endpoints[0].regions[0].pages = 0);
    REFUSED(GORSEPLUMB_MANIFEST_REGION_OUTSIDE, manifest.endpoints[2].regions[0].pages = 0xFFFFFFFF);
    REFUSED(GORSEPLUMB_MANIFEST_REGION_OVERLAP, manifest.endpoints[2].regions[0].base = 0x4002F000);
    /* Nine pages of tables may stand behind all regions, but not over one, nor end behind RAM. */
    REFUSED(GORSEPLUMB_OK, manifest.tables = 503);
    REFUSED(GORSEPLUMB_OK, manifest.tables = 64);
    REFUSED(GORSEPLUMB_MANIFEST_REGION_OUTSIDE, manifest.tables = 63);
    REFUSED(GORSEPLUMB_MANIFEST_TABLES_OUTSIDE, manifest.tables = 504);
    /* Of FF-A 1.2 an endpoint is on a machine of FF-A 1.2 alone; there is no other version. */
    REFUSED(GORSEPLUMB_OK, manifest.endpoints[1].version = 2, manifest.ffa = GORSEPLUMB_FFA_1_2);
    REFUSED(GORSEPLUMB_MANIFEST_VERSION, manifest.endpoints[1].version = 2);
    /* Second direct requests are of FF-A 1.2. */
    REFUSED(GORSEPLUMB_OK, manifest.endpoints[1].version = 2, manifest.endpoints[1].properties = 0x60F, manifest.ffa = GORSEPLUMB_FFA_1_2);
    REFUSED(GORSEPLUMB_MANIFEST_PROPERTY, manifest.endpoints[1].version = 2, manifest.endpoints[1].properties = 0x10, manifest.ffa = GORSEPLUMB_FFA_1_2);
    REFUSED(GORSEPLUMB_MANIFEST_PROPERTY, manifest.endpoints[1].properties = 0x200, manifest.ffa = GORSEPLUMB_FFA_1_2);
    REFUSED(GORSEPLUMB_MANIFEST_PROPERTY, manifest.endpoints[0].version = 2, manifest.endpoints[0].properties = 0x400, manifest.ffa = GORSEPLUMB_FFA_1_2);
    REFUSED(GORSEPLUMB_MANIFEST_PROPERTY, manifest.endpoints[1].properties = 0x200);
    REFUSED(GORSEPLUMB_MANIFEST_VERSION, manifest.endpoints[1].version = 2, manifest.endpoints[1].properties = 0x200);
    REFUSED(GORSEPLUMB_MANIFEST_VERSION, manifest.endpoints[1].version = 3, manifest.ffa = GORSEPLUMB_FFA_1_2);
    /* What tells of no machine at all comes before what makes none. */
    REFUSED(GORSEPLUMB_MANIFEST_VERSION, manifest.endpoints[1].version = 3, manifest.ram_base = 1);
    REFUSED(GORSEPLUMB_MANIFEST_RAM_BASE, manifest.endpoints[1].version = 2, manifest.ram_base = 1);
    REFUSED(GORSEPLUMB_MANIFEST_VERSION, manifest.endpoints[1].version = 2, memset(manifest.endpoints[1].uuid, 0, 16));
    REFUSED(GORSEPLUMB_MANIFEST_RAM_BASE, manifest.ram_base = 1, manifest.ram_blocks = 0);
#undef REFUSED
}

/* A boot in lent RAM has all that it built settled, for each of three endpoints. */
static void boots_settled(void) {
    CHECK(settlings == 3);
    for (unsigned i = 0; i < 3; i++) {
        CHECK(settled[i].endpoint == (i == 0 ? 0 : 0x8000 + i) && settled[i].address == 0x40000000 && settled[i].size == UINT64_C(1) << 32);
    }
    settlings = 0;
}

/* In lent RAM the page of `lend` is settled where its lender and then its borrower have lost it, before another can have it. */
static void settles(void) {
    CHECK(settlings == 2);
    CHECK(settled[0].endpoint == 0x8001 && settled[0].address == 0x40021000 && settled[0].size == GORSEPLUMB_PAGE_SIZE);
    CHECK(settled[1].endpoint == 0x8002 && settled[1].address == 0x40021000 && settled[1].size == GORSEPLUMB_PAGE_SIZE);
}

/* RAM is the pages of both spans, in the order in which these were lent. */
static void in_two_spans(void) {
    struct gorseplumb_manifest manifest = row_manifest();
    struct gorseplumb_span last = {&pages[256], 256}, first = {&pages[0], 256};
    CHECK(gorseplumb_begin_lending(&list, 0) == GORSEPLUMB_OK && gorseplumb_lend_span(&list, &last) == GORSEPLUMB_OK &&
          gorseplumb_lend_span(&list, &first) == GORSEPLUMB_OK);
    CHECK(gorseplumb_boot_lent_manifest(&machine, &list, &manifest) == GORSEPLUMB_OK);
    CHECK(gorseplumb_store(&machine, 0x40010000, 1, 0x2A).kind == GORSEPLUMB_KIND_DONE && pages[256 + 16].bytes[0] == 0x2A);
    CHECK(gorseplumb_end(&machine, &list) == GORSEPLUMB_OK && gorseplumb_lent_pages(&list) == 512);
    for (int i = 0; i < 512; i++) {
        struct gorseplumb_slot slot = {0};
        CHECK(gorseplumb_take_back(&list, &slot) == GORSEPLUMB_OK && slot.at == &pages[(255 - i) & 511]);
    }
    CHECK(pages[256 + 16].bytes[0] == 0x2A && gorseplumb_end_lending(&list) == GORSEPLUMB_OK && pieces == 0);
}

/* Zeros are seen before what is written behind them: where a page in lent RAM is filled with them no pages are settled, once they
 * are there. */
static void zeros_first(void) {
    struct gorseplumb_manifest manifest = row_manifest();
    waits = 0;
    CHECK(gorseplumb_lend_all(&list, pages, 512) == GORSEPLUMB_OK &&
          gorseplumb_boot_lent_manifest(&machine, &list, &manifest) == GORSEPLUMB_OK && waits >= 512);
    lend();
    CHECK(pages[33].bytes[0] == 0x5A);
    /* 8001 lends the page once more, and takes it back with zeros. */
    CALL(0x8001, 0x84000061, 0, 2, 0x8001, 0x84000072, 0x60, 0x60);
    waits = 0;
    CALL(0x8001, 0x84000061, 0, 0, 0, 0x84000077, 2, 0x8001, 1);
    CHECK(waits == 1 && waited_at == 0x40021000 && waited_over == 0);
    loads(0x40021000, 1, 0);
    CHECK(gorseplumb_end(&machine, &list) == GORSEPLUMB_OK && gorseplumb_take_all_back(&list, pages, 512) && pieces == 0);
}

/* What a machine leaves is room for any other in the same pages: one of more endpoints takes no memory behind it. */
static void larger_machines(void) {
    struct gorseplumb_manifest manifest = row_manifest();
    struct gorseplumb_span all = {pages, 512};
    /* The list was begun for no pages, so the first boot takes some. */
    CHECK(gorseplumb_begin_lending(&list, 0) == GORSEPLUMB_OK && gorseplumb_lend_span(&list, &all) == GORSEPLUMB_OK);
    for (manifest.endpoint_count = 1; manifest.endpoint_count <= 3; manifest.endpoint_count++) {
        asked = 0;
        CHECK(gorseplumb_boot_lent_manifest(&machine, &list, &manifest) == GORSEPLUMB_OK);
        CHECK(gorseplumb_endpoints(&machine) == manifest.endpoint_count && (asked == 0 || manifest.endpoint_count == 1));
        asked = 0;
        CHECK(gorseplumb_end(&machine, &list) == GORSEPLUMB_OK && asked == 0 && gorseplumb_lent_pages(&list) == 512);
    }
    CHECK(gorseplumb_take_all_back(&list, pages, 512) && pieces == 0);
}

/* Pages may begin at any byte. */
static void at_odd_addresses(void) {
    static unsigned char memory[513 * GORSEPLUMB_PAGE_SIZE];
    struct gorseplumb_page *odd = (struct gorseplumb_page *)&memory[1];
    CHECK(gorseplumb_lend_all(&list, odd, 512) == GORSEPLUMB_OK &&
          gorseplumb_boot_lent(&machine, &list, text, text_size) == GORSEPLUMB_OK);
    first_row();
    lend();
    CHECK(memory[1 + 16 * GORSEPLUMB_PAGE_SIZE] == 0x2A && memory[1 + 33 * GORSEPLUMB_PAGE_SIZE] == 0x5A);
    CHECK(gorseplumb_end(&machine, &list) == GORSEPLUMB_OK && gorseplumb_take_all_back(&list, odd, 512) && pieces == 0);
}

static void lent_machine(void) {
    struct gorseplumb_manifest manifest = row_manifest();
    memset(pages, 0xA5, sizeof pages);
    CHECK(gorseplumb_lend_all(&list, pages, 512) == GORSEPLUMB_OK);
    /* A list has its own piece of memory, its pages' addresses, and all that the machine takes. A boot takes none. */
    CHECK(pieces == LIST_PIECES);
    asked = 0;
    settlings = 0;
    CHECK(gorseplumb_boot_lent_manifest(&machine, &list, &manifest) == GORSEPLUMB_OK);
    CHECK(asked == 0 && pieces == LIST_PIECES && gorseplumb_lent_pages(&list) == 0);
    boots_settled();
    CHECK(gorseplumb_boot_lent_manifest(&machine, &list, &manifest) == GORSEPLUMB_OCCUPIED);
    CHECK(gorseplumb_boot_lent(&machine, &list, text, text_size) == GORSEPLUMB_OCCUPIED);
    first_row();
    CHECK(settlings == 0);
    lend();
    settles();
    /* RAM is the pages themselves: what was stored is there. */
    CHECK(pages[16].bytes[0] == 0x2A && pages[33].bytes[0] == 0x5A && pages[511].bytes[0] == 0 && pages[512].bytes[0] == 0xA5);
    static struct gorseplumb_page bytes;
    for (uint32_t page = 0; page < 512; page++) {
        CHECK(gorseplumb_read_page(&machine, page, &bytes) && memcmp(&bytes, &pages[page], sizeof bytes) == 0);
    }
    /* A machine ends only where there is an empty list for its pages. */
    struct gorseplumb_lent other = {0};
    struct gorseplumb_slot slot = {true, &pages[512]};
    CHECK(gorseplumb_end(&machine, &other) == GORSEPLUMB_NO_LIST && machine.live);
    CHECK(gorseplumb_lend(&list, &slot) == GORSEPLUMB_OK && gorseplumb_end(&machine, &list) == GORSEPLUMB_HAS_PAGES && machine.live);
    CHECK(gorseplumb_take_back(&list, &slot) == GORSEPLUMB_OK && slot.at == &pages[512]);
    CHECK(gorseplumb_load(&machine, 0x40021000, 1).kind != GORSEPLUMB_KIND_NO_MACHINE);
    CHECK(gorseplumb_end(&machine, &list) == GORSEPLUMB_OK && !machine.live && gorseplumb_lent_pages(&list) == 512);
    CHECK(pages[33].bytes[0] == 0x5A && pieces == LIST_PIECES);
    /* Nor does the next boot take any, and that of a text gives all back that it takes. */
    manifest.ram_blocks = 0;
    CHECK(gorseplumb_boot_lent_manifest(&machine, &list, &manifest) == GORSEPLUMB_MANIFEST_RAM_BLOCKS && pieces == LIST_PIECES);
    manifest.ram_blocks = 1;
    asked = 0;
    CHECK(gorseplumb_boot_lent_manifest(&machine, &list, &manifest) == GORSEPLUMB_OK && pages[33].bytes[0] == 0);
    CHECK(gorseplumb_end(&machine, &list) == GORSEPLUMB_OK && asked == 0 && pieces == LIST_PIECES);
    CHECK(gorseplumb_boot_lent(&machine, &list, text, text_size) == GORSEPLUMB_OK && asked > 0 && pieces == LIST_PIECES);
    CHECK(gorseplumb_end(&machine, &list) == GORSEPLUMB_OK && pieces == LIST_PIECES);
    CHECK(gorseplumb_take_all_back(&list, pages, 512) && pieces == 0);
    in_two_spans();
    /* A machine over the heap's RAM gives no pages back. */
    CHECK(gorseplumb_begin_lending(&list, 0) == GORSEPLUMB_OK && gorseplumb_boot(&machine, text, text_size) == GORSEPLUMB_OK);
    CHECK(gorseplumb_end(&machine, &list) == GORSEPLUMB_OK && gorseplumb_lent_pages(&list) == 0);
    CHECK(gorseplumb_end_lending(&list) == GORSEPLUMB_OK && pieces == 0);
    /* A manifest that is refused leaves the pages lent. */
    manifest.ram_blocks = 2;
    CHECK(gorseplumb_lend_all(&list, pages, 512) == GORSEPLUMB_OK &&
          gorseplumb_boot_lent_manifest(&machine, &list, &manifest) == GORSEPLUMB_WRONG_COUNT);
    manifest.ram_blocks = 0;
    CHECK(gorseplumb_boot_lent_manifest(&machine, &list, &manifest) == GORSEPLUMB_MANIFEST_RAM_BLOCKS &&
          gorseplumb_lent_pages(&list) == 512);
    CHECK(gorseplumb_take_all_back(&list, pages, 512) && gorseplumb_boot_lent_manifest(&machine, &list, &manifest) == GORSEPLUMB_NO_LIST &&
          pieces == 0);
}

/* With what a page is filled, which is no zero. */
static uint8_t mark(int page) { return (uint8_t)(0x80 | (page & 0x7F)); }

static void mark_pages(void) {
    for (int i = 0; i < 512; i++) memset(&pages[i], mark(i), sizeof pages[i]);
}

static bool is_filled(const struct gorseplumb_page *page, uint8_t byte) {
    for (int i = 0; i < GORSEPLUMB_PAGE_SIZE; i++) {
        if (page->bytes[i] != byte) return false;
    }
    return true;
}

/* The tables of three endpoints over a block. */
enum { TABLE_PAGES = 9 };

/* The machine has the tables of a machine in cleared pages, the bytes that were in the pages of its regions, and else zeros. */
static void is_held(const struct gorseplumb_page *tables) {
    for (uint32_t page = 0; page < 512; page++) {
        static struct gorseplumb_page bytes;
        CHECK(gorseplumb_read_page(&machine, page, &bytes));
        if (page < TABLE_PAGES) CHECK(memcmp(&bytes, &tables[page], sizeof bytes) == 0);
        if (page >= TABLE_PAGES) CHECK(is_filled(&bytes, gorseplumb_owner(&machine, page) != 0x8000 ? mark((int)page) : 0));
    }
}

/* A boot that keeps bytes, of a manifest with code that 8001 may not write to, and data that 8002 may not. */
static void held_machine(void) {
    static struct gorseplumb_page tables[TABLE_PAGES];
    struct gorseplumb_manifest manifest = row_manifest();
    manifest.endpoints[1].regions[0].rights = GORSEPLUMB_READ | GORSEPLUMB_EXECUTE;
    manifest.endpoints[2].regions[0].rights = GORSEPLUMB_READ;
    CHECK(gorseplumb_boot_preloaded_manifest(&machine, &list, &manifest) == GORSEPLUMB_NO_LIST &&
          gorseplumb_boot_preloaded(&machine, &list, text, text_size) == GORSEPLUMB_NO_LIST);
    CHECK(gorseplumb_lend_all(&list, pages, 512) == GORSEPLUMB_OK &&
          gorseplumb_boot_lent_manifest(&machine, &list, &manifest) == GORSEPLUMB_OK);
    memcpy(tables, pages, sizeof tables);
    CHECK(gorseplumb_end(&machine, &list) == GORSEPLUMB_OK);
    mark_pages();
    /* What is refused leaves all bytes. */
    manifest.ram_blocks = 0;
    CHECK(gorseplumb_boot_preloaded_manifest(&machine, &list, &manifest) == GORSEPLUMB_MANIFEST_RAM_BLOCKS);
    manifest.ram_blocks = 2;
    CHECK(gorseplumb_boot_preloaded_manifest(&machine, &list, &manifest) == GORSEPLUMB_WRONG_COUNT &&
          gorseplumb_boot_preloaded(&machine, &list, text, 4) == 2);
    for (int i = 0; i < 512; i++) CHECK(is_filled(&pages[i], mark(i)));
    CHECK(!machine.live && gorseplumb_lent_pages(&list) == 512);
    manifest.ram_blocks = 1;
    asked = 0;
    CHECK(gorseplumb_boot_preloaded_manifest(&machine, &list, &manifest) == GORSEPLUMB_OK && asked == 0 && gorseplumb_lent_pages(&list) == 0);
    is_held(tables);
    loads(0x40010000, 8, 0x9090909090909090);
    CALL(0x8001, 0x8400006D, 0x80010000, 0, 0, 0x8400006D, 0x80010000);
    struct gorseplumb_outcome code = gorseplumb_fetch(&machine, 0x40020000);
    CHECK(code.kind == GORSEPLUMB_KIND_DATA && code.value == 0xA0A0A0A0);
    faults(gorseplumb_store(&machine, 0x40020000, 1, 0), GORSEPLUMB_FAULT_PERMISSION);
    CALL(0, 0x8400006B, 0x80010000, 0, 0, 0x8400006B);
    CALL(0x8002, 0x8400006D, 0x80020000, 0, 0, 0x8400006D, 0x80020000);
    loads(0x4003FFFF, 1, 0xBF);
    faults(gorseplumb_store(&machine, 0x40030000, 1, 0), GORSEPLUMB_FAULT_PERMISSION);
    CHECK(gorseplumb_boot_preloaded_manifest(&machine, &list, &manifest) == GORSEPLUMB_OCCUPIED &&
          gorseplumb_boot_preloaded(&machine, &list, text, text_size) == GORSEPLUMB_OCCUPIED);
    is_held(tables);
    CHECK(gorseplumb_end(&machine, &list) == GORSEPLUMB_OK && gorseplumb_boot_lent(&machine, &list, text, text_size) == GORSEPLUMB_OK);
    memcpy(tables, pages, sizeof tables);
    CHECK(gorseplumb_end(&machine, &list) == GORSEPLUMB_OK);
    mark_pages();
    CHECK(gorseplumb_boot_preloaded(&machine, &list, text, text_size) == GORSEPLUMB_OK && gorseplumb_lent_pages(&list) == 0);
    is_held(tables);
    CALL(0x8002, 0x8400006D, 0x80020000, 0, 0, 0x8400006D, 0x80020000);
    CHECK(gorseplumb_store(&machine, 0x40030000, 1, 0).kind == GORSEPLUMB_KIND_DONE &&
          gorseplumb_end(&machine, &list) == GORSEPLUMB_OK);
    CHECK(gorseplumb_take_all_back(&list, pages, 512) && pieces == 0);
}

/* A machine takes what the list has of memory with its pages. So a second one beside it asks for what the list lacks, its own memory
 * and room for copies of a TX, and where that is refused the pages are as before; what it got until then stays with the list. A machine
 * that ends gives its memory to the list. */
static void two_machines(void) {
    struct gorseplumb_manifest manifest = row_manifest();
    struct gorseplumb_machine first = {0};
    memset(pages, 0xA5, sizeof pages);
    CHECK(gorseplumb_lend_all(&list, pages, 512) == GORSEPLUMB_OK &&
          gorseplumb_boot_lent_manifest(&first, &list, &manifest) == GORSEPLUMB_OK);
    for (int i = 512; i < 1024; i++) {
        struct gorseplumb_slot slot = {true, &pages[i]};
        CHECK(gorseplumb_lend(&list, &slot) == GORSEPLUMB_OK);
    }
    uint32_t answer = GORSEPLUMB_NO_MEMORY;
    size_t turn = 0;
    for (; answer != GORSEPLUMB_OK; turn++) {
        asked = 0;
        refused = turn + 1;
        answer = gorseplumb_boot_lent_manifest(&machine, &list, &manifest);
        refused = 0;
        CHECK(answer == GORSEPLUMB_OK ||
              (answer == GORSEPLUMB_NO_MEMORY && !machine.live && gorseplumb_lent_pages(&list) == 512 && pages[512].bytes[0] == 0xA5));
    }
    CHECK(turn == 4 && gorseplumb_lent_pages(&list) == 0);
    loads(0x40010000, 1, 0);
    CHECK(gorseplumb_end(&machine, &list) == GORSEPLUMB_OK && gorseplumb_end(&first, &list) == GORSEPLUMB_HAS_PAGES);
    asked = 0;
    CHECK(gorseplumb_boot_lent_manifest(&machine, &list, &manifest) == GORSEPLUMB_OK && gorseplumb_end(&machine, &list) == GORSEPLUMB_OK &&
          asked == 0);
    for (int i = 1023; i >= 512; i--) {
        struct gorseplumb_slot slot = {0};
        CHECK(gorseplumb_take_back(&list, &slot) == GORSEPLUMB_OK && slot.at == &pages[i]);
    }
    /* The list keeps of the first machine's pieces as many as it needs. */
    CHECK(pieces == LIST_PIECES + LIST_PIECES - 1 && gorseplumb_end(&first, &list) == GORSEPLUMB_OK && pieces == LIST_PIECES);
    CHECK(gorseplumb_take_all_back(&list, pages, 512) && pieces == 0);
}

/* Each piece of memory is refused in turn: the answer says so, and nothing stays behind. */
static void refusals(void) {
    struct gorseplumb_manifest manifest = row_manifest();
    struct gorseplumb_lent untouched = {0};
    uint32_t answer;
    for (int as_text = 0; as_text < 2; as_text++) {
        answer = GORSEPLUMB_NO_MEMORY;
        size_t turn = 0;
        for (; answer != GORSEPLUMB_OK; turn++) {
            asked = 0;
            refused = turn + 1;
            answer = as_text ? gorseplumb_boot(&machine, text, text_size) : gorseplumb_boot_manifest(&machine, &manifest);
            refused = 0;
            CHECK(answer == GORSEPLUMB_OK || (answer == GORSEPLUMB_NO_MEMORY && !machine.live && pieces == 0));
        }
        CHECK(as_text ? turn > 5 : turn == 5);
        CHECK(gorseplumb_end(&machine, &untouched) == GORSEPLUMB_OK);
    }
    CHECK(gorseplumb_lend_all(&list, pages, 512) == GORSEPLUMB_OK);
    size_t before = pieces;
    answer = GORSEPLUMB_NO_MEMORY;
    for (size_t turn = 0; answer != GORSEPLUMB_OK; turn++) {
        asked = 0;
        refused = turn + 1;
        answer = gorseplumb_boot_lent(&machine, &list, text, text_size);
        refused = 0;
        CHECK(answer == GORSEPLUMB_OK ||
              (answer == GORSEPLUMB_NO_MEMORY && !machine.live && pieces == before && gorseplumb_lent_pages(&list) == 512));
    }
    CHECK(gorseplumb_end(&machine, &list) == GORSEPLUMB_OK && gorseplumb_take_all_back(&list, pages, 512));
    answer = GORSEPLUMB_NO_MEMORY;
    size_t begun = 0;
    for (; answer != GORSEPLUMB_OK; begun++) {
        asked = 0;
        refused = begun + 1;
        answer = gorseplumb_begin_lending(&list, 4);
        refused = 0;
        CHECK(answer == GORSEPLUMB_OK || (answer == GORSEPLUMB_NO_MEMORY && !list.live && list.at == NULL && pieces == 0));
    }
    CHECK(begun == LIST_PIECES + 1 && pieces == LIST_PIECES && gorseplumb_end_lending(&list) == GORSEPLUMB_OK && pieces == 0);
    /* A lend asks for memory only where the list has no room left. */
    struct gorseplumb_slot slot = {true, &pages[0]};
    CHECK(gorseplumb_begin_lending(&list, 1) == GORSEPLUMB_OK);
    asked = 0;
    refused = 1;
    CHECK(gorseplumb_lend(&list, &slot) == GORSEPLUMB_OK && asked == 0);
    slot = (struct gorseplumb_slot){true, &pages[1]};
    CHECK(gorseplumb_lend(&list, &slot) == GORSEPLUMB_NO_MEMORY && asked == 1 && slot.at == &pages[1] && gorseplumb_lent_pages(&list) == 1);
    refused = 0;
    CHECK(gorseplumb_lend(&list, &slot) == GORSEPLUMB_OK && gorseplumb_take_all_back(&list, pages, 2) && pieces == 0);
    /* A span is lent whole or not at all: where memory is refused the list has its page and its room. */
    struct gorseplumb_span span = {&pages[1], 3};
    slot = (struct gorseplumb_slot){true, &pages[0]};
    CHECK(gorseplumb_begin_lending(&list, 3) == GORSEPLUMB_OK && gorseplumb_lend(&list, &slot) == GORSEPLUMB_OK);
    asked = 0;
    refused = 1;
    CHECK(gorseplumb_lend_span(&list, &span) == GORSEPLUMB_NO_MEMORY && asked == 1 && gorseplumb_lent_pages(&list) == 1);
    CHECK(span.at == &pages[1] && span.pages == 3);
    span.pages = 2;
    CHECK(gorseplumb_lend_span(&list, &span) == GORSEPLUMB_OK && asked == 1 && span.at == NULL &&
          gorseplumb_take_all_back(&list, pages, 3));
    refused = 0;
    CHECK(pieces == 0);
}

int main(void) {
    CHECK(gorseplumb_boot(&machine, text, text_size) == GORSEPLUMB_OK);
    first_row();
    lend();
    out_of_order();
    CHECK(pieces == 0);
    memory_of_lists();
    lists();
    spans();
    numbers();
    lent_machine();
    zeros_first();
    larger_machines();
    at_odd_addresses();
    held_machine();
    two_machines();
    refusals();
    CHECK(pieces == 0);
    puts("ok");
    return 0;
}
