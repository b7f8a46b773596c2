/* SPDX-License-Identifier: MIT OR Apache-2.0 */
/* A manifest's text as numbers, a machine that ends without a list, operations that are given in a list, and runs of pages that are
 * judged, of a machine and of tables in pages that are lent, also where memory is refused. Numbers and answers are by reasoning, or
 * the manual's, as in test.c. */
#include <stdio.h>
#include <string.h>
#include "../board/calls.h"
#include "check.h"
#include "counted.h"
#include "gorseplumb.h"
#include "lending.h"
#include "machine.toml.h"

static struct gorseplumb_machine machine;
static struct gorseplumb_page pages[512];
static struct gorseplumb_lent list;

void gorseplumb_settle(uint16_t endpoint, uint64_t address, uint64_t size) {
    (void)endpoint, (void)address, (void)size; /* no processor walks the tables */
}

static const uint8_t *text = (const uint8_t *)manifest_text;
static const size_t text_size = sizeof manifest_text - 1;

static void loads(uint64_t address, uint32_t size, uint64_t value) {
    struct gorseplumb_outcome told = gorseplumb_load(&machine, address, size);
    CHECK(told.kind == GORSEPLUMB_KIND_DATA && told.value == value);
}

static void stores(uint64_t address, uint64_t value) {
    CHECK(gorseplumb_store(&machine, address, 8, value).kind == GORSEPLUMB_KIND_DONE);
}

/* The machine of machine.toml.h as numbers. */
static struct gorseplumb_manifest row_manifest(void) {
    struct gorseplumb_manifest manifest = {.ram_base = 0x40000000, .ram_blocks = 1, .endpoint_count = 3};
    static const uint8_t uuid[16] = {0x00, 0x11, 0x22, 0x33, 0x44, 0x55, 0x66, 0x77, 0x88, 0x99, 0xAA, 0xBB, 0xCC, 0xDD, 0xEE, 0xFF};
    for (uint32_t place = 0; place < 3; place++) {
        struct gorseplumb_endpoint *endpoint = &manifest.endpoints[place];
        endpoint->properties = place == 0 ? 6 : 15;
        endpoint->region_count = 1;
        endpoint->regions[0] = (struct gorseplumb_region){0x40010000 + 0x10000 * place, 16, GORSEPLUMB_WRITE};
        if (place != 0) memcpy(endpoint->uuid, uuid, sizeof uuid);
    }
    manifest.endpoints[1].regions[0].rights |= GORSEPLUMB_EXECUTE;
    manifest.endpoints[2].uuid[0] = 0x10;
    return manifest;
}

/* A text is read into the numbers that say the same, with zeros behind what they count; what is refused leaves all as it was. */
static void reads(void) {
    static struct gorseplumb_manifest manifest;
    const struct gorseplumb_manifest right = row_manifest();
    memset(&manifest, 0x5A, sizeof manifest);
    const struct gorseplumb_manifest before = manifest;
    CHECK(gorseplumb_read_manifest((const uint8_t *)"", 0, &manifest) == GORSEPLUMB_MANIFEST_MISSING_KEY);
    CHECK(gorseplumb_read_manifest((const uint8_t *)"\xFF", 1, &manifest) == GORSEPLUMB_MANIFEST_TOML);
    CHECK(gorseplumb_read_manifest((const uint8_t *)"ram_base = 1", 12, &manifest) == GORSEPLUMB_MANIFEST_RAM_BASE);
    uint32_t answer = GORSEPLUMB_NO_MEMORY;
    for (size_t turn = 0; answer != GORSEPLUMB_OK; turn++) {
        CHECK(memcmp(&manifest, &before, sizeof manifest) == 0);
        asked = 0;
        refused = turn + 1;
        answer = gorseplumb_read_manifest(text, text_size, &manifest);
        refused = 0;
        CHECK((answer == GORSEPLUMB_OK || answer == GORSEPLUMB_NO_MEMORY) && pieces == 0);
    }
    CHECK(asked > 0 && memcmp(&manifest, &right, sizeof manifest) == 0);
}

/* A machine in RAM of the heap needs no list to end, and one in lent RAM does. */
static void ends(void) {
    struct gorseplumb_manifest manifest = row_manifest();
    CHECK(gorseplumb_end_heap(&machine) == GORSEPLUMB_NO_MACHINE && gorseplumb_boot_manifest(&machine, &manifest) == GORSEPLUMB_OK);
    CHECK(gorseplumb_end_heap(&machine) == GORSEPLUMB_OK && !machine.live && machine.at == NULL && pieces == 0);
    CHECK(gorseplumb_lend_all(&list, pages, 512) == GORSEPLUMB_OK &&
          gorseplumb_boot_lent_manifest(&machine, &list, &manifest) == GORSEPLUMB_OK);
    CHECK(gorseplumb_end_heap(&machine) == GORSEPLUMB_LENT && machine.live && pieces == LIST_PIECES);
    loads(0x40010000, 1, 0);
    CHECK(gorseplumb_end(&machine, &list) == GORSEPLUMB_OK && gorseplumb_take_all_back(&list, pages, 512) && pieces == 0);
}

/* Operations of a list are done one after another, each as by its own call. */
static void runs(void) {
    static const struct gorseplumb_operation operations[] = {
        {GORSEPLUMB_OPERATION_CALL, 0, 0, 0, {FFA_ID_GET}},
        {GORSEPLUMB_OPERATION_STORE, 2, 0x40010000, 0x123456, {0}},
        {4, 1, 0x40010000, 0, {0}},
        {GORSEPLUMB_OPERATION_LOAD, 3, 0x40010000, 0, {0}},
        {GORSEPLUMB_OPERATION_LOAD, 4, 0x40010000, 0, {0}},
        {GORSEPLUMB_OPERATION_FETCH, 0, 0x40010000, 0, {0}},
        {GORSEPLUMB_OPERATION_CALL, 0, 0, 0, {FFA_RUN, 0x80010000}},
        {GORSEPLUMB_OPERATION_FETCH, 0, 0x40020000, 0, {0}},
        {GORSEPLUMB_OPERATION_STORE, 1, 0x40020000, 1, {0}},
    };
    enum { COUNT = sizeof operations / sizeof operations[0] };
    static const uint32_t kinds[COUNT] = {GORSEPLUMB_KIND_REGISTERS, GORSEPLUMB_KIND_DONE,      GORSEPLUMB_KIND_BAD_SIZE,
                                          GORSEPLUMB_KIND_BAD_SIZE,  GORSEPLUMB_KIND_DATA,      GORSEPLUMB_KIND_FAULT,
                                          GORSEPLUMB_KIND_REGISTERS, GORSEPLUMB_KIND_DATA,      GORSEPLUMB_KIND_DONE};
    static struct gorseplumb_outcome told[COUNT + 1];
    memset(told, 0x5A, sizeof told);
    CHECK(gorseplumb_run(&machine, operations, COUNT, told, COUNT) == COUNT);
    for (size_t i = 0; i < COUNT; i++) {
        CHECK(told[i].kind == (kinds[i] == GORSEPLUMB_KIND_BAD_SIZE ? GORSEPLUMB_KIND_BAD_SIZE : GORSEPLUMB_KIND_NO_MACHINE));
    }
    CHECK(gorseplumb_boot(&machine, text, text_size) == GORSEPLUMB_OK);
    memset(told, 0x5A, sizeof told);
    CHECK(gorseplumb_run(&machine, operations, COUNT, told, 0) == 0 && gorseplumb_run(&machine, operations, 0, told, COUNT) == 0);
    CHECK(told[0].kind == 0x5A5A5A5A && gorseplumb_runner(&machine) == 0);
    CHECK(gorseplumb_run(&machine, operations, COUNT, told, 2) == 2 && told[2].kind == 0x5A5A5A5A);
    loads(0x40010000, 8, 0x3456);
    stores(0x40010000, 0);
    CHECK(gorseplumb_run(&machine, operations, 6, told, COUNT + 1) == 6 && told[6].kind == 0x5A5A5A5A);
    CHECK(gorseplumb_run(&machine, operations, COUNT, told, COUNT + 1) == COUNT && told[COUNT].kind == 0x5A5A5A5A);
    for (size_t i = 0; i < COUNT; i++) CHECK(told[i].kind == kinds[i]);
    CHECK(told[0].x[0] == FFA_SUCCESS && told[0].x[2] == 0 && told[4].value == 0x3456 && told[5].value == GORSEPLUMB_FAULT_PERMISSION);
    CHECK(told[6].runner == 0x8001 && told[7].value == 0 && gorseplumb_runner(&machine) == 0x8001);
    loads(0x40020000, 1, 1);
    CHECK(gorseplumb_end_heap(&machine) == GORSEPLUMB_OK && pieces == 0);
}

/* The certificate of the row's machine, and the tables of its endpoints: a level 1 page, a level 2 page and a level 3 page each. */
enum { RUNS = 5 };
static const struct gorseplumb_cert_run first_runs[RUNS] = {
    {0, 15, 0x8000, 0, 0, {0}},          {16, 31, 0, 0, 0, {3}},       {32, 47, 0x8001, 0, 0, {0, 7}},
    {48, 63, 0x8002, 0, 0, {0, 0, 3}},   {64, 511, 0x8000, 0, 0, {0}},
};
static const uint32_t roots[3] = {0x40000000, 0x40003000, 0x40006000};

/* What the machine's tables, or those in the list, answer to the certificate with one thing changed. */
#define AUDITED(answer_, ...) \
    do { \
        struct gorseplumb_cert_run told[RUNS]; \
        size_t count = RUNS; \
        memcpy(told, first_runs, sizeof told); \
        __VA_ARGS__; \
        CHECK(audited(told, count) == (answer_)); \
    } while (0)

static uint32_t audited(const struct gorseplumb_cert_run *told, size_t count) {
    if (machine.live) return gorseplumb_audit(&machine, told, count);
    return gorseplumb_audit_tables(&list, 0x40000000, roots, 3, told, count);
}

static void audits(void) {
    AUDITED(GORSEPLUMB_OK, (void)0);
    AUDITED(GORSEPLUMB_OK, told[1].owner = 0x12345, told[2].has_handle = 7, told[2].handle = 1); /* no table tells these */
    AUDITED(GORSEPLUMB_NOT_CERTIFIED, count = 0);
    AUDITED(GORSEPLUMB_NOT_CERTIFIED, count = 4);
    AUDITED(GORSEPLUMB_NOT_CERTIFIED, told[4].last = 510);
    AUDITED(GORSEPLUMB_NOT_CERTIFIED, told[4].last = 512);
    AUDITED(GORSEPLUMB_NOT_CERTIFIED, told[0].first = 1);
    AUDITED(GORSEPLUMB_NOT_CERTIFIED, told[1].last = 32);
    AUDITED(GORSEPLUMB_NOT_CERTIFIED, told[1].last = 32, told[2].first = 33);
    AUDITED(GORSEPLUMB_NOT_CERTIFIED, told[1].access[0] = 1);
    AUDITED(GORSEPLUMB_NOT_CERTIFIED, told[1].access[0] = 2); /* no code */
    AUDITED(GORSEPLUMB_NOT_CERTIFIED, told[0].access[7] = 8);
    AUDITED(GORSEPLUMB_OK, told[0].access[7] = 3); /* there is no such endpoint */
    AUDITED(GORSEPLUMB_NOT_CERTIFIED, told[2].access[1] = 3);
    AUDITED(GORSEPLUMB_NOT_CERTIFIED, told[3].access[1] = 1);
}

/* While memory is refused nothing is judged, and what was taken is given back. */
static void audits_nothing(void) {
    size_t before = pieces;
    asked = 0;
    refused = 1;
    AUDITED(GORSEPLUMB_NO_MEMORY, (void)0);
    refused = 0;
    AUDITED(GORSEPLUMB_OK, (void)0);
    CHECK(asked == 2 && pieces == before);
}

static uint32_t tables(uint32_t base, const uint32_t *at, size_t count) {
    return gorseplumb_audit_tables(&list, base, at, count, first_runs, RUNS);
}

/* 8001 lends page 33 and has it no more: the first certificate is wrong from then on, and one that says so is right. */
static void lends(void) {
    enum { COUNT = 10 };
    static const struct gorseplumb_operation operations[COUNT] = {
        {GORSEPLUMB_OPERATION_CALL, 0, 0, 0, {FFA_RUN, 0x80010000}},
        {GORSEPLUMB_OPERATION_CALL, 0, 0, 0, {FFA_RXTX_MAP, 0x4002E000, 0x4002F000, 1}},
        {GORSEPLUMB_OPERATION_STORE, 8, 0x4002E000, 0x8001, {0}},
        {GORSEPLUMB_OPERATION_STORE, 8, 0x4002E018, 0x0000000100000010, {0}},
        {GORSEPLUMB_OPERATION_STORE, 8, 0x4002E020, 0x30, {0}},
        {GORSEPLUMB_OPERATION_STORE, 8, 0x4002E030, 0x0000004000028002, {0}},
        {GORSEPLUMB_OPERATION_STORE, 8, 0x4002E040, 0x0000000100000001, {0}},
        {GORSEPLUMB_OPERATION_STORE, 8, 0x4002E050, 0x40021000, {0}},
        {GORSEPLUMB_OPERATION_STORE, 8, 0x4002E058, 1, {0}},
        {GORSEPLUMB_OPERATION_CALL, 0, 0, 0, {FFA_MEM_LEND, 0x60, 0x60}},
    };
    static struct gorseplumb_outcome outcomes[COUNT];
    CHECK(gorseplumb_run(&machine, operations, COUNT, outcomes, COUNT) == COUNT);
    const struct gorseplumb_outcome *lent = &outcomes[COUNT - 1];
    CHECK(lent->kind == GORSEPLUMB_KIND_REGISTERS && lent->x[0] == FFA_SUCCESS && lent->x[2] == 1 && lent->x[3] == 0x8001);
    AUDITED(GORSEPLUMB_NOT_CERTIFIED, (void)0);
    struct gorseplumb_cert_run split[RUNS + 2];
    memcpy(split, first_runs, 3 * sizeof split[0]);
    memcpy(split + 4, first_runs + 2, 3 * sizeof split[0]);
    split[2].last = 32;
    split[3] = (struct gorseplumb_cert_run){33, 33, 0x8001, 1, 0x0000800100000001, {0}};
    split[4].first = 34;
    CHECK(gorseplumb_audit(&machine, split, RUNS + 2) == GORSEPLUMB_OK);
    /* So is the machine's own. */
    struct gorseplumb_cert_run own[RUNS + 2];
    uint32_t page = 0;
    for (size_t i = 0; i < RUNS + 2; i++) {
        CHECK(gorseplumb_cert_run(&machine, page, &own[i]) && own[i].first == split[i].first && own[i].last == split[i].last);
        page = own[i].last + 1;
    }
    CHECK(page == 512 && gorseplumb_audit(&machine, own, RUNS + 2) == GORSEPLUMB_OK);
}

static void certificates(void) {
    struct gorseplumb_manifest manifest = row_manifest();
    CHECK(gorseplumb_audit(&machine, first_runs, RUNS) == GORSEPLUMB_NO_MACHINE);
    CHECK(tables(1, roots, 3) == GORSEPLUMB_NO_LIST && gorseplumb_boot(&machine, text, text_size) == GORSEPLUMB_OK);
    audits();
    audits_nothing();
    lends();
    memset(pages, 0, sizeof pages);
    CHECK(gorseplumb_end_heap(&machine) == GORSEPLUMB_OK && gorseplumb_lend_all(&list, pages, 512) == GORSEPLUMB_OK);
    CHECK(tables(0x40000000, roots, 3) == GORSEPLUMB_NOT_CERTIFIED);
    CHECK(gorseplumb_boot_lent_manifest(&machine, &list, &manifest) == GORSEPLUMB_OK);
    audits();
    CHECK(gorseplumb_end(&machine, &list) == GORSEPLUMB_OK);
    audits();
    audits_nothing();
    CHECK(tables(0x40000000, roots, 0) == GORSEPLUMB_OK && tables(0x40000000, roots, 1) == GORSEPLUMB_OK);
    const uint32_t swapped[9] = {roots[0], roots[2], roots[1]};
    CHECK(tables(0x40000000, swapped, 3) == GORSEPLUMB_NOT_CERTIFIED && tables(0x40000000, swapped, 9) == GORSEPLUMB_BAD_ROOTS);
    CHECK(tables(0x40000800, roots, 3) == GORSEPLUMB_BAD_BASE && tables(0xFFE01000, roots, 9) == GORSEPLUMB_BAD_BASE);
    static const uint32_t others[] = {0x40000008, 0x40200000, 0x3FFFF000, 0, 0xFFFFF000};
    for (size_t i = 0; i < sizeof others / sizeof others[0]; i++) CHECK(tables(0x40000000, &others[i], 1) == GORSEPLUMB_BAD_ROOTS);
    CHECK(tables(0xFFE00000, roots, 3) == GORSEPLUMB_BAD_ROOTS && tables(0xFFE00000, roots, 0) == GORSEPLUMB_OK);
    /* One bit of one word of 8002's level 3 page gives page 63 away, or takes it. */
    CHECK(gorseplumb_lent_pages(&list) == 512 && gorseplumb_take_all_back(&list, pages, 512) && pieces == 0);
    for (int bit = 6; bit < 8; bit++) {
        pages[8].bytes[8 * 63] ^= (uint8_t)(1 << bit);
        CHECK(gorseplumb_lend_all(&list, pages, 512) == GORSEPLUMB_OK && tables(0x40000000, roots, 3) == GORSEPLUMB_NOT_CERTIFIED);
        CHECK(gorseplumb_take_all_back(&list, pages, 512));
        pages[8].bytes[8 * 63] ^= (uint8_t)(1 << bit);
    }
    CHECK(gorseplumb_lend_all(&list, pages, 512) == GORSEPLUMB_OK && tables(0x40000000, roots, 3) == GORSEPLUMB_OK);
    CHECK(gorseplumb_take_all_back(&list, pages, 512) && pieces == 0);
}

int main(void) {
    CHECK(gorseplumb_declarations() == GORSEPLUMB_DECLARATIONS);
    reads();
    ends();
    runs();
    certificates();
    CHECK(pieces == 0);
    puts("ok");
    return 0;
}
