/* SPDX-License-Identifier: MIT OR Apache-2.0 */
/* The forms of descriptors on a machine of FF-A 1.2: an endpoint of each form sends, retrieves, and sends a message, an endpoint changes
 * its form, and reasons are those of the caller's form. Numbers and answers are by reasoning, or the standard's, as in test.c. */
#include <stdio.h>
#include <string.h>
#include "check.h"
#include "gorseplumb_explain.h"
#include "gorseplumb_ffa.h"
#include "heap.c"

static struct gorseplumb_machine machine;

void gorseplumb_settle(uint16_t endpoint, uint64_t address, uint64_t size) {
    (void)endpoint, (void)address, (void)size;
    CHECK(false); /* RAM is of the heap */
}

#define CALL(...) GORSEPLUMB_CALL(&machine, __VA_ARGS__)
#define PAGE 0x40010000
#define FIRST 0x8001
#define TX UINT64_C(0x4001E000)
#define RX UINT64_C(0x4001F000)
#define TX_1 UINT64_C(0x4002E000)
#define RX_1 UINT64_C(0x4002F000)

/* What a header of each version has: its size, and the size that it says of an access descriptor, which has this size. */
static const struct form {
    uint32_t header, told, access;
} forms[] = {
    [GORSEPLUMB_VERSION_1_1] = {48, 16, 16},
    [GORSEPLUMB_VERSION_COMPACT] = {32, 0, 16},
    [GORSEPLUMB_VERSION_1_2] = {48, 32, 32},
};

/* The normal world and a partition of these versions, each with 16 pages, of which the last two are its TX and RX. */
static struct gorseplumb_manifest of_versions(uint32_t ffa, uint32_t world, uint32_t partition) {
    struct gorseplumb_manifest manifest = {.ram_base = 0x40000000, .ram_blocks = 1, .endpoint_count = 2, .ffa = ffa};
    for (uint32_t place = 0; place < 2; place++) {
        struct gorseplumb_endpoint *endpoint = &manifest.endpoints[place];
        endpoint->version = place == 0 ? world : partition;
        endpoint->properties = GORSEPLUMB_INDIRECT_MESSAGES;
        endpoint->uuid[0] = (uint8_t)place;
        endpoint->region_count = 1;
        endpoint->regions[0] = (struct gorseplumb_region){PAGE + 0x10000 * place, 16, GORSEPLUMB_WRITE};
    }
    return manifest;
}

static void begin(uint32_t ffa, uint32_t world, uint32_t partition) {
    struct gorseplumb_manifest manifest = of_versions(ffa, world, partition);
    CHECK(gorseplumb_boot_manifest(&machine, &manifest) == GORSEPLUMB_OK);
}

static void end(void) { CHECK(gorseplumb_end_heap(&machine) == GORSEPLUMB_OK); }

static void succeeds(struct gorseplumb_outcome told) { CHECK(gorseplumb_function_of(told) == GORSEPLUMB_FFA_SUCCESS); }

static void maps(uint64_t tx) { succeeds(CALL(GORSEPLUMB_FFA_RXTX_MAP_64, tx, tx + 0x1000, 1)); }

static void runs(void) { CHECK(CALL(GORSEPLUMB_FFA_RUN, gorseplumb_pair(FIRST, 0)).runner == FIRST); }

static void waits(void) { CHECK(CALL(GORSEPLUMB_FFA_MSG_WAIT).runner == GORSEPLUMB_NORMAL_WORLD); }

static void put(uint64_t address, uint32_t size, uint64_t value) {
    CHECK(gorseplumb_store(&machine, address, size, value).kind == GORSEPLUMB_KIND_DONE);
}

static uint64_t load(uint64_t address, uint32_t size) {
    struct gorseplumb_outcome told = gorseplumb_load(&machine, address, size);
    CHECK(told.kind == GORSEPLUMB_KIND_DATA);
    return told.value;
}

/* Writes the header of a descriptor of a version, and its access descriptor, with zeros in all that is not said. Returns its size. */
static uint32_t describe(uint64_t tx, uint32_t version, uint64_t front, uint64_t handle, uint64_t named) {
    const struct form *form = &forms[version];
    const uint32_t size = form->header + form->access;
    for (uint32_t at = 0; at < size; at += 8) put(tx + at, 8, 0);
    put(tx, 8, front);
    put(tx + 8, 8, handle);
    put(tx + 24, 4, form->told);
    put(tx + 28, 4, 1);
    if (version != GORSEPLUMB_VERSION_COMPACT) put(tx + 32, 4, form->header);
    put(tx + form->header, 4, named);
    return size;
}

/* The registers of the normal world's lend of a page, whose descriptor in TX has this form. */
static struct gorseplumb_registers lend(uint32_t version, uint64_t front) {
    const uint32_t composite = describe(TX, version, front, 0, 0x20000 | FIRST), size = composite + 32;
    put(TX + forms[version].header + 4, 4, composite);
    put(TX + composite, 8, UINT64_C(1) << 32 | 1);
    put(TX + composite + 8, 8, 0);
    put(TX + composite + 16, 8, PAGE);
    put(TX + composite + 24, 8, 1);
    return GORSEPLUMB_REGISTERS(GORSEPLUMB_FFA_MEM_LEND, size, size);
}

/* 8001 retrieves the lend with handle 1, and finds the response of its form in RX. */
static void retrieves(uint32_t version) {
    const struct form *form = &forms[version];
    const uint32_t size = describe(TX_1, version, 0, 1, FIRST), composite = form->header + form->access;
    struct gorseplumb_outcome told = CALL(GORSEPLUMB_FFA_MEM_RETRIEVE_REQ, size, size);
    CHECK(gorseplumb_function_of(told) == GORSEPLUMB_FFA_MEM_RETRIEVE_RESP && told.x[1] == composite + 32);
    CHECK(load(RX_1 + 2, 2) == (version == GORSEPLUMB_VERSION_COMPACT ? 0x2F : 0x6F));
    CHECK(load(RX_1 + 8, 8) == 1 && load(RX_1 + 24, 4) == form->told && load(RX_1 + 28, 4) == 1);
    CHECK(load(RX_1 + form->header, 8) == (UINT64_C(0x60000) | FIRST | (uint64_t)composite << 32));
    for (uint32_t at = form->header + 8; at < composite; at += 8) CHECK(load(RX_1 + at, 8) == 0);
    CHECK(load(RX_1 + composite, 8) == (UINT64_C(1) << 32 | 1) && load(RX_1 + composite + 16, 8) == PAGE);
    succeeds(CALL(GORSEPLUMB_FFA_RX_RELEASE));
}

/* The normal world lends a page to 8001, which retrieves it, each in its form. */
static void lends(uint32_t world, uint32_t partition) {
    begin(GORSEPLUMB_FFA_1_2, world, partition);
    maps(TX);
    put(PAGE, 1, 0x5A);
    struct gorseplumb_registers call = lend(world, 0);
    CHECK(gorseplumb_handle_of(gorseplumb_call(&machine, &call)) == 1);
    runs();
    maps(TX_1);
    retrieves(partition);
    CHECK(load(PAGE, 1) == 0x5A);
    end();
}

/* A lend may say what memory it is, and its flags its kind; each of the 24 bytes behind the offset of the composite has to be 0. */
static void reads_a_lend_of_1_2(void) {
    struct gorseplumb_reason reason;
    begin(GORSEPLUMB_FFA_1_2, GORSEPLUMB_VERSION_1_2, GORSEPLUMB_VERSION_1_1);
    maps(TX);
    struct gorseplumb_registers call = lend(GORSEPLUMB_VERSION_1_2, UINT64_C(0x10002F0000));
    CHECK(call.x[1] == 0x70 && !gorseplumb_why_call(&machine, &call, &reason));
    for (uint32_t at = 8; at < 32; at++) {
        put(TX + 48 + at, 1, 1);
        CHECK(gorseplumb_why_call(&machine, &call, &reason) && reason.flaw == GORSEPLUMB_FLAW_ACCESS_RESERVED);
        CHECK(reason.first == 56 && reason.size == 24 && reason.has_value == 0);
        put(TX + 48 + at, 1, 0);
    }
    CHECK(gorseplumb_handle_of(gorseplumb_call(&machine, &call)) == 1);
    end();
}

/* A message of the normal world begins behind a header of this size, and not before. */
static void sends_a_message(uint32_t version, uint64_t header) {
    begin(GORSEPLUMB_FFA_1_2, version, GORSEPLUMB_VERSION_1_1);
    runs();
    maps(TX_1);
    waits();
    maps(TX);
    put(TX + 8, 4, header - 1);
    put(TX + 12, 2, FIRST);
    put(TX + 16, 4, 1);
    CHECK(gorseplumb_error_of(CALL(GORSEPLUMB_FFA_MSG_SEND2)) == GORSEPLUMB_ERROR_INVALID_PARAMETERS);
    put(TX + 8, 4, header);
    put(TX + header, 1, 0x5A);
    succeeds(CALL(GORSEPLUMB_FFA_MSG_SEND2));
    runs();
    CHECK(load(RX_1 + header, 1) == 0x5A);
    end();
}

#define FLAW ": the access descriptor size field is not 16, 32 in FF-A 1.2, or 0 in the compact form: "

/* Why the normal world's lend in a form is refused, as the program says it. */
static void says(const struct gorseplumb_registers *call, const char *wanted) {
    char line[320];
    struct gorseplumb_reason reason;
    CHECK(gorseplumb_why_call(&machine, call, &reason) && reason.flaw == GORSEPLUMB_FLAW_HEADER_ACCESS_SIZE);
    CHECK(reason.hint.kind == GORSEPLUMB_HINT_FORM && reason.hint.numbers[0] == GORSEPLUMB_NORMAL_WORLD);
    size_t size = gorseplumb_explain_call(&machine, call, line, sizeof line);
    CHECK(size < sizeof line && size > strlen(wanted) && strcmp(line + size - strlen(wanted), wanted) == 0);
}

/* The normal world asks for a version, and has its form from then on. */
static void asks_for(uint32_t minor, uint32_t version, const char *form) {
    char wanted[320];
    begin(GORSEPLUMB_FFA_1_2, GORSEPLUMB_VERSION_1_1, GORSEPLUMB_VERSION_1_1);
    CHECK(CALL(GORSEPLUMB_FFA_VERSION, 0x10000 | minor).x[0] == 0x10002);
    maps(TX);
    for (uint32_t other = 0; other < 3; other++) {
        if (other == version) continue;
        struct gorseplumb_registers call = lend(other, 0);
        snprintf(wanted, sizeof wanted, FLAW "bytes 18 to 1B are %08X, and must be %08X, because 0000 uses %s", forms[other].told,
                 forms[version].told, form);
        says(&call, wanted);
    }
    struct gorseplumb_registers call = lend(version, 0);
    CHECK(gorseplumb_handle_of(gorseplumb_call(&machine, &call)) == 1);
    end();
}

/* On a machine of FF-A 1.1 an endpoint has the form of its manifest, which is not that of FF-A 1.2. */
static void serves_1_1(void) {
    struct gorseplumb_manifest manifest = of_versions(GORSEPLUMB_FFA_1_1, GORSEPLUMB_VERSION_1_1, GORSEPLUMB_VERSION_1_2);
    struct gorseplumb_refusal refusal;
    CHECK(gorseplumb_boot_manifest(&machine, &manifest) == GORSEPLUMB_MANIFEST_VERSION && !machine.live);
    CHECK(gorseplumb_why_manifest(&manifest, &refusal) == GORSEPLUMB_MANIFEST_VERSION);
    CHECK(refusal.cause == GORSEPLUMB_MANIFEST_VERSION && refusal.endpoint == FIRST && refusal.region == 0);
    begin(GORSEPLUMB_FFA_1_1, GORSEPLUMB_VERSION_1_1, GORSEPLUMB_VERSION_1_1);
    CHECK(CALL(GORSEPLUMB_FFA_VERSION, 0x10002).x[0] == 0x10001);
    maps(TX);
    struct gorseplumb_registers call = lend(GORSEPLUMB_VERSION_1_2, 0);
    says(&call, FLAW "bytes 18 to 1B are 00000020, and must be 00000010, because 0000 uses version 1.1");
    CHECK(gorseplumb_error_of(gorseplumb_call(&machine, &call)) == GORSEPLUMB_ERROR_INVALID_PARAMETERS);
    end();
}

int main(void) {
    for (uint32_t world = 0; world < 3; world++) {
        for (uint32_t partition = 0; partition < 3; partition++) lends(world, partition);
    }
    reads_a_lend_of_1_2();
    sends_a_message(GORSEPLUMB_VERSION_1_1, 20);
    sends_a_message(GORSEPLUMB_VERSION_COMPACT, 20);
    sends_a_message(GORSEPLUMB_VERSION_1_2, 40);
    asks_for(0, GORSEPLUMB_VERSION_COMPACT, "the compact form");
    asks_for(1, GORSEPLUMB_VERSION_1_1, "version 1.1");
    asks_for(2, GORSEPLUMB_VERSION_1_2, "version 1.2");
    asks_for(3, GORSEPLUMB_VERSION_1_2, "version 1.2");
    serves_1_1();
    puts("ok");
    return 0;
}
