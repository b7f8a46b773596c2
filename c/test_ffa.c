/* SPDX-License-Identifier: MIT OR Apache-2.0 */
/* Identifiers and codes by name, registers of calls and answers of a machine by gorseplumb_ffa.h: a lend that is run, told of and
 * reclaimed. Numbers and answers are by reasoning, or the manual's, as in test.c. */
#include <stdio.h>
#include <string.h>
#include "check.h"
#include "gorseplumb_ffa.h"
#include "heap.c"

/* Identifiers and properties are numbers to the preprocessor too. */
#if GORSEPLUMB_FFA_RUN != 0x8400006D || GORSEPLUMB_RECEIVES_NOTIFICATIONS != 8
#error "they aren't"
#endif

static struct gorseplumb_machine machine;

void gorseplumb_settle(uint16_t endpoint, uint64_t address, uint64_t size) {
    (void)endpoint, (void)address, (void)size;
    CHECK(false); /* RAM is of the heap */
}

static bool is(const char *name, const char *wanted) { return strcmp(name, wanted) == 0; }

static uint32_t named;

static void has_name(uint32_t function, const char *name) {
    CHECK(is(gorseplumb_call_name(function), name));
    named++;
}

#define NARROW(name) has_name(GORSEPLUMB_##name, #name)
#define WIDE(name) \
    do { \
        NARROW(name); \
        CHECK(GORSEPLUMB_##name##_64 == (GORSEPLUMB_##name | GORSEPLUMB_FFA_WIDE)); \
        has_name(GORSEPLUMB_##name##_64, #name); \
    } while (0)

/* Each identifier that the library has a name of, in each form that it has. */
static void identifiers(void) {
    NARROW(FFA_ERROR);
    WIDE(FFA_SUCCESS);
    NARROW(FFA_INTERRUPT);
    NARROW(FFA_VERSION);
    NARROW(FFA_FEATURES);
    NARROW(FFA_RX_RELEASE);
    WIDE(FFA_RXTX_MAP);
    NARROW(FFA_RXTX_UNMAP);
    NARROW(FFA_PARTITION_INFO_GET);
    NARROW(FFA_ID_GET);
    NARROW(FFA_MSG_WAIT);
    NARROW(FFA_YIELD);
    NARROW(FFA_RUN);
    WIDE(FFA_MSG_SEND_DIRECT_REQ);
    WIDE(FFA_MSG_SEND_DIRECT_RESP);
    WIDE(FFA_MEM_DONATE);
    WIDE(FFA_MEM_LEND);
    WIDE(FFA_MEM_SHARE);
    WIDE(FFA_MEM_RETRIEVE_REQ);
    NARROW(FFA_MEM_RETRIEVE_RESP);
    NARROW(FFA_MEM_RELINQUISH);
    NARROW(FFA_MEM_RECLAIM);
    NARROW(FFA_NOTIFICATION_BITMAP_CREATE);
    NARROW(FFA_NOTIFICATION_BITMAP_DESTROY);
    NARROW(FFA_NOTIFICATION_BIND);
    NARROW(FFA_NOTIFICATION_UNBIND);
    NARROW(FFA_NOTIFICATION_SET);
    NARROW(FFA_NOTIFICATION_GET);
    WIDE(FFA_NOTIFICATION_INFO_GET);
    NARROW(FFA_SPM_ID_GET);
    NARROW(FFA_MSG_SEND2);
    uint32_t there = 0;
    for (uint32_t number = 0; number <= 0xFFFF; number++) {
        uint32_t narrow = (GORSEPLUMB_FFA_ERROR & 0xFFFF0000) | number;
        there += *gorseplumb_call_name(narrow) != '\0';
        there += *gorseplumb_call_name(narrow | GORSEPLUMB_FFA_WIDE) != '\0';
    }
    CHECK(there == named);
}

#define CODE(name) CHECK(is(gorseplumb_error_name(GORSEPLUMB_ERROR_##name), #name))

static void codes(void) {
    CODE(NOT_SUPPORTED);
    CODE(INVALID_PARAMETERS);
    CODE(NO_MEMORY);
    CODE(BUSY);
    CODE(INTERRUPTED);
    CODE(DENIED);
    CODE(RETRY);
    CODE(ABORTED);
    CODE(NO_DATA);
}

static void parts(void) {
    CHECK(gorseplumb_pair(0x8001, 0) == 0x80010000 && gorseplumb_pair(0, 0xFFFF) == 0xFFFF);
    CHECK(gorseplumb_pair_first(0x0123456780018002) == 0x8001 && gorseplumb_pair_second(0x0123456780018002) == 0x8002);
    CHECK(gorseplumb_low_half(0x0000800100000002) == 2 && gorseplumb_high_half(0x0000800100000002) == 0x8001);
    CHECK(gorseplumb_low_half(UINT64_MAX) == UINT32_MAX && gorseplumb_high_half(UINT64_MAX) == UINT32_MAX);
    CHECK(gorseplumb_of_halves(2, 0x8001) == 0x0000800100000002);
    CHECK(gorseplumb_of_halves(0x1234567800000002, 0x1234567800008001) == 0x0000800100000002);
    CHECK(gorseplumb_identifier(0) == GORSEPLUMB_NORMAL_WORLD && gorseplumb_identifier(1) == 0x8001);
    CHECK(gorseplumb_identifier(GORSEPLUMB_MOST_ENDPOINTS - 1) == 0x8007);
}

static void registers(void) {
    struct gorseplumb_registers all = GORSEPLUMB_REGISTERS(0, 1, 2, 3, 4, 5, 6, UINT64_MAX);
    for (uint64_t i = 0; i < 7; i++) CHECK(all.x[i] == i);
    CHECK(all.x[7] == UINT64_MAX);
    all = GORSEPLUMB_REGISTERS(GORSEPLUMB_FFA_ID_GET);
    CHECK(all.x[0] == 0x84000069);
    for (int i = 1; i < 8; i++) CHECK(all.x[i] == 0);
}

/* What an outcome is, by these registers. */
static struct gorseplumb_outcome seen(uint64_t x0, uint64_t x2, uint64_t x3) {
    return (struct gorseplumb_outcome){.kind = GORSEPLUMB_KIND_REGISTERS, .x = {x0, 0, x2, x3}};
}

static void outcomes(void) {
    struct gorseplumb_outcome told = seen(0x84000060, 0xFFFFFFFA, 0);
    CHECK(gorseplumb_function_of(told) == GORSEPLUMB_FFA_ERROR && gorseplumb_is_error(told));
    CHECK(gorseplumb_error_of(told) == GORSEPLUMB_ERROR_DENIED && gorseplumb_handle_of(told) == 0);
    for (uint32_t kind = GORSEPLUMB_KIND_DATA; kind <= GORSEPLUMB_KIND_RESUMED; kind++) {
        told.kind = kind;
        CHECK(gorseplumb_function_of(told) == 0 && !gorseplumb_is_error(told) && gorseplumb_error_of(told) == 0);
    }
    /* Upper halves are looked at nowhere. */
    told = seen(0x1234567884000060, 0x12345678FFFFFFFE, 0);
    CHECK(gorseplumb_error_of(told) == GORSEPLUMB_ERROR_INVALID_PARAMETERS);
    told = seen(0x84000061, 2, 0x8001);
    CHECK(!gorseplumb_is_error(told) && gorseplumb_error_of(told) == 0 && gorseplumb_handle_of(told) == 0x0000800100000002);
    told.kind = GORSEPLUMB_KIND_DONE;
    CHECK(gorseplumb_handle_of(told) == 0);
    told = seen(GORSEPLUMB_FFA_MEM_RETRIEVE_RESP, 2, 0x8001);
    CHECK(!gorseplumb_is_error(told) && gorseplumb_handle_of(told) == 0);
}

#define CALL(...) GORSEPLUMB_CALL(&machine, __VA_ARGS__)

static void boots(void) {
    static const struct gorseplumb_manifest manifest = {
        .ram_base = 0x40000000,
        .ram_blocks = 1,
        .endpoint_count = 2,
        .endpoints = {
            {.version = GORSEPLUMB_VERSION_1_1,
             .properties = GORSEPLUMB_SENDS_DIRECT_REQUESTS | GORSEPLUMB_INDIRECT_MESSAGES,
             .region_count = 1,
             .regions = {{0x40010000, 16, GORSEPLUMB_WRITE}}},
            {.version = GORSEPLUMB_VERSION_COMPACT,
             .properties = GORSEPLUMB_RECEIVES_DIRECT_REQUESTS | GORSEPLUMB_RECEIVES_NOTIFICATIONS,
             .uuid = {1},
             .region_count = 1,
             .regions = {{0x40020000, 16, GORSEPLUMB_WRITE}}},
        },
    };
    CHECK(CALL(GORSEPLUMB_FFA_ID_GET).kind == GORSEPLUMB_KIND_NO_MACHINE && !gorseplumb_is_error(CALL(GORSEPLUMB_FFA_ID_GET)));
    CHECK(gorseplumb_boot_manifest(&machine, &manifest) == GORSEPLUMB_OK);
}

/* The normal world asks 8001 for something, in both forms, and is answered. */
static void messages(void) {
    static const uint32_t asks[] = {GORSEPLUMB_FFA_MSG_SEND_DIRECT_REQ, GORSEPLUMB_FFA_MSG_SEND_DIRECT_REQ_64};
    static const uint32_t answers[] = {GORSEPLUMB_FFA_MSG_SEND_DIRECT_RESP, GORSEPLUMB_FFA_MSG_SEND_DIRECT_RESP_64};
    const uint16_t first = gorseplumb_identifier(1);
    struct gorseplumb_outcome told = CALL(GORSEPLUMB_FFA_RUN, gorseplumb_pair(first, 0));
    CHECK(gorseplumb_function_of(told) == GORSEPLUMB_FFA_RUN && told.runner == first);
    told = CALL(GORSEPLUMB_FFA_MSG_WAIT);
    CHECK(gorseplumb_function_of(told) == GORSEPLUMB_FFA_MSG_WAIT && gorseplumb_pair_first(told.x[1]) == first);
    for (int i = 0; i < 2; i++) {
        told = CALL(asks[i], gorseplumb_pair(GORSEPLUMB_NORMAL_WORLD, first), 0, 3);
        CHECK(gorseplumb_function_of(told) == asks[i] && told.runner == first && told.x[3] == 3);
        CHECK(gorseplumb_pair_first(told.x[1]) == GORSEPLUMB_NORMAL_WORLD && gorseplumb_pair_second(told.x[1]) == first);
        told = CALL(answers[i], gorseplumb_pair(first, GORSEPLUMB_NORMAL_WORLD), 0, 4);
        CHECK(gorseplumb_function_of(told) == answers[i] && told.runner == GORSEPLUMB_NORMAL_WORLD && told.x[3] == 4);
    }
    /* There are no buffers for a message, and a version is told in w0 alone. */
    CHECK(gorseplumb_error_of(CALL(GORSEPLUMB_FFA_MSG_SEND2)) == GORSEPLUMB_ERROR_INVALID_PARAMETERS);
    CHECK(gorseplumb_function_of(CALL(GORSEPLUMB_FFA_VERSION, gorseplumb_pair(1, 1))) == gorseplumb_pair(1, 1));
}

/* The normal world lends 8001 a page, and has it back. */
static void lends(void) {
    static const struct {
        uint64_t at, word;
    } descriptor[] = {{0x18, 0x0000000100000010}, {0x20, 0x30},       {0x30, 0x0000004000028001},
                      {0x40, 0x0000000100000001}, {0x50, 0x40010000}, {0x58, 1}};
    const uint64_t tx = 0x4001E000, rx = 0x4001F000, bytes = 0x60;
    CHECK(gorseplumb_function_of(CALL(GORSEPLUMB_FFA_RXTX_MAP_64, tx, rx, 1)) == GORSEPLUMB_FFA_SUCCESS);
    CHECK(gorseplumb_error_of(CALL(GORSEPLUMB_FFA_RXTX_MAP, tx, rx, 1)) == GORSEPLUMB_ERROR_DENIED);
    for (size_t i = 0; i < sizeof descriptor / sizeof descriptor[0]; i++)
        CHECK(gorseplumb_store(&machine, tx + descriptor[i].at, 8, descriptor[i].word).kind == GORSEPLUMB_KIND_DONE);
    uint64_t handle = gorseplumb_handle_of(CALL(GORSEPLUMB_FFA_MEM_LEND, bytes, bytes));
    CHECK(handle == gorseplumb_of_halves(1, GORSEPLUMB_NORMAL_WORLD));
    CHECK(gorseplumb_error_of(CALL(GORSEPLUMB_FFA_MEM_LEND_64, bytes, bytes)) == GORSEPLUMB_ERROR_DENIED);
    CHECK(gorseplumb_owner(&machine, 0) == GORSEPLUMB_MANAGER);
    struct gorseplumb_registers reclaim =
        GORSEPLUMB_REGISTERS(GORSEPLUMB_FFA_MEM_RECLAIM, gorseplumb_low_half(handle), gorseplumb_high_half(handle));
    struct gorseplumb_reason reason;
    CHECK(!gorseplumb_why_call(&machine, &reclaim, &reason));
    CHECK(gorseplumb_function_of(gorseplumb_make_call(&machine, reclaim)) == GORSEPLUMB_FFA_SUCCESS);
    CHECK(gorseplumb_why_call(&machine, &reclaim, &reason) && reason.error == GORSEPLUMB_ERROR_INVALID_PARAMETERS);
    CHECK(gorseplumb_error_of(gorseplumb_make_call(&machine, reclaim)) == reason.error);
    CHECK(gorseplumb_error_of(CALL(GORSEPLUMB_FFA_MEM_RETRIEVE_RESP)) == GORSEPLUMB_ERROR_NOT_SUPPORTED);
}

int main(void) {
    identifiers();
    codes();
    parts();
    registers();
    outcomes();
    boots();
    messages();
    lends();
    CHECK(gorseplumb_end_heap(&machine) == GORSEPLUMB_OK);
    puts("ok");
    return 0;
}
