/* SPDX-License-Identifier: MIT OR Apache-2.0 */
/* Why operations are refused, also as lines of text, and names. The machine is that of machine.toml.h: 0000 has the 16 pages from
 * 40010000 on, 8001 those from 40020000 and 8002 those from 40030000. Numbers and texts are the manual's:
 * docs/CALLS.md, docs/MEMORY.md and docs/COMMANDS.md. Reasons are asked of a struct in memory that can only be read. */
#define _DEFAULT_SOURCE
#include <stdio.h>
#include <stdlib.h>
#include <string.h>
#include "../board/calls.h"
#include "check.h"
#include "gorseplumb.h"
#include "gorseplumb_explain.h"
#include "machine.toml.h"

static struct gorseplumb_machine machine;

#include "shown.h"

/* The library's memory, for which nothing asks but a boot. */
static bool boots;

struct gorseplumb_block rattle_alloc(size_t size, size_t align) {
    CHECK(boots);
    void *block = malloc(size != 0 ? size : align);
    CHECK(block != NULL);
    return (struct gorseplumb_block){true, block};
}

struct gorseplumb_block rattle_realloc(void *block, size_t kept, size_t size, size_t align) {
    (void)kept;
    CHECK(boots);
    block = realloc(block, size != 0 ? size : align);
    CHECK(block != NULL);
    return (struct gorseplumb_block){true, block};
}

void rattle_dealloc(void *block) { free(block); }

void gorseplumb_settle(uint16_t endpoint, uint64_t address, uint64_t size) {
    (void)endpoint, (void)address, (void)size;
}

/* What a call answers in x0, and in x2 where that is FFA_ERROR. The registers that aren't given are zero. */
static void call(const struct gorseplumb_registers *registers, uint64_t x0, uint64_t x2) {
    struct gorseplumb_outcome told = gorseplumb_call(&machine, registers);
    CHECK(told.kind == GORSEPLUMB_KIND_REGISTERS && told.x[0] == x0 && (x0 != FFA_ERROR || told.x[2] == x2));
}

static void done(uint64_t seen, struct gorseplumb_registers registers) { call(&registers, seen, 0); }

static void stores(uint64_t address, uint64_t value) {
    CHECK(gorseplumb_store(&machine, address, 8, value).kind == GORSEPLUMB_KIND_DONE);
}

/* A reason in which every byte is 5A, which is kept where there is none to tell. */
static struct gorseplumb_reason marked(void) {
    struct gorseplumb_reason reason;
    memset(&reason, 0x5A, sizeof reason);
    return reason;
}

/* Two reasons are the same. Only the padding behind a hint's kind is not compared. */
static bool same(const struct gorseplumb_reason *one, const struct gorseplumb_reason *other) {
    return memcmp(one, other, offsetof(struct gorseplumb_reason, hint)) == 0 && one->hint.kind == other->hint.kind &&
           memcmp(one->hint.numbers, other->hint.numbers, sizeof one->hint.numbers) == 0;
}

static bool is_marked(const struct gorseplumb_reason *reason) {
    struct gorseplumb_reason other = marked();
    return same(reason, &other);
}

/* An answer and what it wrote are those of this reason. */
static void tells(bool answer, const struct gorseplumb_reason *told, struct gorseplumb_reason wanted) {
    CHECK(answer && same(told, &wanted));
}

/* A call is refused for this reason, before it is made and again behind it, and its code is what it answers. */
static void refuses(struct gorseplumb_registers registers, struct gorseplumb_reason wanted) {
    for (int i = 0; i < 2; i++) {
        struct gorseplumb_reason reason = marked();
        tells(gorseplumb_why_call(shown(&machine), &registers, &reason), &reason, wanted);
        call(&registers, FFA_ERROR, (uint32_t)wanted.error);
    }
}

static void refuses_load(uint64_t address, uint32_t size, struct gorseplumb_reason wanted) {
    struct gorseplumb_reason reason = marked();
    tells(gorseplumb_why_load(shown(&machine), address, size, &reason), &reason, wanted);
    struct gorseplumb_outcome told = gorseplumb_load(&machine, address, size);
    CHECK(told.kind == GORSEPLUMB_KIND_FAULT && told.value == wanted.fault);
}

static void refuses_store(uint64_t address, uint32_t size, struct gorseplumb_reason wanted) {
    struct gorseplumb_reason reason = marked();
    tells(gorseplumb_why_store(shown(&machine), address, size, &reason), &reason, wanted);
    struct gorseplumb_outcome told = gorseplumb_store(&machine, address, size, 0);
    CHECK(told.kind == GORSEPLUMB_KIND_FAULT && told.value == wanted.fault);
}

static void refuses_fetch(uint64_t address, struct gorseplumb_reason wanted) {
    struct gorseplumb_reason reason = marked();
    tells(gorseplumb_why_fetch(shown(&machine), address, &reason), &reason, wanted);
    struct gorseplumb_outcome told = gorseplumb_fetch(&machine, address);
    CHECK(told.kind == GORSEPLUMB_KIND_FAULT && told.value == wanted.fault);
}

#define TRANSLATION(...) ((struct gorseplumb_reason){.fault = GORSEPLUMB_FAULT_TRANSLATION, __VA_ARGS__})
#define FAULT(kind, ...) ((struct gorseplumb_reason){.fault = GORSEPLUMB_FAULT_##kind, __VA_ARGS__})

/* A hint of a reason, and its numbers. */
#define HINT(kind_, ...) .hint = {.kind = GORSEPLUMB_HINT_##kind_, .numbers = {__VA_ARGS__}}

static void accesses(void) {
    struct gorseplumb_reason reason = marked();
    CHECK(!gorseplumb_why_load(shown(&machine), 0x40010000, 8, &reason) &&
          !gorseplumb_why_store(shown(&machine), 0x40010000, 8, &reason));
    for (uint32_t size = 0; size < 20; size++) {
        if (size == 1 || size == 2 || size == 4 || size == 8) continue;
        CHECK(!gorseplumb_why_load(shown(&machine), 0x40020000, size, &reason) &&
              !gorseplumb_why_store(shown(&machine), 0x40020000, size, &reason));
    }
    CHECK(is_marked(&reason));
    refuses_load(0x40020FFF, 1, TRANSLATION(.obstacle = GORSEPLUMB_OBSTACLE_OWNED_BY, .owner = 0x8001));
    refuses_store(0x40030008, 8, TRANSLATION(.obstacle = GORSEPLUMB_OBSTACLE_OWNED_BY, .owner = 0x8002));
    refuses_load(0x40000000, 8, TRANSLATION(.obstacle = GORSEPLUMB_OBSTACLE_MANAGERS_PAGE));
    refuses_fetch(0x3FFFFFFC, TRANSLATION(.obstacle = GORSEPLUMB_OBSTACLE_OUTSIDE_RAM));
    refuses_load(0x100000000, 1, TRANSLATION(.obstacle = GORSEPLUMB_OBSTACLE_NONE));
    refuses_load(0x40010001, 2, FAULT(ALIGNMENT, HINT(NONE, 0)));
    refuses_store(0x40020004, 8, FAULT(ALIGNMENT, HINT(NONE, 0)));
    refuses_fetch(0x40010000, FAULT(PERMISSION, HINT(ACCESS, 0, GORSEPLUMB_WRITE)));
}

/* Where the normal world may read its pages alone, a store is refused that a load isn't. */
static void reads_alone(void) {
    struct gorseplumb_lent untouched = {0};
    struct gorseplumb_manifest manifest = {
        .ram_base = 0x40000000,
        .ram_blocks = 1,
        .endpoint_count = 1,
        .endpoints = {{.properties = 6, .region_count = 1, .regions = {{0x40010000, 16, GORSEPLUMB_READ}}}},
    };
    struct gorseplumb_reason reason = marked();
    boots = true;
    CHECK(gorseplumb_boot_manifest(&machine, &manifest) == GORSEPLUMB_OK);
    boots = false;
    CHECK(!gorseplumb_why_load(shown(&machine), 0x40010000, 1, &reason) && is_marked(&reason));
    refuses_store(0x40010000, 1, FAULT(PERMISSION, HINT(ACCESS, 0, GORSEPLUMB_READ)));
    CHECK(gorseplumb_end(&machine, &untouched) == GORSEPLUMB_OK);
}

#define CALL(...) ((struct gorseplumb_registers){{__VA_ARGS__}})
#define REASON(check_, error_, ...) \
    ((struct gorseplumb_reason){.check = GORSEPLUMB_CHECK_##check_, .error = (error_), __VA_ARGS__})

static void calls(void) {
    struct gorseplumb_reason reason = marked();
    CHECK(!gorseplumb_why_call(shown(&machine), &CALL(FFA_ID_GET), &reason) && is_marked(&reason));
    refuses(CALL(0x84000099),
            REASON(FUNCTION_UNKNOWN, -1, .about = GORSEPLUMB_ABOUT_REGISTER, .value = 0x84000099, .has_value = 1));
    refuses(CALL(FFA_RX_RELEASE), REASON(RX_EMPTY, -6, HINT(BUFFERS_MISSING, 0)));
    refuses(CALL(FFA_RUN, 0x80030000),
            REASON(TARGET_UNKNOWN, -2, .about = GORSEPLUMB_ABOUT_ENDPOINT, .endpoint = 0x8003));
    refuses(CALL(FFA_RXTX_MAP, 0x4001E000, 0x4001F000, 5),
            REASON(BUFFER_PAGE_COUNT, -2, .about = GORSEPLUMB_ABOUT_REGISTER, .number = 3, .value = 5, .has_value = 1,
                   .least = 1, .most = 4, .step = 1));
    refuses(CALL(FFA_RXTX_MAP, 0x40020000, 0x4001F000, 1),
            REASON(TX_UNUSABLE, -6, .about = GORSEPLUMB_ABOUT_PAGE, .page = 32,
                   .obstacle = GORSEPLUMB_OBSTACLE_OWNED_BY, .owner = 0x8001));
    refuses(CALL(FFA_MEM_RECLAIM, 7, 0x8001),
            REASON(NOT_THE_SENDERS, -2, .about = GORSEPLUMB_ABOUT_HANDLE, .handle = 0x0000800100000007, HINT(HANDLE_UNKNOWN, 0)));
    refuses(CALL(FFA_NOTIFICATION_SET, 0x00008001, 0, 0x28),
            REASON(BITS_NOT_THE_CALLERS, -6, .about = GORSEPLUMB_ABOUT_BIT, .number = 3));
    /* It is what the runner would be told: of 8001 the normal world's call is another's. */
    done(FFA_RUN, CALL(FFA_RUN, 0x80010000));
    refuses(CALL(FFA_RUN, 0x80020000), REASON(NOT_NORMAL_WORLD, -6, .about = GORSEPLUMB_ABOUT_NOTHING));
    done(FFA_MSG_WAIT, CALL(FFA_MSG_WAIT));
}

/* A line has this text, and so has its beginning where there is less room, of which no byte behind is written. */
#define LINE(wanted, kind, ...) \
    do { \
        char text[320]; \
        const size_t size = sizeof(wanted) - 1; \
        for (size_t room = 0; room < sizeof text; room++) { \
            memset(text, 0x5A, sizeof text); \
            CHECK(gorseplumb_explain_##kind(shown(&machine), __VA_ARGS__, text, room) == size); \
            size_t kept = room > size ? size : room != 0 ? room - 1 : 0; \
            CHECK(memcmp(text, wanted, kept) == 0 && (room == 0 || text[kept] == '\0')); \
            CHECK(text[room > size ? size + 1 : room] == 0x5A); \
        } \
    } while (0)

/* The normal world lends the first page of its region, and asks for it. */
static void descriptors(void) {
    done(FFA_SUCCESS, CALL(FFA_RXTX_MAP, 0x4001E000, 0x4001F000, 1));
    /* TX is zeros, where the size of an access descriptor has 4 bytes from 24 on. */
    refuses(CALL(FFA_MEM_LEND, 0x60, 0x60),
            REASON(DESCRIPTOR_MALFORMED, -2, .about = GORSEPLUMB_ABOUT_FIELD,
                   .flaw = GORSEPLUMB_FLAW_HEADER_ACCESS_SIZE, .first = 24, .size = 4, .has_value = 1, HINT(FORM, 0, 16)));
    /* To two receivers, of which the second would have permissions that are none: its descriptor begins at 64. */
    stores(0x4001E000, 0x002F0000);
    stores(0x4001E018, 0x0000000200000010);
    stores(0x4001E020, 0x30);
    stores(0x4001E030, 0x0000005000018001);
    stores(0x4001E040, 0x00000050000F8002);
    stores(0x4001E050, 0x0000000100000001);
    stores(0x4001E060, 0x40010000);
    stores(0x4001E068, 1);
    refuses(CALL(FFA_MEM_LEND, 0x70, 0x70), REASON(DESCRIPTOR_MALFORMED, -2, .about = GORSEPLUMB_ABOUT_FIELD,
                                                   .flaw = GORSEPLUMB_FLAW_ACCESS_PERMISSIONS, .index = 1, .first = 66,
                                                   .size = 1, .value = 0x0F, .has_value = 1, .least = 1, .most = 2, .step = 1));
    LINE("FFA_MEM_LEND check 6: the bytes in TX are not a descriptor of this call: access descriptor 01: "
         "this call does not allow these permissions: byte 42 is 0F, and must be 01 to 02",
         call, &CALL(FFA_MEM_LEND, 0x70, 0x70));
    /* The reserved part of a header has 12 bytes from 36 on, which are no number. */
    stores(0x4001E040, 0x0000005000018002);
    stores(0x4001E020, 0x0000000100000030);
    refuses(CALL(FFA_MEM_LEND, 0x70, 0x70), REASON(DESCRIPTOR_MALFORMED, -2, .about = GORSEPLUMB_ABOUT_FIELD,
                                                   .flaw = GORSEPLUMB_FLAW_HEADER_RESERVED, .first = 36, .size = 12));
    LINE("FFA_MEM_LEND check 6: the bytes in TX are not a descriptor of this call: reserved bytes at the end of the header are not 0: "
         "bytes 24 to 2F",
         call, &CALL(FFA_MEM_LEND, 0x70, 0x70));
    stores(0x4001E020, 0x30);
    done(FFA_SUCCESS, CALL(FFA_MEM_LEND, 0x70, 0x70));
    /* The first handle of the normal world is 1. */
    refuses_load(0x40010008, 8, TRANSLATION(.obstacle = GORSEPLUMB_OBSTACLE_IN_TRANSACTION, .transaction = 1));
    LINE("40010008 is in the open transaction 0000000000000001", load, 0x40010008, 8);
    refuses(CALL(FFA_MEM_LEND, 0x70, 0x70), REASON(PAGE_UNSENDABLE, -6, .about = GORSEPLUMB_ABOUT_PAGE, .page = 16,
                                                   .obstacle = GORSEPLUMB_OBSTACLE_IN_TRANSACTION, .transaction = 1));
    done(FFA_SUCCESS, CALL(FFA_MEM_RECLAIM, 1));
}

/* The longest line is of a donate in buffers of four pages. */
static void longest(void) {
    done(FFA_SUCCESS, CALL(FFA_RXTX_UNMAP));
    done(FFA_SUCCESS, CALL(FFA_RXTX_MAP, 0x40010000, 0x40014000, 4));
    stores(0x40010018, 0x0000000100000010);
    stores(0x40010020, 0x3F00);
    stores(0x40013F00, 0xFFFFFFF000008001);
    LINE("FFA_MEM_DONATE check 6: the bytes in TX are not a descriptor of this call: "
         "the composite ends outside the descriptor, even without its ranges: bytes 3F04 to 3F07 are FFFFFFF0 "
         "(the composite ends at 0000000100000000, but the descriptor has 4000 bytes), "
         "and must be 00003F10 to 00003FE0 in steps of 00000010",
         call, &CALL(FFA_MEM_DONATE, 0x4000, 0x4000));
    done(FFA_SUCCESS, CALL(FFA_RXTX_UNMAP));
}

/* 8001 yields to the normal world, which asks it, and then it asks 8002, which asks it. */
static void run_states(void) {
    done(FFA_RUN, CALL(FFA_RUN, 0x80010000));
    done(FFA_YIELD, CALL(FFA_YIELD));
    refuses(CALL(FFA_MSG_SEND_DIRECT_REQ, 0x8001), REASON(RECEIVER_NOT_WAITING, -4, .about = GORSEPLUMB_ABOUT_ENDPOINT,
                                                          .endpoint = 0x8001, .state = GORSEPLUMB_STATE_YIELDED));
    done(FFA_SUCCESS, CALL(FFA_RUN, 0x80010000));
    done(FFA_MSG_SEND_DIRECT_REQ, CALL(FFA_MSG_SEND_DIRECT_REQ, 0x80018002));
    refuses(CALL(FFA_MSG_SEND_DIRECT_REQ, 0x80028001),
            REASON(RECEIVER_NOT_WAITING, -4, .about = GORSEPLUMB_ABOUT_ENDPOINT, .endpoint = 0x8001,
                   .state = GORSEPLUMB_STATE_BLOCKED, .awaits = 0x8002));
    LINE("FFA_MSG_SEND_DIRECT_REQ check 8: the receiver is not waiting: endpoint 8001, "
         "which is blocked by its direct request to 8002",
         call, &CALL(FFA_MSG_SEND_DIRECT_REQ, 0x80028001));
    done(FFA_MSG_SEND_DIRECT_RESP, CALL(FFA_MSG_SEND_DIRECT_RESP, 0x80028001));
    done(FFA_MSG_WAIT, CALL(FFA_MSG_WAIT));
}

static void without_a_machine(void) {
    struct gorseplumb_machine none = {0};
    struct gorseplumb_reason reason = marked();
    CHECK(!gorseplumb_why_call(shown(&none), &CALL(0x84000099), &reason) &&
          !gorseplumb_why_load(shown(&none), 0, 1, &reason));
    CHECK(!gorseplumb_why_store(shown(&none), 0, 1, &reason) && !gorseplumb_why_fetch(shown(&none), 0, &reason));
    CHECK(is_marked(&reason) && !none.live && none.at == NULL);
    char text[] = "text";
    CHECK(gorseplumb_explain_call(shown(&none), &CALL(0x84000099), text, sizeof text) == 0 && text[0] == '\0');
}

static bool is(const char *name, const char *wanted) { return strcmp(name, wanted) == 0; }

static void lines(void) {
    LINE("", call, &CALL(FFA_ID_GET));
    LINE("", load, 0x40010000, 8);
    LINE("", load, 0x40020000, 3); /* no size */
    LINE("check 1: the function is not supported: w0 is 84000099", call, &CALL(0x1234567884000099));
    LINE("check 1: the function is not supported: w0 is C4000064, and FFA_FEATURES has no 64-bit form", call,
         &CALL(FFA_FEATURES | WITH_64_BITS));
    LINE("FFA_PARTITION_INFO_GET check 1: no partition has the UUID: w1 to w4 hold 00112233445566778899aabbccddee1f", call,
         &CALL(FFA_PARTITION_INFO_GET, 0x33221100, 0x77665544, 0xBBAA9988, 0x1FEEDDCC));
    LINE("FFA_RX_RELEASE check 1: the caller has no RX and TX, or its RX is not full: it has no RX and TX", call, &CALL(FFA_RX_RELEASE));
    LINE("FFA_RUN check 2: no partition has the target's identifier: endpoint 8003", call, &CALL(FFA_RUN, 0x80030000));
    LINE("FFA_RXTX_MAP check 3: TX is not page-aligned, or not entirely in RAM: x1 is 000000014001E000, and the buffer is not entirely in RAM: "
         "000000014001E000 is above FFFFFFFF",
         call,
         &CALL(FFA_RXTX_MAP | WITH_64_BITS, 0x14001E000, 0x4001F000, 1));
    LINE("FFA_RXTX_MAP check 6: a page of TX does not belong to the caller, is not writable, or is in an open transaction: "
         "40020000 belongs to 8001",
         call, &CALL(FFA_RXTX_MAP, 0x40020000, 0x4001F000, 1));
    LINE("FFA_MEM_RECLAIM check 2: no open transaction from the caller has the handle: handle 0000800100000007, which no open transaction has", call,
         &CALL(FFA_MEM_RECLAIM, 7, 0x8001));
    LINE("FFA_NOTIFICATION_SET check 6: one of the bits is not bound to the caller: bit 23", call,
         &CALL(FFA_NOTIFICATION_SET, 0x00008001, 0, 0, 0x28));
    LINE("40020FFF belongs to 8001", load, 0x40020FFF, 1);
    LINE("40000000 belongs to the manager", store, 0x40000000, 8);
    LINE("3FFFFFFC is outside RAM", fetch, 0x3FFFFFFC);
    LINE("0000000100000000 is above FFFFFFFF", load, 0x100000000, 1);
    LINE("40010001 is not a multiple of 2", load, 0x40010001, 2);
    LINE("40010000 may not be executed: 0000 has rw-", fetch, 0x40010000);
}

static void names(void) {
    CHECK(is(gorseplumb_call_name(FFA_RUN), "FFA_RUN") && is(gorseplumb_call_name(FFA_MSG_SEND2), "FFA_MSG_SEND2"));
    CHECK(is(gorseplumb_call_name(FFA_MEM_SHARE | WITH_64_BITS), "FFA_MEM_SHARE") &&
          is(gorseplumb_call_name(FFA_ERROR), "FFA_ERROR"));
    CHECK(is(gorseplumb_call_name(FFA_RUN | WITH_64_BITS), "") && is(gorseplumb_call_name(0), "") &&
          is(gorseplumb_call_name(UINT32_MAX), ""));
    CHECK(is(gorseplumb_error_name(-1), "NOT_SUPPORTED") && is(gorseplumb_error_name(-6), "DENIED"));
    CHECK(is(gorseplumb_error_name(-9), "NO_DATA"));
    CHECK(is(gorseplumb_error_name(0), "") && is(gorseplumb_error_name(-10), "") && is(gorseplumb_error_name(1), ""));
    CHECK(is(gorseplumb_error_name(INT32_MIN), "") && is(gorseplumb_error_name(INT32_MAX), ""));
    CHECK(is(gorseplumb_check_name(GORSEPLUMB_CHECK_PAGE_UNSENDABLE),
             "a page does not belong to the caller, or is in an open transaction or a buffer"));
    CHECK(is(gorseplumb_flaw_name(GORSEPLUMB_FLAW_ACCESS_PERMISSIONS),
             "this call does not allow these permissions"));
    CHECK(is(gorseplumb_fault_name(GORSEPLUMB_FAULT_ALIGNMENT), "alignment"));
    CHECK(is(gorseplumb_fault_name(GORSEPLUMB_FAULT_OUTSIDE_RAM), "outside-ram"));
    CHECK(is(gorseplumb_answer_name(GORSEPLUMB_MANIFEST_RAM_BASE), "M6 RamBase"));
    CHECK(is(gorseplumb_answer_name(GORSEPLUMB_MANIFEST_VERSION), "M14 Version"));
    for (uint32_t check = 1; check <= GORSEPLUMB_CHECK_NOTHING_TO_TELL; check++)
        CHECK(*gorseplumb_check_name(check) != '\0');
    for (uint32_t flaw = 1; flaw <= GORSEPLUMB_FLAW_RELINQUISH_ENDPOINT_COUNT; flaw++)
        CHECK(*gorseplumb_flaw_name(flaw) != '\0');
    CHECK(is(gorseplumb_answer_name(GORSEPLUMB_MANIFEST_TABLES_OUTSIDE), "M25 TablesOutside"));
    for (uint32_t answer = 0; answer <= GORSEPLUMB_MANIFEST_TABLES_OUTSIDE; answer++)
        CHECK(*gorseplumb_answer_name(answer) != '\0');
    static const uint32_t none[] = {0, 1000, UINT32_MAX};
    for (int i = 0; i < 3; i++) {
        CHECK(is(gorseplumb_check_name(none[i]), "") && is(gorseplumb_flaw_name(none[i]), "") &&
              is(gorseplumb_fault_name(none[i]), ""));
        CHECK(none[i] == 0 || is(gorseplumb_answer_name(none[i]), ""));
    }
    CHECK(is(gorseplumb_check_name(GORSEPLUMB_CHECK_NOTHING_TO_TELL + 1), ""));
    CHECK(is(gorseplumb_answer_name(GORSEPLUMB_MANIFEST_TABLES_OUTSIDE + 1), ""));
    CHECK(is(gorseplumb_fault_name(GORSEPLUMB_FAULT_OUTSIDE_RAM + 1), ""));
    CHECK(is(gorseplumb_flaw_name(GORSEPLUMB_FLAW_RELINQUISH_ENDPOINT_COUNT + 1), ""));
}

/* The number of a check in the manual's list of its call. */
static void check_numbers(void) {
    CHECK(gorseplumb_check_number(FFA_MEM_LEND, GORSEPLUMB_CHECK_PAGE_UNSENDABLE) == 10);
    CHECK(gorseplumb_check_number(FFA_MEM_LEND | WITH_64_BITS, GORSEPLUMB_CHECK_BUFFERS_MISSING) == 1);
    CHECK(gorseplumb_check_number(FFA_RXTX_MAP, GORSEPLUMB_CHECK_BUFFER_PAGE_COUNT) == 2);
    CHECK(gorseplumb_check_number(FFA_NOTIFICATION_SET, GORSEPLUMB_CHECK_BITS_NOT_THE_CALLERS) == 6);
    CHECK(gorseplumb_check_number(FFA_MSG_SEND2, GORSEPLUMB_CHECK_RECEIVER_RX_SMALL) == 14);
    CHECK(gorseplumb_check_number(FFA_NOTIFICATION_INFO_GET | WITH_64_BITS, GORSEPLUMB_CHECK_NOTHING_TO_TELL) == 2);
    CHECK(gorseplumb_check_number(0x84000099, GORSEPLUMB_CHECK_FUNCTION_UNKNOWN) == 1);
    CHECK(gorseplumb_check_number(FFA_RUN | WITH_64_BITS, GORSEPLUMB_CHECK_FUNCTION_UNKNOWN) == 1);
    CHECK(gorseplumb_check_number(FFA_ID_GET, GORSEPLUMB_CHECK_FUNCTION_UNKNOWN) == 0);
    CHECK(gorseplumb_check_number(FFA_MEM_LEND, GORSEPLUMB_CHECK_NOT_HELD) == 0 &&
          gorseplumb_check_number(FFA_MEM_LEND, 0) == 0);
    CHECK(gorseplumb_check_number(0x84000099, 0) == 0 && gorseplumb_check_number(FFA_MSG_SEND2, UINT32_MAX) == 0);
}

int main(void) {
    struct gorseplumb_lent untouched = {0};
    CHECK(sizeof(struct gorseplumb_hint) == 4 * sizeof(uint64_t));
    CHECK(sizeof(struct gorseplumb_reason) == 14 * sizeof(uint32_t) + 8 * sizeof(uint64_t) + sizeof(struct gorseplumb_hint));
    without_a_machine();
    reads_alone();
    boots = true;
    CHECK(gorseplumb_boot(&machine, (const uint8_t *)manifest_text, sizeof manifest_text - 1) == GORSEPLUMB_OK);
    boots = false;
    accesses();
    lines();
    calls();
    descriptors();
    longest();
    run_states();
    CHECK(gorseplumb_end(&machine, &untouched) == GORSEPLUMB_OK);
    names();
    check_numbers();
    puts("ok");
    return 0;
}
