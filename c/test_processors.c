/* SPDX-License-Identifier: MIT OR Apache-2.0 */
/* Interrupts, and a machine that several processors run, in RAM of the heap and in lent pages: a timer preempts a partition, which
 * goes on on another processor and is busy elsewhere; each of two processors runs a partition; one lends a page meanwhile; the
 * normal world is told whose notifications are pending; and what is answered where there is no machine or no such processor.
 * Numbers and answers are by reasoning from the standard, as in test.c. */
#include <stdio.h>
#include <string.h>
#include "../board/calls.h"
#include "check.h"
#include "counted.h"
#include "gorseplumb.h"
#include "lending.h"
#include "machine.toml.h"

static struct gorseplumb_machine machine;
static struct gorseplumb_page pages[512];
static struct gorseplumb_lent list;

void gorseplumb_settle(uint16_t endpoint, uint64_t address, uint64_t size) {
    (void)endpoint, (void)address, (void)size; /* no processor walks the tables */
}

static const uint8_t *text = (const uint8_t *)manifest_text;
static const size_t text_size = sizeof manifest_text - 1;

static const uint64_t busy = (uint32_t)GORSEPLUMB_ERROR_BUSY;

/* The processor that is selected. */
static uint32_t selected;

/* The machine, when a processor was selected. */
static struct gorseplumb_machine *on(uint32_t processor) {
    CHECK(gorseplumb_select(&machine, processor));
    selected = processor;
    return &machine;
}

#define CALL(...) GORSEPLUMB_CALL(&machine, __VA_ARGS__)
#define CALL_ON(processor, ...) GORSEPLUMB_CALL(on(processor), __VA_ARGS__)

/* Registers for this runner. Those that aren't given are zero. */
#define SEES(told_, runner_, ...) \
    do { \
        struct gorseplumb_outcome told = told_; \
        const uint64_t wanted[8] = {__VA_ARGS__}; \
        CHECK(told.kind == GORSEPLUMB_KIND_REGISTERS && told.runner == (runner_) && told.value == 0); \
        CHECK(memcmp(told.x, wanted, sizeof wanted) == 0); \
    } while (0)

/* An outcome that tells nothing but its kind, and who runs next where that is told. */
static void is_plain(struct gorseplumb_outcome told, uint32_t kind, uint32_t runner) {
    static const uint64_t none[8];
    CHECK(told.kind == kind && told.runner == runner && told.value == 0 && memcmp(told.x, none, sizeof none) == 0);
}

/* Who runs on processors 0 and 1, and on the one that is selected, and stays so. */
static void run_by(uint32_t first, uint32_t second, uint32_t here) {
    const uint32_t before = selected;
    CHECK(gorseplumb_runner(&machine) == here);
    CHECK(gorseplumb_runner(on(0)) == first && gorseplumb_runner(on(1)) == second);
    for (uint32_t processor = 2; processor < GORSEPLUMB_MOST_PROCESSORS; processor++) CHECK(gorseplumb_runner(on(processor)) == 0);
    CHECK(gorseplumb_runner(on(before)) == here);
}

static void loads_on(uint32_t processor, uint64_t address, uint64_t value) {
    struct gorseplumb_outcome told = gorseplumb_load(on(processor), address, 8);
    CHECK(told.kind == GORSEPLUMB_KIND_DATA && told.value == value);
}

static void stores_on(uint32_t processor, uint64_t address, uint64_t value) {
    is_plain(gorseplumb_store(on(processor), address, 8, value), GORSEPLUMB_KIND_DONE, 0);
}

static void faults(struct gorseplumb_outcome told, uint64_t fault) { CHECK(told.kind == GORSEPLUMB_KIND_FAULT && told.value == fault); }

/* A timer preempts 8001 on processor 0. It is busy but for FFA_RUN, by which processor 1 lets it go on, and elsewhere from then
 * on. */
static void a_timer(void) {
    struct gorseplumb_reason reason;
    run_by(0, 0, 0);
    is_plain(gorseplumb_interrupt(on(0)), GORSEPLUMB_KIND_DONE, 0);
    SEES(CALL_ON(0, FFA_RUN, 0x80010000), 0x8001, FFA_RUN, 0x80010000);
    stores_on(0, 0x40020000, 0x1122334455667788);
    SEES(gorseplumb_interrupt(on(0)), 0, FFA_INTERRUPT, 0x80010000);
    run_by(0, 0, 0);
    CHECK(!gorseplumb_why_call(&machine, &GORSEPLUMB_REGISTERS(FFA_RUN, 0x80010000), &reason)); /* it would be done */
    SEES(CALL_ON(0, FFA_MSG_SEND_DIRECT_REQ, 0x8001), 0, FFA_ERROR, 0, busy);
    CHECK(gorseplumb_why_call(&machine, &GORSEPLUMB_REGISTERS(FFA_MSG_SEND_DIRECT_REQ, 0x8001), &reason));
    CHECK(reason.check == GORSEPLUMB_CHECK_RECEIVER_NOT_WAITING && reason.state == GORSEPLUMB_STATE_PREEMPTED);
    faults(gorseplumb_load(on(0), 0x40020000, 8), GORSEPLUMB_FAULT_TRANSLATION);
    is_plain(gorseplumb_interrupt(on(1)), GORSEPLUMB_KIND_DONE, 0);

    is_plain(CALL_ON(1, FFA_RUN, 0x80010000), GORSEPLUMB_KIND_RESUMED, 0x8001);
    run_by(0, 0x8001, 0x8001);
    loads_on(1, 0x40020000, 0x1122334455667788);
    CHECK(gorseplumb_fetch(on(1), 0x40020000).value == 0x55667788);
    SEES(CALL_ON(1, FFA_ID_GET), 0x8001, FFA_SUCCESS, 0, 0x8001);
    SEES(CALL(FFA_ID_GET), 0x8001, FFA_SUCCESS, 0, 0x8001);
    SEES(CALL_ON(0, FFA_RUN, 0x80010000), 0, FFA_ERROR, 0, busy);
    CHECK(gorseplumb_why_call(&machine, &GORSEPLUMB_REGISTERS(FFA_RUN, 0x80010000), &reason));
    CHECK(reason.check == GORSEPLUMB_CHECK_TARGET_NOT_READY && reason.error == GORSEPLUMB_ERROR_BUSY);
    run_by(0, 0x8001, 0);
}

/* While processor 1 runs 8001, processor 0 runs 8002. Neither asks the other, and each is stopped and goes on by itself. */
static void two_partitions(void) {
    SEES(CALL_ON(0, FFA_RUN, 0x80020000), 0x8002, FFA_RUN, 0x80020000);
    run_by(0x8002, 0x8001, 0x8002);
    stores_on(0, 0x40030000, 8002);
    stores_on(1, 0x40020008, 8001);
    faults(gorseplumb_load(on(0), 0x40020008, 8), GORSEPLUMB_FAULT_TRANSLATION);
    faults(gorseplumb_store(on(1), 0x40030000, 8, 1), GORSEPLUMB_FAULT_TRANSLATION);
    SEES(CALL_ON(0, FFA_MSG_SEND_DIRECT_REQ, 0x80028001), 0x8002, FFA_ERROR, 0, busy);
    SEES(CALL_ON(1, FFA_MSG_SEND_DIRECT_REQ, 0x80018002), 0x8001, FFA_ERROR, 0, busy);
    SEES(CALL_ON(2, FFA_RUN, 0x80020000), 0, FFA_ERROR, 0, busy);
    SEES(gorseplumb_interrupt(on(1)), 0, FFA_INTERRUPT, 0x80010000);
    run_by(0x8002, 0, 0);
    SEES(CALL_ON(0, FFA_MSG_WAIT), 0, FFA_MSG_WAIT, 0x80020000);
    is_plain(CALL_ON(0, FFA_RUN, 0x80010000), GORSEPLUMB_KIND_RESUMED, 0x8001);
    loads_on(0, 0x40020008, 8001);
    run_by(0x8001, 0, 0x8001);
}

/* 8001 lends a page on processor 0 while 8002 runs on processor 1, which retrieves it there, and has it. */
static void a_lend(void) {
    static struct gorseplumb_change change;
    SEES(CALL_ON(1, FFA_RUN, 0x80020000), 0x8002, FFA_RUN, 0x80020000);
    SEES(CALL_ON(1, FFA_RXTX_MAP, 0x4003E000, 0x4003F000, 1), 0x8002, FFA_SUCCESS);
    SEES(CALL_ON(0, FFA_RXTX_MAP, 0x4002E000, 0x4002F000, 1), 0x8001, FFA_SUCCESS);
    stores_on(0, 0x4002E000, 0x8001);
    stores_on(0, 0x4002E018, 0x0000000100000010);
    stores_on(0, 0x4002E020, 0x30);
    stores_on(0, 0x4002E030, 0x0000004000028002);
    stores_on(0, 0x4002E040, 0x0000000100000001);
    stores_on(0, 0x4002E050, 0x40021000);
    stores_on(0, 0x4002E058, 1);
    SEES(CALL_ON(0, FFA_MEM_LEND, 0x60, 0x60), 0x8001, FFA_SUCCESS, 0, 1, 0x8001);
    CHECK(gorseplumb_take_change(&machine, &change) && change.endpoint == 0x8001 && change.ranges[0].address == 0x40021000);
    stores_on(1, 0x4003E000, 0x8001);
    stores_on(1, 0x4003E008, 0x0000800100000001);
    stores_on(1, 0x4003E018, 0x0000000100000010);
    stores_on(1, 0x4003E020, 0x30);
    stores_on(1, 0x4003E030, 0x0000000000028002);
    SEES(CALL_ON(1, FFA_MEM_RETRIEVE_REQ, 0x40, 0x40), 0x8002, FFA_MEM_RETRIEVE_RESP, 0x60, 0x60);
    CHECK(gorseplumb_take_change(&machine, &change) && change.endpoint == 0x8002 && change.ranges[0].address == 0x40021000);
    stores_on(1, 0x40021000, 0x5A);
    faults(gorseplumb_load(on(0), 0x40021000, 8), GORSEPLUMB_FAULT_TRANSLATION);
    SEES(CALL_ON(0, FFA_MSG_WAIT), 0, FFA_MSG_WAIT, 0x80010000);
    SEES(CALL_ON(1, FFA_MSG_WAIT), 0, FFA_MSG_WAIT, 0x80020000);
    run_by(0, 0, 0);
}

/* A request is answered through the chain of the processor that made it, though it was stopped in between. */
static void a_chain(void) {
    SEES(CALL_ON(3, FFA_MSG_SEND_DIRECT_REQ, 0x8001, 0, 0xAA), 0x8001, FFA_MSG_SEND_DIRECT_REQ, 0x8001, 0, 0xAA);
    SEES(CALL_ON(3, FFA_MSG_SEND_DIRECT_REQ, 0x80018002, 0, 0xBB), 0x8002, FFA_MSG_SEND_DIRECT_REQ, 0x80018002, 0, 0xBB);
    SEES(gorseplumb_interrupt(on(3)), 0, FFA_INTERRUPT, 0x80020000);
    SEES(CALL_ON(4, FFA_RUN, 0x80010000), 0, FFA_ERROR, 0, busy);
    is_plain(CALL_ON(4, FFA_RUN, 0x80020000), GORSEPLUMB_KIND_RESUMED, 0x8002);
    SEES(CALL_ON(4, FFA_MSG_SEND_DIRECT_RESP, 0x80028001, 0, 0xCC), 0x8001, FFA_MSG_SEND_DIRECT_RESP, 0x80028001, 0, 0xCC);
    CHECK(gorseplumb_runner(on(4)) == 0x8001 && gorseplumb_runner(on(3)) == 0);
    SEES(CALL_ON(4, FFA_MSG_SEND_DIRECT_RESP, 0x80010000, 0, 0xDD), 0, FFA_MSG_SEND_DIRECT_RESP, 0x80010000, 0, 0xDD);
    CHECK(gorseplumb_runner(on(4)) == 0);
}

static const uint64_t info_get = 0x84000083, info_get_64 = 0xC4000083;
static const uint64_t unsupported = (uint32_t)-1, invalid = (uint32_t)-2;

/* On a machine of FF-A 1.1 nobody is told of notifications, and the normal world has one execution context. */
static void no_notices(void) {
    SEES(CALL_ON(1, FFA_FEATURES, info_get_64), 0, FFA_ERROR, 0, unsupported);
    SEES(CALL(FFA_NOTIFICATION_BITMAP_CREATE, 0, 2), 0, FFA_ERROR, 0, invalid);
    SEES(CALL(FFA_NOTIFICATION_BITMAP_CREATE, 0, 1), 0, FFA_SUCCESS);
    SEES(CALL(FFA_NOTIFICATION_BIND, 0x80010000, 0, 8), 0, FFA_SUCCESS);
    SEES(CALL_ON(0, FFA_RUN, 0x80010000), 0x8001, FFA_RUN, 0x80010000);
    SEES(CALL(FFA_NOTIFICATION_SET, 0x80010000, 0, 8), 0x8001, FFA_SUCCESS);
    SEES(CALL(info_get), 0x8001, FFA_ERROR, 0, unsupported);
    CHECK(gorseplumb_npi_pending(&machine, 0) && !gorseplumb_sri_pending(&machine));
    SEES(CALL_ON(1, info_get), 0, FFA_ERROR, 0, unsupported);
    SEES(CALL(info_get_64), 0, FFA_ERROR, 0, unsupported);
    SEES(CALL(FFA_NOTIFICATION_GET, 0x00010000, 7), 0, FFA_ERROR, 0, invalid);
    SEES(CALL(FFA_NOTIFICATION_GET, 0, 7), 0, FFA_SUCCESS, 0, 8);
    SEES(CALL_ON(0, FFA_MSG_WAIT), 0, FFA_MSG_WAIT, 0x80010000);
}

/* On one of FF-A 1.2 the normal world is told once of each endpoint with a notification pending, also of one that doesn't wait, and
 * again if the bit was got and is set again. It has as many execution contexts as there may be processors. */
static void notices(void) {
    const uint64_t success_64 = 0xC4000061, no_data = (uint32_t)-9, denied = (uint32_t)-6;
    struct gorseplumb_reason reason;

    SEES(CALL_ON(0, FFA_FEATURES, info_get), 0, FFA_SUCCESS);
    SEES(CALL_ON(0, FFA_FEATURES, info_get_64), 0, FFA_SUCCESS);
    SEES(CALL_ON(1, info_get), 0, FFA_ERROR, 0, no_data);
    SEES(CALL(FFA_NOTIFICATION_BITMAP_CREATE, 0, 4), 0, FFA_SUCCESS);
    SEES(CALL(FFA_NOTIFICATION_BITMAP_DESTROY), 0, FFA_SUCCESS);
    SEES(CALL_ON(1, FFA_NOTIFICATION_BITMAP_CREATE, 0, 0), 0, FFA_ERROR, 0, invalid);
    SEES(CALL_ON(1, FFA_NOTIFICATION_BITMAP_CREATE, 0, 9), 0, FFA_ERROR, 0, invalid);
    SEES(CALL_ON(1, FFA_NOTIFICATION_BITMAP_CREATE, 0, 8), 0, FFA_SUCCESS);
    SEES(CALL_ON(1, FFA_NOTIFICATION_BITMAP_CREATE, 0, 2), 0, FFA_ERROR, 0, denied);

    /* 8001 lets the normal world set bit 3, and is stopped */
    SEES(CALL_ON(0, FFA_RUN, 0x80010000), 0x8001, FFA_RUN, 0x80010000);
    SEES(CALL_ON(0, FFA_NOTIFICATION_BIND, 0x00008001, 0, 8), 0x8001, FFA_SUCCESS);
    SEES(CALL_ON(0, info_get), 0x8001, FFA_ERROR, 0, unsupported);
    SEES(CALL_ON(0, FFA_FEATURES, info_get), 0x8001, FFA_ERROR, 0, unsupported);
    SEES(gorseplumb_interrupt(on(0)), 0, FFA_INTERRUPT, 0x80010000);
    CHECK(!gorseplumb_sri_pending(&machine));
    SEES(CALL_ON(1, FFA_NOTIFICATION_SET, 0x00008001, 0, 8), 0, FFA_SUCCESS);
    CHECK(gorseplumb_sri_pending(&machine));
    SEES(CALL_ON(2, info_get_64), 0, success_64, 0, 0x80, 0x8001);
    CHECK(!gorseplumb_sri_pending(&machine) && gorseplumb_npi_pending(&machine, 0x8001));
    SEES(CALL_ON(2, info_get_64), 0, FFA_ERROR, 0, no_data);
    CHECK(gorseplumb_why_call(&machine, &GORSEPLUMB_REGISTERS(info_get_64), &reason));
    CHECK(reason.check == GORSEPLUMB_CHECK_NOTHING_TO_TELL && reason.error == GORSEPLUMB_ERROR_NO_DATA && reason.about == 0);
    SEES(CALL_ON(1, info_get), 0, FFA_ERROR, 0, no_data);
    SEES(CALL_ON(1, FFA_NOTIFICATION_SET, 0x00008001, 0, 8), 0, FFA_SUCCESS);
    CHECK(!gorseplumb_sri_pending(&machine));

    /* it goes on, gets the bit, and it is set again; and it sets one of the normal world */
    is_plain(CALL_ON(2, FFA_RUN, 0x80010000), GORSEPLUMB_KIND_RESUMED, 0x8001);
    SEES(CALL_ON(2, FFA_NOTIFICATION_GET, 0x8001, 7), 0x8001, FFA_SUCCESS, 0, 0, 0, 8);
    SEES(CALL_ON(1, FFA_NOTIFICATION_SET, 0x00008001, 0, 8), 0, FFA_SUCCESS);
    SEES(CALL_ON(1, FFA_NOTIFICATION_BIND, 0x80010000, 0, 0, 0x80000000), 0, FFA_SUCCESS);
    SEES(CALL_ON(2, FFA_NOTIFICATION_SET, 0x80010000, 0, 0, 0x80000000), 0x8001, FFA_SUCCESS);
    CHECK(gorseplumb_sri_pending(&machine));
    SEES(CALL_ON(1, info_get), 0, FFA_SUCCESS, 0, 0x100, 0x80010000);
    CHECK(!gorseplumb_sri_pending(&machine));

    /* the normal world may name contexts 0 to 7, and a partition has context 0 alone */
    SEES(CALL_ON(1, FFA_NOTIFICATION_GET, 0x00080000, 7), 0, FFA_ERROR, 0, invalid);
    SEES(CALL_ON(1, FFA_NOTIFICATION_GET, 0x00050000, 7), 0, FFA_SUCCESS, 0, 0, 0x80000000);
    SEES(CALL_ON(2, FFA_NOTIFICATION_GET, 0x00018001, 7), 0x8001, FFA_ERROR, 0, invalid);
    SEES(CALL(FFA_NOTIFICATION_GET, 0x8001, 7), 0x8001, FFA_SUCCESS, 0, 0, 0, 8);
    SEES(CALL_ON(1, FFA_NOTIFICATION_SET, 0x00008001, 0, 8), 0, FFA_SUCCESS);
    SEES(CALL_ON(1, info_get), 0, FFA_SUCCESS, 0, 0x80, 0x8001);
    SEES(CALL_ON(2, FFA_MSG_WAIT), 0, FFA_MSG_WAIT, 0x80010000);
}

/* Where there is no such processor, or no machine, none is selected, and the one that was stays it. */
static void no_processor(void) {
    SEES(CALL_ON(7, FFA_RUN, 0x80010000), 0x8001, FFA_RUN, 0x80010000);
    for (int turn = 0; turn < 3; turn++) {
        CHECK(!gorseplumb_select(&machine, turn == 0 ? GORSEPLUMB_MOST_PROCESSORS : turn == 1 ? UINT32_MAX : 0x10000));
        CHECK(gorseplumb_runner(&machine) == 0x8001);
        SEES(CALL(FFA_ID_GET), 0x8001, FFA_SUCCESS, 0, 0x8001);
    }
    is_plain(gorseplumb_store(&machine, 0x40020000, 0, 1), GORSEPLUMB_KIND_BAD_SIZE, 0);
    SEES(CALL(FFA_MSG_WAIT), 0, FFA_MSG_WAIT, 0x80010000);
    on(0);
}

static void no_machine(void) {
    CHECK(!gorseplumb_select(&machine, 0) && !gorseplumb_select(&machine, GORSEPLUMB_MOST_PROCESSORS));
    is_plain(gorseplumb_interrupt(&machine), GORSEPLUMB_KIND_NO_MACHINE, 0);
    is_plain(CALL(FFA_ID_GET), GORSEPLUMB_KIND_NO_MACHINE, 0);
    is_plain(gorseplumb_load(&machine, 0x40010000, 8), GORSEPLUMB_KIND_NO_MACHINE, 0);
    is_plain(gorseplumb_store(&machine, 0x40010000, 8, 1), GORSEPLUMB_KIND_NO_MACHINE, 0);
    is_plain(gorseplumb_fetch(&machine, 0x40010000), GORSEPLUMB_KIND_NO_MACHINE, 0);
    is_plain(gorseplumb_load(&machine, 0x40010000, 16), GORSEPLUMB_KIND_BAD_SIZE, 0);
    CHECK(gorseplumb_runner(&machine) == GORSEPLUMB_NOTHING && !gorseplumb_sri_pending(&machine));
}

static void scenes(uint32_t ffa) {
    asked = 0;
    a_timer();
    two_partitions();
    a_lend();
    a_chain();
    if (ffa == GORSEPLUMB_FFA_1_2) notices();
    else no_notices();
    no_processor();
    CHECK(asked == 0); /* no operation and no interrupt takes memory */
}

int main(void) {
    static struct gorseplumb_manifest manifest;
    no_machine();
    CHECK(gorseplumb_read_manifest(text, text_size, &manifest) == GORSEPLUMB_OK);
    for (manifest.ffa = GORSEPLUMB_FFA_1_1; manifest.ffa <= GORSEPLUMB_FFA_1_2; manifest.ffa++) {
        CHECK(gorseplumb_boot_manifest(&machine, &manifest) == GORSEPLUMB_OK);
        scenes(manifest.ffa);
        CHECK(gorseplumb_end_heap(&machine) == GORSEPLUMB_OK);
        no_machine();
        CHECK(gorseplumb_lend_all(&list, pages, 512) == GORSEPLUMB_OK);
        CHECK(gorseplumb_boot_lent_manifest(&machine, &list, &manifest) == GORSEPLUMB_OK);
        scenes(manifest.ffa);
        CHECK(gorseplumb_end(&machine, &list) == GORSEPLUMB_OK && gorseplumb_take_all_back(&list, pages, 512) && pieces == 0);
    }
    printf("ok: interrupts and processors, on the heap's RAM and on lent pages\n");
    return 0;
}
