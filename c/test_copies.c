/* SPDX-License-Identifier: MIT OR Apache-2.0 */
/* Copies of a machine, over RAM of the heap and over lent pages: one is made in the midst of a lend, with partitions on two
 * processors, a notification of which the normal world was told and a change that nobody was told; it is the same, does what the
 * original does, and leaves that as it is. Then a checkpoint to which the machine goes back in its own pages, what the border
 * answers out of order, what is to be settled, and each piece of memory refused in turn. */
#include <stdio.h>
#include <string.h>
#include "../board/calls.h"
#include "check.h"
#include "counted.h"
#include "gorseplumb.h"
#include "lending.h"
#include "machine.toml.h"

#define PAGES 512

/* Of a machine on the heap: RAM, its place, owners of pages and transactions. */
#define HEAP_PIECES 4

static struct gorseplumb_page here[PAGES], there[PAGES], kept[PAGES];
static struct gorseplumb_lent none;

static const uint16_t endpoints[] = {0, 0x8001, 0x8002, 0x8003 /* no such endpoint */};

/* How often a machine's own tables were to be settled whole, as behind a boot, and whatever else was. */
static size_t whole, others;

void gorseplumb_settle(uint16_t endpoint, uint64_t address, uint64_t size) {
    if (address == 0x40000000 && size == UINT64_C(0x100000000)) {
        CHECK(endpoint == endpoints[whole++ % 3]);
    } else {
        others++;
    }
}

static struct gorseplumb_manifest manifest;

/* A machine, and the pages that it stands in, where its RAM is lent. */
struct board {
    struct gorseplumb_machine machine;
    struct gorseplumb_lent list;
    struct gorseplumb_page *pages;
};

/* Lends the board its pages, if it has some. */
static void lend(struct board *board) {
    if (board->pages != NULL) CHECK(gorseplumb_lend_all(&board->list, board->pages, PAGES) == GORSEPLUMB_OK);
}

static void boot(struct board *board) {
    lend(board);
    CHECK((board->pages != NULL ? gorseplumb_boot_lent_manifest(&board->machine, &board->list, &manifest)
                                : gorseplumb_boot_manifest(&board->machine, &manifest)) == GORSEPLUMB_OK);
}

static enum gorseplumb_answer copy(struct board *board, const struct gorseplumb_machine *original) {
    return board->pages != NULL ? gorseplumb_copy_lent(&board->machine, &board->list, original) : gorseplumb_copy(&board->machine, original);
}

/* Ends the machine. */
static void end(struct board *board) {
    CHECK(gorseplumb_end(&board->machine, &board->list) == GORSEPLUMB_OK);
    if (board->pages != NULL) CHECK(gorseplumb_take_all_back(&board->list, board->pages, PAGES));
}

/* The machine, when a processor was selected. */
static struct gorseplumb_machine *on(struct gorseplumb_machine *machine, uint32_t processor) {
    CHECK(gorseplumb_select(machine, processor));
    return machine;
}

static void stores_on(struct gorseplumb_machine *machine, uint32_t processor, uint64_t address, uint64_t value) {
    CHECK(gorseplumb_store(on(machine, processor), address, 8, value).kind == GORSEPLUMB_KIND_DONE);
}

/* A call behind which this runner sees `x0` first. */
#define SEES(runner_, x0, processor, ...) \
    do { \
        struct gorseplumb_outcome told = GORSEPLUMB_CALL(on(machine, processor), __VA_ARGS__); \
        CHECK(told.kind == GORSEPLUMB_KIND_REGISTERS && told.runner == (runner_) && told.x[0] == (x0)); \
    } while (0)

/* 8001 lends 8002 a page, waits, and has a notification, of which the normal world is told; 8002 runs on processor 1, and has
 * retrieved the page, which nobody was told. */
static void prepare(struct gorseplumb_machine *machine) {
    SEES(0x8002, FFA_RUN, 1, FFA_RUN, 0x80020000);
    SEES(0x8002, FFA_SUCCESS, 1, FFA_RXTX_MAP, 0x4003E000, 0x4003F000, 1);
    SEES(0x8001, FFA_RUN, 0, FFA_RUN, 0x80010000);
    SEES(0x8001, FFA_SUCCESS, 0, FFA_RXTX_MAP, 0x4002E000, 0x4002F000, 1);
    SEES(0x8001, FFA_SUCCESS, 0, FFA_NOTIFICATION_BIND, 0x00008001, 0, 0x18);
    stores_on(machine, 0, 0x40021008, 0x1122334455667788);
    stores_on(machine, 0, 0x4002E000, 0x8001);
    stores_on(machine, 0, 0x4002E018, 0x0000000100000010);
    stores_on(machine, 0, 0x4002E020, 0x30);
    stores_on(machine, 0, 0x4002E030, 0x0000004000028002);
    stores_on(machine, 0, 0x4002E040, 0x0000000100000001);
    stores_on(machine, 0, 0x4002E050, 0x40021000);
    stores_on(machine, 0, 0x4002E058, 1);
    SEES(0x8001, FFA_SUCCESS, 0, FFA_MEM_LEND, 0x60, 0x60);
    SEES(0, FFA_MSG_WAIT, 0, FFA_MSG_WAIT);
    SEES(0, FFA_SUCCESS, 0, FFA_NOTIFICATION_SET, 0x00008001, 0, 0x08);
    CHECK(gorseplumb_sri_pending(machine));
    SEES(0, FFA_SUCCESS, 0, 0x84000083);
    stores_on(machine, 1, 0x4003E000, 0x8001);
    stores_on(machine, 1, 0x4003E008, 0x0000800100000001);
    stores_on(machine, 1, 0x4003E018, 0x0000000100000010);
    stores_on(machine, 1, 0x4003E020, 0x30);
    stores_on(machine, 1, 0x4003E030, 0x0000000000028002);
    SEES(0x8002, FFA_MEM_RETRIEVE_RESP, 1, FFA_MEM_RETRIEVE_REQ, 0x40, 0x40);
    CHECK(gorseplumb_runner(on(machine, 0)) == 0 && gorseplumb_runner(on(machine, 1)) == 0x8002 && !gorseplumb_sri_pending(machine));
}

#define MOST_DONE 24

/* What was done, and what came of it. */
struct done {
    size_t count;
    struct gorseplumb_outcome outcomes[MOST_DONE];
};

static void note(struct done *done, struct gorseplumb_outcome told) {
    CHECK(done->count < MOST_DONE);
    done->outcomes[done->count++] = told;
}

/* 8002 stores to the page, is stopped, goes on on processor 0 and gives the page up; 8001 gets its notification on processor 1,
 * reclaims the page, and finds there what was stored; and some operations are refused. */
static struct done goes_on(struct gorseplumb_machine *machine) {
    struct done done = {0};
    note(&done, gorseplumb_store(on(machine, 1), 0x40021000, 8, 0x5A));
    note(&done, gorseplumb_load(on(machine, 1), 0x40021008, 8));
    note(&done, gorseplumb_load(on(machine, 0), 0x40021000, 8));
    note(&done, GORSEPLUMB_CALL(on(machine, 0), FFA_RUN, 0x80020000));
    note(&done, gorseplumb_interrupt(on(machine, 1)));
    note(&done, GORSEPLUMB_CALL(on(machine, 0), FFA_RUN, 0x80020000));
    note(&done, gorseplumb_store(machine, 0x4003E000, 8, 0x0000800100000001));
    note(&done, gorseplumb_store(machine, 0x4003E008, 8, 0x0000000100000000));
    note(&done, gorseplumb_store(machine, 0x4003E010, 8, 0x8002));
    note(&done, GORSEPLUMB_CALL(machine, FFA_MEM_RELINQUISH));
    note(&done, gorseplumb_load(machine, 0x40021000, 8));
    note(&done, GORSEPLUMB_CALL(on(machine, 1), 0x84000083));
    note(&done, GORSEPLUMB_CALL(on(machine, 1), FFA_NOTIFICATION_SET, 0x00008001, 0, 0x10));
    note(&done, GORSEPLUMB_CALL(on(machine, 1), 0x84000083));
    note(&done, GORSEPLUMB_CALL(on(machine, 1), FFA_RUN, 0x80010000));
    note(&done, GORSEPLUMB_CALL(machine, FFA_NOTIFICATION_GET, 0x8001, 7));
    note(&done, GORSEPLUMB_CALL(machine, FFA_MEM_RECLAIM, 1, 0x8001));
    note(&done, gorseplumb_load(machine, 0x40021000, 8));
    note(&done, GORSEPLUMB_CALL(machine, FFA_MEM_RECLAIM, 1, 0x8001));
    CHECK(done.outcomes[1].value == 0x1122334455667788 && done.outcomes[2].kind == GORSEPLUMB_KIND_FAULT);
    CHECK(done.outcomes[5].kind == GORSEPLUMB_KIND_RESUMED && done.outcomes[9].x[0] == FFA_SUCCESS);
    CHECK(done.outcomes[11].x[0] == FFA_ERROR && done.outcomes[13].x[0] == FFA_SUCCESS);
    CHECK(done.outcomes[15].x[4] == 0x18 && done.outcomes[17].value == 0x5A && done.outcomes[18].x[0] == FFA_ERROR);
    return done;
}

/* Whether two machines tell the same where they are asked, and have the same bytes. Processor 1 is selected in both, and stays so. */
static void same(struct gorseplumb_machine *one, struct gorseplumb_machine *other) {
    static struct gorseplumb_page bytes, others_bytes;
    static struct gorseplumb_cert_run run, others_run;
    CHECK(gorseplumb_runner(one) == gorseplumb_runner(other) && gorseplumb_endpoints(one) == gorseplumb_endpoints(other));
    CHECK(gorseplumb_ram_base(one) == gorseplumb_ram_base(other) && gorseplumb_ram_blocks(one) == gorseplumb_ram_blocks(other));
    CHECK(gorseplumb_sri_pending(one) == gorseplumb_sri_pending(other));
    for (uint32_t processor = 0; processor < GORSEPLUMB_MOST_PROCESSORS; processor++)
        CHECK(gorseplumb_runner(on(one, processor)) == gorseplumb_runner(on(other, processor)));
    CHECK(gorseplumb_runner(on(one, 1)) == gorseplumb_runner(on(other, 1)) && gorseplumb_runner(one) != 0);
    for (size_t place = 0; place < 4; place++) {
        CHECK(gorseplumb_root(one, endpoints[place]) == gorseplumb_root(other, endpoints[place]));
        CHECK(gorseplumb_npi_pending(one, endpoints[place]) == gorseplumb_npi_pending(other, endpoints[place]));
    }
    for (uint32_t page = 0; page < PAGES; page++) {
        CHECK(gorseplumb_read_page(one, page, &bytes) && gorseplumb_read_page(other, page, &others_bytes));
        CHECK(memcmp(&bytes, &others_bytes, sizeof bytes) == 0);
        CHECK(gorseplumb_cert_run(one, page, &run) && gorseplumb_cert_run(other, page, &others_run));
        CHECK(memcmp(&run, &others_run, sizeof run) == 0);
        CHECK(gorseplumb_audit(other, &run, 1) == GORSEPLUMB_NOT_CERTIFIED);
    }
}

/* The tables of a machine give its own certificate. */
static void is_certified(const struct gorseplumb_machine *machine) {
    static struct gorseplumb_cert_run runs[PAGES];
    size_t count = 0;
    for (uint32_t page = 0; page < PAGES; page = runs[count++].last + 1) CHECK(gorseplumb_cert_run(machine, page, &runs[count]));
    CHECK(gorseplumb_audit(machine, runs, count) == GORSEPLUMB_OK);
}

/* A change that 8002 has retrieved the page, which is told once. */
static void tells(struct gorseplumb_machine *machine) {
    static struct gorseplumb_change change;
    CHECK(gorseplumb_take_change(machine, &change) && change.endpoint == 0x8002 && change.range_count == 1);
    CHECK(change.ranges[0].address == 0x40021000 && change.ranges[0].size == GORSEPLUMB_PAGE_SIZE);
    CHECK(!gorseplumb_take_change(machine, &change));
}

/* A copy is the same machine and goes on as the original does, which it leaves as it is, and which leaves it as it is. */
static void from_to(struct gorseplumb_page *from, struct gorseplumb_page *to) {
    struct board original = {.pages = from}, copied = {.pages = to}, untouched = {0};
    struct done done, again;
    boot(&original);
    prepare(&original.machine);
    lend(&copied);
    const struct gorseplumb_machine held = original.machine;
    if (from != NULL) memcpy(kept, from, sizeof kept);
    whole = others = asked = 0;
    CHECK(copy(&copied, &original.machine) == GORSEPLUMB_OK && asked == (to != NULL ? 0 : HEAP_PIECES));
    CHECK(whole == (to != NULL ? 3 : 0) && others == 0);
    CHECK(memcmp(&held, &original.machine, sizeof held) == 0 && (from == NULL || memcmp(kept, from, sizeof kept) == 0));
    CHECK(to == NULL || gorseplumb_lent_pages(&copied.list) == 0);
    same(&original.machine, &copied.machine);
    is_certified(&copied.machine);
    CHECK(gorseplumb_copy(&untouched.machine, &copied.machine) == GORSEPLUMB_OK);

    tells(&copied.machine);
    done = goes_on(&copied.machine);
    same(&original.machine, &untouched.machine);
    tells(&original.machine);
    tells(&untouched.machine);
    again = goes_on(&original.machine);
    CHECK(memcmp(&done, &again, sizeof done) == 0);
    same(&original.machine, &copied.machine);
    is_certified(&copied.machine);

    /* they part where they are asked for other things, and each has its own */
    stores_on(&original.machine, 1, 0x40021000, 1);
    stores_on(&copied.machine, 1, 0x40021000, 2);
    CHECK(gorseplumb_load(&original.machine, 0x40021000, 8).value == 1 && gorseplumb_load(&copied.machine, 0x40021000, 8).value == 2);
    end(&original);
    CHECK(gorseplumb_load(&copied.machine, 0x40021000, 8).value == 2);
    again = goes_on(&untouched.machine);
    CHECK(memcmp(&done, &again, sizeof done) == 0);
    end(&copied);
    end(&untouched);
    CHECK(pieces == 0);
}

/* A machine in lent pages goes back to where it was, in the same pages, as often as it is asked to, and takes no memory for that. */
static void checkpoint(void) {
    struct board board = {.pages = here};
    struct gorseplumb_machine saved = {0};
    struct done done[3];
    boot(&board);
    prepare(&board.machine);
    memcpy(kept, here, sizeof kept);
    CHECK(gorseplumb_copy(&saved, &board.machine) == GORSEPLUMB_OK);
    for (int turn = 0; turn < 3; turn++) {
        tells(&board.machine);
        done[turn] = goes_on(&board.machine);
        CHECK(memcmp(&done[turn], &done[0], sizeof done[0]) == 0 && memcmp(kept, here, sizeof kept) != 0);
        asked = 0;
        CHECK(gorseplumb_end(&board.machine, &board.list) == GORSEPLUMB_OK && gorseplumb_lent_pages(&board.list) == PAGES);
        CHECK(gorseplumb_copy_lent(&board.machine, &board.list, &saved) == GORSEPLUMB_OK && asked == 0);
        CHECK(memcmp(kept, here, sizeof kept) == 0);
    }
    end(&board);
    CHECK(gorseplumb_end_heap(&saved) == GORSEPLUMB_OK && pieces == 0);
}

/* What is answered first where a copy can't be made; nothing changes then. */
static void out_of_order(void) {
    struct board original = {0}, copied = {.pages = there};
    struct gorseplumb_machine empty = {0};
    boot(&original);
    prepare(&original.machine);
    CHECK(gorseplumb_copy(&original.machine, &empty) == GORSEPLUMB_OCCUPIED);
    CHECK(gorseplumb_copy_lent(&original.machine, &none, &empty) == GORSEPLUMB_OCCUPIED);
    CHECK(gorseplumb_copy(&copied.machine, &empty) == GORSEPLUMB_NO_MACHINE && !copied.machine.live && !empty.live);
    CHECK(gorseplumb_copy_lent(&copied.machine, &none, &empty) == GORSEPLUMB_NO_LIST);
    CHECK(gorseplumb_copy_lent(&copied.machine, &none, &original.machine) == GORSEPLUMB_NO_LIST && !none.live);
    memset(there, 0xA5, sizeof there);
    for (uint32_t count = 0; count < PAGES; count += PAGES - 1) {
        CHECK(gorseplumb_lend_all(&copied.list, there, count) == GORSEPLUMB_OK);
        CHECK(gorseplumb_copy_lent(&copied.machine, &copied.list, &empty) == GORSEPLUMB_NO_MACHINE);
        CHECK(gorseplumb_copy_lent(&copied.machine, &copied.list, &original.machine) == GORSEPLUMB_WRONG_COUNT);
        CHECK(!copied.machine.live && gorseplumb_lent_pages(&copied.list) == count);
        CHECK(gorseplumb_take_all_back(&copied.list, there, count));
    }
    for (size_t page = 0; page < PAGES; page++) CHECK(there[page].bytes[0] == 0xA5 && there[page].bytes[4095] == 0xA5);
    goes_on(&original.machine);
    end(&original);
    CHECK(pieces == 0);
}

/* Each piece of memory is refused in turn: the answer says so, and nothing stays behind. A list that has more pages than it was
 * begun for lacks some. */
static void refusals(void) {
    struct board original = {0}, copied = {.pages = there};
    struct gorseplumb_slot slot;
    boot(&original);
    prepare(&original.machine);
    const size_t before = pieces;
    for (size_t turn = 1; turn <= HEAP_PIECES; turn++) {
        asked = 0;
        refused = turn;
        CHECK(gorseplumb_copy(&copied.machine, &original.machine) == GORSEPLUMB_NO_MEMORY && !copied.machine.live && pieces == before);
    }
    refused = 0;
    CHECK(gorseplumb_begin_lending(&copied.list, PAGES - 1) == GORSEPLUMB_OK);
    for (size_t page = 0; page < PAGES; page++) {
        slot = (struct gorseplumb_slot){true, &there[page]};
        CHECK(gorseplumb_lend(&copied.list, &slot) == GORSEPLUMB_OK);
    }
    memset(there, 0xA5, sizeof there);
    asked = 0;
    refused = 1;
    CHECK(gorseplumb_copy_lent(&copied.machine, &copied.list, &original.machine) == GORSEPLUMB_NO_MEMORY && asked == 1);
    refused = 0;
    CHECK(!copied.machine.live && gorseplumb_lent_pages(&copied.list) == PAGES && there[0].bytes[0] == 0xA5);
    CHECK(copy(&copied, &original.machine) == GORSEPLUMB_OK);
    same(&original.machine, &copied.machine);
    end(&copied);
    end(&original);
    CHECK(pieces == 0);
}

int main(void) {
    CHECK(gorseplumb_read_manifest((const uint8_t *)manifest_text, sizeof manifest_text - 1, &manifest) == GORSEPLUMB_OK);
    manifest.ffa = GORSEPLUMB_FFA_1_2; /* which tells the normal world of notifications */
    from_to(NULL, NULL);
    from_to(NULL, there);
    from_to(here, NULL);
    from_to(here, there);
    checkpoint();
    out_of_order();
    refusals();
    puts("ok: copies, from and to RAM of the heap and lent pages");
    return 0;
}
