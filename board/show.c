/* SPDX-License-Identifier: MIT OR Apache-2.0 */
#include "doing.h"
#include "layout.h"
#include "processor.h"
#include "scene.h"
#include "text.h"

SYSTEM_REGISTER(par_el1)

#define MOST_PAGES (32 * 512)
#define ALL_PAGES (1u << 20) /* of the 2^32 addresses that stage 2 takes */

/* What each endpoint may do with each page: bit 0 is to load, bit 1 to store, bit 2 to fetch. */
static uint8_t reached[GORSEPLUMB_MOST_ENDPOINTS][MOST_PAGES];

/* Loads and stores are the walk's answers; no instruction asks a walk for a fetch, so that is the core's. */
static void ask_walks(struct board *board, uint32_t place) {
    struct endpoint *endpoint = &board->endpoints[place];
    walk_tables(place, endpoint->root);
    for (uint32_t page = 0; page < board->pages; page++) {
        uint64_t address = RAM_BASE + (uint64_t)GORSEPLUMB_PAGE_SIZE * page;
        unsigned fetches = gorseplumb_access(&board->machine, endpoint->identifier, page) & GORSEPLUMB_EXECUTE;
        reached[place][page] = (uint8_t)(fetches | (walk_reads(address) ? 1u : 0u) | (walk_writes(address) ? 2u : 0u));
    }
}

/* The first page outside RAM that the walk of an endpoint's tables gives it, and ALL_PAGES where there is none. */
static uint32_t reached_outside(struct board *board, uint32_t place) {
    uint32_t first = RAM_BASE / GORSEPLUMB_PAGE_SIZE, page = 0;
    walk_tables(place, board->endpoints[place].root);
    for (; page < ALL_PAGES; page++) {
        uint64_t address = (uint64_t)GORSEPLUMB_PAGE_SIZE * page;
        bool outside = page < first || page >= first + board->pages;
        if (outside && (walk_reads(address) || walk_writes(address))) break;
    }
    return page;
}

void look_outside(struct board *board) {
    uint64_t kept = read_par_el1();
    for (uint32_t place = 0; place < board->count; place++) {
        if (reached_outside(board, place) != ALL_PAGES) unexpected(board, "page outside RAM");
    }
    write_par_el1(kept);
}

static bool is_as_before(struct board *board, uint32_t page) {
    if (gorseplumb_owner(&board->machine, page) != gorseplumb_owner(&board->machine, page - 1)) return false;
    for (uint32_t place = 0; place < board->count; place++) {
        if (reached[place][page] != reached[place][page - 1]) return false;
    }
    return true;
}

static void put_run(struct board *board, uint32_t first, uint32_t behind) {
    static const char *const rights[] = {" ---", " r--", " -w-", " rw-", " --x", " r-x", " -wx", " rwx"};
    put_text("< pages ");
    put_hex(RAM_BASE + (uint64_t)GORSEPLUMB_PAGE_SIZE * first, 8);
    put_text(" ");
    put_hex(RAM_BASE + (uint64_t)GORSEPLUMB_PAGE_SIZE * behind - 1, 8);
    put_text(" ");
    put_hex(gorseplumb_owner(&board->machine, first), 4);
    for (uint32_t place = 0; place < board->count; place++) put_text(rights[reached[place][first]]);
    put_text("\n");
}

/* Asks all walks. PAR_EL1, in which they answer, is the endpoint's that runs, and stays. */
static void ask_all(struct board *board) {
    uint64_t kept = read_par_el1();
    for (uint32_t place = 0; place < board->count; place++) ask_walks(board, place);
    write_par_el1(kept);
}

/* The page behind the run that begins with a page. */
static uint32_t behind_run(struct board *board, uint32_t first) {
    uint32_t behind = first + 1;
    while (behind < board->pages && is_as_before(board, behind)) behind++;
    return behind;
}

void show(struct board *board) {
    ask_all(board);
    put_text("< runner ");
    put_hex(running(board)->identifier, 4);
    put_text("\n");
    for (uint32_t first = 0, behind; first < board->pages; first = behind) {
        behind = behind_run(board, first);
        put_run(board, first, behind);
    }
}
