/* SPDX-License-Identifier: MIT OR Apache-2.0 */
#include "board.h"
#include "layout.h"
#include "text.h"

#define PAGES_OF_BLOCK 512
#define MOST_PAGES (PAGES_OF_BLOCK * GORSEPLUMB_MOST_BLOCKS)

_Static_assert(RAM_BASE > FIRMWARE_BASE || RAM_BASE + GORSEPLUMB_MOST_RAM <= FIRMWARE_BASE, "a machine's RAM may reach into the firmware");

static uint32_t length_of(const char *text) {
    uint32_t length = 0;
    while (text[length] != '\0') length++;
    return length;
}

static void lend_block(struct board *board, struct gorseplumb_lent *list) {
    struct gorseplumb_span block = {(struct gorseplumb_page *)RAM_BASE + board->pages, PAGES_OF_BLOCK};
    if (gorseplumb_lend_span(list, &block) != GORSEPLUMB_OK) stop("no pages were lent");
    board->pages += PAGES_OF_BLOCK;
}

/* Who the endpoints are, and where their tables begin. */
static void name_endpoints(struct board *board) {
    uint32_t tables = 2 + board->pages / PAGES_OF_BLOCK;
    board->count = gorseplumb_endpoints(&board->machine);
    for (uint32_t i = 0; i < board->count; i++) {
        board->endpoints[i].identifier = identifier_of(i);
        board->endpoints[i].root = TABLES_AT + (uint64_t)GORSEPLUMB_PAGE_SIZE * i * tables;
    }
}

void boot(struct board *board, const char *manifest, boot_in_list *boot_in) {
    struct gorseplumb_lent list = {0};
    uint32_t answer = GORSEPLUMB_WRONG_COUNT;
    if (gorseplumb_begin_lending(&list, MOST_PAGES) != GORSEPLUMB_OK) stop("there is no list of pages");
    while (answer == GORSEPLUMB_WRONG_COUNT && board->pages < MOST_PAGES) {
        lend_block(board, &list);
        answer = boot_in(&board->machine, &list, (const uint8_t *)manifest, length_of(manifest));
    }
    if (answer != GORSEPLUMB_OK) stop("the manifest is refused");
    name_endpoints(board);
    end_memory();
}
