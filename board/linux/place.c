/* SPDX-License-Identifier: MIT OR Apache-2.0 */
/* Where endpoints begin. Their images stand in pages of their own before the boot, which keeps them. */
#include "guest.h"
#include "layout.h"
#include "processor.h"
#include "tables.h"
#include "text.h"

SYSTEM_REGISTER(ctr_el0)

static uint64_t take_number(const char **at) {
    uint64_t number;
    unsigned digits;
    if (!take_hex(at, &number, &digits)) stop("the list of endpoints has no number where there has to be one");
    return number;
}

/* A line of three hexadecimal words: an endpoint, its first instruction, and what x0 tells it there. */
static void place_endpoint(struct board *board, const char **list) {
    uint32_t place = place_of((uint32_t)take_number(list));
    uint64_t first = take_number(list), told = take_number(list);
    if (place >= board->count) stop("the list has an endpoint that the manifest doesn't have");
    board->endpoints[place].program = first;
    begin_context(&board->endpoints[place].context, first);
    board->endpoints[place].context.x[0] = told;
    if (**list == '\n') ++*list;
}

/* Linux begins with its caches off, and reads what it finds behind them: what the core wrote is cleaned out of them, all of RAM. */
static void clean_machine(struct board *board) {
    uint64_t line = UINT64_C(4) << (read_ctr_el0() >> 16 & 15);
    uint64_t end = RAM_BASE + (uint64_t)GORSEPLUMB_PAGE_SIZE * board->pages;
    for (uint64_t at = RAM_BASE; at < end; at += line) __asm__ volatile("dc civac, %0" : : "r"(at) : "memory");
    DO("dsb sy");
}

void place_endpoints(struct board *board, const char *list) {
    while (*list != '\0') place_endpoint(board, &list);
    for (uint32_t i = 0; i < board->count; i++) {
        if (board->endpoints[i].program == 0) stop("an endpoint of the manifest isn't in the list");
    }
    clean_machine(board);
    after_boot();
}
