/* SPDX-License-Identifier: MIT OR Apache-2.0 */
#include "calls.h"
#include "layout.h"
#include "operation.h"
#include "scene.h"
#include "text.h"

static bool may_have_program(struct board *board, uint16_t identifier, uint32_t page) {
    return page < board->pages && gorseplumb_access(&board->machine, identifier, page) == (GORSEPLUMB_WRITE | GORSEPLUMB_EXECUTE);
}

/* Where an endpoint's program stands: the last page that it may load, store and fetch; or the last of such pages in a row, of which so many
 * others come behind. */
static uint64_t page_of_program(struct board *board, uint16_t identifier, uint32_t behind) {
    for (uint32_t page = board->pages; page > 0; page--) {
        bool is_last = may_have_program(board, identifier, page - 1) && !may_have_program(board, identifier, page);
        if (is_last && behind-- == 0) return RAM_BASE + (uint64_t)GORSEPLUMB_PAGE_SIZE * (page - 1);
    }
    stop("an endpoint has no page for its program");
}

/* The core does an operation for the endpoint that runs by its account. No program runs yet. */
static void store(struct board *board, uint64_t address, uint64_t value) {
    struct operation operation = {.kind = STORE, .address = address, .size = 8, .value = value};
    put_operation(&operation);
    if (gorseplumb_store(&board->machine, address, 8, value).kind != GORSEPLUMB_KIND_DONE) stop("a program can't be stored");
    put_done();
}

static void call(struct board *board, uint64_t function, uint64_t argument) {
    struct operation operation = {.kind = CALL, .x = {function, argument}};
    struct gorseplumb_registers registers = {.x = {function, argument}};
    put_operation(&operation);
    struct gorseplumb_outcome told = gorseplumb_call(&board->machine, &registers);
    put_registers(told.runner, told.x);
}

/* Instructions by two, but for what is zero in RAM already, and the endpoint's identifier where the program has room for it. */
static void place(struct board *board, struct endpoint *endpoint, uint64_t address, const uint32_t *begin, const uint32_t *end) {
    for (const uint32_t *at = begin; at < end; at += 2, address += 8) {
        uint64_t word = at == program_identity ? endpoint->identifier : at[0] | (uint64_t)at[1] << 32;
        if (word != 0) store(board, address, word);
    }
}

static void place_program(struct board *board, struct endpoint *endpoint, uint64_t program, bool generators) {
    endpoint->program = program;
    place(board, endpoint, program, program_begin, program_end);
    if (generators) place(board, endpoint, program - GENERATOR_CODE, generator_begin, generator_end);
    begin_context(&endpoint->context, program);
}

void place_other_programs(struct board *board, uint32_t processors, bool generators) {
    for (uint32_t i = 1; i < processors; i++) {
        board->others[i].root = board->endpoints[0].root;
        place_program(board, &board->others[i], page_of_program(board, 0, i), generators);
    }
}

void place_programs(struct board *board, bool generators) {
    for (uint32_t i = 0; i < board->count; i++) {
        struct endpoint *endpoint = &board->endpoints[i];
        if (i != 0) call(board, FFA_RUN, (uint64_t)endpoint->identifier << 16);
        place_program(board, endpoint, page_of_program(board, endpoint->identifier, 0), generators);
        if (i != 0) call(board, FFA_MSG_WAIT, 0);
    }
    if (WRONG_ROOT) board->endpoints[1].root = board->endpoints[2 % board->count].root;
}
