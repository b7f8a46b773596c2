/* SPDX-License-Identifier: MIT OR Apache-2.0 */
#include "generators.h"
#include "doing.h"
#include "layout.h"
#include "lock.h"
#include "text.h"

#define MOST_PAGES 24 /* of an endpoint that generators work with */

static uint64_t pages[GORSEPLUMB_MOST_ENDPOINTS][MOST_PAGES];
static uint64_t notices[MOST_NOTICES][NOTICE_WORDS];
static uint64_t seed_of_all;
static int64_t left;

/* Held while notices are read and written, and who may use the normal world's TX: the number of a processor, from 1 on, or 0; and who did last. */
static uint32_t lock;
static uint32_t user, last_user;

static bool is_of_program(const struct endpoint *endpoint, uint64_t address) {
    return address >= endpoint->program - GENERATOR_CODE && address <= endpoint->program;
}

static bool is_of_programs(struct board *board, uint64_t address) {
    bool is = false;
    for (uint32_t place = 0; place < board->count; place++) is |= is_of_program(&board->endpoints[place], address);
    for (uint32_t other = 1; other < GORSEPLUMB_MOST_PROCESSORS; other++) is |= is_of_program(&board->others[other], address);
    return is;
}

/* The pages that an endpoint has at first, but for its programs, and of whole blocks of 2 MiB the first and the last. */
static void find_pages(struct board *board, uint32_t place) {
    uint32_t count = 0;
    for (uint32_t page = 0; page < board->pages && count < MOST_PAGES; page++) {
        uint64_t address = RAM_BASE + (uint64_t)GORSEPLUMB_PAGE_SIZE * page;
        bool edge = page < 512 || page % 512 < 4 || page % 512 == 511;
        bool own = gorseplumb_owner(&board->machine, page) == identifier_of(place);
        if (own && edge && !is_of_programs(board, address)) pages[place][count++] = address;
    }
    if (count < 4) stop("an endpoint has too few pages for its generator");
}

void begin_generators(struct board *board, uint64_t seed, uint64_t count) {
    seed_of_all = seed;
    left = (int64_t)count;
    for (uint32_t place = 0; place < board->count; place++) find_pages(board, place);
}

bool generators_go_on(void) { return __atomic_load_n(&left, __ATOMIC_SEQ_CST) > 0; }

static void tell_machine(struct board *board, uint64_t *x) {
    x[0] = seed_of_all + ((uint64_t)this_processor() << 32);
    x[1] = running_place(board);
    x[2] = board->count;
    x[3] = RAM_BASE;
    x[4] = board->pages;
    x[5] = running(board)->program;
    x[6] = this_processor() == 0 ? board->others[1].program : board->endpoints[0].program;
}

/* Copies the words of a notice. */
static void copy_notice(uint64_t *to, const uint64_t *from) {
    for (unsigned i = 0; i < NOTICE_WORDS; i++) to[i] = from[i];
}

/* Partitions have a TX each, and the normal world has one on all processors. */
static uint64_t give_buffers(struct board *board) {
    uint32_t me = this_processor() + 1;
    if (running_place(board) != 0) return 1;
    if (user != 0 && user != me) return 0;
    bool was_other = last_user != me;
    user = last_user = me;
    return was_other ? 2 : 1;
}

static void answer_question(struct board *board) {
    uint64_t *x = running(board)->context.x, question = x[0], index = x[1];
    if (question == ASK_MACHINE) {
        tell_machine(board, x);
    } else if (question == ASK_PAGE && index < board->count && x[2] < MOST_PAGES) {
        x[0] = pages[index][x[2]];
    } else if (question == ASK_NOTICE && index < MOST_NOTICES) {
        copy_notice(x + 2, notices[index]);
    } else if (question == TELL_NOTICE && index < MOST_NOTICES) {
        copy_notice(notices[index], x + 2);
    } else if (question == ASK_BUFFERS) {
        x[0] = give_buffers(board);
    } else if (question == TELL_BUFFERS) {
        if (running_place(board) == 0) user = 0;
    } else {
        unexpected(board, "question of a generator");
    }
}

void serve_question(struct board *board) {
    if (running(board)->phase != SETTLED) unexpected(board, "question of a generator");
    take_lock(&lock);
    answer_question(board);
    release_lock(&lock);
}

static bool is_size(uint64_t size) { return size == 1 || size == 2 || size == 4 || size == 8; }

struct operation take_made(struct board *board) {
    struct endpoint *endpoint = running(board);
    const uint64_t *x = endpoint->context.x;
    struct operation operation = {.kind = (enum operation_kind)x[8], .address = x[9], .size = (unsigned)x[10], .value = x[11]};
    bool access = operation.kind == LOAD || operation.kind == STORE;
    bool known = access || operation.kind == FETCH || operation.kind == CALL || operation.kind == SPIN;
    if (endpoint->phase != SETTLED || !known || (access && !is_size(x[10]))) unexpected(board, "operation of a generator");
    for (unsigned i = 0; i < 8; i++) operation.x[i] = operation.kind == CALL ? x[i] : 0;
    __atomic_fetch_sub(&left, 1, __ATOMIC_SEQ_CST);
    return operation;
}
