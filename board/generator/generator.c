/* SPDX-License-Identifier: MIT OR Apache-2.0 */
/* The generator of an endpoint: it runs at EL1 in pages of its endpoint, and makes up what its endpoint does next. It knows what its
 * endpoint was answered. What others offer it reads where they tell it, on a board of notices that the firmware keeps for all. */
#include <stddef.h>
#include "generator.h"

_Static_assert(offsetof(struct generator, answered) == GENERATOR_ANSWERED, "the program says whether there is an answer");
_Static_assert(offsetof(struct operation, address) == OPERATION_ADDRESS, "the program reads an address");
_Static_assert(offsetof(struct operation, size) == OPERATION_SIZE, "the program reads a size");
_Static_assert(offsetof(struct operation, value) == OPERATION_VALUE, "the program reads a value");
_Static_assert(offsetof(struct operation, x) == OPERATION_X, "the program reads registers");
_Static_assert(sizeof(struct generator) <= GENERATOR_VARIABLES - 4096, "a page is left for the stack");
_Static_assert(sizeof(struct offer) == 8 * NOTICE_WORDS, "a notice is an offer");

const struct operation *generate(struct generator *generator);

/* Hands eight registers to the firmware, and takes eight back: x0 is a question, and x1 of what. */
static void ask(uint64_t *x) {
    register uint64_t x0 __asm__("x0") = x[0];
    register uint64_t x1 __asm__("x1") = x[1];
    register uint64_t x2 __asm__("x2") = x[2];
    register uint64_t x3 __asm__("x3") = x[3];
    register uint64_t x4 __asm__("x4") = x[4];
    register uint64_t x5 __asm__("x5") = x[5];
    register uint64_t x6 __asm__("x6") = x[6];
    register uint64_t x7 __asm__("x7") = x[7];
    __asm__ volatile("hvc %8"
                     : "+r"(x0), "+r"(x1), "+r"(x2), "+r"(x3), "+r"(x4), "+r"(x5), "+r"(x6), "+r"(x7)
                     : "i"(HVC_ASK)
                     : "memory");
    x[0] = x0, x[1] = x1, x[2] = x2, x[3] = x3, x[4] = x4, x[5] = x5, x[6] = x6, x[7] = x7;
}

struct offer read_notice(uint64_t index) {
    uint64_t x[8] = {ASK_NOTICE, index};
    struct offer offer;
    ask(x);
    __builtin_memcpy(&offer, x + 2, sizeof offer);
    return offer;
}

void write_notice(uint64_t index, const struct offer *offer) {
    uint64_t x[8] = {TELL_NOTICE, index};
    __builtin_memcpy(x + 2, offer, sizeof *offer);
    ask(x);
}

uint64_t below(struct generator *generator, uint64_t behind) {
    uint64_t s = generator->state;
    s ^= s >> 12;
    s ^= s << 25;
    s ^= s >> 27;
    generator->state = s;
    return (s * UINT64_C(0x2545F4914F6CDD1D) >> 16) % behind;
}

/* Which pages an endpoint had at first. */
static void ask_pages(struct generator *generator, uint32_t place) {
    for (uint32_t index = 0; index < MOST_PAGES; index++) {
        uint64_t x[8] = {ASK_PAGE, place, index};
        ask(x);
        if (x[0] == 0) return;
        generator->pages[place][index] = x[0];
        generator->page_count[place] = index + 1;
    }
}

static void begin(struct generator *generator) {
    uint64_t x[8] = {ASK_MACHINE};
    ask(x);
    generator->begun = true;
    generator->place = (uint32_t)x[1];
    generator->count = (uint32_t)x[2];
    generator->ram_base = x[3];
    generator->ram_pages = x[4];
    generator->program = x[5];
    generator->other_program = x[6];
    generator->asked = MOST_NOTICES;
    generator->state = (x[0] << 8 | generator->place) * UINT64_C(0x9E3779B97F4A7C15) | 1;
    for (uint32_t place = 0; place < generator->count; place++) ask_pages(generator, place);
}

/* A send was done: what it offers has a handle, and a notice where there is room for one. */
static void tell_offer(struct offer *made, uint64_t handle) {
    for (uint32_t index = 0; index < MOST_NOTICES; index++) {
        if (read_notice(index).open) continue;
        made->open = 1;
        made->handle = handle;
        write_notice(index, made);
        return;
    }
}

/* A call on an offer of others, or on one's own, was done. */
static void tell_change(struct generator *generator) {
    if (generator->asked == MOST_NOTICES) return;
    struct offer offer = read_notice(generator->asked);
    uint8_t me = (uint8_t)(1u << generator->place);
    if (generator->function == FFA_MEM_RECLAIM) offer.open = 0;
    if (generator->function == FFA_MEM_RELINQUISH) offer.holders &= (uint8_t)~me;
    if (generator->function == FFA_MEM_RETRIEVE_REQ) {
        offer.holders |= me;
        if (offer.function == FFA_MEM_DONATE) offer.open = 0;
    }
    write_notice(generator->asked, &offer);
}

static void note_success(struct generator *generator, const uint64_t *x) {
    uint32_t function = generator->function;
    if (function == FFA_RXTX_MAP) generator->mapped = true;
    if (function == FFA_RXTX_UNMAP) generator->mapped = false;
    if (function >= FFA_MEM_DONATE && function <= FFA_MEM_SHARE) tell_offer(&generator->made, x[3] << 32 | x[2]);
    if (function == FFA_MEM_RECLAIM || function == FFA_MEM_RELINQUISH || function == FFA_MEM_RETRIEVE_REQ) tell_change(generator);
}

bool take_buffers(struct generator *generator) {
    uint64_t x[8] = {ASK_BUFFERS};
    ask(x);
    if (x[0] == 0) return false;
    if (x[0] == 2) __builtin_memset(generator->tx, 0xA5, sizeof generator->tx); /* so that each word is stored */
    generator->uses_buffers = true;
    return true;
}

static void end_move(struct generator *generator) {
    uint64_t x[8] = {TELL_BUFFERS};
    generator->first = generator->queued = 0;
    if (generator->uses_buffers) ask(x);
    generator->uses_buffers = false;
}

static void note_answer(struct generator *generator, const uint64_t *x) {
    uint32_t function = (uint32_t)x[0] & ~WITH_64_BITS;
    if (function == FFA_INTERRUPT) generator->preempted = (uint32_t)x[1] >> 16;
    if (function == FFA_SUCCESS || function == FFA_MEM_RETRIEVE_RESP) note_success(generator, x);
    if (function == FFA_RUN || function == FFA_MSG_SEND_DIRECT_REQ) generator->work = function;
    if (function == FFA_MSG_SEND_DIRECT_REQ) generator->requester = (uint32_t)x[1] >> 16;
    generator->asked = MOST_NOTICES;
}

static void fill_queue(struct generator *generator) {
    while (generator->first == generator->queued) {
        end_move(generator);
        make_move(generator);
    }
}

/* What the endpoint does next. The program begins here whenever it is asked, with its variables, which were zeros at first. */
__attribute__((section(".text.generate"))) const struct operation *generate(struct generator *generator) {
    if (!generator->begun) begin(generator);
    if (generator->answered) note_answer(generator, generator->answer);
    fill_queue(generator);
    generator->operation = generator->queue[generator->first++];
    if (generator->operation.kind == CALL) generator->function = (uint32_t)generator->operation.x[0] & ~WITH_64_BITS;
    return &generator->operation;
}
