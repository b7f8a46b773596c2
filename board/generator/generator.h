/* SPDX-License-Identifier: MIT OR Apache-2.0 */
/* What an endpoint's generator knows: for generator.c and moves.c, which run at EL1. */
#ifndef BOARD_GENERATOR_H
#define BOARD_GENERATOR_H

#include <stdbool.h>
#include <stdint.h>
#include "calls.h"
#include "layout.h"
#include "operation.h"

#define MOST_PAGES 24  /* of an endpoint that generators work with, TX and RX first */
#define MOST_PLACES 8  /* of a manifest */
#define MOST_QUEUED 40 /* operations of one move */
#define TX_WORDS 20    /* of TX that descriptors use */

/* A memory transaction that a sender made, as a notice tells it to others. Endpoints are bits, by place. */
struct offer {
    uint64_t handle, tag;
    uint64_t pages[2];
    uint32_t function;
    uint16_t sender; /* a place */
    uint16_t right;  /* 1 or 2, as a descriptor has it */
    uint8_t open, receivers, holders, page_count;
    uint32_t unused;
};

struct generator {
    /* What the program writes and reads. */
    uint64_t answer[8];
    uint64_t answered; /* whether these are what the endpoint saw since it was asked last */
    struct operation operation;

    /* Of the machine and its endpoints. */
    bool begun;
    uint64_t state, ram_base, ram_pages, program, other_program;
    uint32_t place, count;
    uint64_t pages[MOST_PLACES][MOST_PAGES];
    uint32_t page_count[MOST_PLACES];

    /* Of this endpoint. */
    uint64_t tx[TX_WORDS]; /* the first words of TX, as they were stored */
    bool mapped;
    uint64_t rounds;      /* that the last loop went */
    bool uses_buffers;    /* a move that is on its way has TX */
    uint32_t preempted;   /* the partition that the normal world was interrupted in last, until it is run again */
    uint32_t work; /* the call that gave it cycles, FFA_RUN or a direct request, and 0 for the normal world */
    uint32_t requester;
    struct operation queue[MOST_QUEUED];
    uint32_t first, queued;
    struct offer made; /* the offer of the send that is on its way */
    uint32_t asked;    /* the notice of the offer of another call on memory that is on its way, and MOST_NOTICES for none */
    uint32_t function; /* of the last call */
};

/* One of the numbers below `behind`, and whether it is 0. */
uint64_t below(struct generator *generator, uint64_t behind);
static inline bool one_in(struct generator *generator, uint64_t many) { return below(generator, many) == 0; }

/* The notice at a place of the board of notices, and another in its stead. */
struct offer read_notice(uint64_t index);
void write_notice(uint64_t index, const struct offer *offer);

/* Whether the endpoint may use TX in the move that it begins: the normal world may have another processor that does. */
bool take_buffers(struct generator *generator);

/* Fills the queue, which is empty, with the operations of one move. It may stay empty. */
void make_move(struct generator *generator);

#endif
