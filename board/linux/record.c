/* SPDX-License-Identifier: MIT OR Apache-2.0 */
/* Calls as a trace, for the program ffaplay to play: it is given what the caller has in TX, and has to answer the same, and to have
 * the same in RX. Linux and partitions write their TX natively, so it is printed as stores of theirs, right before the call that
 * reads it. */
#include "bytes.h"
#include "calls.h"
#include "guest.h"
#include "layout.h"
#include "operation.h"
#include "text.h"

#ifndef RECORD
#define RECORD 1 /* 0 prints nothing, to see how long calls take */
#endif

#define DESCRIPTOR_OF_A_RELINQUISH 24
#define HEADER_OF_A_MESSAGE 24

static struct buffers {
    uint64_t tx, rx, bytes;
} buffers[GORSEPLUMB_MOST_ENDPOINTS];

static uint64_t word_at(struct board *board, uint64_t address) {
    static struct gorseplumb_page page;
    uint64_t word;
    if (!gorseplumb_read_page(&board->machine, (uint32_t)((address - RAM_BASE) / GORSEPLUMB_PAGE_SIZE), &page))
        stop("a buffer isn't in RAM");
    memcpy(&word, page.bytes + address % GORSEPLUMB_PAGE_SIZE, 8);
    return word;
}

static bool reads_descriptor(uint32_t function) {
    switch (function & ~WITH_64_BITS) {
    case FFA_MEM_DONATE:
    case FFA_MEM_LEND:
    case FFA_MEM_SHARE:
    case FFA_MEM_RETRIEVE_REQ:
        return true;
    default:
        return false;
    }
}

/* How many bytes of TX a call reads. A descriptor of which a call tells a length that its buffer doesn't have isn't read. */
static uint64_t read_by(struct board *board, const uint64_t *x, const struct buffers *of) {
    uint32_t function = (uint32_t)x[0];
    if (of->tx == 0) return 0;
    if (function == FFA_MEM_RELINQUISH) return DESCRIPTOR_OF_A_RELINQUISH;
    if (function == FFA_MSG_SEND2) {
        uint64_t size = (word_at(board, of->tx + 8) & UINT32_MAX) + (word_at(board, of->tx + 16) & UINT32_MAX);
        return size <= of->bytes ? size : HEADER_OF_A_MESSAGE;
    }
    return reads_descriptor(function) && (uint32_t)x[1] <= of->bytes ? (uint32_t)x[1] : 0;
}

void record_store(uint64_t address, unsigned size, uint64_t value) {
    struct operation operation = {.kind = STORE, .address = address, .size = size, .value = value};
    if (!RECORD) return;
    put_operation(&operation);
    put_done();
}

static void put_stores(struct board *board, uint64_t address, uint64_t bytes) {
    for (uint64_t at = 0; at < bytes; at += 8) record_store(address + at, 8, word_at(board, address + at));
}

static void put_loads(struct board *board, uint64_t address, uint64_t bytes) {
    for (uint64_t at = 0; at < bytes; at += 8) {
        struct operation operation = {.kind = LOAD, .address = address + at, .size = 8};
        put_operation(&operation);
        put_data(word_at(board, address + at), 8);
    }
}

/* Where several processors call a line says which one does what follows. */
static void begin_record(void) {
    static uint32_t speaker;
    begin_line();
    if (speaker == this_processor()) return;
    speaker = this_processor();
    put_text("> on ");
    put_number(speaker);
    put_text("\n");
}

static void put_outcome(const struct gorseplumb_outcome *outcome) {
    if (SEVERAL && outcome->kind == GORSEPLUMB_KIND_RESUMED) put_resumed(outcome->runner);
    else put_registers(outcome->runner, outcome->x);
}

void record_interrupt(const struct gorseplumb_outcome *outcome) {
    if (!RECORD) return;
    begin_record();
    put_text("> interrupt\n");
    put_outcome(outcome);
}

void record_call(struct board *board, const struct gorseplumb_registers *registers) {
    struct operation operation = {.kind = CALL};
    struct buffers *of = &buffers[running_place(board)];
    if (!RECORD) return;
    begin_record();
    put_stores(board, of->tx, read_by(board, registers->x, of));
    memcpy(operation.x, registers->x, sizeof operation.x);
    put_operation(&operation);
}

/* How many bytes a call that ended well has written to its caller's RX. */
static uint64_t written_by(const uint64_t *x, const struct gorseplumb_outcome *outcome) {
    if ((uint32_t)outcome->x[0] == FFA_MEM_RETRIEVE_RESP) return outcome->x[1];
    if ((uint32_t)x[0] == FFA_PARTITION_INFO_GET && (x[5] & 1) == 0) return outcome->x[2] * outcome->x[3];
    return 0;
}

void record_answer(struct board *board, const struct gorseplumb_registers *registers, const struct gorseplumb_outcome *outcome) {
    uint32_t function = (uint32_t)registers->x[0];
    struct buffers *of = &buffers[place_of(outcome->runner)];
    if (!RECORD) return;
    put_outcome(outcome);
    if ((uint32_t)outcome->x[0] == FFA_ERROR) return;
    if ((function & ~WITH_64_BITS) == FFA_RXTX_MAP) {
        *of = (struct buffers){registers->x[1], registers->x[2], GORSEPLUMB_PAGE_SIZE * registers->x[3]};
    } else if (function == FFA_RXTX_UNMAP) {
        *of = (struct buffers){0};
    }
    put_loads(board, of->rx, written_by(registers->x, outcome));
}
