/* SPDX-License-Identifier: MIT OR Apache-2.0 */
#include "doing.h"
#include "layout.h"
#include "processor.h"
#include "generators.h"
#include "rounds.h"
#include "scene.h"
#include "text.h"
#include "watch.h"
#include "words.h"

/* How many calls were made by programs, and whether the last of a processor was answered and nobody has told yet what it sees. */
static uint64_t calls;
static bool answered[GORSEPLUMB_MOST_PROCESSORS];

void await_answer(void) { answered[this_processor()] = true; }

static unsigned logarithm_of(unsigned size) { return size == 1 ? 0 : size == 2 ? 1 : size == 4 ? 2 : 3; }

static void dispatch_call(struct endpoint *endpoint) {
    for (unsigned i = 0; i < 8; i++) endpoint->context.x[i] = endpoint->operation.x[i];
    endpoint->phase = DOING;
    dispatch(endpoint, calls++ % 2 == 0 ? DO_HVC : DO_SMC);
}

/* The program does an operation, of which its line is printed first. */
static void give(struct board *board, struct operation operation) {
    struct endpoint *endpoint = running(board);
    endpoint->operation = operation;
    if (operation.kind == AWAIT || operation.kind == SPIN) {
        begin_rounds(endpoint);
        return;
    }
    begin_operation(board);
    put_operation(&operation);
    switch (endpoint->operation.kind) {
    case CALL:
        dispatch_call(endpoint);
        break;
    case LOAD:
        dispatch_access(endpoint, DO_LOAD + logarithm_of(endpoint->operation.size), DOING);
        break;
    case STORE:
        begin_change();
        dispatch_access(endpoint, DO_STORE + logarithm_of(endpoint->operation.size), DOING);
        break;
    case FETCH:
        begin_fetch(endpoint);
        break;
    default:
        unexpected(board, "operation");
    }
}

/* The scene's next operation, or none where the program is to ask again. */
static void give_line(struct board *board) {
    struct operation operation = next_operation(board);
    if (operation.kind == NOTHING) settle(running(board));
    else give(board, operation);
}

/* The program asks what to do. */
static void give_next(struct board *board) {
    if (running(board)->phase != SETTLED) unexpected(board, "question");
    if (generators_go_on()) dispatch(running(board), DO_GENERATE);
    else give_line(board);
}

/* The program tells that an access was done. Where it was skipped there is nothing to tell. */
static void told(struct board *board) {
    struct endpoint *endpoint = running(board);
    const struct operation *operation = &endpoint->operation;
    uint64_t value = endpoint->context.x[0];
    if (endpoint->phase == SETTLED) return;
    if (endpoint->phase == LOOKING) {
        looked(endpoint, false, (uint32_t)value);
    } else if (operation->kind == FETCH) {
        fetch_returned(board);
    } else if (operation->kind == LOAD || operation->kind == STORE) {
        endpoint->phase = SETTLED;
        if (operation->kind == LOAD) put_data(value, operation->size);
        else put_done();
    } else {
        unexpected(board, "end of an access");
    }
}

/* The program tells what it sees when it runs: what the call before was answered. */
static void seen(struct board *board) {
    struct endpoint *endpoint = running(board);
    bool *is_answered = &answered[this_processor()];
    if (*is_answered) put_registers((uint32_t)endpoint->context.x[8], endpoint->context.x);
    *is_answered = false;
    endpoint->phase = SETTLED;
}

/* The program has gone round to the end: the last store, or the last load, is its operation. */
static void looped(struct board *board) {
    struct endpoint *endpoint = running(board);
    if (endpoint->phase != LOOPING || !kept_registers(endpoint)) unexpected(board, "registers behind rounds");
    if (endpoint->operation.size != 0) {
        begin_operation(board);
        put_rounds(endpoint);
    }
    endpoint->phase = SETTLED;
}

void begin_call(struct board *board, const struct gorseplumb_registers *registers) {
    (void)registers;
    if (running(board)->operation.kind != CALL || running(board)->phase != DOING) unexpected(board, "call");
    begin_change();
}

void end_call(struct board *board, const struct gorseplumb_registers *registers, const struct gorseplumb_outcome *outcome) {
    (void)registers;
    end_change(board);
    if (outcome->kind == GORSEPLUMB_KIND_REGISTERS) await_answer();
    else put_resumed(outcome->runner), has_resumed(place_of(outcome->runner));
}

/* An abort that EL2 takes: it is what came of the access that was asked for. The instruction is skipped, and of a fetch control goes
 * back to the program. */
static void serve_abort(struct board *board, uint64_t syndrome) {
    struct endpoint *endpoint = running(board);
    bool fetch = class_of(syndrome) == CLASS_FETCH_BELOW;
    bool was_fetch = endpoint->operation.kind == FETCH && endpoint->phase == DOING;
    if (endpoint->phase == SETTLED || fetch != was_fetch) unexpected(board, "abort");
    if (read_far_el2() != endpoint->operation.address) unexpected(board, "address of an abort");
    if (endpoint->phase == LOOKING) {
        looked(endpoint, true, 0);
    } else if (fetch) {
        settle_fault(endpoint, fault_of(board, syndrome));
    } else {
        put_fault(fault_of(board, syndrome));
        endpoint->phase = SETTLED;
        endpoint->context.pc += 4;
    }
}

/* An access that EL1 itself refused, before stage 2 was asked. */
static void serve_own_fault(struct board *board, uint64_t syndrome, uint64_t address) {
    struct endpoint *endpoint = running(board);
    if (endpoint->phase == SETTLED) unexpected(board, "fault at EL1");
    const char *kind = own_fault_of(board, syndrome, address);
    if (endpoint->phase == LOOKING) looked(endpoint, true, 0);
    else settle_fault(endpoint, kind);
}

/* An exception that the program took at EL1, and hands on. */
static void serve_exception(struct board *board) {
    struct endpoint *endpoint = running(board);
    uint64_t syndrome = endpoint->context.x[9], link = endpoint->context.x[11];
    switch (class_of(syndrome)) {
    case CLASS_SVC:
        settle_fetch(board, WORD_SVC(immediate_of(syndrome)), link - 4);
        break;
    case CLASS_BRK:
        settle_fetch(board, WORD_BRK(immediate_of(syndrome)), link);
        break;
    case CLASS_UNKNOWN:
        settle_fetch(board, endpoint->word & 0xFFFF, link);
        break;
    case CLASS_PC_ALIGNMENT:
    case CLASS_FETCH_SAME:
    case CLASS_DATA_SAME:
        serve_own_fault(board, syndrome, endpoint->context.x[10]);
        break;
    default:
        unexpected(board, "exception at EL1");
    }
}

static bool keeps_registers(const struct endpoint *endpoint) {
    const uint64_t *x = endpoint->context.x;
    return x[8] == endpoint->identifier && x[9] == x[8] && x[10] == x[8] && x[27] == x[8];
}

static void serve_hypercall(struct board *board, unsigned immediate) {
    struct endpoint *endpoint = running(board);
    if (immediate >= FIRST_FETCHED) {
        settle_fetch(board, WORD_HVC(immediate), endpoint->context.pc - 4);
    } else if (immediate == HVC_FFA) {
        serve_call(board);
    } else if (immediate == HVC_NEXT) {
        give_next(board);
    } else if (immediate == HVC_EXCEPTION) {
        serve_exception(board);
    } else if (immediate == HVC_ASK) {
        serve_question(board);
    } else if (immediate == HVC_MADE) {
        give(board, take_made(board));
    } else if (immediate == HVC_LOOPED) {
        looped(board);
    } else if (!keeps_registers(endpoint)) {
        unexpected(board, "registers");
    } else if (immediate == HVC_SEEN) {
        seen(board);
    } else if (immediate == HVC_TOLD) {
        told(board);
    } else {
        unexpected(board, "hypercall");
    }
}

/* An SMC that is trapped is at the program counter still. */
static void serve_smc(struct board *board, unsigned immediate) {
    struct endpoint *endpoint = running(board);
    if (immediate >= FIRST_FETCHED) {
        settle_fetch(board, WORD_SMC(immediate), endpoint->context.pc);
    } else if (immediate == HVC_FFA) {
        endpoint->context.pc += 4;
        serve_call(board);
    } else {
        unexpected(board, "SMC");
    }
}

static void serve(struct board *board, uint64_t syndrome) {
    if (running(board)->phase == STEPPING) {
        serve_step(board, syndrome);
        return;
    }
    switch (class_of(syndrome)) {
    case CLASS_HVC:
        serve_hypercall(board, immediate_of(syndrome));
        break;
    case CLASS_SMC:
        serve_smc(board, immediate_of(syndrome));
        break;
    case CLASS_FETCH_BELOW:
    case CLASS_DATA_BELOW:
        serve_abort(board, syndrome);
        break;
    default:
        unexpected(board, "exception");
    }
}

/* Whether what was printed has come to its end: the endpoint that runs has an answer that was told, or goes round. */
static bool is_done(struct board *board) {
    enum phase phase = running(board)->phase;
    return !answered[this_processor()] && (phase == SETTLED || phase == LOOPING);
}

_Noreturn void run_board(struct board *board) {
    load_system(&running(board)->context);
    for (;;) {
        before_running(board);
        walk_tables(running_place(board), running(board)->root);
        if (enter(&running(board)->context)) serve_tick(board);
        else serve(board, read_esr_el2());
        if (running(board)->phase == SETTLED) end_change(board);
        if (is_done(board)) end_operation(board);
    }
}
