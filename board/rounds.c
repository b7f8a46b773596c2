/* SPDX-License-Identifier: MIT OR Apache-2.0 */
#include "rounds.h"
#include "doing.h"
#include "layout.h"
#include "processor.h"

SYSTEM_REGISTER(tpidr_el0)
SYSTEM_REGISTER(sp_el1)

/* A word that no program awaits, and a count of rounds that never comes. */
#define NO_WORD UINT64_MAX
#define NO_END 0

/* Registers that count in the program's loop, each by its own number; x0 counts rounds. */
#define COUNTING UINT32_C(0x33FEFFF0)
#define FIRST_VECTOR 1
#define LAST_VECTOR 30

static bool is_awaiting(const struct endpoint *endpoint) { return endpoint->operation.kind == AWAIT; }

void begin_rounds(struct endpoint *endpoint) {
    const struct operation *operation = &endpoint->operation;
    uint64_t *x = endpoint->context.x;
    x[0] = 0;
    x[1] = is_awaiting(endpoint) ? operation->address : endpoint->program;
    x[2] = is_awaiting(endpoint) ? operation->value : NO_WORD;
    x[3] = is_awaiting(endpoint) ? NO_END : operation->value;
    x[17] = 0;
    x[30] = is_awaiting(endpoint) ? endpoint->program + PROGRAM_SCRATCH : operation->address;
    endpoint->began = endpoint->context;
    endpoint->began.system[AT_tpidr_el0] = read_tpidr_el0();
    endpoint->began.system[AT_sp_el1] = read_sp_el1();
    endpoint->phase = LOOPING;
    dispatch(endpoint, DO_LOOP);
}

static bool kept_general(const struct context *now, const struct context *began) {
    uint64_t rounds = now->x[0];
    for (unsigned i = 1; i < 31; i++) {
        uint64_t counted = COUNTING >> i & 1 ? rounds * i : 0;
        if (i != 16 && now->x[i] != began->x[i] + counted) return false;
    }
    return true;
}

/* Each counts by the identity, in its lower half. */
static bool kept_vectors(const struct endpoint *endpoint) {
    uint64_t counted = endpoint->context.x[0] * endpoint->identifier;
    for (unsigned i = 0; i < 64; i++) {
        bool counts = i % 2 == 0 && i / 2 >= FIRST_VECTOR && i / 2 <= LAST_VECTOR;
        if (endpoint->context.q[i] != endpoint->began.q[i] + (counts ? counted : 0)) return false;
    }
    return true;
}

static uint64_t went;

uint64_t all_rounds(void) { return __atomic_load_n(&went, __ATOMIC_SEQ_CST); }

bool kept_registers(const struct endpoint *endpoint) {
    uint64_t rounds = endpoint->context.x[0];
    __atomic_fetch_add(&went, rounds, __ATOMIC_SEQ_CST);
    const uint64_t *began = endpoint->began.system;
    bool is_end = is_awaiting(endpoint) ? endpoint->context.x[16] == endpoint->operation.value : rounds == endpoint->operation.value;
    bool kept_system = read_tpidr_el0() == began[AT_tpidr_el0] + rounds && read_sp_el1() == began[AT_sp_el1] + LOOP_STACK * rounds;
    return is_end && kept_system && kept_general(&endpoint->context, &endpoint->began) && kept_vectors(endpoint);
}

void put_rounds(const struct endpoint *endpoint) {
    struct operation last = endpoint->operation;
    last.kind = is_awaiting(endpoint) ? LOAD : STORE;
    put_operation(&last);
    if (is_awaiting(endpoint)) put_data(last.value, 8);
    else put_done();
}
