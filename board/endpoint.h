/* SPDX-License-Identifier: MIT OR Apache-2.0 */
/* The endpoints of the board, as processes of the processor. */
#ifndef BOARD_ENDPOINT_H
#define BOARD_ENDPOINT_H

#include <stdbool.h>
#include <stdint.h>
#include "operation.h"

/* The EL1 system registers that belong to an endpoint. */
#define ENDPOINT_REGISTERS(each)                                                                              \
    each(sp_el0) each(sp_el1) each(vbar_el1) each(elr_el1) each(spsr_el1) each(esr_el1) each(far_el1)         \
    each(sctlr_el1) each(cpacr_el1) each(tcr_el1) each(ttbr0_el1) each(ttbr1_el1) each(mair_el1)              \
    each(amair_el1) each(afsr0_el1) each(afsr1_el1) each(contextidr_el1) each(tpidr_el0) each(tpidrro_el0)    \
    each(tpidr_el1) each(par_el1) each(cntkctl_el1)

enum endpoint_register {
#define INDEX(name) AT_##name,
    ENDPOINT_REGISTERS(INDEX)
#undef INDEX
    ENDPOINT_REGISTER_COUNT
};

/* What the processor has of an endpoint while that doesn't run. Assembly knows the places of what stands before `system`. */
struct context {
    uint64_t x[31];
    uint64_t pc, state;
    uint64_t fpcr, fpsr;
    uint64_t unused;
    uint64_t q[64];
    uint64_t system[ENDPOINT_REGISTER_COUNT];
};

/* Where an endpoint is with an operation. */
enum phase {
    SETTLED, /* it was printed what came of it, or there is none */
    LOOKING, /* the word that is to be fetched is loaded first */
    DOING,
    STEPPING, /* the word is executed by a single step */
    LOOPING   /* the program goes round, which others don't wait for */
};

struct endpoint {
    struct context context;
    uint16_t identifier;
    uint64_t root;    /* of its stage 2 tables */
    uint64_t program; /* the page where its program stands */
    struct operation operation;
    enum phase phase;
    bool faulted;  /* the word that was looked at can't be loaded */
    uint32_t word; /* it */
    struct context began; /* as it was when it began to go round */
};

/* The program of endpoints, as instructions, and places in it: see program.S. The generator's code: see generator/. */
extern const uint32_t program_begin[], program_dispatch[], program_next[], program_identity[], program_end[];
extern const uint32_t generator_begin[], generator_end[];

/* The identifier of the endpoint at a place of the manifest, and the other way. */
static inline uint16_t identifier_of(uint32_t place) { return place == 0 ? 0 : (uint16_t)(0x8000 + place); }
static inline uint32_t place_of(uint32_t identifier) { return identifier & 0x7FFF; }

/* A context that begins the program at the start of its page. */
void begin_context(struct context *context, uint64_t program);

/* Takes the EL1 system registers out of the processor, and puts them back. */
void save_system(struct context *context);
void load_system(const struct context *context);

/* Runs an endpoint until the next exception that EL2 takes: whether that is an interrupt. */
bool enter(struct context *context);

#endif
