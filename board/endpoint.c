/* SPDX-License-Identifier: MIT OR Apache-2.0 */
#include <stddef.h>
#include "endpoint.h"
#include "layout.h"
#include "processor.h"

_Static_assert(offsetof(struct context, pc) == CONTEXT_PC, "assembly finds the program counter");
_Static_assert(offsetof(struct context, fpcr) == CONTEXT_FPCR, "assembly finds the state of vectors");
_Static_assert(offsetof(struct context, q) == CONTEXT_Q, "assembly finds the vectors");

ENDPOINT_REGISTERS(SYSTEM_REGISTER)

/* SCTLR_EL1 (DDI 0487): no translation of its own (M), with caches (C, I), and an access that isn't aligned faults (A). */
#define SCTLR UINT64_C(0x30D01806)

/* SPSR_EL2 (DDI 0487): EL1 with its own stack pointer (M), and exceptions that can be masked are (D, A, I, F). */
#define STATE UINT64_C(0x3C5)

void begin_context(struct context *context, uint64_t program) {
    *context = (struct context){.pc = program, .state = STATE};
    context->system[AT_sctlr_el1] = SCTLR;
    context->system[AT_cpacr_el1] = UINT64_C(3) << 20; /* FPEN: vector registers don't trap */
    context->system[AT_vbar_el1] = program + PROGRAM_VECTORS;
}

void save_system(struct context *context) {
#define SAVE(name) context->system[AT_##name] = read_##name();
    ENDPOINT_REGISTERS(SAVE)
#undef SAVE
}

void load_system(const struct context *context) {
#define LOAD_REGISTER(name) write_##name(context->system[AT_##name]);
    ENDPOINT_REGISTERS(LOAD_REGISTER)
#undef LOAD_REGISTER
    DO("isb");
}
