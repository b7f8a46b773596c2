/* SPDX-License-Identifier: MIT OR Apache-2.0 */
/* OP-TEE. It needs three things of its manager that are not FF-A's: the hypercalls of Hafnium's virtual interrupt controller, a serial line, and that
 * nobody runs it by FFA_RUN while it waits. It has one execution context here, so requests of several processors wait for each other. */
#include "access.h"
#include "bytes.h"
#include "lock.h"
#include "secure.h"
#include "stand_in.h"
#include "text.h"

#define OPTEE UINT32_C(0x8001)
#define DENIED UINT32_C(0xFFFFFFFA)

const bool has_stage_1 = true;

/* Hafnium's hypercalls of a virtual interrupt controller (Hafnium's documentation, "paravirtualized interfaces"): enable an interrupt, get the next
 * pending one, deactivate and reconfigure one. This firmware has no interrupt for OP-TEE, so none is ever pending. */
#define INTERRUPT_ENABLE UINT32_C(0xFF03)
#define INTERRUPT_GET UINT32_C(0xFF04)
#define INTERRUPT_DEACTIVATE UINT32_C(0xFF08)
#define INTERRUPT_RECONFIGURE UINT32_C(0xFF09)
#define NO_INTERRUPT UINT32_C(0xFFFFFFFF)

static bool serve_hypercall(struct context *partition) {
    switch ((uint32_t)partition->x[0]) {
    case INTERRUPT_ENABLE:
    case INTERRUPT_DEACTIVATE:
    case INTERRUPT_RECONFIGURE:
        partition->x[0] = 0;
        return true;
    case INTERRUPT_GET:
        partition->x[0] = NO_INTERRUPT;
        return true;
    default:
        return false;
    }
}

bool serve_beside(struct context *partition) { return serve_hypercall(partition) || serve_register(partition); }

/* A serial line (PL011) whose FIFOs are always empty. The firmware prints what OP-TEE writes, a whole line at a time. */
#define LINE UINT64_C(0x09040)
#define DATA 0x00
#define FLAGS 0x18
#define FIFOS_ARE_EMPTY 0x90 /* TXFE, RXFE */
#define MOST_BYTES 256

static void put_line_byte(char byte) {
    static char line[MOST_BYTES + 1];
    static unsigned bytes;
    if (byte == '\r') return;
    if (byte != '\n') line[bytes++] = byte;
    if (byte != '\n' && bytes < MOST_BYTES) return;
    line[bytes] = '\0';
    bytes = 0;
    put_text("# OP-TEE: ");
    put_text(line);
    put_text("\n");
}

bool serve_line(struct context *partition, uint64_t syndrome, uint64_t address) {
    uint64_t of_line = address & 0xFFF;
    if (!is_described(syndrome) || address >> 12 != LINE) return false;
    if (!is_write(syndrome)) write_register(partition, syndrome, of_line == FLAGS ? FIFOS_ARE_EMPTY : 0);
    else if (of_line == DATA) put_line_byte((char)read_register(partition, syndrome));
    partition->pc += 4;
    return true;
}

/* What OP-TEE does: it starts, it waits for a request, it runs on a processor, or an interrupt of the normal world has stopped it. */
static enum { STARTS, WAITS, RUNS, STOPPED } optee;

void note_run(bool runs, const uint64_t *x) {
    if (runs) optee = RUNS;
    else optee = (uint32_t)x[0] == FFA_INTERRUPT ? STOPPED : WAITS;
}

/* Requests that wait for OP-TEE while the normal world takes an interrupt. The normal world gets FFA_INTERRUPT with a number of an execution context that
 * OP-TEE does not have: the place here, plus one. It repeats this number by FFA_RUN, on whatever processor. */
#define MOST_HELD 64
static struct {
    bool is_held;
    uint64_t x[8];
} held[MOST_HELD];

static bool hold_request(uint64_t *x) {
    uint32_t place = 0;
    while (place < MOST_HELD && held[place].is_held) place++;
    if (place == MOST_HELD) return false;
    held[place].is_held = true;
    memcpy(held[place].x, x, sizeof held[place].x);
    memcpy(x, (uint64_t[8]){FFA_INTERRUPT, OPTEE << 16 | (place + 1)}, 8 * sizeof *x);
    return true;
}

/* FFA_RUN goes on with a held request, which x0 to x7 then are again. */
static void take_held(uint64_t *x) {
    uint32_t place = ((uint32_t)x[1] & 0xFFFF) - 1;
    if ((uint32_t)x[0] != FFA_RUN || (uint32_t)x[1] >> 16 != OPTEE || place >= MOST_HELD || !held[place].is_held) return;
    held[place].is_held = false;
    memcpy(x, held[place].x, 8 * sizeof *x);
}

static bool is_request(const uint64_t *x) {
    return ((uint32_t)x[0] & ~WITH_64_BITS) == FFA_MSG_SEND_DIRECT_REQ && ((uint32_t)x[1] & 0xFFFF) == OPTEE;
}

/* Waits until OP-TEE has answered earlier requests, and returns true; or returns false if the normal world has to take an interrupt first. While OP-TEE is
 * stopped, only the normal world can have it go on: it gets an interrupt then even if it seems to mask interrupts. */
static bool await_turn(uint64_t *x, uint32_t *lock) {
    while (optee == RUNS || optee == STOPPED) {
        if (is_normal_due() && (optee == STOPPED || !is_masked()) && hold_request(x)) return false;
        release_lock(lock);
        DO("yield");
        take_lock(lock);
    }
    return true;
}

/* OP-TEE panics if it is run while it waits (DEN0077A, FFA_RUN, allows the call). So the firmware refuses that. */
static bool refuse_run(uint64_t *x) {
    if ((uint32_t)x[0] != FFA_RUN || (uint32_t)x[1] >> 16 != OPTEE || optee != WAITS) return false;
    put_text("# the firmware refuses FFA_RUN, because OP-TEE waits\n");
    memcpy(x, (uint64_t[8]){FFA_ERROR, 0, DENIED}, 8 * sizeof *x);
    return true;
}

bool admit_call(uint64_t *x, uint32_t *lock) {
    take_held(x);
    return is_request(x) ? await_turn(x, lock) : !refuse_run(x);
}
