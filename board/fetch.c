/* SPDX-License-Identifier: MIT OR Apache-2.0 */
/* A fetch: the word is loaded first, which isn't printed, and then executed. A word that comes back to the program, and one that can't be
 * loaded, is branched to; any other is executed by a single step, with registers and a stack pointer of zeros, so that no store of it goes anywhere. */
#include "doing.h"
#include "layout.h"
#include "processor.h"
#include "text.h"
#include "words.h"

SYSTEM_REGISTER(mdcr_el2)
SYSTEM_REGISTER(mdscr_el1)
SYSTEM_REGISTER(oslar_el1)
SYSTEM_REGISTER(sp_el1)

/* MDCR_EL2 (DDI 0487) while a step is on its way: debug exceptions, and accesses to the registers of debug and of performance monitors, go to EL2
 * (TDE, TDRA, TDOSA, TDA, TPM). SPSR_EL2.SS has the step begin, and MDSCR_EL1.SS turns steps on. */
#define MDCR (UINT64_C(0xF) << 8 | UINT64_C(1) << 6)
#define STATE_STEP (UINT64_C(1) << 21)

/* The endpoint as it was before a single step. */
static struct context before;

void begin_fetch(struct endpoint *endpoint) { dispatch_access(endpoint, DO_LOAD + 2, LOOKING); }

static bool is_with_immediate(uint32_t word, uint32_t of) { return (word & 0xFFE0001F) == of; }

/* Whether a word that is branched to comes back, by itself or as an exception that tells which it is. A hypercall below is the program's own. */
static bool comes_back(uint32_t word) {
    bool far = (word >> 5 & 0xFFFF) >= FIRST_FETCHED;
    if (word >> 16 == 0 || word == WORD_RET) return true;
    if (is_with_immediate(word, WORD_SVC(0)) || is_with_immediate(word, WORD_BRK(0))) return true;
    return far && (is_with_immediate(word, WORD_HVC(0)) || is_with_immediate(word, WORD_SMC(0)));
}

static void begin_step(struct endpoint *endpoint) {
    save_system(&endpoint->context);
    before = endpoint->context;
    for (unsigned i = 0; i < 31; i++) endpoint->context.x[i] = 0;
    endpoint->context.pc = endpoint->operation.address;
    endpoint->context.state |= STATE_STEP;
    endpoint->phase = STEPPING;
    write_sp_el1(0);
    write_oslar_el1(0);
    write_mdcr_el2(read_mdcr_el2() | MDCR);
    write_mdscr_el1(1);
    DO("isb");
}

static void end_step(struct endpoint *endpoint) {
    write_mdscr_el1(0);
    write_mdcr_el2(read_mdcr_el2() & ~MDCR);
    endpoint->context = before;
    load_system(&before);
}

void looked(struct endpoint *endpoint, bool faulted, uint32_t word) {
    endpoint->faulted = faulted;
    endpoint->word = word;
    if (faulted || comes_back(word)) dispatch_access(endpoint, DO_FETCH, DOING);
    else begin_step(endpoint);
}

void settle_fetch(struct board *board, uint32_t word, uint64_t address) {
    struct endpoint *endpoint = running(board);
    if (endpoint->operation.kind != FETCH || endpoint->phase == SETTLED || endpoint->phase == LOOKING) unexpected(board, "word");
    if (address != endpoint->operation.address || endpoint->faulted || word != endpoint->word) unexpected(board, "word");
    put_data(word, 4);
    settle(endpoint);
}

void fetch_returned(struct board *board) {
    struct endpoint *endpoint = running(board);
    if (endpoint->word != WORD_RET) unexpected(board, "return");
    settle_fetch(board, WORD_RET, endpoint->operation.address);
}

/* A step that ended in an exception of EL1, at its vector: the word was refused, or did something that EL1 is told of. */
static void serve_own_exception(struct board *board, uint64_t syndrome, uint64_t address) {
    struct endpoint *endpoint = running(board);
    bool fetch = class_of(syndrome) == CLASS_FETCH_SAME || class_of(syndrome) == CLASS_PC_ALIGNMENT;
    if (fetch && address == endpoint->operation.address) settle_fault(endpoint, own_fault_of(board, syndrome, address));
    else settle_fetch(board, endpoint->word, endpoint->operation.address);
}

void serve_step(struct board *board, uint64_t syndrome) {
    struct endpoint *endpoint = running(board);
    uint64_t at = endpoint->context.pc, address = endpoint->operation.address;
    save_system(&endpoint->context);
    struct context after = endpoint->context;
    end_step(endpoint);
    if (class_of(syndrome) == CLASS_FETCH_BELOW) {
        if (at != address || read_far_el2() != address) unexpected(board, "abort of a step");
        settle_fault(endpoint, fault_of(board, syndrome));
    } else if (class_of(syndrome) == CLASS_STEP_BELOW && at == endpoint->program + PROGRAM_VECTORS + 0x200) {
        serve_own_exception(board, after.system[AT_esr_el1], after.system[AT_far_el1]);
    } else if (class_of(syndrome) == CLASS_HVC) {
        settle_fetch(board, WORD_HVC(immediate_of(syndrome)), at - 4);
    } else if (class_of(syndrome) == CLASS_SMC) {
        settle_fetch(board, WORD_SMC(immediate_of(syndrome)), at);
    } else {
        settle_fetch(board, endpoint->word, class_of(syndrome) == CLASS_STEP_BELOW ? address : at);
    }
}
