/* SPDX-License-Identifier: MIT OR Apache-2.0 */
#include "doing.h"
#include "generators.h"
#include "layout.h"
#include "lock.h"
#include "psci.h"
#include "rounds.h"
#include "several.h"
#include "text.h"
#include "timer.h"
#include "watch.h"

/* Microseconds: how soon an interrupt comes that is to come, how soon the timer rings again that came too early, and the most of one that is
 * made up. */
#define SOON 100
#define AGAIN 200
#define MOST_RANDOM 2000

void firmware(void);
void second_processor(void);

static struct board board;
static bool is_random;

/* One lock stands round all operations and calls; who has it, by the number of the processor from 1 on. */
static uint32_t lock, holder;

/* Whose lines were printed last, and who has no more to do. */
static uint32_t speaker, ended;

/* What was counted under the lock. */
static struct {
    uint64_t interrupts, idle, resumed, moved, both;
    uint32_t stopped_on[GORSEPLUMB_MOST_ENDPOINTS]; /* where a partition was interrupted last */
} counts;

/* Whether the operation on its way is one of the scene's, of each processor. */
static bool scripted[GORSEPLUMB_MOST_PROCESSORS];

static bool has_lock(void) { return __atomic_load_n(&holder, __ATOMIC_SEQ_CST) == this_processor() + 1; }

/* Whether another processor runs a partition. */
static bool others_work(struct board *of) {
    for (uint32_t i = 0; i < scene_processors(); i++) {
        if (i != this_processor() && of->places[i] != 0) return true;
    }
    return false;
}

void begin_operation(struct board *of) {
    uint32_t me = this_processor();
    if (has_lock()) return;
    take_lock(&lock);
    __atomic_store_n(&holder, me + 1, __ATOMIC_SEQ_CST);
    if (running_place(of) != 0 && others_work(of)) counts.both++;
    if (speaker == me) return;
    put_text("> on ");
    put_number(me);
    put_text("\n");
    speaker = me;
}

void end_operation(struct board *of) {
    (void)of;
    if (!has_lock()) return;
    if (scripted[this_processor()]) line_is_done();
    scripted[this_processor()] = false;
    __atomic_store_n(&holder, 0, __ATOMIC_SEQ_CST);
    release_lock(&lock);
}

/* What may change what others see is done in operations alone. */
void begin_change(void) {}
void end_change(struct board *of) { (void)of; }

void gorseplumb_settle(uint16_t endpoint, uint64_t address, uint64_t size) { settle_tables(endpoint, address, size); }

static void await_others(void) {
    while (__atomic_load_n(&ended, __ATOMIC_SEQ_CST) + 1 < scene_processors()) continue;
}

/* The processors' programs have no more to do: the first ends the scene behind all others. */
static _Noreturn void end_processor(void) {
    if (this_processor() == 0) {
        await_others();
        put_counts();
        end_well();
    }
    __atomic_fetch_add(&ended, 1, __ATOMIC_SEQ_CST);
    for (;;) DO("wfe");
}

/* Lines behind what is made up are done when all processors have done that. */
static void await_turn(void) {
    struct operation operation;
    if (peek_line(&operation) == SCENE_END) end_processor();
    if (is_random) await_others();
    while (!is_turn()) continue;
}

/* The next line of this processor that its endpoint has to do. */
struct operation next_operation(struct board *of) {
    struct operation operation = {0};
    await_turn();
    if (peek_line(&operation) == SCENE_INTERRUPT) return (struct operation){0};
    if (operation.kind == AWAIT || operation.kind == SPIN) {
        line_is_done();
        return operation;
    }
    scripted[this_processor()] = true;
    if (operation.kind != SHOW) return operation;
    begin_operation(of);
    put_operation(&operation);
    show(of);
    end_operation(of);
    return next_operation(of);
}

/* A number of a series for each processor (Knuth, MMIX). */
static uint64_t next_number(void) {
    static uint64_t numbers[GORSEPLUMB_MOST_PROCESSORS];
    uint64_t *number = &numbers[this_processor()];
    *number = (*number + this_processor()) * UINT64_C(6364136223846793005) + UINT64_C(1442695040888963407);
    return *number >> 33;
}

/* The timer is set where the scene has an interrupt next, or interrupts are made up. */
void before_running(struct board *of) {
    struct operation operation;
    (void)of;
    if (is_timer_set()) return;
    if (is_random) set_timer(SOON + next_number() % MOST_RANDOM);
    else if (peek_line(&operation) == SCENE_INTERRUPT) set_timer(SOON);
}

/* Whether an interrupt is to be the core's now: no operation is on its way here, and it is made up, or the scene's. One of the normal world's is
 * rarely made up. */
static bool is_wanted(struct board *of) {
    struct operation operation;
    if (has_lock()) return false;
    if (is_random) return generators_go_on() && (running_place(of) != 0 || next_number() % 16 == 0);
    return peek_line(&operation) == SCENE_INTERRUPT && is_turn();
}

void serve_tick(struct board *of) {
    if (!take_timer()) stop("an interrupt that isn't the timer's");
    if (!is_wanted(of)) {
        set_timer(AGAIN);
        return;
    }
    scripted[this_processor()] = !is_random;
    begin_operation(of);
    serve_interrupt(of);
}

void begin_interrupt(struct board *of) {
    put_text("> interrupt\n");
    counts.interrupts++;
    if (running_place(of) == 0) counts.idle++;
    counts.stopped_on[running_place(of)] = this_processor();
}

void end_interrupt(struct board *of, const struct gorseplumb_outcome *outcome) {
    (void)of;
    if (outcome->kind == GORSEPLUMB_KIND_DONE) put_done();
    else await_answer();
}

void has_resumed(uint32_t place) {
    counts.resumed++;
    counts.moved += counts.stopped_on[place] != this_processor();
}

static void put_count(const char *what, uint64_t count) {
    put_text(what);
    put_decimal(count);
}

void put_counts(void) {
    put_count("= the processors: ", scene_processors());
    put_count("; interrupts ", counts.interrupts);
    put_count(", of these of the normal world ", counts.idle);
    put_count("; partitions that went on ", counts.resumed);
    put_count(", of these on another processor ", counts.moved);
    put_count("; operations of a partition while another processor ran one ", counts.both);
    put_count("; rounds ", all_rounds());
    put_text("\n");
}

/* HCR_EL2.IMO brings the timer's interrupt to EL2 whatever EL1 masks. EL2 itself masks all, so one comes while an endpoint runs, or as soon as one does. */
static void begin_processor(void) {
    begin_tables(PROGRAM_HCR);
    begin_timer();
}

void second_processor(void) {
    begin_processor();
    run_board(&board);
}

static uint32_t boot_in(struct gorseplumb_machine *machine, struct gorseplumb_lent *list, const uint8_t *text, size_t size) {
    struct gorseplumb_manifest manifest;
    uint32_t answer = read_manifest_of_1_2(text, size, &manifest);
    return answer == GORSEPLUMB_OK ? gorseplumb_boot_lent_manifest(machine, list, &manifest) : answer;
}

void firmware(void) {
    uint64_t seed, count;
    begin_processor();
    boot(&board, (const char *)MANIFEST_TEXT, boot_in);
    read_scene((const char *)SCENE_TEXT);
    is_random = scene_is_random(&seed, &count);
    place_programs(&board, is_random);
    place_other_programs(&board, scene_processors(), is_random);
    if (is_random) begin_generators(&board, seed, count);
    after_boot();
    for (uint32_t i = 1; i < scene_processors(); i++) {
        if (!start_processor(i)) stop("a processor doesn't start");
    }
    run_board(&board);
}
