/* SPDX-License-Identifier: MIT OR Apache-2.0 */
/* The board: a machine of the core, and its endpoints, which the processor runs. What stands here serves each firmware: that of scenes, and
 * the one in linux/. */
#ifndef BOARD_BOARD_H
#define BOARD_BOARD_H

#include "endpoint.h"
#include "gorseplumb.h"
#include "processor.h"

/* 1 in a firmware of which several processors may run endpoints, and which tells the core of interrupts. */
#ifndef SEVERAL
#define SEVERAL 0
#endif

struct board {
    struct gorseplumb_machine machine;
    uint32_t pages; /* of RAM */
    uint32_t count; /* of endpoints */
    struct endpoint endpoints[GORSEPLUMB_MOST_ENDPOINTS];
    struct endpoint others[GORSEPLUMB_MOST_PROCESSORS]; /* the normal world on each processor but 0 */
    uint32_t places[GORSEPLUMB_MOST_PROCESSORS];        /* who runs on each, by the place in the manifest */
};

/* The number of the processor that asks. */
static inline uint32_t this_processor(void) { return SEVERAL ? (uint32_t)read_mpidr_el1() % GORSEPLUMB_MOST_PROCESSORS : 0; }

/* Who runs on it: the place in the manifest, and the endpoint; and what the normal world is there. */
static inline uint32_t running_place(const struct board *board) { return board->places[this_processor()]; }
static inline struct endpoint *normal_world(struct board *board) {
    return this_processor() == 0 ? &board->endpoints[0] : &board->others[this_processor()];
}
static inline struct endpoint *running(struct board *board) {
    return running_place(board) == 0 ? normal_world(board) : &board->endpoints[running_place(board)];
}

/* How a machine is made of a manifest's text in the pages of a list: gorseplumb_boot_lent. */
typedef uint32_t boot_in_list(struct gorseplumb_machine *machine, struct gorseplumb_lent *list, const uint8_t *text, size_t size);

/* Makes the machine of a manifest's text in the first pages of the board's own RAM, as many as the manifest asks for. Its endpoints have their
 * identifiers and their tables then. */
void boot(struct board *board, const char *manifest, boot_in_list *boot_in);

/* Reads a manifest's text as one of a machine of FF-A 1.2, which no text can ask for. */
static inline uint32_t read_manifest_of_1_2(const uint8_t *text, size_t size, struct gorseplumb_manifest *manifest) {
    uint32_t answer = gorseplumb_read_manifest(text, size, manifest);
    manifest->ffa = GORSEPLUMB_FFA_1_2;
    return answer;
}

/* From here on the core may ask for no memory: the board stops where it does. */
void end_memory(void);

/* A call of the endpoint that runs: its x0 to x7, as the trap left them, go to the core, and what comes back goes to x0 to x7 of whoever runs
 * next, from here on. Of several processors one at a time is in here. */
void serve_call(struct board *board);

/* An interrupt that the normal world is to handle, and that stopped the endpoint that runs: the core is told, and what comes back goes to the
 * normal world. The partition's context stays as it is until the core says that it goes on. One processor at a time, as above. */
void serve_interrupt(struct board *board);

/* What a firmware does right before the core has a call, and right behind its answer. Each firmware defines both. */
void begin_call(struct board *board, const struct gorseplumb_registers *registers);
void end_call(struct board *board, const struct gorseplumb_registers *registers, const struct gorseplumb_outcome *outcome);

/* So of an interrupt, where the firmware tells the core of some. */
void begin_interrupt(struct board *board);
void end_interrupt(struct board *board, const struct gorseplumb_outcome *outcome);

#endif
