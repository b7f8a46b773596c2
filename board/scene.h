/* SPDX-License-Identifier: MIT OR Apache-2.0 */
/* The firmware that runs a scene: endpoints are programs that do what they are told, one operation after another. */
#ifndef BOARD_SCENE_H
#define BOARD_SCENE_H

#include "board.h"
#include "tables.h"

/* HCR_EL2 while a program runs: nothing is its own but its registers. */
#define PROGRAM_HCR (HCR_VM | HCR_INTERRUPTS | HCR_DC | HCR_WAITS | HCR_TSC | HCR_RW)

/* Stores each endpoint's program into its page, and its generator where there are generators, as operations of that endpoint. */
void place_programs(struct board *board, bool generators);

/* So of the normal world on other processors, whose programs stand in regions of their own. */
void place_other_programs(struct board *board, uint32_t processors, bool generators);

/* The next operation of the endpoint that runs; or NOTHING, where it is to ask again. It doesn't come back where there is none any more. */
struct operation next_operation(struct board *board);

/* Around each operation, from before its line is printed until what came of it is. Where several processors run endpoints no other one's operation is
 * done meanwhile. An end without a beginning does nothing. Each firmware defines these, and the next two. */
void begin_operation(struct board *board);
void end_operation(struct board *board);

/* Before the processor runs an endpoint, and when an interrupt has stopped that. */
void before_running(struct board *board);
void serve_tick(struct board *board);

/* Serves the exceptions of endpoints until the scene ends. */
_Noreturn void run_board(struct board *board);

/* Each firmware defines this, too: a partition that was interrupted goes on. */
void has_resumed(uint32_t place);

/* What an interrupt is answered is seen by the normal world, which runs next. */
void await_answer(void);

/* Prints who runs, and who owns and reaches each page, as the processor's walks have it. */
void show(struct board *board);

/* Sees that the processor's walks give no endpoint a page outside RAM. */
void look_outside(struct board *board);

#endif
