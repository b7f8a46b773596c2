/* SPDX-License-Identifier: MIT OR Apache-2.0 */
/* The firmware of scenes in which timers interrupt partitions, and several processors run endpoints of one machine. */
#ifndef BOARD_SEVERAL_H
#define BOARD_SEVERAL_H

#include "scene.h"

/* scene.c: the scene's text, line by line.
 *
 * `processors N` says how many processors there are. `at-once` lets each do its own lines whenever it can; else they are done in their order, and an
 * `await` or a `spin` doesn't hold up what stands behind it. `random SEED COUNT` has operations made up before the lines are done. Lines behind
 * `on N` are those of a processor, and at first of 0. `interrupt` is a timer's that stops who runs there. */
void read_scene(const char *text);
uint32_t scene_processors(void);
bool scene_is_random(uint64_t *seed, uint64_t *count);

/* The next line that this processor has, whether it is its turn, and that it is done. */
enum scene_line { SCENE_OPERATION, SCENE_INTERRUPT, SCENE_END };
enum scene_line peek_line(struct operation *operation);
bool is_turn(void);
void line_is_done(void);

/* main.c: what was counted, as a line. */
void put_counts(void);

#endif
