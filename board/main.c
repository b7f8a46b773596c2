/* SPDX-License-Identifier: MIT OR Apache-2.0 */
#include "doing.h"
#include "generators.h"
#include "layout.h"
#include "scene.h"
#include "text.h"
#include "watch.h"

void firmware(void);

static struct board board;

/* What is left of the scene; whether the walks of all addresses are asked at its end; whether operations are made up before its own. */
static const char *scene;
static bool everywhere, generated;

/* Hexadecimal words of a line. */
static void take_words(const char **at, uint64_t *words, unsigned count) {
    unsigned digits;
    for (unsigned i = 0; i < count; i++) {
        if (!take_hex(at, &words[i], &digits)) stop_at(*at, "a number is missing");
    }
}

/* A scene may begin with a line `watch PLACE FIRST COUNT STEP`, hexadecimal: what a second processor watches meanwhile. */
static void take_watch(struct board *of) {
    uint64_t words[4];
    if (!take_word(&scene, "watch")) return;
    take_words(&scene, words, 4);
    begin_watch(of, (uint32_t)words[0], words[1], (uint32_t)words[2], words[3]);
}

/* A scene may begin with a line `everywhere`: at its end the walks of all 2^32 addresses are asked. It may have a line `random SEED COUNT`
 * next, hexadecimal: its lines follow behind so many operations that are made up. */
static void begin_scene(uint64_t *seed, uint64_t *count) {
    unsigned digits;
    scene = (const char *)SCENE_TEXT;
    everywhere = take_word(&scene, "everywhere");
    if (everywhere && *scene == '\n') scene++;
    generated = take_word(&scene, "random");
    if (!generated) return;
    if (!take_hex(&scene, seed, &digits) || !take_hex(&scene, count, &digits)) stop_at(scene, "a number is missing");
}

/* The next line of the scene that an endpoint has to do. `show` is the firmware's. */
struct operation next_operation(struct board *of) {
    struct operation operation = {0};
    while (operation.kind == NOTHING || operation.kind == SHOW) {
        if (*scene == '\0') {
            if (everywhere) look_outside(of);
            end_watch();
            end_well();
        }
        operation = read_operation(&scene);
        if (operation.kind == SHOW) {
            put_operation(&operation);
            show(of);
        }
    }
    return operation;
}

/* One processor runs the scene, and has no interrupts. */
void begin_operation(struct board *of) { (void)of; }
void end_operation(struct board *of) { (void)of; }
void before_running(struct board *of) { (void)of; }
void serve_tick(struct board *of) { unexpected(of, "interrupt"); }
void has_resumed(uint32_t place) { (void)place; }

void firmware(void) {
    uint64_t seed, count;
    begin_tables(PROGRAM_HCR);
    boot(&board, (const char *)MANIFEST_TEXT, gorseplumb_boot_lent);
    begin_scene(&seed, &count);
    place_programs(&board, generated);
    if (generated) begin_generators(&board, seed, count);
    after_boot();
    take_watch(&board);
    run_board(&board);
}
