/* SPDX-License-Identifier: MIT OR Apache-2.0 */
#include "several.h"
#include "text.h"

#define MOST_LINES 16384

static struct line {
    uint32_t processor;
    bool is_interrupt;
    struct operation operation;
} lines[MOST_LINES];

static uint32_t count, processors = 1;
static bool at_once, random;
static uint64_t seed, made;

/* Behind the last line that each processor has done. */
static uint32_t next[GORSEPLUMB_MOST_PROCESSORS];

static uint64_t take_number(const char **at) {
    uint64_t number;
    unsigned digits;
    if (!take_hex(at, &number, &digits)) stop_at(*at, "a number is missing");
    return number;
}

static void end_line(const char **at) {
    if (**at == '\n') ++*at;
    else if (**at != '\0') stop_at(*at, "a line with too many words");
}

static uint32_t take_processor(const char **at) {
    const char *from = *at;
    uint64_t number = take_number(at);
    if (number >= processors) stop_at(from, "the scene has no such processor");
    return (uint32_t)number;
}

static void read_head(const char **at) {
    if (take_word(at, "processors")) processors = (uint32_t)take_number(at), end_line(at);
    at_once = take_word(at, "at-once");
    if (at_once) end_line(at);
    random = take_word(at, "random");
    if (random) seed = take_number(at), made = take_number(at), end_line(at);
    if (processors == 0 || processors > GORSEPLUMB_MOST_PROCESSORS) stop("so many processors aren't there");
}

static void add_line(uint32_t processor, bool is_interrupt, const struct operation *operation) {
    if (count == MOST_LINES) stop("the scene has too many lines");
    lines[count++] = (struct line){processor, is_interrupt, *operation};
}

void read_scene(const char *text) {
    const struct operation nothing = {0};
    uint32_t processor = 0;
    read_head(&text);
    while (*text != '\0') {
        if (take_word(&text, "on")) {
            processor = take_processor(&text);
            end_line(&text);
        } else if (take_word(&text, "interrupt")) {
            add_line(processor, true, &nothing);
            end_line(&text);
        } else {
            struct operation operation = read_operation(&text);
            if (operation.kind != NOTHING) add_line(processor, false, &operation);
        }
    }
}

uint32_t scene_processors(void) { return processors; }

bool scene_is_random(uint64_t *of_seed, uint64_t *of_count) {
    *of_seed = seed;
    *of_count = made;
    return random;
}

/* A processor's next line. */
static uint32_t next_of(uint32_t processor) {
    uint32_t i = __atomic_load_n(&next[processor], __ATOMIC_SEQ_CST);
    while (i < count && lines[i].processor != processor) i++;
    return i;
}

enum scene_line peek_line(struct operation *operation) {
    uint32_t i = next_of(this_processor());
    if (i == count) return SCENE_END;
    *operation = lines[i].operation;
    return lines[i].is_interrupt ? SCENE_INTERRUPT : SCENE_OPERATION;
}

/* Whether all lines are done that stand before one. */
static bool is_first(uint32_t line) {
    bool is = true;
    for (uint32_t i = 0; i < processors; i++) is &= next_of(i) >= line;
    return is;
}

/* A `show` waits for all that stands before it in any case. */
bool is_turn(void) {
    uint32_t mine = next_of(this_processor());
    bool is_show = mine < count && lines[mine].operation.kind == SHOW;
    return (at_once && !is_show) || is_first(mine);
}

void line_is_done(void) {
    __atomic_store_n(&next[this_processor()], next_of(this_processor()) + 1, __ATOMIC_SEQ_CST);
}
