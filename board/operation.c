/* SPDX-License-Identifier: MIT OR Apache-2.0 */
#include "operation.h"
#include "layout.h"
#include "text.h"

_Noreturn void stop_at(const char *at, const char *why) {
    uint64_t line = 1;
    for (const char *it = (const char *)SCENE_TEXT; it < at; it++) line += *it == '\n';
    put_text("! line ");
    put_decimal(line);
    put_text(": ");
    put_text(why);
    put_text("\n");
    stop("the scene is wrong");
}

static bool read_call(const char **at, struct operation *operation) {
    unsigned digits;
    operation->kind = CALL;
    for (unsigned i = 0; i < 8 && **at != '\n' && **at != '\0'; i++) {
        if (!take_hex(at, &operation->x[i], &digits)) return false;
    }
    return true;
}

static bool read_access(const char **at, enum operation_kind kind, struct operation *operation) {
    unsigned digits;
    uint64_t size = 4;
    operation->kind = kind;
    if (!take_hex(at, &operation->address, &digits)) return false;
    if (kind == LOAD && !take_hex(at, &size, &digits)) return false;
    operation->size = (unsigned)size;
    if (kind == STORE) {
        if (!take_hex(at, &operation->value, &digits)) return false;
        operation->size = digits / 2;
    }
    return operation->size == 1 || operation->size == 2 || operation->size == 4 || operation->size == 8;
}

/* `await ADDRESS WORD` and `spin ADDRESS TIMES`, which are of scenes alone. */
static bool read_rounds(const char **at, enum operation_kind kind, struct operation *operation) {
    unsigned digits;
    operation->kind = kind;
    operation->size = 8;
    return take_hex(at, &operation->address, &digits) && take_hex(at, &operation->value, &digits);
}

static bool read_line(const char **at, struct operation *operation) {
    if (take_word(at, "call")) return read_call(at, operation);
    if (take_word(at, "load")) return read_access(at, LOAD, operation);
    if (take_word(at, "store")) return read_access(at, STORE, operation);
    if (take_word(at, "fetch")) return read_access(at, FETCH, operation);
    if (take_word(at, "await")) return read_rounds(at, AWAIT, operation);
    if (take_word(at, "spin")) return read_rounds(at, SPIN, operation);
    operation->kind = SHOW;
    return take_word(at, "show");
}

struct operation read_operation(const char **at) {
    struct operation operation = {0};
    const char *from = *at;
    if (**at == '#') {
        while (**at != '\n' && **at != '\0') ++*at;
    } else if (**at != '\n' && **at != '\0') {
        if (!read_line(at, &operation)) stop_at(from, "a line that is none of a trace");
    }
    if (**at == '\n') ++*at;
    else if (**at != '\0') stop_at(from, "a line with too many words");
    return operation;
}

static void put_word(uint64_t value) {
    put_text(" ");
    put_number(value);
}

/* How many registers of a call a line has to have: zeros at its end say nothing. */
static unsigned words_of(const uint64_t *x) {
    unsigned count = 8;
    while (count > 1 && x[count - 1] == 0) count--;
    return count;
}

static void put_call(const uint64_t *x) {
    put_text("call");
    for (unsigned i = 0; i < words_of(x); i++) put_word(x[i]);
}

void put_operation(const struct operation *operation) {
    put_text("> ");
    switch (operation->kind) {
    case CALL:
        put_call(operation->x);
        break;
    case LOAD:
        put_text("load");
        put_word(operation->address);
        put_word(operation->size);
        break;
    case STORE:
        put_text("store");
        put_word(operation->address);
        put_text(" ");
        put_hex(operation->value, 2 * operation->size);
        break;
    case FETCH:
        put_text("fetch");
        put_word(operation->address);
        break;
    default:
        put_text("show");
    }
    put_text("\n");
}

void put_registers(uint32_t runner, const uint64_t *x) {
    put_text("< regs ");
    put_hex(runner, 4);
    for (unsigned i = 0; i < 8; i++) {
        put_text(" ");
        put_hex(x[i], 16);
    }
    put_text("\n");
}

void put_resumed(uint32_t runner) {
    put_text("< resumed ");
    put_hex(runner, 4);
    put_text("\n");
}

void put_data(uint64_t value, unsigned size) {
    put_text("< data ");
    put_hex(value, 2 * size);
    put_text("\n");
}

void put_done(void) { put_text("< done\n"); }

void put_fault(const char *kind) {
    put_text("< fault ");
    put_text(kind);
    put_text("\n");
}
