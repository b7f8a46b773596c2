/* SPDX-License-Identifier: MIT OR Apache-2.0 */
/* Reads manifests' texts whose keys and values stand deep in one another, boots from them, and asks why they are refused, each on a
 * stack of 256 KiB that is painted anew, and prints how much of it was written. The reader takes 80 levels, and calls itself for each, before it is known that
 * such a key is none of a manifest's. Where a text has another answer, or writes below the stack, the status is 1. A library that is
 * compiled unproved tests more and takes more: it is given GORSEPLUMB_STACK_BYTES. */
#define _XOPEN_SOURCE 700
#include <string.h>
#include <ucontext.h>
#include "check.h"
#include "gorseplumb.h"
#include "machine.toml.h"

#ifndef GORSEPLUMB_STACK_BYTES
#define GORSEPLUMB_STACK_BYTES 0x40000
#endif
#define BELOW_BYTES 0x100000
#define PAINT 0xA5
#define MOST_PARTS 80 /* that a key may have, and values in one another */

static _Alignas(16) struct {
    unsigned char below[BELOW_BYTES];
    unsigned char stack[GORSEPLUMB_STACK_BYTES];
} painted;

static char text[sizeof manifest_text + 0x1000];
static size_t size;
static struct gorseplumb_machine machine;
static struct gorseplumb_lent none;
static struct gorseplumb_manifest manifest;
static enum gorseplumb_answer answer;

/* Puts a word so many times. */
static void put(const char *word, int times) {
    for (; times > 0; times--) {
        CHECK(size + strlen(word) < sizeof text);
        memcpy(text + size, word, strlen(word));
        size += strlen(word);
    }
}

/* A key of so many parts. */
static void put_key(int parts) {
    put("a.", parts - 1);
    put("a", 1);
}

static void plain(void) {}

static void arrays(void) {
    put("x = ", 1);
    put("[", MOST_PARTS - 1);
    put("]", MOST_PARTS - 1);
    put("\n", 1);
}

static void tables(void) {
    put("x = ", 1);
    put("{a=", MOST_PARTS - 1);
    put("{}", 1);
    put("}", MOST_PARTS - 1);
    put("\n", 1);
}

/* What is told of a value is its text. */
static void arrays_at_a_key(void) {
    put("ram_base = ", 1);
    put("[", MOST_PARTS - 1);
    put("]", MOST_PARTS - 1);
    put("\n#", 1);
}

static void half_a_key(void) {
    put_key(MOST_PARTS / 2);
    put(" = 1\n", 1);
}

static void key(void) {
    put_key(MOST_PARTS);
    put(" = 1\n", 1);
}

static void arrays_round_a_key(void) {
    put("x = ", 1);
    put("[", MOST_PARTS - 2);
    put("{", 1);
    put_key(MOST_PARTS);
    put(" = 1}", 1);
    put("]", MOST_PARTS - 2);
    put("\n", 1);
}

static void key_of_a_table(void) {
    put("[", 1);
    put_key(MOST_PARTS);
    put("]\n", 1);
    put_key(MOST_PARTS);
    put(" = 1\n", 1);
}

static void read_text(void) { answer = gorseplumb_read_manifest((const uint8_t *)text, size, &manifest); }

static void why(void) {
    static struct gorseplumb_refusal refusal;
    static uint8_t words[256];
    answer = gorseplumb_why_text((const uint8_t *)text, size, &refusal, words, sizeof words);
}

static void boot(void) { answer = gorseplumb_boot(&machine, (const uint8_t *)text, size); }

/* Runs a part on the painted stack. */
static void run(void (*part)(void)) {
    static ucontext_t here, there;
    CHECK(getcontext(&there) == 0);
    there.uc_stack.ss_sp = painted.stack;
    there.uc_stack.ss_size = GORSEPLUMB_STACK_BYTES;
    there.uc_link = &here;
    makecontext(&there, part, 0);
    CHECK(swapcontext(&here, &there) == 0);
}

/* How much of that stack a part takes, whose answer is this. */
static unsigned long taken(void (*part)(void), enum gorseplumb_answer wanted) {
    const unsigned char *lowest = painted.below, *top = painted.stack + GORSEPLUMB_STACK_BYTES;
    memset(&painted, PAINT, sizeof painted);
    run(part);
    while (lowest < top && *lowest == PAINT) lowest++;
    CHECK(lowest >= painted.stack);
    CHECK(answer == wanted);
    return (unsigned long)(top - lowest);
}

int main(void) {
    static const struct {
        const char *name;
        void (*put)(void);
        enum gorseplumb_answer answer;
    } texts[] = {
        {"arrays in arrays", arrays, GORSEPLUMB_MANIFEST_UNKNOWN_KEY},
        {"tables in tables", tables, GORSEPLUMB_MANIFEST_UNKNOWN_KEY},
        {"arrays where a number stands", arrays_at_a_key, GORSEPLUMB_MANIFEST_WRONG_KIND},
        {"a key of 40 parts", half_a_key, GORSEPLUMB_MANIFEST_UNKNOWN_KEY},
        {"a key of 80 parts", key, GORSEPLUMB_MANIFEST_UNKNOWN_KEY},
        {"such a key in arrays", arrays_round_a_key, GORSEPLUMB_MANIFEST_UNKNOWN_KEY},
        {"such a key in a table of such a name", key_of_a_table, GORSEPLUMB_MANIFEST_UNKNOWN_KEY},
        {"the manifest", plain, GORSEPLUMB_OK}, /* which leaves a machine */
    };
    printf("bytes of stack to read a text, to boot from it, and to ask why it is refused:");
    for (size_t i = 0; i < sizeof texts / sizeof *texts; i++) {
        size = 0;
        texts[i].put();
        put(manifest_text, 1);
        unsigned long to_ask = taken(why, texts[i].answer);
        unsigned long to_read = taken(read_text, texts[i].answer), to_boot = taken(boot, texts[i].answer);
        printf("%s %s %lu, %lu and %lu", i == 0 ? "" : ",", texts[i].name, to_read, to_boot, to_ask);
    }
    printf("\n");
    CHECK(gorseplumb_end(&machine, &none) == GORSEPLUMB_OK);
    return 0;
}
