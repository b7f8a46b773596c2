/* SPDX-License-Identifier: MIT OR Apache-2.0 */
/* What operations.rs measures, from C: nanoseconds of a call, an access and a question, the best of some turns. */
#include <stdint.h>
#include <stdio.h>
#include <stdlib.h>
#include <time.h>
#include "gorseplumb.h"

#define TURNS 20
#define PLACE UINT64_C(0x40010000)

static const struct gorseplumb_manifest manifest = {
    .ram_base = 0x40000000, .ram_blocks = 1, .endpoint_count = 2,
    .endpoints = {
        {.properties = 2, .region_count = 1, .regions = {{0x40010000, 16, GORSEPLUMB_WRITE | GORSEPLUMB_EXECUTE}}},
        {.properties = 1, .uuid = {1, 1, 1, 1, 1, 1, 1, 1, 1, 1, 1, 1, 1, 1, 1, 1}, .region_count = 1,
         .regions = {{0x40020000, 16, GORSEPLUMB_WRITE}}},
    },
};
static struct gorseplumb_machine machine;

static void must(bool holds) {
    if (!holds) {
        fprintf(stderr, "operations: an answer is another\n");
        exit(1);
    }
}

static double now(void) {
    struct timespec time;
    must(clock_gettime(CLOCK_MONOTONIC, &time) == 0);
    return (double)time.tv_sec + (double)time.tv_nsec / 1e9;
}

static void call(void) {
    static const struct gorseplumb_registers id_get = {{0x84000069}};
    must(gorseplumb_call(&machine, &id_get).x[0] == 0x84000061);
}

static void load(void) {
    struct gorseplumb_outcome told = gorseplumb_load(&machine, PLACE, 8);
    must(told.kind == GORSEPLUMB_KIND_DATA && told.value == 0);
}

static void store(void) { must(gorseplumb_store(&machine, PLACE + 8, 8, 42).kind == GORSEPLUMB_KIND_DONE); }

static void fetch(void) {
    struct gorseplumb_outcome told = gorseplumb_fetch(&machine, PLACE);
    must(told.kind == GORSEPLUMB_KIND_DATA && told.value == 0);
}

static void runner(void) { must(gorseplumb_runner(&machine) == 0); }

static void boot(void) {
    struct gorseplumb_machine other = {0};
    struct gorseplumb_lent none = {0};
    must(gorseplumb_boot_manifest(&other, &manifest) == GORSEPLUMB_OK && gorseplumb_runner(&other) == 0);
    must(gorseplumb_end(&other, &none) == GORSEPLUMB_OK);
}

static inline void measure(const char *name, uint32_t count, void (*operation)(void)) {
    double best = 1e9;
    for (int turn = 0; turn < TURNS; turn++) {
        double began = now();
        for (uint32_t i = 0; i < count; i++) operation();
        double took = (now() - began) / count;
        if (took < best) best = took;
    }
    printf("%s: %.1f ns\n", name, best * 1e9);
}

int main(void) {
    must(gorseplumb_boot_manifest(&machine, &manifest) == GORSEPLUMB_OK);
    measure("call", 1000000, call);
    measure("load", 1000000, load);
    measure("store", 1000000, store);
    measure("fetch", 1000000, fetch);
    measure("runner", 1000000, runner);
    measure("boot", 200, boot);
    return 0;
}
