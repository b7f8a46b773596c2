/* SPDX-License-Identifier: MIT OR Apache-2.0 */
/* Boots the machine of a manifest in lent pages, one time after another, and prints the seconds of a boot: boots MANIFEST BLOCKS. The
 * first boot is the first to write to these pages, so that Linux has to find memory for each: it is told apart. */
#include <stdio.h>
#include <stdlib.h>
#include <time.h>
#include "gorseplumb.h"
#include "lending.h"

#define BOOTS 6
#define MOST_TEXT 0x10000
#define PAGES_OF_BLOCK 512

static struct gorseplumb_page pages[GORSEPLUMB_MOST_BLOCKS * PAGES_OF_BLOCK];

static void stop(const char *why) {
    fprintf(stderr, "boots: %s\n", why);
    exit(1);
}

static size_t read_text(const char *path, uint8_t *text) {
    FILE *file = fopen(path, "rb");
    if (file == NULL) stop(path);
    size_t size = fread(text, 1, MOST_TEXT, file);
    fclose(file);
    return size;
}

static double now(void) {
    struct timespec time;
    if (timespec_get(&time, TIME_UTC) != TIME_UTC) stop("there is no clock");
    return (double)time.tv_sec + (double)time.tv_nsec / 1e9;
}

/* How many seconds a boot in so many pages takes, without their lending and their return. */
static double boot(const uint8_t *text, size_t size, uint32_t count) {
    struct gorseplumb_machine machine = {0};
    struct gorseplumb_lent lent = {0};
    if (gorseplumb_lend_all(&lent, pages, count) != GORSEPLUMB_OK) stop("no pages were lent");
    double began = now();
    uint32_t answer = gorseplumb_boot_lent(&machine, &lent, text, size);
    double ended = now();
    if (answer != GORSEPLUMB_OK) stop("the manifest is refused");
    if (gorseplumb_end(&machine, &lent) != GORSEPLUMB_OK || !gorseplumb_take_all_back(&lent, pages, count)) stop("pages stayed lent");
    return ended - began;
}

int main(int count, char **words) {
    static uint8_t text[MOST_TEXT];
    if (count != 3) stop("boots MANIFEST BLOCKS");
    unsigned long blocks = strtoul(words[2], NULL, 10);
    if (blocks == 0 || blocks > GORSEPLUMB_MOST_BLOCKS) stop("there are not so many blocks");
    uint32_t lent = (uint32_t)blocks * PAGES_OF_BLOCK;
    size_t size = read_text(words[1], text);
    double first = boot(text, size, lent), least = first;
    for (int i = 1; i < BOOTS; i++) {
        double took = boot(text, size, lent);
        if (took < least) least = took;
    }
    printf("a boot in %lu MiB of lent pages: %.3f s, and %.3f s where nobody has written to them before\n", 2 * blocks, least, first);
    return 0;
}
