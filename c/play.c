/* SPDX-License-Identifier: MIT OR Apache-2.0 */
/* Plays a trace through the border, and prints what the program prints with --processors 8: play heap|lent|explain|explain-1.2 MANIFEST TRACE.
 * With `lent` the machine stands in pages of this program, and with `explain` a reason follows each operation that is refused; with
 * `explain-1.2` too, of a machine that serves FF-A 1.2. The kinds of the reasons' hints are then added to the file HINTS, if that is set.
 * Whether the tables agree with gorseplumb_access is found by a walk of their bytes. */
#include <inttypes.h>
#include <stdio.h>
#include <stdlib.h>
#include <string.h>
#include "gorseplumb.h"
#include "gorseplumb_explain.h"
#include "lending.h"

#define PAGES_OF_BLOCK 512
#define MOST_PAGES (GORSEPLUMB_MOST_BLOCKS * PAGES_OF_BLOCK)

/* Fields of a table's word (DDI 0487, D8.3). */
#define WORDS 512
#define KIND UINT64_C(3)
#define ADDRESS UINT64_C(0x0000FFFFFFFFF000)
#define ACCESS_FLAG (UINT64_C(1) << 10)
#define EXECUTE_NEVER (UINT64_C(1) << 54)

static struct gorseplumb_machine machine;

static void stop(const char *why) {
    fprintf(stderr, "play: %s\n", why);
    exit(1);
}

static char *text_of(const char *path, size_t *size) {
    FILE *file = fopen(path, "rb");
    if (file == NULL) stop(path);
    size_t room = 0;
    char *text = NULL;
    *size = 0;
    do {
        room = room == 0 ? 1 << 20 : 2 * room;
        text = realloc(text, room);
        if (text == NULL) stop("no memory");
        *size += fread(text + *size, 1, room - 1 - *size, file);
    } while (*size == room - 1);
    text[*size] = '\0';
    fclose(file);
    return text;
}

static void print_value(uint64_t value, unsigned size) {
    printf("data %0*" PRIX64 "\n", (int)(2 * size), value);
}

/* Whether reasons are printed, and the one of the operation that comes next: empty where it would be done. */
static bool explains;
static char reason[320];

/* Where the kinds of hints go, or NULL. */
static FILE *hints;

/* Asks for the reason by one of the four that tell it: EXPLAIN(operation, words) */
#define EXPLAIN(operation, ...) \
    do { \
        struct gorseplumb_reason why; \
        if (explains && gorseplumb_explain_##operation(&machine, __VA_ARGS__, reason, sizeof reason) >= sizeof reason) stop("a long reason"); \
        if (hints != NULL && gorseplumb_why_##operation(&machine, __VA_ARGS__, &why)) fprintf(hints, "%" PRIu32 "\n", why.hint.kind); \
    } while (0)

static void print_outcome(struct gorseplumb_outcome told, unsigned size) {
    static const char *const faults[] = {"", "translation", "permission", "alignment", "access-flag", "outside-ram"};
    switch (told.kind) {
    case GORSEPLUMB_KIND_REGISTERS:
        printf("regs %04" PRIX32, told.runner);
        for (int i = 0; i < 8; i++) printf(" %016" PRIX64, told.x[i]);
        printf("\n");
        break;
    case GORSEPLUMB_KIND_RESUMED:
        printf("resumed %04" PRIX32 "\n", told.runner);
        break;
    case GORSEPLUMB_KIND_DATA:
        print_value(told.value, size);
        break;
    case GORSEPLUMB_KIND_DONE:
        printf("done\n");
        break;
    case GORSEPLUMB_KIND_FAULT:
        if (told.value == 0 || told.value > 5) stop("a fault of no kind");
        printf("fault %s\n", faults[told.value]);
        break;
    default:
        stop("an outcome of no kind");
    }
    if (reason[0] != '\0') printf("# refused: %s\n", reason);
}

static uint16_t identifier(uint32_t place) { return place == 0 ? 0 : (uint16_t)(0x8000 + place); }

static uint32_t pages_of_ram(void) { return PAGES_OF_BLOCK * gorseplumb_ram_blocks(&machine); }

/* The address of a page's first byte. */
static uint64_t address_of(uint32_t page) { return gorseplumb_ram_base(&machine) + (uint64_t)GORSEPLUMB_PAGE_SIZE * page; }

/* The number of a page of RAM; one that RAM doesn't have for an address outside. */
static uint32_t page_of(uint64_t address) {
    uint64_t page = (address - gorseplumb_ram_base(&machine)) / GORSEPLUMB_PAGE_SIZE;
    return page < MOST_PAGES ? (uint32_t)page : MOST_PAGES;
}

static bool is_as_before(uint32_t page, uint32_t endpoints) {
    if (gorseplumb_owner(&machine, page) != gorseplumb_owner(&machine, page - 1)) return false;
    for (uint32_t place = 0; place < endpoints; place++) {
        uint16_t endpoint = identifier(place);
        if (gorseplumb_access(&machine, endpoint, page) != gorseplumb_access(&machine, endpoint, page - 1)) return false;
    }
    return true;
}

static const char *const rights[] = {"---", "r--", "", "rw-", "", "r-x", "", "rwx"};

static void show(void) {
    uint32_t endpoints = gorseplumb_endpoints(&machine);
    printf("runner %04" PRIX32 "\n", gorseplumb_runner(&machine));
    uint32_t first = 0;
    while (gorseplumb_owner(&machine, first) != GORSEPLUMB_NOTHING) {
        uint32_t behind = first + 1;
        while (gorseplumb_owner(&machine, behind) != GORSEPLUMB_NOTHING && is_as_before(behind, endpoints)) behind++;
        printf("pages %08" PRIX64 " %08" PRIX64 " %04" PRIX32, address_of(first), address_of(behind) - 1, gorseplumb_owner(&machine, first));
        for (uint32_t place = 0; place < endpoints; place++) {
            printf(" %s", rights[gorseplumb_access(&machine, identifier(place), first)]);
        }
        printf("\n");
        first = behind;
    }
}

/* What a word that maps pages from an address on lets an endpoint do with each of them, as gorseplumb_access says it. */
static uint32_t right_of(uint64_t word) {
    if ((word & ACCESS_FLAG) == 0) return 0;
    return (uint32_t)(word >> 6 & 3) | (word & EXECUTE_NEVER ? 0 : GORSEPLUMB_EXECUTE);
}

/* Whether a word maps just the pages of so many bytes to which gorseplumb_access says that the endpoint has access. */
static bool maps(uint16_t endpoint, uint64_t word, bool is_leaf, uint64_t first, uint64_t size) {
    if (is_leaf && (word & ADDRESS) != first) return false;
    for (uint64_t address = first; address < first + size; address += GORSEPLUMB_PAGE_SIZE) {
        if (gorseplumb_access(&machine, endpoint, page_of(address)) != (is_leaf ? right_of(word) : 0)) return false;
    }
    return true;
}

/* The same of the table of a level, and of those that it leads to. */
static bool agrees(uint16_t endpoint, uint64_t table, int level, uint64_t first) {
    uint64_t words[WORDS], size = (uint64_t)GORSEPLUMB_PAGE_SIZE << 9 * (3 - level);
    struct gorseplumb_page bytes;
    if (!gorseplumb_read_page(&machine, page_of(table), &bytes)) return false;
    memcpy(words, bytes.bytes, sizeof words);
    for (uint64_t i = 0; i < WORDS && first + size * i <= UINT32_MAX; i++) {
        uint64_t word = words[i], address = first + size * i;
        bool leads_on = level < 3 && (word & KIND) == 3, is_leaf = (word & KIND) == (level < 3 ? 1 : 3);
        if (leads_on ? !agrees(endpoint, word & ADDRESS, level + 1, address) : !maps(endpoint, word, is_leaf, address, size)) return false;
    }
    return true;
}

static void print_run(const struct gorseplumb_cert_run *run, uint32_t endpoints) {
    printf("pages %08" PRIX64 " %08" PRIX64 " %04" PRIX32, address_of(run->first), address_of(run->last + 1) - 1, run->owner);
    if (run->has_handle) printf(" %016" PRIX64, run->handle);
    else printf(" -");
    for (uint32_t place = 0; place < endpoints; place++) printf(" %s", rights[run->access[place]]);
    printf("\n");
}

static void audit(void) {
    uint32_t endpoints = gorseplumb_endpoints(&machine);
    struct gorseplumb_cert_run run;
    bool all_agree = true;
    printf("cert %08" PRIX64 " %08" PRIX64 " %" PRIX32 "\n", address_of(0), address_of(pages_of_ram()) - 1, endpoints);
    for (uint32_t place = 0; place < endpoints; place++) {
        uint32_t root = gorseplumb_root(&machine, identifier(place));
        printf("root %04" PRIX16 " %08" PRIX32 "\n", identifier(place), root);
        all_agree = all_agree && agrees(identifier(place), root, 1, 0);
    }
    for (uint32_t page = 0; gorseplumb_cert_run(&machine, page, &run); page = run.last + 1) print_run(&run, endpoints);
    printf(all_agree ? "agrees\n" : "differs\n");
}

static void select_processor(uint64_t processor) {
    if (processor > UINT32_MAX || !gorseplumb_select(&machine, (uint32_t)processor)) stop("no such processor");
}

static void interrupt(void) {
    reason[0] = '\0';
    print_outcome(gorseplumb_interrupt(&machine), 0);
}

static void play(char *line) {
    char *word = strtok(line, " ");
    if (word == NULL || word[0] == '#') return;
    uint64_t numbers[8] = {0};
    size_t digits = 0;
    char *next;
    for (int i = 0; i < 8 && (next = strtok(NULL, " ")) != NULL; i++) {
        numbers[i] = strtoull(next, NULL, 16);
        digits = strlen(next);
    }
    if (strcmp(word, "call") == 0) {
        struct gorseplumb_registers registers;
        memcpy(registers.x, numbers, sizeof registers.x);
        EXPLAIN(call, &registers);
        print_outcome(gorseplumb_call(&machine, &registers), 0);
    } else if (strcmp(word, "load") == 0) {
        EXPLAIN(load, numbers[0], (uint32_t)numbers[1]);
        print_outcome(gorseplumb_load(&machine, numbers[0], (uint32_t)numbers[1]), (unsigned)numbers[1]);
    } else if (strcmp(word, "store") == 0) {
        EXPLAIN(store, numbers[0], (uint32_t)(digits / 2));
        print_outcome(gorseplumb_store(&machine, numbers[0], (uint32_t)(digits / 2), numbers[1]), 0);
    } else if (strcmp(word, "fetch") == 0) {
        EXPLAIN(fetch, numbers[0]);
        print_outcome(gorseplumb_fetch(&machine, numbers[0]), 4);
    } else if (strcmp(word, "show") == 0) {
        show();
    } else if (strcmp(word, "audit") == 0) {
        audit();
    } else if (strcmp(word, "on") == 0) {
        select_processor(numbers[0]);
    } else if (strcmp(word, "interrupt") == 0) {
        interrupt();
    } else {
        stop("a line that isn't known");
    }
}

/* What no text says is told as a number. */
static void boot_1_2(const char *text, size_t size) {
    static struct gorseplumb_manifest manifest;
    if (gorseplumb_read_manifest((const uint8_t *)text, size, &manifest) != GORSEPLUMB_OK) stop("the manifest is refused");
    manifest.ffa = GORSEPLUMB_FFA_1_2;
    if (gorseplumb_boot_manifest(&machine, &manifest) != GORSEPLUMB_OK) stop("no boot of a manifest that was read");
}

static void boot_on_heap(const char *text, size_t size) {
    if (gorseplumb_boot(&machine, (const uint8_t *)text, size) != GORSEPLUMB_OK) stop("the manifest is refused");
}

/* Boots in as many pages as a machine on the heap's RAM has: the answer is how many. */
static uint32_t boot_in(struct gorseplumb_page *pages, struct gorseplumb_lent *lent, const char *text, size_t size) {
    boot_on_heap(text, size);
    uint32_t count = pages_of_ram();
    if (gorseplumb_end(&machine, lent) != GORSEPLUMB_OK) stop("the machine wasn't freed");
    if (gorseplumb_lend_all(lent, pages, count) != GORSEPLUMB_OK) stop("no pages were lent");
    if (gorseplumb_boot_lent(&machine, lent, (const uint8_t *)text, size) != GORSEPLUMB_OK) stop("no boot in lent pages");
    return count;
}

int main(int count, char **words) {
    static struct gorseplumb_page pages[MOST_PAGES];
    struct gorseplumb_lent lent = {0};
    if (count != 4) stop("play heap|lent|explain|explain-1.2 MANIFEST TRACE");
    bool serves_1_2 = strcmp(words[1], "explain-1.2") == 0;
    explains = serves_1_2 || strcmp(words[1], "explain") == 0;
    bool is_lent = strcmp(words[1], "lent") == 0;
    if (explains && getenv("HINTS") != NULL && (hints = fopen(getenv("HINTS"), "a")) == NULL) stop(getenv("HINTS"));
    size_t size, trace_size;
    uint32_t lent_pages = 0;
    char *text = text_of(words[2], &size), *trace = text_of(words[3], &trace_size);
    if (is_lent) lent_pages = boot_in(pages, &lent, text, size);
    else if (serves_1_2) boot_1_2(text, size);
    else boot_on_heap(text, size);
    for (char *line = trace, *end; line < trace + trace_size; line = end + 1) {
        end = memchr(line, '\n', (size_t)(trace + trace_size - line));
        if (end == NULL) stop("the last line has no end");
        if (line[0] != '#' && memchr(line, '\0', (size_t)(end - line)) != NULL) stop("a NUL in a line that is no comment");
        *end = '\0';
        play(line);
    }
    if (gorseplumb_end(&machine, &lent) != GORSEPLUMB_OK) stop("the machine wasn't freed");
    if (is_lent && !gorseplumb_take_all_back(&lent, pages, lent_pages)) stop("pages weren't given back");
    free(text);
    free(trace);
    return 0;
}
