/* SPDX-License-Identifier: MIT OR Apache-2.0 */
#include "watch.h"
#include "layout.h"
#include "lock.h"
#include "processor.h"
#include "psci.h"
#include "scene.h"
#include "text.h"

#define MOST_WATCHED 64
#define MOST_NOTED 8

/* Where in each page the second processor loads, fetches and stores. */
#define WORD_AT 0x100
#define CODE_AT 0x200
#define OWN_AT 0x300

/* So many accesses are made before they are judged. Where an operation is on its way meanwhile there are more, from a number on only while one is
 * awaited. A settling awaits so many. */
#define BURST 6
#define FREE_BURST 64
#define LONG_BURST 256
#define AWAITED 6

/* The second processor is awaited in one of so many settlings that forget nothing, as there is one for each page of zeros. */
#define AWAITED_IN 64

/* What was to be seen is kept behind so many operations. */
#define KEPT 1024

/* It makes no operations: the machine has one runner, so a trace has no place for them. What it sees is compared with what the core grants. */
#define SECOND_PROCESSOR 1

enum access { A_LOAD, A_STORE, A_FETCH, ACCESSES };
enum gives { DATA, FAULT };

/* What a page has for the endpoint: its right, as gorseplumb_access says it, and the word that is loaded. */
struct sight {
    uint32_t right;
    uint64_t word;
};

/* A page, and what is to be seen of it behind each operation, by its number. */
struct watched {
    uint64_t address;
    struct sight sights[KEPT];
};

/* An access, and what it gave; the version before it and behind it. */
struct seen {
    enum access access;
    enum gives gives;
    uint64_t value; /* of a load */
    const struct watched *page;
    uint32_t began, ended;
    struct sight before, behind; /* of one that is noted */
};

static struct {
    bool on;
    uint32_t count, place;
    uint64_t root;
    uint16_t identifier;
    struct endpoint runs; /* on the second processor */
    struct watched pages[MOST_WATCHED];
    bool settled[KEPT]; /* an operation had something settled in the endpoint's tables */
} watch;

/* Twice the number of operations that are done, and one more while another is on its way. */
static uint32_t version;
static uint32_t held, tried, wanted, waits, ended, finished;

static struct {
    uint64_t of[ACCESSES];
    uint64_t granted, faulted, during, broken, again, late, wrong;
    struct seen noted[MOST_NOTED];
} saw;

void second_processor(void);

static uint32_t read_now(const uint32_t *at) { return __atomic_load_n(at, __ATOMIC_SEQ_CST); }
static void write_now(uint32_t *at, uint32_t value) { __atomic_store_n(at, value, __ATOMIC_SEQ_CST); }

/* The words are those that stand in RAM: the first processor's endpoints store them, and the core's zeros are written over them. */
static struct sight look(struct board *board, uint64_t address) {
    uint32_t page = (uint32_t)((address - RAM_BASE) / GORSEPLUMB_PAGE_SIZE);
    struct sight sight = {.right = gorseplumb_access(&board->machine, watch.identifier, page)};
    sight.word = *(const volatile uint64_t *)(address + WORD_AT);
    return sight;
}

void begin_change(void) {
    while (read_now(&waits)) continue;
    take_lock(&held);
    write_now(&version, version + 1);
    watch.settled[(version + 1) / 2 % KEPT] = false;
    DO("dmb ish");
}

void end_change(struct board *board) {
    if (version % 2 == 0) return;
    for (uint32_t i = 0; watch.on && i < watch.count; i++) {
        struct watched *page = &watch.pages[i];
        page->sights[(version + 1) / 2 % KEPT] = look(board, page->address);
    }
    DO("dmb ish");
    write_now(&version, version + 1);
    release_lock(&held);
}

/* The second processor does one access as a program at EL1, that of the endpoint's own page. */
static enum gives try_access(struct seen *seen, uint64_t address, uint64_t stored) {
    static const unsigned places[ACCESSES] = {DO_LOAD + 3, DO_STORE + 3, DO_FETCH};
    static const uint64_t within[ACCESSES] = {WORD_AT, OWN_AT, CODE_AT};
    struct context *context = &watch.runs.context;
    context->x[1] = address + within[seen->access];
    context->x[2] = stored;
    context->x[16] = places[seen->access];
    context->pc = watch.runs.program + 4 * (uint64_t)(program_dispatch - program_begin);
    enter(context);
    uint64_t syndrome = read_esr_el2();
    switch (class_of(syndrome)) {
    case CLASS_HVC:
        seen->value = context->x[0];
        return DATA;
    case CLASS_FETCH_BELOW:
    case CLASS_DATA_BELOW:
        return FAULT;
    default:
        stop("unexpected exception of the second processor");
    }
}

/* Whether an access gives this where the page is so. Of a fetch that is whether it faults: which word is executed isn't judged, since QEMU before
 * 8.1 may keep what it made of code that another processor changes at the same time. */
static bool fits(const struct seen *seen, const struct sight *sight) {
    static const uint32_t needed[ACCESSES] = {GORSEPLUMB_READ, GORSEPLUMB_WRITE, GORSEPLUMB_EXECUTE};
    bool granted = (sight->right & needed[seen->access]) == needed[seen->access];
    if (seen->gives == FAULT || !granted) return (seen->gives == FAULT) != granted;
    return seen->access != A_LOAD || seen->value == sight->word;
}

/* The numbers of operations behind which the access may have been: of the one before it, and of the last that was on its way. */
static uint32_t first_of(const struct seen *seen) { return seen->began / 2; }
static uint32_t last_of(const struct seen *seen) { return (seen->ended + 1) / 2; }

/* Notes an access that gave what it may not. */
static void note(const struct seen *seen) {
    if (saw.wrong < MOST_NOTED) {
        struct seen *noted = &saw.noted[saw.wrong];
        *noted = *seen;
        noted->before = seen->page->sights[first_of(seen) % KEPT];
        noted->behind = seen->page->sights[last_of(seen) % KEPT];
    }
    saw.wrong++;
}

/* Judges what an access gave, under the lock: by what is granted, or where operations were on their way meanwhile by what was granted before
 * or is behind one of them, or by a fault, if one had something settled. The answer is whether it is such a fault though the endpoint has the
 * page before them and behind each. */
static bool judge(const struct seen *seen) {
    bool right = fits(seen, &seen->page->sights[first_of(seen) % KEPT]), settled = false;
    if (version / 2 - first_of(seen) >= KEPT) {
        saw.late++;
        return false;
    }
    for (uint32_t i = first_of(seen) + 1; i <= last_of(seen); i++) {
        right |= fits(seen, &seen->page->sights[i % KEPT]);
        settled |= watch.settled[i % KEPT];
    }
    bool stays = settled && !right && seen->gives == FAULT;
    saw.during += first_of(seen) != last_of(seen);
    saw.broken += stays;
    if (right || stays) return stays;
    note(seen);
    return false;
}

static void watch_page(struct seen *seen, const struct watched *page, enum access access, uint64_t stored) {
    *seen = (struct seen){.access = access, .page = page, .began = read_now(&version)};
    seen->gives = try_access(seen, page->address, stored);
    seen->ended = read_now(&version);
    if (seen->gives == DATA) saw.granted++;
    else saw.faulted++;
    saw.of[access]++;
    write_now(&tried, tried + 1);
}

/* The lock, behind which no operation is on its way. */
static void wait_for_lock(void) {
    write_now(&waits, 1);
    take_lock(&held);
    write_now(&waits, 0);
}

/* Judges accesses, and moves those to the front that faulted though the endpoint has the page before and behind: how many these are. */
static unsigned judge_all(struct seen *burst, unsigned count) {
    unsigned stay = 0;
    for (unsigned i = 0; i < count; i++) {
        if (judge(&burst[i])) burst[stay++] = burst[i];
    }
    release_lock(&held);
    return stay;
}

/* Tries once more what faulted so. The lock was free since, as it is behind a handler of that fault that takes it. */
static void try_again(struct seen *burst, unsigned count, uint64_t stored) {
    for (unsigned i = 0; i < count; i++) {
        watch_page(&burst[i], burst[i].page, burst[i].access, stored);
        saw.again += burst[i].gives == DATA;
    }
    wait_for_lock();
    judge_all(burst, count);
}

/* Whether the first processor waits for accesses that aren't made yet. */
static bool is_awaited(void) { return (int32_t)(read_now(&wanted) - read_now(&tried)) > 0; }

/* Whether one more access is to be made before those that were made are judged. */
static bool goes_on(unsigned count) {
    if (count < FREE_BURST) return true;
    while (read_now(&version) % 2 != 0) {
        if (is_awaited()) return count < LONG_BURST;
    }
    return false;
}

/* The next number of a series that has no pattern that an operation could have, too (Knuth, MMIX). */
static uint64_t next_number(void) {
    static uint64_t number;
    number = number * UINT64_C(6364136223846793005) + UINT64_C(1442695040888963407);
    return number >> 33;
}

/* Accesses one after another, which are judged when no operation is on its way. */
static unsigned watch_pages(uint64_t turn) {
    static struct seen burst[LONG_BURST];
    unsigned count = 0;
    bool has_lock = false;
    for (; !has_lock && goes_on(count); turn++) {
        watch_page(&burst[count++], &watch.pages[next_number() % watch.count], (enum access)(next_number() % ACCESSES), turn);
        has_lock = count >= BURST && try_lock(&held);
    }
    if (!has_lock) wait_for_lock();
    unsigned stay = judge_all(burst, count);
    if (stay != 0) try_again(burst, stay, turn);
    return count;
}

/* The core has something settled in an endpoint's tables. */
static void note_settling(uint16_t endpoint) {
    if (watch.on && endpoint == watch.identifier) watch.settled[(version + 1) / 2 % KEPT] = true;
}

/* Waits until the second processor has made some accesses, if it doesn't wait itself. */
static void await_watch(void) {
    write_now(&wanted, read_now(&tried) + AWAITED);
    while (watch.on && is_awaited() && !read_now(&waits)) continue;
}

void gorseplumb_settle(uint16_t endpoint, uint64_t address, uint64_t size) {
    static uint32_t turn;
    if (size != 0) note_settling(endpoint);
    settle_tables(endpoint, address, size);
    if (size != 0 || turn++ % AWAITED_IN == 0) await_watch();
}

void second_processor(void) {
    begin_tables(PROGRAM_HCR);
    walk_tables(watch.place, watch.root);
    load_system(&watch.runs.context);
    uint64_t turn = 0;
    while (read_now(&ended) == 0) turn += watch_pages(turn);
    write_now(&finished, 1);
    for (;;) DO("wfe");
}

void begin_watch(struct board *board, uint32_t place, uint64_t first, uint32_t count, uint64_t step) {
    if (place >= board->count || count == 0 || count > MOST_WATCHED) stop("this can't be watched");
    watch.place = place;
    watch.count = count;
    watch.identifier = board->endpoints[place].identifier;
    watch.root = board->endpoints[place].root;
    watch.runs.program = board->endpoints[place].program;
    begin_context(&watch.runs.context, watch.runs.program);
    for (uint32_t i = 0; i < count; i++) {
        struct watched *page = &watch.pages[i];
        page->address = first + step * i;
        page->sights[version / 2 % KEPT] = look(board, page->address);
    }
    watch.on = true;
    if (!start_processor(SECOND_PROCESSOR)) stop("there is no second processor");
}

static void put_count(const char *what, uint64_t count) {
    put_text(what);
    put_decimal(count);
}

/* What was to be seen behind an operation. */
static void put_sight(const char *when, const struct sight *sight) {
    put_text(when);
    put_number(sight->right);
    put_text(" ");
    put_number(sight->word);
}

static void put_wrong(const struct seen *seen) {
    static const char *const names[ACCESSES] = {"load", "store", "fetch"};
    put_text("! the second processor: ");
    put_text(names[seen->access]);
    put_text(" of page ");
    put_number(seen->page->address);
    put_text(seen->gives == FAULT ? " faulted" : seen->access != A_LOAD ? " was done" : " gave ");
    if (seen->gives == DATA && seen->access == A_LOAD) put_number(seen->value);
    put_count("; operations on their way: ", last_of(seen) - first_of(seen));
    put_sight("; right and word before: ", &seen->before);
    put_sight(", and behind: ", &seen->behind);
    put_text("\n");
}

void end_watch(void) {
    if (!watch.on) return;
    write_now(&ended, 1);
    while (read_now(&finished) == 0) continue;
    watch.on = false;
    put_count("= the second processor: loads ", saw.of[A_LOAD]);
    put_count(", stores ", saw.of[A_STORE]);
    put_count(", fetches ", saw.of[A_FETCH]);
    put_count("; granted ", saw.granted);
    put_count(", faulted ", saw.faulted);
    put_count("; with an operation on its way ", saw.during);
    put_count(", of these faults of pages that stay ", saw.broken);
    put_count(", done when tried again ", saw.again);
    put_count("; not judged ", saw.late);
    put_count("; wrong ", saw.wrong);
    put_text("\n");
    for (uint64_t i = 0; i < saw.wrong && i < MOST_NOTED; i++) put_wrong(&saw.noted[i]);
}
