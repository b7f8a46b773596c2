/* SPDX-License-Identifier: MIT OR Apache-2.0 */
/* Calls on lent RAM while another thread writes to TX, as another processor of the caller may: words of a lend's descriptor, and of a
 * message, are good ones or bad ones whenever the call reads them. Each answer has to be that of words that stood there, what is lent
 * or sent has to be what the answer belongs to, and no word that the thread writes may be lost. Numbers and answers are by
 * reasoning, or the manual's, as in test.c. */
#include <pthread.h>
#include <stdatomic.h>
#include <stdio.h>
#include <string.h>
#include <time.h>
#include "../board/calls.h"
#include "check.h"
#include "gorseplumb.h"
#include "heap.c"
#include "lending.h"
#include "machine.toml.h"

/* A race ends after so many rounds, of which an endpoint may make 65535 lends; after so many that it was one; or after some seconds. */
enum { ROUNDS = 60000, RACED = 20000, SECONDS = 3, PAGES = 512, FIRST = 0x21, TX = 0x2E };

/* The pages of RX of 0000 and of 8002. */
static const uint32_t normal_rx = 0x1F, other_rx = 0x3F;

/* A word of TX, what is written to it in turn, and what was written last. */
struct word {
    uint32_t place;
    uint64_t values[3];
    _Atomic uint64_t *at;
    uint64_t last;
};

/* Of the lend: the address of its range, two of 8001's pages and between them one of 8002's; and how many pages it has, which agrees with
 * the descriptor's sum or doesn't. Of the message: its receiver, 8002, one that there isn't, or 0000. */
static struct word lent[] = {{0x50, {0x40021000, 0x40031000, 0x40024000}, NULL, 0}, {0x58, {2, 2, 0}, NULL, 0}};
static struct word sent[] = {{8, {0x8001800200000018, 0x8001800500000018, 0x8001000000000018}, NULL, 0}};

static struct gorseplumb_machine machine;
static struct gorseplumb_page *pages;
static struct word *words;
static size_t word_count;
static atomic_bool is_over;
static atomic_ulong turns;

void gorseplumb_settle(uint16_t endpoint, uint64_t from, uint64_t size) {
    (void)endpoint, (void)from, (void)size; /* no processor walks the tables */
}

/* The other thread: writes one word after another, each in one step, and finds what it wrote last. */
static void *rewrites(void *nothing) {
    for (unsigned long turn = 0; !atomic_load_explicit(&is_over, memory_order_relaxed); turn++) {
        for (size_t i = 0; i < word_count; i++) {
            CHECK(atomic_load_explicit(words[i].at, memory_order_relaxed) == words[i].last);
            words[i].last = words[i].values[(i == 0 ? turn : turn / 3) % 3];
            atomic_store_explicit(words[i].at, words[i].last, memory_order_relaxed);
        }
        atomic_store_explicit(&turns, turn, memory_order_relaxed);
    }
    return nothing;
}

static struct gorseplumb_outcome call(uint64_t x0, uint64_t x1, uint64_t x2, uint64_t x3) {
    struct gorseplumb_registers registers = {{x0, x1, x2, x3}};
    struct gorseplumb_outcome told = gorseplumb_call(&machine, &registers);
    CHECK(told.kind == GORSEPLUMB_KIND_REGISTERS);
    return told;
}

/* Does a round again and again while the thread rewrites these words, and counts its answers. */
static void race(const char *what, struct word *of, size_t count, int (*round)(void)) {
    unsigned answers[4] = {0}, raced = 0, done = 0;
    pthread_t other;
    words = of;
    word_count = count;
    for (size_t i = 0; i < count; i++) {
        words[i].at = (_Atomic uint64_t *)(void *)&pages[TX].bytes[words[i].place];
        words[i].last = atomic_load(words[i].at);
    }
    atomic_store(&is_over, false);
    CHECK(pthread_create(&other, NULL, rewrites, NULL) == 0);
    for (time_t start = time(NULL); done < ROUNDS && raced < RACED && time(NULL) - start < SECONDS; done++) {
        unsigned long before = atomic_load_explicit(&turns, memory_order_relaxed);
        answers[round()]++;
        raced += atomic_load_explicit(&turns, memory_order_relaxed) != before;
    }
    atomic_store(&is_over, true);
    CHECK(pthread_join(other, NULL) == 0);
    printf("%u %s, %u while TX was written: %u and %u done, %u and %u refused\n", done, what, raced, answers[0], answers[1], answers[2],
           answers[3]);
}

static void stores(uint32_t place, uint64_t value) {
    CHECK(gorseplumb_store(&machine, 0x4002E000 + place, 8, value).kind == GORSEPLUMB_KIND_DONE);
}

/* All endpoints have buffers, and 8001 runs. */
static void begin(void) {
    CHECK(call(FFA_RXTX_MAP, 0x4001E000, 0x4001F000, 1).x[0] == FFA_SUCCESS);
    CHECK(call(FFA_RUN, 0x80020000, 0, 0).runner == 0x8002);
    CHECK(call(FFA_RXTX_MAP, 0x4003E000, 0x4003F000, 1).x[0] == FFA_SUCCESS);
    CHECK(call(FFA_MSG_WAIT, 0, 0, 0).runner == 0 && call(FFA_RUN, 0x80010000, 0, 0).runner == 0x8001);
    CHECK(call(FFA_RXTX_MAP, 0x4002E000, 0x4002F000, 1).x[0] == FFA_SUCCESS);
}

/* Whether two pages from one on stand in this open transaction alone, and nobody reaches them; else they stand in none. */
static bool are_lent(uint32_t page, uint64_t handle) {
    struct gorseplumb_cert_run run;
    CHECK(gorseplumb_cert_run(&machine, page, &run) && run.owner == 0x8001);
    if (run.has_handle == 0) {
        CHECK(run.access[1] == 7 && run.access[2] == 0);
        return false;
    }
    CHECK(run.last == page + 1 && run.handle == handle && run.access[0] == 0 && run.access[1] == 0 && run.access[2] == 0);
    return true;
}

/* The pages of 8001 and those of 8002 are their own. */
static void nothing_is_lent(void) {
    struct gorseplumb_cert_run run;
    CHECK(gorseplumb_cert_run(&machine, 0x20, &run) && run.last == 0x2F && run.owner == 0x8001 && run.has_handle == 0);
    CHECK(gorseplumb_cert_run(&machine, 0x30, &run) && run.last == 0x3F && run.owner == 0x8002 && run.access[2] == 3);
}

/* One lend, and its reclaim: which address was lent, or 2 where it was denied, and 3 where the words are no descriptor. */
static int lends(void) {
    struct gorseplumb_outcome told = call(FFA_MEM_LEND, 0x60, 0x60, 0);
    if (told.x[0] == FFA_ERROR) {
        nothing_is_lent();
        CHECK(told.x[2] == 0xFFFFFFFA || told.x[2] == 0xFFFFFFFE);
        return told.x[2] == 0xFFFFFFFA ? 2 : 3;
    }
    CHECK(told.x[0] == FFA_SUCCESS);
    uint64_t handle = told.x[2] | told.x[3] << 32;
    bool is_first = are_lent(FIRST, handle), is_second = are_lent(FIRST + 3, handle);
    CHECK(is_first != is_second);
    struct gorseplumb_change change;
    CHECK(gorseplumb_take_change(&machine, &change) && change.endpoint == 0x8001 && change.range_count == 1);
    CHECK(change.ranges[0].address == lent[0].values[is_first ? 0 : 2] && change.ranges[0].size == 0x2000);
    CHECK(call(FFA_MEM_RECLAIM, told.x[2], told.x[3], 0).x[0] == FFA_SUCCESS);
    nothing_is_lent();
    return is_second;
}

/* Whether a page of RX holds a message, which then is the one to its owner. */
static bool holds(uint32_t rx, uint64_t to_owner) {
    static struct gorseplumb_page bytes;
    static const struct gorseplumb_page none;
    uint64_t header[4];
    CHECK(gorseplumb_read_page(&machine, rx, &bytes));
    memcpy(header, bytes.bytes, sizeof header);
    if (header[3] == 0) {
        CHECK(memcmp(&bytes, &none, sizeof none) == 0);
        return false;
    }
    CHECK(header[0] == 0 && header[1] == to_owner && header[2] == 2 && header[3] == 0x0707);
    return true;
}

/* The endpoint that runs empties its RX, if there is something in it, and fills it with zeros. */
static void empties(uint64_t rx, bool is_full) {
    CHECK((call(FFA_RX_RELEASE, 0, 0, 0).x[0] == FFA_SUCCESS) == is_full);
    for (uint64_t place = 0; place < 0x20; place += 8) {
        CHECK(gorseplumb_store(&machine, rx + place, 8, 0).kind == GORSEPLUMB_KIND_DONE);
    }
}

/* One message, which its receiver takes: which receiver had it, or 2 where there was none. */
static int sends(void) {
    struct gorseplumb_outcome told = call(FFA_MSG_SEND2, 0, 0, 0);
    bool to_other = holds(other_rx, sent[0].values[0]), to_normal = holds(normal_rx, sent[0].values[2]);
    if (told.x[0] == FFA_ERROR) {
        CHECK(told.x[2] == 0xFFFFFFFE && !to_other && !to_normal);
        return 2;
    }
    CHECK(told.x[0] == FFA_SUCCESS && to_other != to_normal);
    CHECK(call(FFA_MSG_WAIT, 0, 0, 0).runner == 0);
    empties(0x4001F000, to_normal);
    CHECK(call(FFA_RUN, 0x80020000, 0, 0).runner == 0x8002);
    empties(0x4003F000, to_other);
    CHECK(call(FFA_MSG_WAIT, 0, 0, 0).runner == 0 && call(FFA_RUN, 0x80010000, 0, 0).runner == 0x8001);
    return to_normal;
}

int main(void) {
    struct gorseplumb_lent list = {0};
    pages = aligned_alloc(GORSEPLUMB_PAGE_SIZE, PAGES * sizeof *pages);
    CHECK(pages != NULL && gorseplumb_lend_all(&list, pages, PAGES) == GORSEPLUMB_OK);
    CHECK(gorseplumb_boot_lent(&machine, &list, (const uint8_t *)manifest_text, sizeof manifest_text - 1) == GORSEPLUMB_OK);
    begin();
    static const uint64_t lend[] = {0x8001, 0, 0, 0x0000000100000010, 0x30, 0, 0x0000004000028002, 0, 0x0000000100000002, 0, 0x40021000, 2};
    for (uint32_t i = 0; i < 12; i++) stores(8 * i, lend[i]);
    CHECK(lends() == 0);
    race("lends", lent, 2, lends);
    static const uint64_t message[] = {0, 0x8001800200000018, 2, 0x0707};
    for (uint32_t i = 0; i < 12; i++) stores(8 * i, i < 4 ? message[i] : 0);
    CHECK(sends() == 0);
    race("messages", sent, 1, sends);
    CHECK(gorseplumb_end(&machine, &list) == GORSEPLUMB_OK && gorseplumb_take_all_back(&list, pages, PAGES));
    free(pages);
    return 0;
}
