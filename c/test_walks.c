/* SPDX-License-Identifier: MIT OR Apache-2.0 */
/* Walks of stage 2 tables in lent RAM by another thread, as a second processor makes them while the first one does operations: it
 * reads the three words of a walk at moments of its own, and goes by words that it read before as long as they aren't settled.
 * Invalid words it doesn't keep (DDI 0487, D8: what gives a translation fault isn't cached). Each walk has to give what it gives before
 * the operation, what it gives behind it, or a translation fault; where none goes on, just what the endpoint has. The lender, which
 * stores wherever its walks let it into pages that are lent, sees no zeros of the first page that is zeroed for a borrower, and the
 * borrower nothing else. A unit that keeps what is settled has to be seen. */
#include <pthread.h>
#include <sched.h>
#include <stdatomic.h>
#include <stdio.h>
#include <string.h>
#include <time.h>
#include "../board/calls.h"
#include "check.h"
#include "gorseplumb.h"
#include "heap.c"
#include "lending.h"

static const char manifest_text[] =
    "ram_base = 0x40000000\n"
    "ram_blocks = 2\n"
    "[[endpoint]]\n"
    "version = \"1.1\"\n"
    "properties = 6\n"
    "regions = [{ base = 0x40010000, pages = 16, rights = \"rw\" }]\n"
    "[[endpoint]]\n"
    "version = \"1.1\"\n"
    "uuid = \"00112233-4455-6677-8899-aabbccddeeff\"\n"
    "properties = 15\n"
    "regions = [{ base = 0x40020000, pages = 16, rights = \"rw\" }, { base = 0x40200000, pages = 512, rights = \"rw\" }]\n"
    "[[endpoint]]\n"
    "version = \"1.1\"\n"
    "uuid = \"10112233-4455-6677-8899-aabbccddeeff\"\n"
    "properties = 15\n"
    "regions = [{ base = 0x40030000, pages = 16, rights = \"rw\" }]\n";

/* It ends after so many rounds, since an endpoint may make 65535 transactions, or after some seconds; one in which something has to be
 * seen after more. */
enum { ROUNDS = 25000, SECONDS = 5, SECONDS_TO_SEE = 60, ENDPOINTS = 3, PAGES = 1024, REGION = 0x20, BLOCK = 0x200, LEVELS = 3 };
/* Rights as the library tells them; a walk that faults gives none. */
enum { NOTHING = 0, READ_WRITE = 3 };

/* What the lender stores. */
enum { LENDERS = 0x5A };
static const uint32_t ram_base = 0x40000000;
static const uint16_t identifiers[ENDPOINTS] = {0, 0x8001, 0x8002};

/* Which pages are in a transaction of 8001 with 8002, what these two may do with them, and whether the first of them is as the lender
 * wrote it, or all are zero for the borrower. All other pages are their owners'. */
struct state {
    uint32_t first, count, owner, borrower;
    bool is_written, is_zero;
};

/* States by how many changes led there, the last ones; and the moment: twice that number while no call on memory goes on, and one more
 * while the next one does, whose state behind it stands here before it begins. */
enum { KEPT_STATES = 64 };
static struct state states[KEPT_STATES];
static atomic_ulong moment;

static struct gorseplumb_machine machine;
static struct gorseplumb_page *pages;
static uint32_t roots[ENDPOINTS];

/* What is to be settled, and how often that was asked and done. */
static struct { uint32_t endpoint, first, count; } settling;
static atomic_ulong asked, done;
static atomic_bool is_walking, is_over;

/* Of the thread that walks: whether it keeps what is settled, and what it saw. */
static bool keeps_settled;
static atomic_ulong walks, walks_meanwhile, faults_meanwhile, wrongs;

void gorseplumb_settle(uint16_t endpoint, uint64_t from, uint64_t size) {
    atomic_thread_fence(memory_order_seq_cst);
    if (size == 0 || !atomic_load(&is_walking)) return;
    settling.endpoint = endpoint == 0 ? 0 : endpoint - 0x8000u;
    settling.first = (uint32_t)(from - ram_base) / GORSEPLUMB_PAGE_SIZE;
    settling.count = (uint32_t)(size / GORSEPLUMB_PAGE_SIZE);
    unsigned long now = atomic_fetch_add(&asked, 1) + 1;
    while (atomic_load(&done) != now) sched_yield();
}

/* ---- the walks */

/* Words of valid descriptors that walks of a page have read since it was settled, by level; 0 is none. */
static uint64_t held[ENDPOINTS][PAGES][LEVELS];

static uint32_t dice(uint32_t sides) {
    static uint64_t state = 0x2545F4914F6CDD1D;
    state ^= state << 13, state ^= state >> 7, state ^= state << 17;
    return (uint32_t)(state >> 33) % sides;
}

static void rests(void) {
    for (volatile uint32_t left = dice(4) == 0 ? dice(64) : 0; left > 0;) left = left - 1;
}

/* The word at a place of the table at an address: one that is held, or what stands there. */
static uint64_t word_of(uint64_t table, uint32_t place, uint64_t *kept) {
    rests();
    if (*kept != 0 && dice(2) == 0) return *kept;
    uint64_t offset = table - ram_base;
    CHECK(table >= ram_base && offset / GORSEPLUMB_PAGE_SIZE < PAGES && place < 512);
    const uint64_t *at = (const uint64_t *)(const void *)&pages[offset / GORSEPLUMB_PAGE_SIZE].bytes[8 * place];
    uint64_t word = __atomic_load_n(at, __ATOMIC_RELAXED);
    if ((word & 1) != 0) *kept = word;
    return word;
}

/* What a leaf that leads to a page gives, which has to lead to itself. */
static uint32_t right_of(uint64_t word, uint32_t page, uint64_t mask) {
    uint64_t address = ram_base + (uint64_t)page * GORSEPLUMB_PAGE_SIZE;
    CHECK((word & 0x0000FFFFFFFFF000 & mask) == (address & mask) && (word >> 10 & 1) == 1);
    return (uint32_t)((word >> 6 & 3) | ((word >> 54 & 1) ? 0 : 4));
}

/* A walk of an endpoint's tables to a page: its right, or nothing where it faults. */
static uint32_t walk(uint32_t endpoint, uint32_t page) {
    uint64_t address = ram_base + (uint64_t)page * GORSEPLUMB_PAGE_SIZE, *kept = held[endpoint][page];
    uint64_t first = word_of(roots[endpoint], (uint32_t)(address >> 30 & 511), &kept[0]);
    if ((first & 3) != 3) return NOTHING;
    uint64_t second = word_of(first & 0x0000FFFFFFFFF000, (uint32_t)(address >> 21 & 511), &kept[1]);
    if ((second & 1) == 0) return NOTHING;
    if ((second & 2) == 0) return right_of(second, page, ~(uint64_t)0x1FFFFF);
    uint64_t third = word_of(second & 0x0000FFFFFFFFF000, (uint32_t)(address >> 12 & 511), &kept[2]);
    return (third & 3) == 3 ? right_of(third, page, ~(uint64_t)0) : NOTHING;
}

static bool is_within(const struct state *in, uint32_t page) { return page - in->first < in->count; }

/* What an endpoint may do with a page in a state. */
static uint32_t right_in(const struct state *in, uint32_t endpoint, uint32_t page) {
    if (is_within(in, page)) return endpoint == 1 ? in->owner : endpoint == 2 ? in->borrower : NOTHING;
    if (page >= BLOCK) return endpoint == 1 ? READ_WRITE : NOTHING;
    return page >> 4 == endpoint + 1 ? READ_WRITE : NOTHING;
}

/* Whether it is one of 8001's pages that are lent. */
static bool is_lendable(uint32_t page) { return page >= BLOCK || (page >= REGION && page < REGION + 0xE); }

/* A page, mostly one of those that are lent most often. */
static uint32_t chosen(void) {
    switch (dice(4)) {
    case 0: return BLOCK + dice(8);
    case 1: return REGION + dice(8);
    case 2: return BLOCK + dice(512);
    default: return 0x10 + dice(0x30);
    }
}

/* One walk, and whether what it gives may be given: a right of a state that there was meanwhile, or a fault where not just one was. One
 * that more than 32 changes overtake isn't judged. */
static void walks_once(void) {
    uint32_t endpoint = dice(ENDPOINTS), page = chosen();
    unsigned long from = atomic_load(&moment);
    uint32_t found = walk(endpoint, page);
    uint8_t *at = &pages[page].bytes[0], byte = found == NOTHING ? 0 : __atomic_load_n(at, __ATOMIC_RELAXED);
    if (endpoint == 1 && found == READ_WRITE && is_lendable(page)) __atomic_store_n(at, LENDERS, __ATOMIC_RELAXED);
    unsigned long to = atomic_load(&moment);
    atomic_fetch_add_explicit(&walks, 1, memory_order_relaxed);
    if (to - from > KEPT_STATES) return;
    bool is_still = from == to && to % 2 == 0, may_be = !is_still && found == NOTHING, is_written = true, is_zero = true;
    for (unsigned long count = from / 2; count <= (to + 1) / 2; count++) {
        const struct state *in = &states[count % KEPT_STATES];
        may_be = may_be || found == right_in(in, endpoint, page);
        is_zero = is_zero && in->is_zero && is_within(in, page);
        is_written = is_written && page == in->first && (in->is_written || in->owner == NOTHING);
    }
    bool is_right_byte = endpoint == 1 ? !is_written || found == NOTHING || byte == LENDERS : !is_zero || byte == 0;
    if (!is_still) atomic_fetch_add_explicit(&walks_meanwhile, 1, memory_order_relaxed);
    if (!is_still && found == NOTHING) atomic_fetch_add_explicit(&faults_meanwhile, 1, memory_order_relaxed);
    if (may_be && is_right_byte) return;
    if (!keeps_settled) {
        fprintf(stderr, "%04X at page %u: right %u, first byte %02X, moments %lu to %lu\n", identifiers[endpoint], page, found,
                byte, from, to);
    }
    CHECK(keeps_settled);
    atomic_fetch_add(&wrongs, 1);
}

static void settles(void) {
    unsigned long now = atomic_load(&asked);
    if (now == atomic_load(&done)) return;
    if (!keeps_settled) {
        for (uint32_t page = settling.first; page < settling.first + settling.count && page < PAGES; page++) {
            memset(held[settling.endpoint][page], 0, sizeof held[0][0]);
        }
    }
    atomic_store(&done, now);
}

static void *walker(void *nothing) {
    while (!atomic_load_explicit(&is_over, memory_order_relaxed)) {
        walks_once();
        settles();
        if (dice(4096) == 0) sched_yield();
    }
    return nothing;
}

/* ---- the operations */

static unsigned long operations;

static struct gorseplumb_outcome call(uint64_t x0, uint64_t x1, uint64_t x2, uint64_t x3) {
    struct gorseplumb_registers registers = {{x0, x1, x2, x3}};
    struct gorseplumb_outcome told = gorseplumb_call(&machine, &registers);
    CHECK(told.kind == GORSEPLUMB_KIND_REGISTERS);
    return told;
}

/* A call on memory that is done, and the state behind it. */
static struct gorseplumb_outcome changes(struct state behind, uint64_t x0, uint64_t x1, uint64_t x2, uint64_t x3) {
    states[(operations + 1) % KEPT_STATES] = behind;
    atomic_store(&moment, 2 * operations + 1);
    struct gorseplumb_outcome told = call(x0, x1, x2, x3);
    atomic_store(&moment, 2 * ++operations);
    CHECK(told.x[0] != FFA_ERROR);
    for (uint32_t endpoint = 0; endpoint < ENDPOINTS; endpoint++) {
        uint32_t right = right_in(&behind, endpoint, behind.first);
        CHECK(gorseplumb_access(&machine, identifiers[endpoint], behind.first) == right);
    }
    return told;
}

static void stores(uint64_t address, const uint64_t *values, size_t count) {
    for (size_t i = 0; i < count; i++) CHECK(gorseplumb_store(&machine, address + 8 * i, 8, values[i]).kind == GORSEPLUMB_KIND_DONE);
}

/* The state is another one, with no call. */
static void is_now(struct state behind) {
    states[(operations + 1) % KEPT_STATES] = behind;
    atomic_store(&moment, 2 * ++operations);
}

static void runs(uint16_t endpoint) {
    CHECK(call(FFA_MSG_WAIT, 0, 0, 0).runner == 0);
    CHECK(call(FFA_RUN, (uint64_t)endpoint << 16, 0, 0).runner == endpoint);
}

/* 8001 lends or shares pages, 8002 retrieves them and gives them up, and 8001 reclaims them. */
static void round_of(uint32_t kind, uint32_t first, uint32_t count, bool zeros) {
    struct state now = {first, count, READ_WRITE, NOTHING, true, false};
    uint64_t address = ram_base + (uint64_t)first * GORSEPLUMB_PAGE_SIZE, written = LENDERS;
    stores(address, &written, 1);
    is_now(now);
    const uint64_t header = 0x8001 | (kind == FFA_MEM_SHARE ? 0x2F0000 : 0) | (uint64_t)zeros << 32;
    const uint64_t total = 0x0000000100000000 | count;
    const uint64_t sent[] = {header, 0, 0, 0x0000000100000010, 0x30, 0, 0x0000004000028002, 0, total, 0, address, count};
    stores(0x4002E000, sent, 12);
    now.owner = kind == FFA_MEM_SHARE ? READ_WRITE : NOTHING;
    now.is_written = !zeros, now.is_zero = zeros;
    struct gorseplumb_outcome told = changes(now, kind, 0x60, 0x60, 0);
    uint64_t handle = told.x[2] | told.x[3] << 32;
    runs(0x8002);
    const uint64_t taken[] = {0x8001, handle, 0, 0x0000000100000010, 0x30, 0, 0x28002, 0};
    stores(0x4003E000, taken, 8);
    now.borrower = READ_WRITE;
    CHECK(changes(now, FFA_MEM_RETRIEVE_REQ, 0x40, 0x40, 0).x[0] == FFA_MEM_RETRIEVE_RESP);
    CHECK(call(FFA_RX_RELEASE, 0, 0, 0).x[0] == FFA_SUCCESS);
    const uint64_t given_up[] = {handle, 0x0000000100000000, 0x8002};
    stores(0x4003E000, given_up, 3);
    now.borrower = NOTHING;
    changes(now, FFA_MEM_RELINQUISH, 0, 0, 0);
    runs(0x8001);
    now.owner = READ_WRITE, now.is_zero = false;
    changes(now, FFA_MEM_RECLAIM, told.x[2], told.x[3], 0);
}

/* 8001 and 8002 have buffers, and 8001 runs. */
static void begin(void) {
    CHECK(call(FFA_RUN, 0x80020000, 0, 0).runner == 0x8002);
    CHECK(call(FFA_RXTX_MAP, 0x4003E000, 0x4003F000, 1).x[0] == FFA_SUCCESS);
    runs(0x8001);
    CHECK(call(FFA_RXTX_MAP, 0x4002E000, 0x4002F000, 1).x[0] == FFA_SUCCESS);
    for (uint32_t endpoint = 0; endpoint < ENDPOINTS; endpoint++) roots[endpoint] = gorseplumb_root(&machine, identifiers[endpoint]);
    states[0] = (struct state){BLOCK, 0, READ_WRITE, NOTHING, false, false};
}

/* Rounds while the other thread walks: pages of a block and of a region that has a table in turn, and now and then all of the block. */
static void race(uint32_t rounds) {
    pthread_t other;
    memset(held, 0, sizeof held);
    atomic_store(&is_over, false);
    CHECK(pthread_create(&other, NULL, walker, NULL) == 0);
    atomic_store(&is_walking, true);
    unsigned long before = operations;
    time_t end = time(NULL) + (keeps_settled ? SECONDS_TO_SEE : SECONDS);
    for (uint32_t i = 0; i < rounds && time(NULL) < end && atomic_load(&wrongs) == 0; i++) {
        bool is_whole = i % 64 == 63;
        uint32_t first = is_whole ? BLOCK : (i % 2 == 0 ? BLOCK : REGION) + i % 7, count = is_whole ? 512 : 1 + i % 5;
        round_of(i % 3 == 2 ? FFA_MEM_SHARE : FFA_MEM_LEND, first, count, i % 3 == 1);
    }
    atomic_store(&is_over, true);
    CHECK(pthread_join(other, NULL) == 0);
    atomic_store(&is_walking, false);
    printf("%lu steps of transactions, and %lu walks, %lu of them meanwhile, of which %lu faulted%s\n", operations - before,
           atomic_exchange(&walks, 0), atomic_exchange(&walks_meanwhile, 0), atomic_exchange(&faults_meanwhile, 0),
           keeps_settled ? ", where nothing is forgotten" : "");
}

int main(void) {
    struct gorseplumb_lent list = {0};
    pages = aligned_alloc(GORSEPLUMB_PAGE_SIZE, PAGES * sizeof *pages);
    CHECK(pages != NULL && gorseplumb_lend_all(&list, pages, PAGES) == GORSEPLUMB_OK);
    CHECK(gorseplumb_boot_lent(&machine, &list, (const uint8_t *)manifest_text, sizeof manifest_text - 1) == GORSEPLUMB_OK);
    begin();
    race(ROUNDS);
    keeps_settled = true;
    race(ROUNDS);
    CHECK(atomic_load(&wrongs) != 0);
    CHECK(gorseplumb_end(&machine, &list) == GORSEPLUMB_OK && gorseplumb_take_all_back(&list, pages, PAGES));
    free(pages);
    return 0;
}
