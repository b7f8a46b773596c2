/* SPDX-License-Identifier: MIT OR Apache-2.0 */
/* Makes the calls that bench/calls counts, over lent RAM, so many rounds of them: calls ROUNDS. Each is made in `counted`, by which it is
 * told from what is done beside it, and has a line on standard output, in the same order: what it is and of how much memory, with a tab
 * between. Where the library answers otherwise than is meant here the status is 1. */
#include <inttypes.h>
#include <stdbool.h>
#include <stdio.h>
#include <stdlib.h>
#include "../board/calls.h"
#include "gorseplumb.h"
#include "lending.h"

#define RAM_PAGES (2 * 512)
#define NORMAL_WORLD 0
#define PARTITION UINT64_C(0x8001)
#define TX UINT64_C(0x4001E000)
#define TX_OF_PARTITION UINT64_C(0x4002E000)
#define PAGES UINT64_C(0x40080000)
#define BLOCK UINT64_C(0x40200000)
#define BIT 1
#define UNKNOWN_FUNCTION UINT64_C(0x840000FF)
#define NOT_SUPPORTED UINT32_C(0xFFFFFFFF)
#define DENIED UINT32_C(0xFFFFFFFA)
#define INVALID_PARAMETERS UINT32_C(0xFFFFFFFE)

/* Fields of descriptors (docs/MEMORY.md). */
#define NORMAL_MEMORY (UINT64_C(0x2F) << 16)
#define ZEROS (UINT64_C(1) << 32)
#define READ_WRITE (UINT64_C(2) << 16)
#define ONE_OF_16_BYTES (UINT64_C(1) << 32 | 16)

/* Most of the normal world's memory is in a block with others, and a block is its own. */
static const char manifest[] =
    "ram_base = 0x40000000\nram_blocks = 2\n"
    "[[endpoint]]\nversion = \"1.1\"\nproperties = 6\nregions = [\n"
    "    { base = 0x40010000, pages = 16, rights = \"rw\" },\n"
    "    { base = 0x40080000, pages = 256, rights = \"rw\" },\n"
    "    { base = 0x40200000, pages = 512, rights = \"rw\" },\n]\n"
    "[[endpoint]]\nversion = \"1.1\"\nuuid = \"00112233-4455-6677-8899-aabbccddeeff\"\nproperties = 15\n"
    "regions = [{ base = 0x40020000, pages = 16, rights = \"rw\" }]\n";

/* Firmware's RAM begins at a page, and so does what is copied of it. */
static _Alignas(GORSEPLUMB_PAGE_SIZE) struct gorseplumb_page pages[RAM_PAGES];
static struct gorseplumb_machine machine;
static struct gorseplumb_outcome told;

/* An operation: a call of registers, a load or a store. */
struct request {
    enum gorseplumb_operation_kind kind;
    uint64_t address, value;
    struct gorseplumb_registers registers;
};

/* Pages of the normal world, and what the table calls so many: the first one's address, how many ranges of how many pages there are, how
 * many pages lie from one range's first to the next one's, and how many places further each next range is in a descriptor. */
struct shape {
    const char *name;
    uint64_t first, ranges, pages, apart, step;
};

static void stop(const char *what, const char *why) {
    fprintf(stderr, "calls: %s: %s\n", what, why);
    exit(1);
}

/* No processor walks these tables: nothing is to be settled, and what is counted of that is the call. */
void gorseplumb_settle(uint16_t endpoint, uint64_t address, uint64_t size) { (void)endpoint, (void)address, (void)size; }

/* Does one operation. What is done behind it keeps a compiler from jumping to the library in the place of a call. */
void counted(const struct request *asked);
void counted(const struct request *asked) {
    static volatile unsigned done;
    switch (asked->kind) {
    case GORSEPLUMB_OPERATION_LOAD: told = gorseplumb_load(&machine, asked->address, 8); break;
    case GORSEPLUMB_OPERATION_STORE: told = gorseplumb_store(&machine, asked->address, 8, asked->value); break;
    default: told = gorseplumb_call(&machine, &asked->registers); break;
    }
    done++;
}

/* Through this nothing of `counted` is inlined. */
static void (*volatile count)(const struct request *asked) = counted;

/* Prints the line of an operation, and does it. */
static void note(const char *name, const struct shape *shape, const struct request *asked) {
    printf("%s\t%s\n", name, shape != NULL ? shape->name : "");
    count(asked);
}

static struct request call_of(uint64_t x0, uint64_t x1, uint64_t x2, uint64_t x3) {
    return (struct request){.kind = GORSEPLUMB_OPERATION_CALL, .registers = {{x0, x1, x2, x3}}};
}

static bool is_refused(void) { return told.kind != GORSEPLUMB_KIND_REGISTERS || told.x[0] == FFA_ERROR; }

/* A call that is counted, one that isn't, and one that is counted and refused. */
static void counts(const char *name, const struct shape *shape, uint64_t x0, uint64_t x1, uint64_t x2, uint64_t x3) {
    struct request asked = call_of(x0, x1, x2, x3);
    note(name, shape, &asked);
    if (is_refused()) stop(name, "it is refused");
}

static void calls(const char *name, uint64_t x0, uint64_t x1, uint64_t x2, uint64_t x3) {
    struct request asked = call_of(x0, x1, x2, x3);
    told = gorseplumb_call(&machine, &asked.registers);
    if (is_refused()) stop(name, "it is refused");
}

static void refuses(const char *name, uint32_t code, uint64_t x0, uint64_t x1, uint64_t x2) {
    struct request asked = call_of(x0, x1, x2, 0);
    note(name, NULL, &asked);
    if (!is_refused() || told.x[2] != code) stop(name, "it isn't refused, or by another code");
}

static void accesses(const char *name, enum gorseplumb_operation_kind kind, uint64_t address, enum gorseplumb_kind answer) {
    struct request asked = {.kind = kind, .address = address, .value = 1};
    note(name, NULL, &asked);
    if (told.kind != answer) stop(name, "it is answered otherwise");
}

static void store(uint64_t address, uint64_t value) {
    if (gorseplumb_store(&machine, address, 8, value).kind != GORSEPLUMB_KIND_DONE) stop("a store into TX", "it faults");
}

static void run_partition(void) { calls("FFA_RUN", FFA_RUN, PARTITION << 16, 0, 0); }

static void run_normal_world(void) { calls("FFA_MSG_WAIT", FFA_MSG_WAIT, 0, 0, 0); }

/* Writes a send's descriptor into the TX of who runs, and answers its size. */
static uint64_t write_send(uint64_t function, uint64_t from, uint64_t to, const struct shape *shape, uint64_t flags) {
    uint64_t at = from == PARTITION ? TX_OF_PARTITION : TX;
    uint64_t attributes = function == FFA_MEM_SHARE ? NORMAL_MEMORY : 0, right = function == FFA_MEM_DONATE ? 0 : READ_WRITE;
    uint64_t access = UINT64_C(64) << 32 | right | to, total = shape->ranges << 32 | shape->ranges * shape->pages;
    uint64_t words[] = {flags | attributes | from, 0, 0, ONE_OF_16_BYTES, 48, 0, access, 0, total, 0};
    for (uint64_t i = 0; i < 10; i++) store(at + 8 * i, words[i]);
    for (uint64_t i = 0; i < shape->ranges; i++) {
        store(at + 80 + 16 * i, shape->first + GORSEPLUMB_PAGE_SIZE * shape->apart * (i * shape->step % shape->ranges));
        store(at + 88 + 16 * i, shape->pages);
    }
    return 80 + 16 * shape->ranges;
}

static void write_retrieve(uint64_t from, uint64_t to, uint64_t handle) {
    uint64_t words[] = {from, handle, 0, ONE_OF_16_BYTES, 48, 0, READ_WRITE | to, 0};
    for (uint64_t i = 0; i < 8; i++) store((to == PARTITION ? TX_OF_PARTITION : TX) + 8 * i, words[i]);
}

static void write_relinquish(uint64_t handle, uint64_t flags) {
    store(TX_OF_PARTITION, handle);
    store(TX_OF_PARTITION + 8, UINT64_C(1) << 32 | flags);
    store(TX_OF_PARTITION + 16, PARTITION);
}

static uint64_t handle_told(void) { return told.x[3] << 32 | told.x[2]; }

static void reclaims(const char *name, const struct shape *shape, uint64_t handle, uint64_t flags) {
    counts(name, shape, FFA_MEM_RECLAIM, handle & UINT32_MAX, handle >> 32, flags);
}

/* A share or a lend by the normal world up to its reclaim. */
static void borrows(const char *const names[4], const struct shape *shape, uint64_t function) {
    uint64_t size = write_send(function, NORMAL_WORLD, PARTITION, shape, 0);
    counts(names[0], shape, function, size, size, 0);
    uint64_t handle = handle_told();
    run_partition();
    write_retrieve(NORMAL_WORLD, PARTITION, handle);
    counts(names[1], shape, FFA_MEM_RETRIEVE_REQ, 64, 64, 0);
    write_relinquish(handle, 0);
    counts(names[2], shape, FFA_MEM_RELINQUISH, 0, 0, 0);
    run_normal_world();
    reclaims(names[3], shape, handle, 0);
}

/* A lend up to its reclaim that makes the pages zero at each step. */
static void clears(const struct shape *shape) {
    uint64_t size = write_send(FFA_MEM_LEND, NORMAL_WORLD, PARTITION, shape, ZEROS);
    counts("FFA_MEM_LEND with zeros", shape, FFA_MEM_LEND, size, size, 0);
    uint64_t handle = handle_told();
    run_partition();
    write_retrieve(NORMAL_WORLD, PARTITION, handle);
    calls("FFA_MEM_RETRIEVE_REQ", FFA_MEM_RETRIEVE_REQ, 64, 64, 0);
    write_relinquish(handle, 1);
    counts("FFA_MEM_RELINQUISH with zeros", shape, FFA_MEM_RELINQUISH, 0, 0, 0);
    run_normal_world();
    reclaims("FFA_MEM_RECLAIM with zeros", shape, handle, 1);
}

/* A donate to the partition, and one back that isn't counted. */
static void donates(const struct shape *shape) {
    uint64_t size = write_send(FFA_MEM_DONATE, NORMAL_WORLD, PARTITION, shape, 0);
    counts("FFA_MEM_DONATE", shape, FFA_MEM_DONATE, size, size, 0);
    uint64_t handle = handle_told();
    run_partition();
    write_retrieve(NORMAL_WORLD, PARTITION, handle);
    counts("FFA_MEM_RETRIEVE_REQ of a donate", shape, FFA_MEM_RETRIEVE_REQ, 64, 64, 0);
    size = write_send(FFA_MEM_DONATE, PARTITION, NORMAL_WORLD, shape, 0);
    calls("FFA_MEM_DONATE", FFA_MEM_DONATE, size, size, 0);
    handle = handle_told();
    run_normal_world();
    write_retrieve(PARTITION, NORMAL_WORLD, handle);
    calls("FFA_MEM_RETRIEVE_REQ", FFA_MEM_RETRIEVE_REQ, 64, 64, 0);
    calls("FFA_RX_RELEASE", FFA_RX_RELEASE, 0, 0, 0);
}

/* A message to the partition, of so many bytes with its header of 20. */
static void sends(const char *name, uint64_t size) {
    store(TX, 0);
    store(TX + 8, PARTITION << 32 | 20);
    store(TX + 16, size - 20);
    counts(name, NULL, FFA_MSG_SEND2, 0, 0, 0);
    run_partition();
}

static void count_calls(void) {
    counts("FFA_ID_GET", NULL, FFA_ID_GET, 0, 0, 0);
    counts("FFA_FEATURES", NULL, FFA_FEATURES, FFA_RXTX_MAP, 0, 0);
    counts("FFA_RUN", NULL, FFA_RUN, PARTITION << 16, 0, 0);
    counts("FFA_YIELD", NULL, FFA_YIELD, 0, 0, 0);
    counts("FFA_RUN of one that has yielded", NULL, FFA_RUN, PARTITION << 16, 0, 0);
    counts("FFA_MSG_WAIT", NULL, FFA_MSG_WAIT, 0, 0, 0);
    counts("FFA_MSG_SEND_DIRECT_REQ", NULL, FFA_MSG_SEND_DIRECT_REQ, PARTITION, 0, 1);
    counts("FFA_MSG_SEND_DIRECT_RESP", NULL, FFA_MSG_SEND_DIRECT_RESP, PARTITION << 16, 0, 1);
    sends("FFA_MSG_SEND2, 64 bytes", 64);
    counts("FFA_RX_RELEASE", NULL, FFA_RX_RELEASE, 0, 0, 0);
    run_normal_world();
    sends("FFA_MSG_SEND2, 4,096 bytes", GORSEPLUMB_PAGE_SIZE);
    run_normal_world();
    counts("FFA_NOTIFICATION_SET", NULL, FFA_NOTIFICATION_SET, PARTITION, 0, BIT);
    run_partition();
    counts("FFA_NOTIFICATION_GET", NULL, FFA_NOTIFICATION_GET, PARTITION, 7, 0);
    run_normal_world();
}

static void count_refusals(const struct shape *apart) {
    refuses("refused: an unknown function", NOT_SUPPORTED, UNKNOWN_FUNCTION, 0, 0);
    refuses("refused: FFA_RX_RELEASE of an empty RX", DENIED, FFA_RX_RELEASE, 0, 0);
    struct shape one = {"", TX_OF_PARTITION, 1, 1, 0, 1};
    uint64_t size = write_send(FFA_MEM_SHARE, NORMAL_WORLD, PARTITION, &one, 0);
    refuses("refused: FFA_MEM_SHARE of a page of another's", DENIED, FFA_MEM_SHARE, size, size);
    size = write_send(FFA_MEM_SHARE, NORMAL_WORLD, PARTITION, apart, 0);
    store(TX + size - 16, TX_OF_PARTITION);
    refuses("refused: FFA_MEM_SHARE of 64 ranges, the last another's", DENIED, FFA_MEM_SHARE, size, size);
    store(TX + size - 16, apart->first);
    refuses("refused: FFA_MEM_SHARE of 64 ranges, the last the first again", INVALID_PARAMETERS, FFA_MEM_SHARE, size, size);
}

static void count_accesses(void) {
    accesses("gorseplumb_load, 8 bytes", GORSEPLUMB_OPERATION_LOAD, PAGES, GORSEPLUMB_KIND_DATA);
    accesses("gorseplumb_load in a block", GORSEPLUMB_OPERATION_LOAD, BLOCK, GORSEPLUMB_KIND_DATA);
    accesses("gorseplumb_store, 8 bytes", GORSEPLUMB_OPERATION_STORE, PAGES, GORSEPLUMB_KIND_DONE);
    accesses("gorseplumb_load that faults", GORSEPLUMB_OPERATION_LOAD, TX_OF_PARTITION, GORSEPLUMB_KIND_FAULT);
}

static void count_all(void) {
    static const char *const share[] = {"FFA_MEM_SHARE", "FFA_MEM_RETRIEVE_REQ of a share", "FFA_MEM_RELINQUISH of a share",
                                        "FFA_MEM_RECLAIM of a share"};
    static const char *const lend[] = {"FFA_MEM_LEND", "FFA_MEM_RETRIEVE_REQ of a lend", "FFA_MEM_RELINQUISH of a lend",
                                       "FFA_MEM_RECLAIM of a lend"};
    static const struct shape shapes[] = {
        {"1 page", PAGES, 1, 1, 0, 1},
        {"64 ranges of a page", PAGES, GORSEPLUMB_MOST_RANGES, 1, 2, 1},
        {"1 page of a block", BLOCK, 1, 1, 0, 1},
        {"a block, 512 pages", BLOCK, 1, 512, 0, 1},
    };
    static const struct shape mixed = {"64 ranges, not in order", PAGES, GORSEPLUMB_MOST_RANGES, 1, 2, 37};
    count_calls();
    count_refusals(&shapes[1]);
    count_accesses();
    for (size_t i = 0; i < sizeof shapes / sizeof shapes[0]; i++) {
        borrows(share, &shapes[i], FFA_MEM_SHARE);
        borrows(lend, &shapes[i], FFA_MEM_LEND);
        if (shapes[i].pages == 1) clears(&shapes[i]);
        donates(&shapes[i]);
    }
    borrows(lend, &mixed, FFA_MEM_LEND);
}

int main(int word_count, char **words) {
    struct gorseplumb_lent lent = {0};
    if (word_count != 2) stop("calls ROUNDS", "ROUNDS is missing");
    long rounds = strtol(words[1], NULL, 10);
    if (gorseplumb_lend_all(&lent, pages, RAM_PAGES) != GORSEPLUMB_OK) stop("gorseplumb_lend_all", "no pages were lent");
    if (gorseplumb_boot_preloaded(&machine, &lent, (const uint8_t *)manifest, sizeof manifest - 1) != GORSEPLUMB_OK)
        stop("gorseplumb_boot_preloaded", "the manifest is refused");
    calls("FFA_RXTX_MAP", FFA_RXTX_MAP, TX, TX + GORSEPLUMB_PAGE_SIZE, 1);
    run_partition();
    calls("FFA_RXTX_MAP", FFA_RXTX_MAP, TX_OF_PARTITION, TX_OF_PARTITION + GORSEPLUMB_PAGE_SIZE, 1);
    calls("FFA_NOTIFICATION_BIND", FFA_NOTIFICATION_BIND, PARTITION, 0, BIT);
    run_normal_world();
    for (long i = 0; i < rounds; i++) count_all();
    return 0;
}
