/* SPDX-License-Identifier: MIT OR Apache-2.0 */
/* Boots a machine from numbers, operates and copies it on a stack of 64 KiB, with no C library, as firmware may: in lent pages, and on RAM
 * of the heap. The stack and 1 MiB below it are painted anew for each part, and the part took what isn't paint behind it. Where that is
 * more than the stack, the status is 1. The assembler asks Linux to write and to end; firmware has none of that. */
#include "bytes.h"
#include "../board/calls.h"
#include "gorseplumb.h"
#include "lending.h"

#define STACK_BYTES 0x10000
#define BELOW_BYTES 0x100000
#define PAINT 0xA5

void gorseplumb_settle(uint16_t endpoint, uint64_t address, uint64_t size) { (void)endpoint, (void)address, (void)size; }

/* Runs a function on the stack that ends below `top`. */
void run_on(unsigned char *top, void (*part)(void));

#if defined(__aarch64__)
#define LINUX_WRITE 64
#define LINUX_EXIT 93
__asm__(".text\n"
        ".global run_on\n"
        "run_on: stp x29, x30, [sp, #-16]!\n"
        "mov x29, sp\n"
        "mov sp, x0\n"
        "blr x1\n"
        "mov sp, x29\n"
        "ldp x29, x30, [sp], #16\n"
        "ret\n");

static void ask(long number, long first, const char *text, size_t size) {
    register long x8 __asm__("x8") = number;
    register long x0 __asm__("x0") = first;
    register const char *x1 __asm__("x1") = text;
    register size_t x2 __asm__("x2") = size;
    __asm__ volatile("svc 0" : "+r"(x0) : "r"(x8), "r"(x1), "r"(x2) : "memory");
}
#define ENTRY
#elif defined(__x86_64__)
#define LINUX_WRITE 1
#define LINUX_EXIT 60
__asm__(".text\n"
        ".global run_on\n"
        "run_on: push %rbp\n"
        "mov %rsp, %rbp\n"
        "mov %rdi, %rsp\n"
        "call *%rsi\n"
        "mov %rbp, %rsp\n"
        "pop %rbp\n"
        "ret\n");

static void ask(long number, long first, const char *text, size_t size) {
    __asm__ volatile("syscall" : "+a"(number) : "D"(first), "S"(text), "d"(size) : "rcx", "r11", "memory");
}
#define ENTRY __attribute__((force_align_arg_pointer))
#else
#error "no stack for this processor"
#endif

static void put(int descriptor, const char *text) {
    size_t size = 0;
    while (text[size] != '\0') size++;
    ask(LINUX_WRITE, descriptor, text, size);
}

static void put_decimal(size_t number) {
    char digits[21] = {0};
    char *first = digits + 20;
    do {
        *--first = (char)('0' + number % 10);
        number /= 10;
    } while (number != 0);
    put(1, first);
}

static _Alignas(16) struct {
    unsigned char below[BELOW_BYTES];
    unsigned char stack[STACK_BYTES];
} painted;

static _Alignas(GORSEPLUMB_PAGE_SIZE) struct gorseplumb_page pages[512];
static struct gorseplumb_machine machine, saved;
static struct gorseplumb_lent list;
static const char *wrong; /* what was first not as it has to be */

static void check(bool is_so, const char *what) {
    if (!is_so && wrong == NULL) wrong = what;
}

/* The normal world and two partitions, in RAM of 2 MiB. */
static const struct gorseplumb_manifest manifest = {
    .ram_base = 0x40000000,
    .ram_blocks = 1,
    .endpoint_count = 3,
    .endpoints = {
        {.properties = 6, .region_count = 1, .regions = {{0x40010000, 16, GORSEPLUMB_WRITE}}},
        {.properties = 15, .uuid = {1}, .region_count = 1, .regions = {{0x40020000, 16, GORSEPLUMB_WRITE | GORSEPLUMB_EXECUTE}}},
        {.properties = 15, .uuid = {2}, .region_count = 1, .regions = {{0x40030000, 16, GORSEPLUMB_WRITE}}},
    },
};

static void lend_pages(void) { check(gorseplumb_lend_all(&list, pages, 512) == GORSEPLUMB_OK, "no pages are lent"); }

static void boot_lent(void) { check(gorseplumb_boot_lent_manifest(&machine, &list, &manifest) == GORSEPLUMB_OK, "no boot in lent pages"); }

static void boot_heap(void) { check(gorseplumb_boot_manifest(&machine, &manifest) == GORSEPLUMB_OK, "no boot on RAM of the heap"); }

static void end(void) { check(gorseplumb_end(&machine, &list) == GORSEPLUMB_OK, "the machine doesn't end"); }

static void copy_to_heap(void) { check(gorseplumb_copy(&saved, &machine) == GORSEPLUMB_OK, "no copy on RAM of the heap"); }

static void copy_to_lent(void) {
    check(gorseplumb_copy_lent(&machine, &list, &saved) == GORSEPLUMB_OK, "no copy in lent pages");
    check(gorseplumb_load(&machine, 0x40010000, 8).value == 0x2A, "a copy has other bytes");
    check(gorseplumb_end_heap(&saved) == GORSEPLUMB_OK, "the copy doesn't end");
}

static void take_pages_back(void) { check(gorseplumb_take_all_back(&list, pages, 512), "pages stay lent"); }

/* The endpoint that runs makes a call, behind which the next that runs sees `seen` in w0. */
static void call(uint16_t endpoint, uint64_t function, uint64_t x1, uint64_t x2, uint64_t x3, uint64_t seen) {
    struct gorseplumb_registers given = {{function, x1, x2, x3}};
    check(gorseplumb_runner(&machine) == endpoint, "another endpoint runs");
    struct gorseplumb_outcome told = gorseplumb_call(&machine, &given);
    check(told.kind == GORSEPLUMB_KIND_REGISTERS && told.x[0] == seen, "a call has another answer");
}

static void store(uint64_t address, uint64_t value) {
    check(gorseplumb_store(&machine, address, 8, value).kind == GORSEPLUMB_KIND_DONE, "a store isn't done");
}

static void load(uint64_t address, uint64_t value) {
    struct gorseplumb_outcome told = gorseplumb_load(&machine, address, 8);
    check(told.kind == GORSEPLUMB_KIND_DATA && told.value == value, "a load gives something else");
}

/* The normal world lends 8001 a page, to read and write. */
static void lend(void) {
    call(0, FFA_RXTX_MAP, 0x4001E000, 0x4001F000, 1, FFA_SUCCESS);
    store(0x40010000, 0x2A);
    store(0x4001E018, 0x0000000100000010);
    store(0x4001E020, 0x30);
    store(0x4001E030, 0x0000004000028001);
    store(0x4001E040, 0x0000000100000001);
    store(0x4001E050, 0x40010000);
    store(0x4001E058, 1);
    call(0, FFA_MEM_LEND, 0x60, 0x60, 0, FFA_SUCCESS);
    check(gorseplumb_load(&machine, 0x40010000, 8).kind == GORSEPLUMB_KIND_FAULT, "a page that is lent is still there");
}

/* 8001 retrieves it, and gives it up. */
static void borrow(void) {
    call(0x8001, FFA_RXTX_MAP, 0x4002E000, 0x4002F000, 1, FFA_SUCCESS);
    store(0x4002E008, 1);
    store(0x4002E018, 0x0000000100000010);
    store(0x4002E020, 0x30);
    store(0x4002E030, 0x8001);
    call(0x8001, FFA_MEM_RETRIEVE_REQ, 0x40, 0x40, 0, FFA_MEM_RETRIEVE_RESP);
    load(0x40010000, 0x2A);
    store(0x4002E000, 1);
    store(0x4002E008, 0x0000000100000000);
    store(0x4002E010, 0x8001);
    call(0x8001, FFA_MEM_RELINQUISH, 0, 0, 0, FFA_SUCCESS);
}

static void operate(void) {
    static struct gorseplumb_change change;
    lend();
    call(0, FFA_RUN, 0x80010000, 0, 0, FFA_RUN);
    borrow();
    check(gorseplumb_take_change(&machine, &change) && change.endpoint == 0x8001, "no change is told");
    check(gorseplumb_fetch(&machine, 0x40020000).kind == GORSEPLUMB_KIND_DATA, "a fetch isn't done");
    call(0x8001, FFA_MSG_WAIT, 0, 0, 0, FFA_MSG_WAIT);
    call(0, FFA_MEM_RECLAIM, 1, 0, 0, FFA_SUCCESS);
    load(0x40010000, 0x2A);
}

/* Behind `operate` the descriptor of its lend stands in TX still: in 16 bytes less its range doesn't end there. */
static void explain(void) {
    static struct gorseplumb_reason reason;
    struct gorseplumb_registers shorter = {{FFA_MEM_LEND, 0x50, 0x50}}, again = {{FFA_MEM_RECLAIM, 1}};
    check(gorseplumb_why_call(&machine, &shorter, &reason), "a shorter lend would be done");
    check(reason.flaw == GORSEPLUMB_FLAW_COMPOSITE_RANGES_OUTSIDE, "it has another flaw");
    check(gorseplumb_why_call(&machine, &again, &reason), "a second reclaim would be done");
    check(reason.check == GORSEPLUMB_CHECK_NOT_THE_SENDERS, "it fails another check");
    check(gorseplumb_why_load(&machine, 0x40030000, 8, &reason), "a load would be done");
    check(reason.owner == 0x8002, "its page has another owner");
    check(!gorseplumb_why_store(&machine, 0x40010000, 8, &reason), "a store would be refused");
}

/* Runs a part on the painted stack, and prints what it took. */
static void take(const char *name, void (*part)(void)) {
    const unsigned char *lowest = painted.below, *top = painted.stack + STACK_BYTES;
    memset(&painted, PAINT, sizeof painted);
    run_on(painted.stack + STACK_BYTES, part);
    while (lowest < top && *lowest == PAINT) lowest++;
    put(1, name);
    put_decimal((size_t)(top - lowest));
    check(lowest >= painted.stack, "it takes more than 64 KiB of stack");
}

void _start(void);

ENTRY void _start(void) {
    put(1, "bytes of stack in lent pages:");
    take(" lending ", lend_pages);
    take(", boot ", boot_lent);
    take(", operations ", operate);
    take(", reasons ", explain);
    take(", copy to the heap ", copy_to_heap);
    take(", end ", end);
    take(", copy from there ", copy_to_lent);
    take(", end ", end);
    take(", return ", take_pages_back);
    put(1, "; on RAM of the heap:");
    take(" boot ", boot_heap);
    take(", operations ", operate);
    take(", reasons ", explain);
    take(", end ", end);
    put(1, "\n");
    if (wrong != NULL) {
        put(2, "small_stack: ");
        put(2, wrong);
        put(2, "\n");
    }
    ask(LINUX_EXIT, wrong != NULL, NULL, 0);
    __builtin_unreachable();
}
