/* SPDX-License-Identifier: MIT OR Apache-2.0 */
/* Links libgorseplumb.a with no C library: what firmware has to give beside memory (array.c) and copies of bytes (bytes.c), one boot in
 * pages of its own, and their return. The few lines of assembler tell Linux the result; firmware has none of them. */
#include "gorseplumb.h"
#include "lending.h"

/* No processor walks these tables: nothing is to be settled. */
void gorseplumb_settle(uint16_t endpoint, uint64_t address, uint64_t size) { (void)endpoint, (void)address, (void)size; }

static _Alignas(GORSEPLUMB_PAGE_SIZE) struct gorseplumb_page pages[512];
static struct gorseplumb_machine machine;
static struct gorseplumb_lent list;

/* The normal world and one partition, in RAM of 2 MiB. */
static const struct gorseplumb_manifest manifest = {
    .ram_base = 0x40000000,
    .ram_blocks = 1,
    .endpoint_count = 2,
    .endpoints = {
        {.properties = 6, .region_count = 1, .regions = {{0x40010000, 16, GORSEPLUMB_WRITE}}},
        {.properties = 15, .uuid = {1}, .region_count = 1, .regions = {{0x40020000, 16, GORSEPLUMB_WRITE | GORSEPLUMB_EXECUTE}}},
    },
};

static int run(void) {
    if (gorseplumb_lend_all(&list, pages, 512) != GORSEPLUMB_OK) return 1;
    if (gorseplumb_boot_lent_manifest(&machine, &list, &manifest) != GORSEPLUMB_OK) return 2;
    if (gorseplumb_store(&machine, 0x40010000, 1, 0x2A).kind != GORSEPLUMB_KIND_DONE) return 3;
    if (gorseplumb_load(&machine, 0x40010000, 1).value != 0x2A || pages[16].bytes[0] != 0x2A) return 4;
    if (gorseplumb_end(&machine, &list) != GORSEPLUMB_OK || !gorseplumb_take_all_back(&list, pages, 512)) return 5;
    return 0;
}

void _start(void);

#if defined(__aarch64__)
void _start(void) {
    register long status __asm__("x0") = run();
    register long number __asm__("x8") = 93;
    __asm__ volatile("svc 0" : : "r"(status), "r"(number));
    __builtin_unreachable();
}
#elif defined(__x86_64__)
__attribute__((force_align_arg_pointer)) void _start(void) {
    long status = run();
    __asm__ volatile("syscall" : : "a"(60L), "D"(status) : "rcx", "r11", "memory");
    __builtin_unreachable();
}
#else
#error "no end for this processor"
#endif
