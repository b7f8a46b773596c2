/* SPDX-License-Identifier: MIT OR Apache-2.0 */
/* The firmware that runs Linux as the normal world of the core. */
#include "guest.h"
#include "layout.h"
#include "processor.h"
#include "text.h"

void firmware(void);
void second_processor(void);

static struct board board;

static uint64_t nanoseconds(void) { return read_cntpct_el0() * (UINT64_C(1000000000) / read_cntfrq_el0()); }

/* Where the emulator counts an instruction as a nanosecond, this is how many a boot takes. */
static void put_boot(uint64_t took) {
    put_text("# boot: ");
    put_decimal(took);
    put_text(" ns\n");
}

/* A processor that Linux has turned on. */
void second_processor(void) {
    begin_guests(&board);
    run_guests(&board);
}

static uint32_t boot_in(struct gorseplumb_machine *machine, struct gorseplumb_lent *list, const uint8_t *text, size_t size) {
    struct gorseplumb_manifest manifest;
    uint32_t answer = read_manifest_of_1_2(text, size, &manifest);
    return answer == GORSEPLUMB_OK ? gorseplumb_boot_preloaded_manifest(machine, list, &manifest) : answer;
}

void firmware(void) {
    uint64_t begin = nanoseconds();
    boot(&board, (const char *)MANIFEST_TEXT, boot_in);
    put_boot(nanoseconds() - begin);
    place_endpoints(&board, (const char *)ENDPOINT_LIST);
    begin_guests(&board);
    run_guests(&board);
}
