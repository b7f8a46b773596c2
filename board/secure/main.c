/* SPDX-License-Identifier: MIT OR Apache-2.0 */
/* The firmware's entries, for the processor that TF-A boots on and for another that the normal world turns on. */
#include "bytes.h"
#include "calls.h"
#include "guest.h"
#include "layout.h"
#include "secure.h"
#include "text.h"

void firmware(void);
void second_processor(void);

static struct board board;
static struct gorseplumb_manifest manifest;

/* The text's machine, which serves FF-A 1.2, moved to where RAM is, with its tables where they are to stand there: a text can't say the version, can't
 * have RAM at any 2 MiB, nor its tables elsewhere than at RAM's start. */
static void read_manifest(void) {
    size_t size = 0;
    while (manifest_text[size] != '\0') size++;
    if (read_manifest_of_1_2((const uint8_t *)manifest_text, size, &manifest) != GORSEPLUMB_OK) stop("the manifest is refused");
    uint32_t by = (uint32_t)RAM_BASE - manifest.ram_base;
    manifest.ram_base += by;
    manifest.tables = (uint32_t)(TABLES_AT - RAM_BASE) / GORSEPLUMB_PAGE_SIZE;
    for (uint32_t i = 0; i < manifest.endpoint_count; i++) {
        struct gorseplumb_endpoint *endpoint = &manifest.endpoints[i];
        for (uint32_t j = 0; j < endpoint->region_count; j++) endpoint->regions[j].base += by;
    }
}

static enum gorseplumb_answer boot_manifest(struct gorseplumb_machine *machine, struct gorseplumb_lent *lent, const uint8_t *text, size_t size) {
    (void)text;
    (void)size;
    return gorseplumb_boot_preloaded_manifest(machine, lent, &manifest);
}

/* The partitions' program, where it stands in the image since QEMU can't put it into RAM: to the beginning of each one's first region. */
#ifdef IN_IMAGE
extern const unsigned char partition_image[], partition_image_end[];

static void place_images(void) {
    for (uint32_t i = 1; i < manifest.endpoint_count; i++) {
        memcpy((void *)(uintptr_t)manifest.endpoints[i].regions[0].base, partition_image, (size_t)(partition_image_end - partition_image));
    }
}
#else
static void place_images(void) {}
#endif

/* Each partition runs once before the normal world does, for what it has to do at its start. */
static void run_first(void) {
    for (uint32_t i = 1; i < board.count; i++) {
        serve_first_run(&board, i);
        if ((uint32_t)normal_world(&board)->context.x[0] != FFA_MSG_WAIT) stop("a partition doesn't come to wait");
    }
}

void firmware(void) {
    read_manifest();
    place_images();
    boot(&board, manifest_text, boot_manifest);
    place_endpoints(&board, endpoint_list);
    begin_partitions();
    run_first();
    put_text("# the core is the manager, and has endpoints: ");
    put_decimal(board.count);
    put_text("\n");
    serve_normal_world(&board, true);
}

void second_processor(void) {
    begin_partitions();
    serve_normal_world(&board, false);
}
