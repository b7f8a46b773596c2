/* SPDX-License-Identifier: MIT OR Apache-2.0 */
/* Passes each FF-A call of U-Boot's sandbox to the library. The machine's RAM is the sandbox's own memory, so registers, addresses and buffers stay as
 * they are. U-Boot's tests read the state of their emulator with sandbox_query_ffa_emul_state. Here, this function asks the library. Each call and
 * its answer go to the file `calls`. */
#include <mapmem.h>
#include <os.h>
#include <string.h>
#include <vsprintf.h>
#include <asm/global_data.h>
#include <asm/sandbox_arm_ffa.h>
#include <asm/sandbox_arm_ffa_priv.h>
#include <linux/errno.h>
#define UINT32_C(number) number##U /* U-Boot's stdint.h does not define it */
#include "gorseplumb.h"
#include "lending.h"

DECLARE_GLOBAL_DATA_PTR;

#define PAGES_OF_BLOCK 512
#define COMPACT_DESCRIPTOR 8

static struct gorseplumb_machine machine;
static struct ffa_partition_desc descriptors[GORSEPLUMB_MOST_ENDPOINTS];
static struct ffa_partitions partitions = {.descs = descriptors};
static u64 rx;
static int calls;

static void stop(const char *why) {
    os_printf("! %s\n", why);
    os_exit(1);
}

static void put(const char *format, ...) {
    char text[64];
    va_list words;
    va_start(words, format);
    os_write(calls, text, vscnprintf(text, sizeof text, format, words));
    va_end(words);
}

static void put_registers(const u64 *x) {
    for (int i = 0; i < 8; i++) put(" %016llX", x[i]);
    put("\n");
}

/* Lists the manifest's partitions. U-Boot's tests compare this list with the list of U-Boot's driver. */
static void list_partitions(const struct gorseplumb_manifest *manifest) {
    for (u32 place = 1; place < manifest->endpoint_count; place++) {
        struct ffa_partition_desc *it = &descriptors[partitions.count++];
        it->info = (struct ffa_partition_info){.id = 0x8000 + place, .exec_ctxt = 1, .properties = manifest->endpoints[place].properties};
        memcpy(&it->sp_uuid, manifest->endpoints[place].uuid, sizeof it->sp_uuid);
    }
}

static void boot(void) {
    static struct gorseplumb_manifest manifest;
    static struct gorseplumb_lent lent;
    void *text;
    int size;
    u32 pages;
    calls = os_open("calls", OS_O_WRONLY | OS_O_CREAT | OS_O_TRUNC);
    if (calls < 0 || os_read_file("manifest", &text, &size) != 0) stop("there is no file calls, or no file manifest");
    if (gorseplumb_read_manifest(text, size, &manifest) != GORSEPLUMB_OK) stop("the library rejects the manifest");
    if (gd->start_addr_sp < manifest.endpoints[0].regions[0].base) stop("U-Boot uses memory below the normal world's region");
    manifest.ffa = GORSEPLUMB_FFA_1_2;
    pages = manifest.ram_blocks * PAGES_OF_BLOCK;
    if (gorseplumb_lend_all(&lent, map_sysmem(manifest.ram_base, 0), pages) != GORSEPLUMB_OK) stop("no pages were lent");
    if (gorseplumb_boot_preloaded_manifest(&machine, &lent, &manifest) != GORSEPLUMB_OK) stop("no machine was booted");
    list_partitions(&manifest);
}

static struct gorseplumb_outcome call(const struct gorseplumb_registers *asked) {
    struct gorseplumb_outcome told;
    if (!machine.live) boot();
    put("> call");
    put_registers(asked->x);
    told = gorseplumb_call(&machine, asked);
    put("< regs %04X", told.runner);
    put_registers(told.x);
    return told;
}

/* Responds for a partition as the emulator's partitions do: each bit of the payload is 1. */
static struct gorseplumb_outcome respond(const struct gorseplumb_outcome *request) {
    u64 sender = request->x[1] >> 16 & 0xFFFF, receiver = request->x[1] & 0xFFFF;
    struct gorseplumb_registers response = {{request->x[0] + 1, receiver << 16 | sender, 0, -1, -1, -1, -1, -1}};
    if ((request->x[0] & 0xFFFF) != FFA_MSG_SEND_DIRECT_REQ) stop("a partition runs without a request");
    return call(&response);
}

/* Writes the first bytes of RX as loads. */
static void put_rx(u64 bytes) {
    for (u64 at = rx; at < rx + bytes; at += 8) put("> load %llX 8\n< data %016llX\n", at, *(u64 *)map_sysmem(at, 8));
}

void invoke_ffa_fn(ffa_value_t args, ffa_value_t *res) {
    struct gorseplumb_registers asked;
    struct gorseplumb_outcome told;
    memcpy(&asked, &args, sizeof asked);
    told = call(&asked);
    while (told.runner != 0) told = respond(&told);
    memcpy(res, told.x, sizeof told.x);
    if (told.x[0] != FFA_SMC_32(FFA_SUCCESS)) return;
    if (args.a0 == FFA_SMC_64(FFA_RXTX_MAP)) rx = args.a2;
    if (args.a0 == FFA_SMC_32(FFA_PARTITION_INFO_GET)) put_rx(told.x[2] * COMPACT_DESCRIPTOR);
}

/* Returns whether the library would refuse a call by this check. */
static bool fails(u64 function, u32 check) {
    struct gorseplumb_registers asked = {{function}};
    struct gorseplumb_reason reason;
    return gorseplumb_why_call(&machine, &asked, &reason) && reason.check == check;
}

int sandbox_query_ffa_emul_state(u32 function, struct ffa_sandbox_data *to) {
    struct gorseplumb_registers version = {{FFA_SMC_32(FFA_VERSION), FFA_VERSION_1_0}};
    switch (function) {
    case FFA_VERSION:
        *(u32 *)to->data0 = call(&version).x[0];
        return 0;
    case FFA_RXTX_MAP:
        *(u8 *)to->data0 = fails(FFA_SMC_64(FFA_RXTX_MAP), GORSEPLUMB_CHECK_BUFFERS_MAPPED);
        return 0;
    case FFA_RX_RELEASE:
        *(u8 *)to->data0 = !fails(FFA_SMC_32(FFA_RX_RELEASE), GORSEPLUMB_CHECK_RX_EMPTY);
        return 0;
    case FFA_PARTITION_INFO_GET:
        *(struct ffa_partitions **)to->data0 = &partitions;
        return 0;
    default:
        return -EINVAL;
    }
}
