/* SPDX-License-Identifier: MIT OR Apache-2.0 */
#include "bytes.h"
#include "layout.h"
#include "normal.h"
#include "text.h"

#ifndef MEASURE
#define MEASURE 0 /* 1 measures, and tries nothing */
#endif
#ifndef SMALL
#define SMALL 0 /* 1 has a machine in QEMU's secure memory, 12 MiB from 0E400000 on */
#endif
#ifndef TWO
#define TWO 0 /* 1 turns a second processor on */
#endif

#define SMALL_PARTITION 0x0E500000

void normal_world(void);

static unsigned failed;

void say(const char *what, const uint64_t *x) {
    unsigned count = 8;
    while (count > 1 && x[count - 1] == 0) count--;
    put_text("normal: ");
    put_text(what);
    put_text(":");
    for (unsigned i = 0; i < count; i++) {
        put_text(" ");
        put_number(x[i]);
    }
    put_text("\n");
}

void want(const char *what, bool holds) {
    put_text(holds ? "ok: " : "FAILED: ");
    put_text(what);
    put_text("\n");
    failed += !holds;
}

static void list_partitions(void) {
    uint64_t *x = ask(FFA_PARTITION_INFO_GET, 0, 0, 0);
    uint64_t count = x[2], size = x[3] ? x[3] : 8; /* FF-A 1.0 says nothing of its eight bytes */
    say("FFA_PARTITION_INFO_GET", x);
    want("there are partitions", is_success(x) && count >= 1);
    for (uint64_t i = 0; i < count && i < 7; i++) {
        uint64_t words[8] = {0};
        memcpy(words, BUFFER_RX + i * size, size);
        say("  a partition", words);
        want("their identifiers are in order", (uint16_t)words[0] == PARTITION_1 + i);
    }
    want("RX is released", is_success(ask(FFA_RX_RELEASE, 0, 0, 0)));
    want("and not twice", is_error(ask(FFA_RX_RELEASE, 0, 0, 0), DENIED));
}

void try_setup(void) {
    uint64_t *x = ask(FFA_VERSION, 0x10001, 0, 0);
    say("FFA_VERSION", x);
    want("the version is 1.2, or 1.0 if the dispatcher answers", (uint32_t)x[0] == 0x10002 || (uint32_t)x[0] == 0x10000);
    x = ask(FFA_ID_GET, 0, 0, 0);
    say("FFA_ID_GET", x);
    want("the normal world is 0", is_success(x) && x[2] == 0);
    say("FFA_SPM_ID_GET", ask(FFA_SPM_ID_GET, 0, 0, 0));
    x = ask(FFA_FEATURES, FFA_MEM_DONATE, 0, 0);
    say("FFA_FEATURES of FFA_MEM_DONATE", x);
    want("a donate is known", is_success(x));
    x = ask(FFA_RXTX_MAP | WITH_64_BITS, (uint64_t)BUFFER_TX, (uint64_t)BUFFER_RX, 1);
    say("FFA_RXTX_MAP", x);
    want("buffers are mapped", is_success(x));
    list_partitions();
    want("the dispatcher refuses FFA_MSG_WAIT of the normal world", is_error(ask(FFA_MSG_WAIT, 0, 0, 0), NOT_SUPPORTED));
}

/* What isn't the normal world's. QEMU guards the secure memory of TF-A and of the firmware, and no other of this machine's. */
void try_reach(void) {
    uint64_t seen = probe(0x0E100000);
    want("the firmware is out of reach", seen >> 63 == 1);
    put_text("note: of a partition's page the normal world loads ");
    put_number(probe(0x48100000));
    put_text("\n");
}

/* Where all of the machine's RAM is secure memory: requests, which need none of the normal world's. */
static void be_kept_out(void) {
    uint64_t *x = ask(FFA_VERSION, 0x10001, 0, 0);
    say("FFA_VERSION", x);
    try_messages();
    want("a partition's page is out of reach", probe(SMALL_PARTITION) >> 63 == 1);
    want("the tables are out of reach", probe(TABLES_AT) >> 63 == 1);
}

static void try_all(void) {
    try_setup();
    if (MEASURE) {
        measure();
    } else {
        try_messages();
        if (!OF_TSP) try_interrupts();
        try_memory();
        try_reach();
        if (TWO) try_two();
    }
    want("buffers are unmapped", is_success(ask(FFA_RXTX_UNMAP, 0, 0, 0)));
}

void normal_world(void) {
    if (SMALL) be_kept_out();
    else if (OF_OPTEE) try_optee();
    else try_all();
    if (failed) stop("something came out otherwise");
    end_well();
}
