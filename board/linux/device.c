/* SPDX-License-Identifier: MIT OR Apache-2.0 */
/* Devices of QEMU's machine `virt` that Linux has. The core knows of memory alone, so no table maps them: each access is a fault of
 * stage 2, whose syndrome says what it was, and the firmware does it. */
#include "access.h"
#include "guest.h"
#include "layout.h"
#include "text.h"

#define DISTRIBUTOR 0x08000000
#define DISTRIBUTOR_BYTES 0x10000
#define REDISTRIBUTOR 0x080A0000
#define REDISTRIBUTOR_BYTES (SEVERAL ? 0x100000 : 0x20000) /* of as many processors as may be, or of one */
#define UART_BYTES 0x1000

static bool within(uint64_t address, unsigned size, uint64_t base, uint64_t bytes) {
    return address >= base && address - base <= bytes - size;
}

static bool is_device(uint64_t address, unsigned size) {
    return within(address, size, DISTRIBUTOR, DISTRIBUTOR_BYTES) || within(address, size, REDISTRIBUTOR, REDISTRIBUTOR_BYTES) ||
           within(address, size, UART_BASE, UART_BYTES);
}

/* Whether Linux's line is open: both write to the same serial line. */
static bool open_line;

void begin_line(void) {
    if (open_line) put_text("\n");
    open_line = false;
}

bool serve_device(struct context *context, uint64_t syndrome, uint64_t address) {
    if (!is_described(syndrome) || !is_device(address, size_of(syndrome))) return false;
    uint64_t value = do_access(context, syndrome, address);
    if (is_write(syndrome) && address == UART_BASE) open_line = (uint8_t)value != '\n';
    return true;
}
