/* SPDX-License-Identifier: MIT OR Apache-2.0 */
#include "access.h"
#include "text.h"

#define IS_SIGNED(syndrome) ((syndrome) >> 21 & 1)
#define REGISTER_OF(syndrome) ((unsigned)((syndrome) >> 16) & 31)
#define ZERO_REGISTER 31

static uint64_t read_device(uint64_t address, unsigned size) {
    switch (size) {
    case 1:
        return *(volatile uint8_t *)address;
    case 2:
        return *(volatile uint16_t *)address;
    case 4:
        return *(volatile uint32_t *)address;
    default:
        return *(volatile uint64_t *)address;
    }
}

static void write_device(uint64_t address, unsigned size, uint64_t value) {
    switch (size) {
    case 1:
        *(volatile uint8_t *)address = (uint8_t)value;
        break;
    case 2:
        *(volatile uint16_t *)address = (uint16_t)value;
        break;
    case 4:
        *(volatile uint32_t *)address = (uint32_t)value;
        break;
    default:
        *(volatile uint64_t *)address = value;
    }
}

uint64_t read_register(const struct context *context, uint64_t syndrome) {
    unsigned number = REGISTER_OF(syndrome);
    return number == ZERO_REGISTER ? 0 : context->x[number];
}

void write_register(struct context *context, uint64_t syndrome, uint64_t value) {
    unsigned number = REGISTER_OF(syndrome);
    if (number != ZERO_REGISTER) context->x[number] = value;
}

uint64_t do_access(struct context *context, uint64_t syndrome, uint64_t address) {
    unsigned size = size_of(syndrome);
    uint64_t value;
    if (IS_SIGNED(syndrome)) stop("a device is read with a sign");
    if (is_write(syndrome)) {
        value = read_register(context, syndrome);
        write_device(address, size, value);
    } else {
        value = read_device(address, size);
        write_register(context, syndrome, value);
    }
    context->pc += 4;
    return value;
}
