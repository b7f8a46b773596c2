/* SPDX-License-Identifier: MIT OR Apache-2.0 */
#include "text.h"
#include "layout.h"

#define UART_DATA ((volatile uint32_t *)UART_BASE)
#define UART_FLAGS ((volatile uint32_t *)(UART_BASE + 0x18))
#define UART_FULL 0x20

static void put_byte(char byte) {
    while (*UART_FLAGS & UART_FULL) continue;
    *UART_DATA = (uint32_t)(unsigned char)byte;
}

void put_text(const char *text) {
    while (*text != '\0') put_byte(*text++);
}

void put_hex(uint64_t value, unsigned digits) {
    while (digits-- > 0) put_byte("0123456789ABCDEF"[value >> (4 * digits) & 15]);
}

void put_number(uint64_t value) {
    unsigned digits = 1;
    while (digits < 16 && value >> (4 * digits) != 0) digits++;
    put_hex(value, digits);
}

void put_decimal(uint64_t value) {
    if (value >= 10) put_decimal(value / 10);
    put_byte((char)('0' + value % 10));
}

bool same_text(const char *one, const char *other) {
    while (*one != '\0' && *one == *other) one++, other++;
    return *one == *other;
}

static bool ends_word(char byte) { return byte == ' ' || byte == '\n' || byte == '\0'; }

static int digit_of(char byte) {
    if (byte >= '0' && byte <= '9') return byte - '0';
    if (byte >= 'A' && byte <= 'F') return byte - 'A' + 10;
    if (byte >= 'a' && byte <= 'f') return byte - 'a' + 10;
    return -1;
}

bool take_hex(const char **at, uint64_t *value, unsigned *digits) {
    const char *from = *at;
    *value = 0;
    *digits = 0;
    while (!ends_word(*from)) {
        int digit = digit_of(*from++);
        if (digit < 0 || ++*digits > 16) return false;
        *value = *value << 4 | (uint64_t)digit;
    }
    *at = *from == ' ' ? from + 1 : from;
    return *digits > 0;
}

bool take_word(const char **at, const char *word) {
    const char *from = *at;
    while (*word != '\0' && *from == *word) from++, word++;
    if (*word != '\0' || !ends_word(*from)) return false;
    *at = *from == ' ' ? from + 1 : from;
    return true;
}

/* Turns the board off. The normal world and a firmware at EL2 do so by PSCI's SYSTEM_OFF. The secure world cannot, and uses semihosting's SYS_EXIT, which
 * run.sh has QEMU serve. */
static _Noreturn void turn_off(void) {
#if SECURE
    static const uint64_t application_exit[2] = {0x20026, 0};
    register uint64_t operation __asm__("x0") = 0x18;
    register const uint64_t *reason __asm__("x1") = application_exit;
    __asm__ volatile("hlt #0xf000" : "+r"(operation) : "r"(reason) : "memory");
#else
    register uint64_t function __asm__("x0") = 0x84000008;
    __asm__ volatile("smc #0" : "+r"(function) : : "x1", "x2", "x3", "memory");
#endif
    for (;;) __asm__ volatile("wfe");
}

_Noreturn void stop(const char *why) {
    put_text("! ");
    put_text(why);
    put_text("\n");
    turn_off();
}

_Noreturn void end_well(void) {
    put_text("= end\n");
    turn_off();
}
