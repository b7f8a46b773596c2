/* SPDX-License-Identifier: MIT OR Apache-2.0 */
/* System registers and barriers of the processor, and what is read in a syndrome. */
#ifndef BOARD_PROCESSOR_H
#define BOARD_PROCESSOR_H

#include <stdint.h>

/* read_NAME and write_NAME of a system register. */
#define SYSTEM_REGISTER(name)                                             \
    static inline uint64_t read_##name(void) {                            \
        uint64_t value;                                                   \
        __asm__ volatile("mrs %0, " #name : "=r"(value) : : "memory");    \
        return value;                                                     \
    }                                                                     \
    static inline void write_##name(uint64_t value) {                     \
        __asm__ volatile("msr " #name ", %0" : : "r"(value) : "memory");  \
    }

SYSTEM_REGISTER(esr_el2)
SYSTEM_REGISTER(far_el2)
SYSTEM_REGISTER(hcr_el2)
SYSTEM_REGISTER(vtcr_el2)
SYSTEM_REGISTER(vttbr_el2)
SYSTEM_REGISTER(mpidr_el1)
SYSTEM_REGISTER(cntpct_el0)
SYSTEM_REGISTER(cntfrq_el0)

/* An instruction with no operand, as a barrier or an invalidation, between all that stands before and behind it. */
#define DO(instruction) __asm__ volatile(instruction : : : "memory")

/* Exception classes of a syndrome (DDI 0487, ESR_EL2.EC). */
enum {
    CLASS_UNKNOWN = 0x00,
    CLASS_SVC = 0x15,
    CLASS_HVC = 0x16,
    CLASS_SMC = 0x17,
    CLASS_FETCH_BELOW = 0x20, /* an instruction abort of a lower exception level */
    CLASS_FETCH_SAME = 0x21,
    CLASS_PC_ALIGNMENT = 0x22,
    CLASS_DATA_BELOW = 0x24,
    CLASS_DATA_SAME = 0x25,
    CLASS_STEP_BELOW = 0x32,
    CLASS_BRK = 0x3C
};

static inline unsigned class_of(uint64_t syndrome) { return (unsigned)(syndrome >> 26) & 0x3F; }
static inline unsigned immediate_of(uint64_t syndrome) { return (unsigned)syndrome & 0xFFFF; }

/* The status of an abort, without its level (DDI 0487, ESR_EL2.ISS of an abort: DFSC and IFSC). */
enum {
    STATUS_ADDRESS_SIZE = 0x00,
    STATUS_TRANSLATION = 0x04,
    STATUS_ACCESS_FLAG = 0x08,
    STATUS_PERMISSION = 0x0C,
    STATUS_ALIGNMENT = 0x21
};

static inline unsigned status_of(uint64_t syndrome) {
    unsigned status = (unsigned)syndrome & 0x3F;
    return status == STATUS_ALIGNMENT ? status : status & ~3u;
}

#endif
