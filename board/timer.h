/* SPDX-License-Identifier: MIT OR Apache-2.0 */
/* The hypervisor's physical timer, and the interrupt controller (GICv3) of QEMU's machine `virt`, of which a processor that masks interrupts takes the
 * timer's by hand. */
#ifndef BOARD_TIMER_H
#define BOARD_TIMER_H

#include <stdbool.h>
#include "processor.h"

SYSTEM_REGISTER(cnthp_ctl_el2)
SYSTEM_REGISTER(cnthp_cval_el2)
SYSTEM_REGISTER(icc_sre_el2)
SYSTEM_REGISTER(icc_pmr_el1)
SYSTEM_REGISTER(icc_igrpen1_el1)
SYSTEM_REGISTER(icc_iar1_el1)
SYSTEM_REGISTER(icc_eoir1_el1)

/* A register of the distributor, and of a processor's redistributor, which has its own interrupts in a second frame (IHI 0069, 12). */
#define OF_DISTRIBUTOR(offset) ((volatile uint32_t *)(UINT64_C(0x08000000) + (offset)))
#define OF_REDISTRIBUTOR(processor, offset) ((volatile uint32_t *)(UINT64_C(0x080A0000) + UINT64_C(0x20000) * (processor) + (offset)))
#define CONTROL OF_DISTRIBUTOR(0)
#define WAKER(processor) OF_REDISTRIBUTOR(processor, 0x14)
#define GROUPS(processor) OF_REDISTRIBUTOR(processor, 0x10080)
#define ENABLES(processor) OF_REDISTRIBUTOR(processor, 0x10100)
#define DISABLES(processor) OF_REDISTRIBUTOR(processor, 0x10180)
#define MODIFIERS(processor) OF_REDISTRIBUTOR(processor, 0x10D00)

/* Their fields, and those of ICC_SRE_EL2 (SRE, DFB, DIB, and Enable for EL1) and ICC_PMR_EL1. */
#define AFFINITY_ROUTING 0x10
#define ENABLE_GROUP_1 2
#define SLEEP 2
#define ASLEEP 4
#define BY_REGISTERS 15
#define ALL_PRIORITIES 0xFF

/* The number of the timer's interrupt, and ENABLE of CNTHP_CTL_EL2. */
#define TIMERS_INTERRUPT 26
#define ENABLE 1

static inline uint32_t own_number(void) { return (uint32_t)read_mpidr_el1() & 0xFF; }

static inline void stop_timer(void) {
    write_cnthp_ctl_el2(0);
    DO("isb");
}

/* Makes this processor ready for the timer's interrupt. It is woken, and interrupts are made those of group 1, which only the secure world can do,
 * where there is one: it has done so, and stores of the other change nothing. */
static inline void begin_timer(void) {
    uint32_t processor = own_number();
    *CONTROL = AFFINITY_ROUTING | ENABLE_GROUP_1;
    *WAKER(processor) &= ~(uint32_t)SLEEP;
    while (*WAKER(processor) & ASLEEP) continue;
    *GROUPS(processor) = UINT32_MAX;
    *ENABLES(processor) = UINT32_C(1) << TIMERS_INTERRUPT;
    write_icc_sre_el2(BY_REGISTERS);
    DO("isb");
    write_icc_pmr_el1(ALL_PRIORITIES);
    write_icc_igrpen1_el1(1);
    stop_timer();
}

static inline void set_timer(uint64_t microseconds) {
    write_cnthp_cval_el2(read_cntpct_el0() + microseconds * (read_cntfrq_el0() / 1000000));
    write_cnthp_ctl_el2(ENABLE);
    DO("isb");
}

static inline bool is_timer_set(void) { return read_cnthp_ctl_el2() & ENABLE; }

/* The timer's interrupt is taken, and ends: whether this is what was pending. */
static inline bool take_timer(void) {
    uint64_t number = read_icc_iar1_el1();
    if (number != TIMERS_INTERRUPT) return false;
    stop_timer();
    write_icc_eoir1_el1(number);
    return true;
}

#endif
