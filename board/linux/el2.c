/* SPDX-License-Identifier: MIT OR Apache-2.0 */
#include "el2.h"
#include "processor.h"
#include "tables.h"
#include "timer.h"

SYSTEM_REGISTER(cntvoff_el2)
SYSTEM_REGISTER(hstr_el2)
SYSTEM_REGISTER(vpidr_el2)
SYSTEM_REGISTER(vmpidr_el2)
SYSTEM_REGISTER(midr_el1)
SYSTEM_REGISTER(ich_hcr_el2)
SYSTEM_REGISTER(cntv_ctl_el0)
SYSTEM_REGISTER(cntv_cval_el0)
SYSTEM_REGISTER(cntp_ctl_el0)
SYSTEM_REGISTER(cntp_cval_el0)

void begin_el2(uint64_t hcr) {
    begin_tables(hcr);
    write_vpidr_el2(read_midr_el1());
    write_vmpidr_el2(read_mpidr_el1());
    write_hstr_el2(0);
    write_cntvoff_el2(0);
    write_icc_sre_el2(BY_REGISTERS);
    DO("isb");
    write_ich_hcr_el2(0);
}

void note_timers(struct timers *of) {
    of->virtual_control = read_cntv_ctl_el0();
    of->virtual_value = read_cntv_cval_el0();
    of->physical_control = read_cntp_ctl_el0();
    of->physical_value = read_cntp_cval_el0();
    of->priority = read_icc_pmr_el1();
}

void put_aside(struct timers *of) {
    note_timers(of);
    write_cntv_ctl_el0(0);
    write_cntp_ctl_el0(0);
    let_nothing_through();
}

void let_nothing_through(void) { write_icc_pmr_el1(0); }

/* The hypervisor's physical timer rings in place of those that are put aside. Its interrupt is enabled in the processor's redistributor, which
 * Linux has for itself otherwise (IHI 0069, 12.11), and is over when the timer is off: nobody takes it from the controller. */
#define OF_HYPERVISORS_TIMER (UINT32_C(1) << TIMERS_INTERRUPT)

/* When a timer rings (CNTV_CTL_EL0, CNTP_CTL_EL0: ENABLE and not IMASK), or never. */
static uint64_t rings_at(uint64_t control, uint64_t value) { return (control & 3) == 1 ? value : UINT64_MAX; }

void let_interrupts_come(const struct timers *of) {
    uint64_t one = rings_at(of->virtual_control, of->virtual_value), other = rings_at(of->physical_control, of->physical_value);
    write_cnthp_cval_el2(one < other ? one : other);
    write_cnthp_ctl_el2(ENABLE);
    *ENABLES(own_number()) = OF_HYPERVISORS_TIMER;
    write_icc_pmr_el1(of->priority);
    DO("isb");
}

void let_none_come(void) {
    write_icc_pmr_el1(0);
    write_cnthp_ctl_el2(0);
    *DISABLES(own_number()) = OF_HYPERVISORS_TIMER;
    DO("isb");
}

void put_back(const struct timers *of) {
    write_cntv_cval_el0(of->virtual_value);
    write_cntv_ctl_el0(of->virtual_control);
    write_cntp_cval_el0(of->physical_value);
    write_cntp_ctl_el0(of->physical_control);
    write_icc_pmr_el1(of->priority);
}
