/* SPDX-License-Identifier: MIT OR Apache-2.0 */
/* Interrupts, as EL2 of the secure world sees them: the normal world's as FIQs, and the secure world's own, of which there is none, as IRQs (IHI 0069,
 * 4.6.2). It masks both, and takes none from the interrupt controller. */
#include "processor.h"
#include "secure.h"
#include "timer.h"

SYSTEM_REGISTER(isr_el1)
SYSTEM_REGISTER(cntv_ctl_el0)
SYSTEM_REGISTER(cntv_cval_el0)
SYSTEM_REGISTER(cntp_ctl_el0)
SYSTEM_REGISTER(cntp_cval_el0)

/* ISR_EL1 (DDI 0487): what is pending. */
#define FIQ (UINT64_C(1) << 6)
#define IRQ (UINT64_C(1) << 7)

/* Those by which the normal world hears of notifications (board/linux/notify.c). TF-A has given 8 to 15 to the secure world. Whose one
 * is a bit says of both registers: 1 and 0 for the normal world's (IHI 0069, 12.11). */
#define OF_NOTIFICATIONS (UINT32_C(1) << 8 | UINT32_C(1) << 9)

void begin_interrupts(void) {
    *GROUPS(this_processor()) |= OF_NOTIFICATIONS;
    *MODIFIERS(this_processor()) &= ~OF_NOTIFICATIONS;
    DO("dsb sy");
}

bool is_secure_due(void) { return read_isr_el1() & IRQ; }
bool is_normal_due(void) { return read_isr_el1() & FIQ; }

/* How the normal world's timers are set: the virtual and the physical one of EL1, and the physical one of EL2. Of a control ISTATUS is left out, which
 * the timer changes itself. */
#define TIMERS 3
#define SET_BITS 3

struct settings {
    uint64_t control[TIMERS], value[TIMERS];
};

static struct settings read_settings(void) {
    return (struct settings){
        .control = {read_cntv_ctl_el0() & SET_BITS, read_cntp_ctl_el0() & SET_BITS, read_cnthp_ctl_el2() & SET_BITS},
        .value = {read_cntv_cval_el0(), read_cntp_cval_el0(), read_cnthp_cval_el2()},
    };
}

static bool are_same(const struct settings *one, const struct settings *other) {
    bool same = true;
    for (unsigned i = 0; i < TIMERS; i++) same &= one->control[i] == other->control[i] && one->value[i] == other->value[i];
    return same;
}

/* How many calls in a row came from each processor with something due, while all its timers stayed set as they were at the first of these; and after
 * how many the normal world is taken for masked there.
 *
 * A world that masks nothing takes what is due as soon as it runs, and to take a timer's interrupt is to set that timer anew or to turn it off. On a
 * busy machine a timer of 1 ms may be due again at each call, however often it is taken: so calls that come with something due show nothing by
 * themselves, but a timer's settings do, whatever the load. Three calls, since another's interrupt (an SGI, or a device's) may come at the first,
 * and the timer's be due from the second on. */
static struct {
    struct settings settings;
    uint32_t calls;
} untaken[GORSEPLUMB_MOST_PROCESSORS];
#define MOST_UNTAKEN 3

void note_due(void) {
    uint32_t processor = this_processor();
    struct settings settings = read_settings();
    if (!are_same(&untaken[processor].settings, &settings)) untaken[processor].calls = 0;
    untaken[processor].settings = settings;
    untaken[processor].calls = read_isr_el1() & FIQ ? untaken[processor].calls + 1 : 0;
}

bool is_masked(void) { return untaken[this_processor()].calls >= MOST_UNTAKEN; }
