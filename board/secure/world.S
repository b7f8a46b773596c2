/* SPDX-License-Identifier: MIT OR Apache-2.0 */
/* The way to the normal world and back, and its vector registers. */
#include "layout.h"
#include "registers.h"

/* The registers that the dispatcher passes between the worlds. TF-A 2.12 passes x0 to x17, and leaves it to the manager to keep x8 to x17 of the normal
 * world (services/std_svc/spmd). TF-A 2.8 passes x0 to x7, and keeps the others of each world itself. */
        .macro  passed operation, base
        of_call \operation, \base
        \operation     x8, x9, [\base, #64]
        \operation     x10, x11, [\base, #80]
        \operation     x12, x13, [\base, #96]
        \operation     x14, x15, [\base, #112]
        \operation     x16, x17, [\base, #128]
        .endm

/* void to_normal_world(uint64_t x[18]): TF-A keeps x18 to x30 of both worlds, and neither it nor the firmware touches vector registers. */
        .section .text, "ax"
        .global to_normal_world
to_normal_world:
        sub     sp, sp, #KEPT_GENERAL_BYTES
        kept_general stp
        mov     x19, x0
        passed  ldp, x19
        smc     #0
        passed  stp, x19
        kept_general ldp
        add     sp, sp, #KEPT_GENERAL_BYTES
        ret

/* void take_vectors(struct vectors *vectors), void give_vectors(const struct vectors *vectors): all of them out of the processor, and into it. */
        .global take_vectors, give_vectors
take_vectors:
        mrs     x1, fpcr
        mrs     x2, fpsr
        stp     x1, x2, [x0]
        add     x1, x0, #16
        vector  stp
        ret
give_vectors:
        ldp     x1, x2, [x0]
        msr     fpcr, x1
        msr     fpsr, x2
        add     x1, x0, #16
        vector  ldp
        ret
