/* SPDX-License-Identifier: MIT OR Apache-2.0 */
/* A partition: each time that it is given work, what it answers is its next call. It may stand at the start of any page. */
#define STACK_TOP 0x4000

        .macro  all operation, base
        \operation     x0, x1, [\base]
        \operation     x2, x3, [\base, #16]
        \operation     x4, x5, [\base, #32]
        \operation     x6, x7, [\base, #48]
        .endm

        .section .text.start, "ax"
        .global begin, call
begin:
        adr     x16, begin
        add     x16, x16, #STACK_TOP
        sub     sp, x16, #64
again:
        all     stp, sp
        mov     x0, sp
        adr     x1, begin
        bl      work
        all     ldp, sp
        hvc     #0
        b       again

/* void call(struct registers *of) */
call:
        stp     x19, x30, [sp, #-16]!
        mov     x19, x0
        all     ldp, x19
        smc     #0
        all     stp, x19
        ldp     x19, x30, [sp], #16
        ret
