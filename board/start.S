/* SPDX-License-Identifier: MIT OR Apache-2.0 */
/* The firmware's entry, its own translation, its vectors, and the way into an endpoint and back. */
#include "layout.h"
#include "registers.h"

#ifndef SAVE_VECTORS
#define SAVE_VECTORS 1 /* 0 leaves them as they are, for board/run.sh to show that the comparison finds it */
#endif

        .section .text.start, "ax"
        .global _start
_start:
        msr     daifset, #15
        adrp    x0, stack_top
        add     x0, x0, :lo12:stack_top
        bl      begin
        bl      clear
        bl      translate
        bl      firmware
0:      wfe
        b       0b

/* The entry of each other processor, with translation off: in a firmware that starts some. The affinity of a processor of the
 * board is its number (MPIDR_EL1.Aff0), and each has a stack of its own. */
        .section .text.second, "ax"
        .global second_start
second_start:
        msr     daifset, #15
        mrs     x1, mpidr_el1
        and     x1, x1, #7
        adrp    x0, stack_top
        add     x0, x0, :lo12:stack_top
        mov     x2, #SECOND_STACK_BYTES
        madd    x0, x1, x2, x0
        bl      begin
        bl      translate
        bl      second_processor
0:      wfe
        b       0b

/* A stack pointer, x0, and where exceptions go. */
        .section .text.start, "ax"
begin:
        msr     spsel, #1
        mov     sp, x0
        mov     x0, #0x33ff             /* CPTR_EL2 (DDI 0487): TFP 0, vector registers don't trap */
        msr     cptr_el2, x0
        adrp    x0, vectors
        add     x0, x0, :lo12:vectors
        msr     vbar_el2, x0
        isb
        ret

/* Fills what the program begins with zeros with zeros. */
clear:
        adrp    x0, zeros_begin
        add     x0, x0, :lo12:zeros_begin
        adrp    x1, zeros_end
        add     x1, x1, :lo12:zeros_end
0:      cmp     x0, x1
        b.hs    1f
        stp     xzr, xzr, [x0], #16
        b       0b
1:      ret

/* Turns on EL2's own translation, by the firmware's own table, each address to itself. With it off, an access that isn't aligned would
 * fault, and compiled code makes some. */
translate:
        ldr     x0, =0x000000000000ff   /* MAIR_EL2, 0: normal, write-back; 1: device */
        msr     mair_el2, x0
        ldr     x0, =0x80823520         /* TCR_EL2: 32 bits, 4 KiB, write-back, inner shareable, 40 bits of physical address */
        msr     tcr_el2, x0
        adrp    x0, own_table
        add     x0, x0, :lo12:own_table
        msr     ttbr0_el2, x0
        isb
        tlbi    alle2
        dsb     ish
        ic      iallu
        dsb     ish
        isb
        ldr     x0, =0x30c51835         /* SCTLR_EL2: M, C and I */
        msr     sctlr_el2, x0
        isb
        ret

        .section .text, "ax"

/* bool enter(struct context *context): loads the general and vector registers of an endpoint and runs it, and is back after the next
 * exception that is taken to EL2, with the registers saved as that left them: whether it was an interrupt. */
        .global enter
enter:
        sub     sp, sp, #KEPT_BYTES
        kept    stp
        msr     tpidr_el2, x0
        ldp     x1, x2, [x0, #CONTEXT_PC]
        msr     elr_el2, x1
        msr     spsr_el2, x2
        ldp     x1, x2, [x0, #CONTEXT_FPCR]
        msr     fpcr, x1
        msr     fpsr, x2
        add     x1, x0, #CONTEXT_Q
#if SAVE_VECTORS
        vector  ldp
#endif
        general ldp
        ldr     x30, [x0, #240]
        ldp     x0, x1, [x0]
        eret

/* Behind an exception from an endpoint, or an interrupt: `enter` returns to who called it. */
interrupted:
        stp     x0, x1, [sp, #-16]!
        mov     x1, #1
        b       0f
left:
        stp     x0, x1, [sp, #-16]!
        mov     x1, #0
0:      mrs     x0, tpidr_el2
        general stp
        str     x30, [x0, #240]
        mov     x3, x1
        ldp     x1, x2, [sp], #16
        stp     x1, x2, [x0]
        mrs     x1, elr_el2
        mrs     x2, spsr_el2
        stp     x1, x2, [x0, #CONTEXT_PC]
        mrs     x1, fpcr
        mrs     x2, fpsr
        stp     x1, x2, [x0, #CONTEXT_FPCR]
        add     x1, x0, #CONTEXT_Q
#if SAVE_VECTORS
        vector  stp
#endif
        mov     x0, x3
        kept    ldp
        add     sp, sp, #KEPT_BYTES
        ret

/* An exception of the firmware's own: nothing goes on. */
broken:
        mrs     x0, esr_el2
        mrs     x1, elr_el2
        mrs     x2, far_el2
        bl      firmware_broken
0:      wfe
        b       0b

        .balign 2048
vectors:
        .rept   8
        .balign 128
        b       broken
        .endr
        .balign 128
        b       left
        .rept   2                       /* IRQ, and FIQ, which the normal world's are where EL2 is the secure world's */
        .balign 128
        b       interrupted
        .endr
        .rept   5
        .balign 128
        b       broken
        .endr

        .section .stack, "aw", @nobits
        .balign 4096
        .space  STACK_BYTES
stack_top:
        .space  7 * SECOND_STACK_BYTES
