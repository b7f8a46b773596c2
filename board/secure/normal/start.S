/* SPDX-License-Identifier: MIT OR Apache-2.0 */
/* The entry at EL2 of the normal world, with no translation; calls; vector registers; and loads that may fault. */
#include "registers.h"

#define PROCESSOR_STACK 0x4000
#define FAULTED (1 << 63)

        .section .text.start, "ax"
        .global begin, second_begin
begin:
        adrp    x0, stack_top
        bl      ready
        adrp    x0, zeros_begin
        add     x0, x0, :lo12:zeros_begin
        adrp    x1, zeros_end
        add     x1, x1, :lo12:zeros_end
0:      cmp     x0, x1
        b.hs    1f
        stp     xzr, xzr, [x0], #16
        b       0b
1:      bl      normal_world
2:      wfe
        b       2b

/* Where another processor begins. */
second_begin:
        adrp    x0, second_stack_top
        bl      ready
        bl      second_world
3:      wfe
        b       3b

/* A stack pointer, x0, where exceptions go, and vector registers. */
ready:
        mov     sp, x0
        adrp    x0, vectors
        add     x0, x0, :lo12:vectors
        msr     vbar_el2, x0
        mov     x0, #0x33ff             /* CPTR_EL2 (DDI 0487): TFP 0, vector registers don't trap */
        msr     cptr_el2, x0
        isb
        ret

/* void call(uint64_t x[8]): TF-A keeps x8 to x30. */
        .section .text, "ax"
        .global call
call:
        mov     x8, x0
        of_call ldp, x8
        smc     #0
        of_call stp, x8
        ret

/* void fill_vectors(const uint64_t *words), void keep_vectors(uint64_t *words): all 32, of 64 words */
        .global fill_vectors, keep_vectors
fill_vectors:
        mov     x1, x0
        vector  ldp
        ret
keep_vectors:
        mov     x1, x0
        vector  stp
        ret

/* uint64_t probe(uint64_t address): the word of 4 bytes there, or, where that is an exception, its syndrome and bit 63. */
        .global probe
probe:
        ldr     w0, [x0]
        ret
faulted:
        mrs     x0, esr_el2
        orr     x0, x0, #FAULTED
        mrs     x1, elr_el2
        add     x1, x1, #4
        msr     elr_el2, x1
        eret

        .balign 2048
vectors:
        .rept   16
        .balign 128
        b       faulted
        .endr

        .section .stack, "aw", @nobits
        .balign 4096
        .space  PROCESSOR_STACK
stack_top:
        .space  PROCESSOR_STACK
second_stack_top:
