/* SPDX-License-Identifier: MIT OR Apache-2.0 */
/* The program of an endpoint, the same for each but for the identity. It does at EL1 what it is told, one operation after another:
 * each load, store, fetch and call is one instruction of its own. It may stand at the start of any page. Where the endpoint has a
 * generator, that makes up the operations. */
#include "layout.h"

        .section .rodata.program, "a"
        .balign 8
        .global program_begin, program_dispatch, program_next, program_identity, program_end

/* x27, d0 and d31 hold the identity from here on: a firmware that mixes up the registers of endpoints, or leaves its own there, is found
 * out. x26 says whether x0 to x7 are what was seen last. */
program_begin:
        ldr     x27, program_identity
        fmov    d0, x27
        fmov    d31, x27
seen:
        mov     x26, #1
        ldr     x8, program_identity
        fmov    x9, d31
        fmov    x10, d0
        hvc     #HVC_SEEN
program_next:
        hvc     #HVC_NEXT
program_dispatch:
        adr     x17, operations
        add     x17, x17, x16, lsl #3
        br      x17

operations:
        ldrb    w0, [x1]
        b       told
        ldrh    w0, [x1]
        b       told
        ldr     w0, [x1]
        b       told
        ldr     x0, [x1]
        b       told
        strb    w2, [x1]
        b       told
        strh    w2, [x1]
        b       told
        str     w2, [x1]
        b       told
        str     x2, [x1]
        b       told
        b       fetch
        nop
        smc     #HVC_FFA
        b       seen
        hvc     #HVC_FFA
        b       seen
        b       make
        nop
        b       loop
        nop

/* Goes round until the word at x1 is x2, or x3 rounds were done, and stores their count, x0, at x30 in each. All other registers count too: an
 * interrupt that loses or changes one is found, since the firmware knows what each has to be in the end (rounds.c). */
loop:
        mov     x17, #0
0:      add     x0, x0, #1
        .irp    n, 4, 5, 6, 7, 8, 9, 10, 11, 12, 13, 14, 15, 17, 18, 19, 20, 21, 22, 23, 24, 25, 28, 29
        add     x\n, x\n, #\n
        .endr
        .irp    n, 1, 2, 3, 4, 5, 6, 7, 8, 9, 10, 11, 12, 13, 14, 15, 16, 17, 18, 19, 20, 21, 22, 23, 24, 25, 26, 27, 28, 29, 30
        add     v\n\().2d, v\n\().2d, v31.2d
        .endr
        add     sp, sp, #LOOP_STACK
        mrs     x16, tpidr_el0
        add     x16, x16, #1
        msr     tpidr_el0, x16
        str     x0, [x30]
        ldr     x16, [x1]
        cmp     x16, x2
        ccmp    x0, x3, #4, ne          /* equal, where the word is what is awaited */
        b.ne    0b
        hvc     #HVC_LOOPED
        b       program_next

/* What was stored before may be executed: the cache of instructions is emptied first. */
fetch:
        dsb     ish
        ic      iallu
        dsb     ish
        isb
        adr     x30, told
        br      x1
told:
        mov     x26, #0
        ldr     x8, program_identity
        fmov    x9, d31
        fmov    x10, d0
        hvc     #HVC_TOLD
        b       program_next

/* The generator makes up an operation, with its variables and its stack between itself and the program: it is given what was seen, and
 * what it answers is told. */
make:
        adr     x9, program_begin
        mov     sp, x9
        sub     x8, x9, #GENERATOR_VARIABLES
        stp     x0, x1, [x8]
        stp     x2, x3, [x8, #16]
        stp     x4, x5, [x8, #32]
        stp     x6, x7, [x8, #48]
        str     x26, [x8, #GENERATOR_ANSWERED]
        mov     x26, #0
        mov     x0, x8
        sub     x9, x9, #GENERATOR_CODE
        blr     x9
        mov     x12, x0
        ldr     w8, [x12]
        ldr     x9, [x12, #OPERATION_ADDRESS]
        ldr     w10, [x12, #OPERATION_SIZE]
        ldr     x11, [x12, #OPERATION_VALUE]
        ldp     x0, x1, [x12, #OPERATION_X]
        ldp     x2, x3, [x12, #OPERATION_X + 16]
        ldp     x4, x5, [x12, #OPERATION_X + 32]
        ldp     x6, x7, [x12, #OPERATION_X + 48]
        hvc     #HVC_MADE

        .balign 8
program_identity:
        .quad   0

/* The vector of exceptions that EL1 takes from itself: the fifth of a table at 0x800. */
        .org    program_begin + PROGRAM_VECTORS + 0x200
        mrs     x9, esr_el1
        mrs     x10, far_el1
        mrs     x11, elr_el1
        hvc     #HVC_EXCEPTION
        b       .
        .balign 8
program_end:
