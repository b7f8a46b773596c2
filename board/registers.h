/* SPDX-License-Identifier: MIT OR Apache-2.0 */
/* Macros of assembly by which registers are loaded or stored. */
#ifndef BOARD_REGISTERS_H
#define BOARD_REGISTERS_H

/* All general registers but x0, x1 and x30, at x0; x0 to x7 at another register; all vector registers, at x1, which is behind them then; those
 * that a function keeps for its caller, in the first 160 bytes of the stack, of which the general ones take 96. */
        .macro  general operation
        \operation     x2, x3, [x0, #16]
        \operation     x4, x5, [x0, #32]
        \operation     x6, x7, [x0, #48]
        \operation     x8, x9, [x0, #64]
        \operation     x10, x11, [x0, #80]
        \operation     x12, x13, [x0, #96]
        \operation     x14, x15, [x0, #112]
        \operation     x16, x17, [x0, #128]
        \operation     x18, x19, [x0, #144]
        \operation     x20, x21, [x0, #160]
        \operation     x22, x23, [x0, #176]
        \operation     x24, x25, [x0, #192]
        \operation     x26, x27, [x0, #208]
        \operation     x28, x29, [x0, #224]
        .endm
        .macro  of_call operation, base
        \operation     x0, x1, [\base]
        \operation     x2, x3, [\base, #16]
        \operation     x4, x5, [\base, #32]
        \operation     x6, x7, [\base, #48]
        .endm
        .macro  vector operation
        \operation     q0, q1, [x1], #32
        \operation     q2, q3, [x1], #32
        \operation     q4, q5, [x1], #32
        \operation     q6, q7, [x1], #32
        \operation     q8, q9, [x1], #32
        \operation     q10, q11, [x1], #32
        \operation     q12, q13, [x1], #32
        \operation     q14, q15, [x1], #32
        \operation     q16, q17, [x1], #32
        \operation     q18, q19, [x1], #32
        \operation     q20, q21, [x1], #32
        \operation     q22, q23, [x1], #32
        \operation     q24, q25, [x1], #32
        \operation     q26, q27, [x1], #32
        \operation     q28, q29, [x1], #32
        \operation     q30, q31, [x1], #32
        .endm
        .macro  kept_general operation
        \operation     x19, x20, [sp]
        \operation     x21, x22, [sp, #16]
        \operation     x23, x24, [sp, #32]
        \operation     x25, x26, [sp, #48]
        \operation     x27, x28, [sp, #64]
        \operation     x29, x30, [sp, #80]
        .endm
        .macro  kept operation
        kept_general \operation
        \operation     d8, d9, [sp, #96]
        \operation     d10, d11, [sp, #112]
        \operation     d12, d13, [sp, #128]
        \operation     d14, d15, [sp, #144]
        .endm
#define KEPT_GENERAL_BYTES 96
#define KEPT_BYTES 160

#endif
