/* SPDX-License-Identifier: MIT OR Apache-2.0 */
/* The code of the generator, which is linked by itself: see generator/. */
        .section .rodata.generator, "a"
        .balign 8
        .global generator_begin, generator_end
generator_begin:
        .incbin "generator.bin"
        .balign 8
generator_end:
