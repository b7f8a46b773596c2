/* SPDX-License-Identifier: MIT OR Apache-2.0 */
/* EL2's own table of level 1: devices below 1 GiB, and normal memory in the next three. */
        .section .rodata.own_table, "a"
        .balign 4096
        .global own_table
own_table:
        .quad   0x0040000000000445      /* a block of device memory, never executed */
        .quad   0x0000000040000741      /* blocks of normal memory, inner shareable */
        .quad   0x0000000080000741
        .quad   0x00000000C0000741
