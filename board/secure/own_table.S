/* SPDX-License-Identifier: MIT OR Apache-2.0 */
/* EL2's own tables in the secure state, in blocks of 2 MiB: of QEMU's machine `virt` some devices, the secure memory where the firmware stands, and of
 * RAM the machine's first SECURE_BYTES, which are the secure world's, and the rest, which is the normal world's (NS). */
#include "layout.h"

#define DEVICE 0x0040000000000445       /* never executed */
#define CODE 0x0000000000000741
#define DATA 0x0040000000000741
#define NON_SECURE 0x0040000000000761   /* data, with bit 5, NS */
#define TABLE 3
#define BLOCK 0x200000

        .section .rodata.own_table, "a"
        .balign 4096
        .global own_table
own_table:
        .quad   low + TABLE, ram + TABLE
        .balign 4096
low:
        .set    at, 0
        .rept   512
        .if     at >= 0x08000000 && at < 0x0A000000
        .quad   DEVICE + at
        .elseif at >= 0x0E000000 && at < 0x0F000000
        .quad   CODE + at
        .else
        .quad   0
        .endif
        .set    at, at + BLOCK
        .endr
ram:
        .set    at, 0x40000000
        .rept   512
        .if     at >= RAM_BASE && at < RAM_BASE + SECURE_BYTES
        .quad   DATA + at
        .else
        .quad   NON_SECURE + at
        .endif
        .set    at, at + BLOCK
        .endr
