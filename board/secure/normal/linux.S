/* SPDX-License-Identifier: MIT OR Apache-2.0 */
/* The normal world's first program where Linux is the normal world, whose image and device tree QEMU has put into RAM. */
        .section .text.start, "ax"
        .global begin
begin:
        ldr     x0, =LINUX_TREE
        mov     x1, xzr
        mov     x2, xzr
        mov     x3, xzr
        ldr     x4, =LINUX_IMAGE
        br      x4
