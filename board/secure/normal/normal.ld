/* SPDX-License-Identifier: MIT OR Apache-2.0 */
/* Where TF-A loads the normal world's first program on QEMU's machine `virt` (BL33). */
ENTRY(begin)
SECTIONS
{
    . = 0x60000000;
    .text : { *(.text.start) *(.text .text.*) *(.rodata .rodata.*) }
    .data : ALIGN(4096) { *(.data .data.*) *(.got .got.*) }
    .bss (NOLOAD) : ALIGN(4096) {
        zeros_begin = .;
        *(.bss .bss.*) *(COMMON)
        . = ALIGN(16);
        zeros_end = .;
        *(.stack)
    }
    /DISCARD/ : { *(.comment) *(.note.*) *(.eh_frame .eh_frame.*) }
}
