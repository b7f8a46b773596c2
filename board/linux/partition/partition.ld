/* SPDX-License-Identifier: MIT OR Apache-2.0 */
/* The code of a partition, which may stand at the start of any page, and begins with `begin`. It has no variables but those of its stack. */
ENTRY(begin)
SECTIONS
{
    . = 0;
    .text : { *(.text.start) *(.text .text.*) *(.rodata .rodata.*) }
    .variables : { *(.data .data.* .got .got.* .bss .bss.* COMMON) }
    ASSERT(SIZEOF(.text) <= 0x3000, "the partition's code is more than three pages")
    ASSERT(SIZEOF(.variables) == 0, "the partition has variables of its own")
    /DISCARD/ : { *(.comment) *(.note.*) *(.eh_frame .eh_frame.*) }
}
