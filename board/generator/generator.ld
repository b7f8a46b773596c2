/* SPDX-License-Identifier: MIT OR Apache-2.0 */
/* The code of the generator, which may stand at the start of any page, and begins with `generate`. It has no variables of its own. */
ENTRY(generate)
SECTIONS
{
    . = 0;
    .text : { *(.text.generate) *(.text .text.*) *(.rodata .rodata.*) }
    .variables : { *(.data .data.* .got .got.* .bss .bss.* COMMON) }
    ASSERT(SIZEOF(.text) <= 0x2000, "the generator's code is more than two pages")
    ASSERT(SIZEOF(.variables) == 0, "the generator has variables of its own")
    /DISCARD/ : { *(.comment) *(.note.*) *(.eh_frame .eh_frame.*) }
}
