/* SPDX-License-Identifier: MIT OR Apache-2.0 */
/* Where the firmware stands: see layout.h. One that stands elsewhere says where, and where it has to end. */
ENTRY(_start)
SECTIONS
{
    . = DEFINED(FIRMWARE_BASE) ? FIRMWARE_BASE : 0x44000000;
    .text : { *(.text.start) *(.text .text.*) }
    .rodata : ALIGN(4096) { *(.rodata .rodata.*) }
    .eh_frame : { *(.eh_frame .eh_frame.*) }
    .data : ALIGN(4096) { *(.data .data.*) *(.got .got.*) }
    .bss (NOLOAD) : ALIGN(4096) {
        zeros_begin = .;
        *(.bss .bss.*) *(COMMON)
        . = ALIGN(16);
        zeros_end = .;
    }
    .stack (NOLOAD) : ALIGN(4096) { *(.stack) }
    ASSERT(DEFINED(FIRMWARE_END) ? . <= FIRMWARE_END : 1, "the firmware is too large for its place")
}
