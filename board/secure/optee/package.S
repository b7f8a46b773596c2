/* SPDX-License-Identifier: MIT OR Apache-2.0 */
/* The bytes that QEMU puts at the start of OP-TEE's memory: boot information (DEN0077A, 5.4), the manifest and the image. The boot information has a
 * header (signature, version, size, size of a descriptor, count, offset) and one descriptor, which has the manifest's address. */
        .section .text, "ax"
header:
        .word   0xffa, 0x10001, descriptor_end - header, 32, 1, descriptor - header
        .quad   0
descriptor:
        .ascii  "manifest\0\0\0\0\0\0\0\0"
        .byte   0, 0                    /* type: the standard's, a device tree */
        .hword  0                       /* flags: the name is a string, the contents are an address */
        .word   manifest_end - manifest
        .quad   BEGIN + (manifest - header)
descriptor_end:
        .balign 4096
manifest:
        .incbin "manifest.dtb"
manifest_end:
        .balign ENTRY
        .incbin "tee-raw.bin"
