/* SPDX-License-Identifier: MIT OR Apache-2.0 */
/* What run.sh puts into the image. */
        .section .rodata.images, "a"
        .global manifest_text, endpoint_list
manifest_text:
        .incbin "manifest"
        .byte   0
endpoint_list:
        .incbin "list"
        .byte   0
#ifdef IN_IMAGE
/* The partitions' program, where QEMU can't put it into secure memory. */
        .global partition_image, partition_image_end
partition_image:
        .incbin "partition.image"
partition_image_end:
#endif
