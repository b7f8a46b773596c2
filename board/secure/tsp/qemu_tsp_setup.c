/* SPDX-License-Identifier: MIT OR Apache-2.0 */
/* What TF-A's test partition asks of its platform: a serial line, and a translation of its own. */
#include <bl32/tsp/platform_tsp.h>
#include <common/bl_common.h>
#include <platform_def.h>
#include "../../common/qemu_private.h"

void tsp_early_platform_setup(void) { qemu_console_init(); }

void tsp_platform_setup(void) {}

void tsp_plat_arch_setup(void) {
    qemu_configure_mmu_el1(BL32_BASE, BL32_END - BL32_BASE, BL_CODE_BASE, BL_CODE_END, BL_RO_DATA_BASE, BL_RO_DATA_END, BL_COHERENT_RAM_BASE,
                           BL_COHERENT_RAM_END);
}
