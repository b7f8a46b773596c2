# SPDX-License-Identifier: MIT OR Apache-2.0
# What TF-A's make reads for its test partition (TSP) on the platform qemu, for which TF-A 2.8 has none.
BL32_SOURCES += plat/qemu/qemu/tsp/qemu_tsp_setup.c plat/qemu/common/aarch64/plat_helpers.S plat/qemu/common/topology.c \
    plat/common/aarch64/platform_mp_stack.S $(QEMU_GIC_SOURCES)

# It has all of the memory that BL32 has there. Its timer rings for nobody: the manager has no interrupt for it.
$(eval $(call add_define_val,TSP_SEC_MEM_BASE,BL32_BASE))
$(eval $(call add_define_val,TSP_SEC_MEM_SIZE,'(BL32_LIMIT - BL32_BASE)'))
$(eval $(call add_define_val,TSP_IRQ_SEC_PHY_TIMER,29))

# Of a manager at EL3, which isn't built: headers that TSP reads want them.
$(eval $(call add_define_val,SECURE_PARTITION_COUNT,1))
$(eval $(call add_define_val,NS_PARTITION_COUNT,1))
$(eval $(call add_define_val,MAX_EL3_LP_DESCS_COUNT,1))
