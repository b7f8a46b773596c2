/* SPDX-License-Identifier: MIT OR Apache-2.0 */
/* So much of OP-TEE's interface as Linux's driver optee wants at its start (drivers/tee/optee/optee_ffa.h). */
#ifndef BOARD_LINUX_TEE_H
#define BOARD_LINUX_TEE_H

#include "core.h"

#define TEE_IDENTIFIER 0x8003

void serve_tee(struct registers *request, unsigned char *base);

#endif
