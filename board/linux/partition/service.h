/* SPDX-License-Identifier: MIT OR Apache-2.0 */
/* The protocol of Trusted Services, as Linux's driver arm_tstee speaks it (drivers/tee/tstee): x3 has an interface and an operation. */
#ifndef BOARD_LINUX_SERVICE_H
#define BOARD_LINUX_SERVICE_H

#include "core.h"

/* Requests of the interface 0 are those of work.h. */
#define INTERFACE_OF(x3) ((x3) >> 16 & 0xFF)

void serve(struct registers *request, unsigned char *base);

#endif
