/* SPDX-License-Identifier: MIT OR Apache-2.0 */
/* Boots a machine, lets the normal world store and load a byte, runs a partition, and says why that may not run another. */
#include <inttypes.h>
#include <stdio.h>
#include "gorseplumb.h"
#include "gorseplumb_explain.h"
#include "gorseplumb_ffa.h"
#include "machine.toml.h"

int main(void) {
    struct gorseplumb_machine machine = {0};
    enum gorseplumb_answer booted = gorseplumb_boot(&machine, (const uint8_t *)manifest_text, sizeof manifest_text - 1);
    if (booted != GORSEPLUMB_OK) {
        fprintf(stderr, "not booted: %s\n", gorseplumb_answer_name(booted));
        return 1;
    }
    gorseplumb_store(&machine, 0x40010000, 1, 0x2A);
    printf("loaded %02" PRIX64 "\n", gorseplumb_load(&machine, 0x40010000, 1).value);
    struct gorseplumb_outcome told = GORSEPLUMB_CALL(&machine, GORSEPLUMB_FFA_RUN, gorseplumb_pair(0x8001, 0));
    printf("runner %04" PRIX32 " sees %s\n", told.runner, gorseplumb_call_name(gorseplumb_function_of(told)));
    struct gorseplumb_registers other = GORSEPLUMB_REGISTERS(GORSEPLUMB_FFA_RUN, gorseplumb_pair(0x8002, 0));
    char reason[320];
    if (gorseplumb_explain_call(&machine, &other, reason, sizeof reason) != 0) printf("refused: %s\n", reason);
    return gorseplumb_end_heap(&machine) == GORSEPLUMB_OK ? 0 : 1;
}
