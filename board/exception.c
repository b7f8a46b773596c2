/* SPDX-License-Identifier: MIT OR Apache-2.0 */
#include "exception.h"
#include "text.h"

_Noreturn void firmware_broken(uint64_t syndrome, uint64_t link, uint64_t address);

void put_exception(uint64_t syndrome, uint64_t address, uint64_t counter) {
    put_text(": syndrome ");
    put_number(syndrome);
    put_text(", address ");
    put_number(address);
    put_text(", program counter ");
    put_number(counter);
    put_text("\n");
}

/* An exception of the firmware's own, which start.S hands here: it is printed as what came of an operation, for the comparison to find it. */
_Noreturn void firmware_broken(uint64_t syndrome, uint64_t link, uint64_t address) {
    put_text("\n< unexpected exception of the firmware");
    put_exception(syndrome, address, link);
    stop("broken");
}
