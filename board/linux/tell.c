/* SPDX-License-Identifier: MIT OR Apache-2.0 */
#include "exception.h"
#include "guest.h"
#include "text.h"

void tell(const struct endpoint *endpoint, const char *what, uint64_t syndrome, uint64_t address) {
    begin_line();
    put_text("# ");
    put_text(what);
    put_text(" of ");
    put_hex(endpoint->identifier, 4);
    put_exception(syndrome, address, endpoint->context.pc);
}
