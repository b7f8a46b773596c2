/* SPDX-License-Identifier: MIT OR Apache-2.0 */
/* Why an operation of the runner would be refused, as a line of text: the reason that gorseplumb_why_call and its like
 * return, in the words of gorseplumb_check_name and gorseplumb_flaw_name. With --explain the program prints the same line
 * after `# refused: ` (docs/COMMANDS.md). This header is optional and not proved. c/test.sh compares it with the program.
 * It needs no C library. */
#ifndef GORSEPLUMB_EXPLAIN_H
#define GORSEPLUMB_EXPLAIN_H

#include "gorseplumb_ffa.h"

/* A text that grows piece by piece. `size` counts every byte that was put, also the bytes that had no room. */
struct gorseplumb_text {
    char *to;
    size_t room;
    size_t size;
};

static inline void gorseplumb_put_char(struct gorseplumb_text *text, char one) {
    if (text->size + 1 < text->room) text->to[text->size] = one;
    text->size++;
}

static inline void gorseplumb_put(struct gorseplumb_text *text, const char *words) {
    for (; *words != '\0'; words++) gorseplumb_put_char(text, *words);
}

static inline void gorseplumb_put_hex(struct gorseplumb_text *text, uint64_t digits, uint64_t number) {
    for (; digits > 0; digits--) gorseplumb_put_char(text, "0123456789ABCDEF"[number >> 4 * (digits - 1) & 15]);
}

/* Puts a number of at most two decimal digits, such as the number of a register or of a check. */
static inline void gorseplumb_put_decimal(struct gorseplumb_text *text, uint32_t number) {
    if (number >= 10) gorseplumb_put_char(text, (char)('0' + number / 10 % 10));
    gorseplumb_put_char(text, (char)('0' + number % 10));
}

/* Puts the bytes of a word in small digits, the lowest byte first, as a manifest has a UUID. */
static inline void gorseplumb_put_bytes(struct gorseplumb_text *text, uint32_t word) {
    for (int i = 0; i < 8; i++) gorseplumb_put_char(text, "0123456789abcdef"[word >> 4 * (i ^ 1) & 15]);
}

/* Puts an address or the value of a register: in 8 digits, or in 16 if 8 are too few. */
static inline void gorseplumb_put_address(struct gorseplumb_text *text, uint64_t number) {
    gorseplumb_put_hex(text, number >> 32 == 0 ? 8 : 16, number);
}

/* Puts a bit, an index or an offset in a descriptor: in 2 digits, in 4, or as an address. */
static inline void gorseplumb_put_short(struct gorseplumb_text *text, uint64_t number) {
    if (number >> 16 == 0) gorseplumb_put_hex(text, number >> 8 == 0 ? 2 : 4, number);
    else gorseplumb_put_address(text, number);
}

/* Puts words, and then the identifier of an endpoint. */
static inline void gorseplumb_put_endpoint(struct gorseplumb_text *text, const char *words, uint64_t endpoint) {
    gorseplumb_put(text, words);
    gorseplumb_put_hex(text, 4, endpoint);
}

/* Puts, after an address, why the runner's tables do not map it, or why the page fails the check. */
static inline void gorseplumb_put_obstacle(struct gorseplumb_text *text, const struct gorseplumb_reason *reason) {
    switch (reason->obstacle) {
    case GORSEPLUMB_OBSTACLE_OUTSIDE_RAM:
        gorseplumb_put(text, " is outside RAM");
        break;
    case GORSEPLUMB_OBSTACLE_MANAGERS_PAGE:
        gorseplumb_put(text, " belongs to the manager");
        break;
    case GORSEPLUMB_OBSTACLE_OWNED_BY:
        gorseplumb_put_endpoint(text, " belongs to ", reason->owner);
        break;
    case GORSEPLUMB_OBSTACLE_IN_TRANSACTION:
        gorseplumb_put(text, " is in the open transaction ");
        gorseplumb_put_hex(text, 16, reason->transaction);
        break;
    default:
        break;
    }
}

/* Whether a call reads all 64 bits of a register that a check is about. */
static inline bool gorseplumb_reads_whole(uint32_t function, uint32_t number) {
    switch (function) {
    case GORSEPLUMB_FFA_RXTX_MAP_64:
        return number == 1 || number == 2;
    case GORSEPLUMB_FFA_MEM_DONATE_64:
    case GORSEPLUMB_FFA_MEM_LEND_64:
    case GORSEPLUMB_FFA_MEM_SHARE_64:
    case GORSEPLUMB_FFA_MEM_RETRIEVE_REQ_64:
        return number == 3;
    default:
        return false;
    }
}

/* Puts why a register cannot be the address of a buffer, if the check says that. */
static inline void gorseplumb_put_misplaced(struct gorseplumb_text *text, const struct gorseplumb_reason *reason) {
    if (reason->check != GORSEPLUMB_CHECK_TX_MISPLACED && reason->check != GORSEPLUMB_CHECK_RX_MISPLACED) return;
    gorseplumb_put(text, reason->value % GORSEPLUMB_PAGE_SIZE == 0 ? ", and the buffer is not entirely in RAM"
                                                                   : ", which is not page-aligned");
}

/* Puts which access descriptor or range has the flaw, the flaw, and the bytes of its field. */
static inline void gorseplumb_put_field(struct gorseplumb_text *text, const struct gorseplumb_reason *reason) {
    uint32_t flaw = reason->flaw;
    bool is_access = flaw >= GORSEPLUMB_FLAW_ACCESS_PERMISSIONS && flaw <= GORSEPLUMB_FLAW_ACCESS_RECEIVER_TWICE;
    bool is_range = flaw >= GORSEPLUMB_FLAW_RANGE_EMPTY && flaw <= GORSEPLUMB_FLAW_RANGE_OVERLAP;
    bool is_byte = reason->size <= 1;
    /* If the access descriptors end outside the descriptor, only the first four of eight bytes are printed: their number. */
    uint64_t size = flaw == GORSEPLUMB_FLAW_HEADER_ARRAY_OUTSIDE && reason->size == 8 ? 4 : reason->size;
    if (is_access || is_range) {
        gorseplumb_put(text, is_access ? "access descriptor " : "range ");
        gorseplumb_put_short(text, reason->index);
        gorseplumb_put(text, ": ");
    }
    gorseplumb_put(text, gorseplumb_flaw_name(flaw));
    gorseplumb_put(text, is_byte ? ": byte " : ": bytes ");
    gorseplumb_put_short(text, reason->first);
    if (!is_byte) {
        gorseplumb_put(text, " to ");
        gorseplumb_put_short(text, reason->first + size - 1);
    }
    if (reason->has_value == 0) return;
    gorseplumb_put(text, is_byte ? " is " : " are ");
    gorseplumb_put_hex(text, 2 * size, reason->value);
}

/* Puts, after the words of a check, what the check is about. */
static inline void gorseplumb_put_about(struct gorseplumb_text *text, const struct gorseplumb_machine *machine,
                                        uint32_t function, const struct gorseplumb_reason *reason) {
    if (reason->about != GORSEPLUMB_ABOUT_NOTHING) gorseplumb_put(text, ": ");
    switch (reason->about) {
    case GORSEPLUMB_ABOUT_PAGE:
        gorseplumb_put_address(text, gorseplumb_ram_base(machine) + (uint64_t)GORSEPLUMB_PAGE_SIZE * reason->page);
        gorseplumb_put_obstacle(text, reason);
        break;
    case GORSEPLUMB_ABOUT_ENDPOINT:
        gorseplumb_put_endpoint(text, "endpoint ", reason->endpoint);
        break;
    case GORSEPLUMB_ABOUT_HANDLE:
        gorseplumb_put(text, "handle ");
        gorseplumb_put_hex(text, 16, reason->handle);
        break;
    case GORSEPLUMB_ABOUT_REGISTER:
        gorseplumb_put(text, gorseplumb_reads_whole(function, reason->number) ? "x" : "w");
        gorseplumb_put_decimal(text, reason->number);
        gorseplumb_put(text, " is ");
        gorseplumb_put_address(text, reason->value);
        gorseplumb_put_misplaced(text, reason);
        break;
    case GORSEPLUMB_ABOUT_BIT:
        gorseplumb_put(text, "bit ");
        gorseplumb_put_short(text, reason->number);
        break;
    case GORSEPLUMB_ABOUT_FIELD:
        gorseplumb_put_field(text, reason);
        break;
    default:
        break;
    }
}

/* Puts where a part of a descriptor of `size` bytes ends, if the flaw is that the part is not inside the descriptor. */
static inline void gorseplumb_put_end(struct gorseplumb_text *text, uint32_t size, const struct gorseplumb_reason *reason) {
    const char *part;
    uint64_t end;
    switch (reason->flaw) {
    case GORSEPLUMB_FLAW_HEADER_SHORT:
        part = "header ends";
        end = reason->first + reason->size;
        break;
    case GORSEPLUMB_FLAW_HEADER_ARRAY_OUTSIDE:
        part = "access descriptors end";
        end = (reason->size == 8 ? reason->value >> 32 : 32) + 16 * (reason->value & UINT32_MAX);
        break;
    case GORSEPLUMB_FLAW_COMPOSITE_OUTSIDE:
        part = "composite ends";
        end = reason->value + 16;
        break;
    case GORSEPLUMB_FLAW_COMPOSITE_RANGES_OUTSIDE:
        part = "ranges end";
        end = reason->first + 12 + 16 * reason->value;
        break;
    default:
        return;
    }
    if (reason->flaw != GORSEPLUMB_FLAW_HEADER_SHORT && reason->has_value == 0) return;
    gorseplumb_put(text, " (the ");
    gorseplumb_put(text, part);
    gorseplumb_put(text, " at ");
    gorseplumb_put_short(text, end);
    gorseplumb_put(text, ", but the descriptor has ");
    gorseplumb_put_short(text, size);
    gorseplumb_put(text, " bytes)");
}

/* Puts which call has no 64-bit form, if an unknown function would be that form. */
static inline void gorseplumb_put_no_form(struct gorseplumb_text *text, const struct gorseplumb_reason *reason) {
    const uint32_t bit = UINT32_C(0x40000000), check = GORSEPLUMB_CHECK_FUNCTION_UNKNOWN;
    if (reason->check != check || reason->value < bit) return;
    uint32_t function = (uint32_t)reason->value - bit;
    /* Only two calls that are served have this check: FFA_FEATURES, and FFA_NOTIFICATION_INFO_GET, which has that form. */
    if (function != GORSEPLUMB_FFA_FEATURES && gorseplumb_check_number(function, check) != 0) return;
    gorseplumb_put(text, ", and ");
    gorseplumb_put(text, gorseplumb_call_name(function));
    gorseplumb_put(text, " has no 64-bit form");
}

/* Puts what the registers of the call say about the check: the end of a part of a descriptor, a call, or a UUID. */
static inline void gorseplumb_put_given(struct gorseplumb_text *text, const struct gorseplumb_registers *registers,
                                        const struct gorseplumb_reason *reason) {
    gorseplumb_put_end(text, (uint32_t)registers->x[1], reason);
    gorseplumb_put_no_form(text, reason);
    if (reason->check != GORSEPLUMB_CHECK_UUID_UNKNOWN) return;
    gorseplumb_put(text, ": w1 to w4 hold ");
    for (int i = 1; i <= 4; i++) gorseplumb_put_bytes(text, (uint32_t)registers->x[i]);
}

/* Puts, after an endpoint that is not ready for the call, its run state. */
static inline void gorseplumb_put_state(struct gorseplumb_text *text, const struct gorseplumb_reason *reason) {
    switch (reason->state) {
    case GORSEPLUMB_STATE_RUNNING:
        gorseplumb_put(text, ", which is running");
        break;
    case GORSEPLUMB_STATE_WAITING:
        gorseplumb_put(text, ", which is waiting");
        break;
    case GORSEPLUMB_STATE_YIELDED:
        gorseplumb_put(text, ", which has yielded");
        break;
    case GORSEPLUMB_STATE_BLOCKED:
        gorseplumb_put(text, ", which is blocked");
        break;
    case GORSEPLUMB_STATE_PREEMPTED:
        gorseplumb_put(text, ", which is preempted");
        break;
    case GORSEPLUMB_STATE_RUNS_ELSEWHERE:
        gorseplumb_put(text, ", which is running on another processor");
        break;
    default:
        break;
    }
    if (reason->awaits != 0) gorseplumb_put_endpoint(text, " by its direct request to ", reason->awaits);
}

/* Puts a number that must be in a register or a field, with this number of digits. */
static inline void gorseplumb_put_wanted(struct gorseplumb_text *text, uint64_t digits, uint64_t number) {
    gorseplumb_put(text, ", and must be ");
    gorseplumb_put_hex(text, digits, number);
}

/* Puts the numbers that a register or a field may have instead. */
static inline void gorseplumb_put_allowed(struct gorseplumb_text *text, const struct gorseplumb_reason *reason) {
    uint64_t digits = reason->about == GORSEPLUMB_ABOUT_FIELD ? 2 * reason->size : 8;
    if (reason->step == 0) return;
    gorseplumb_put_wanted(text, digits, reason->least);
    if (reason->least == reason->most) return;
    bool are_two = reason->step != 1 && reason->most - reason->least == reason->step;
    gorseplumb_put(text, are_two ? " or " : " to ");
    gorseplumb_put_hex(text, digits, reason->most);
    if (reason->step == 1 || are_two) return;
    gorseplumb_put(text, " in steps of ");
    gorseplumb_put_hex(text, digits, reason->step);
}

/* Puts words, and then the letters of a right. */
static inline void gorseplumb_put_right(struct gorseplumb_text *text, const char *words, uint64_t right) {
    gorseplumb_put(text, words);
    gorseplumb_put_char(text, (right & GORSEPLUMB_READ) != 0 ? 'r' : '-');
    gorseplumb_put_char(text, (right & GORSEPLUMB_WRITE) == GORSEPLUMB_WRITE ? 'w' : '-');
    gorseplumb_put_char(text, (right & GORSEPLUMB_EXECUTE) != 0 ? 'x' : '-');
}

/* Puts words, and then the kind of a transaction. */
static inline void gorseplumb_put_kind(struct gorseplumb_text *text, const char *words, uint64_t kind) {
    gorseplumb_put(text, words);
    gorseplumb_put(text, kind == 0 ? "share" : kind == 1 ? "lend" : "donate");
}

/* Puts how many bytes a buffer has. */
static inline void gorseplumb_put_room(struct gorseplumb_text *text, uint64_t bytes) {
    gorseplumb_put(text, ", and the buffer has ");
    gorseplumb_put_address(text, bytes);
    gorseplumb_put(text, " bytes");
}

/* Puts words, and then the four bytes of a word in the header of a message. */
static inline void gorseplumb_put_word(struct gorseplumb_text *text, const char *words, uint64_t first, uint64_t word) {
    gorseplumb_put(text, words);
    gorseplumb_put(text, "bytes ");
    gorseplumb_put_short(text, first);
    gorseplumb_put(text, " to ");
    gorseplumb_put_short(text, first + 3);
    gorseplumb_put(text, " are ");
    gorseplumb_put_hex(text, 8, word);
}

/* Returns the words of a hint that has no numbers, and "" for every other hint. */
static inline const char *gorseplumb_hint_words(uint32_t kind) {
    switch (kind) {
    case GORSEPLUMB_HINT_RUN:
        return ": it is processing an FFA_RUN";
    case GORSEPLUMB_HINT_BUFFERS_MISSING:
        return ": it has no RX and TX";
    case GORSEPLUMB_HINT_RX_NOT_FULL:
        return ": its RX is not full";
    case GORSEPLUMB_HINT_BIT_PENDING:
        return ", which is pending";
    case GORSEPLUMB_HINT_BIT_TAKEN:
        return ", which is bound to another sender";
    case GORSEPLUMB_HINT_BIT_UNBOUND:
        return ", which is not bound to the sender";
    case GORSEPLUMB_HINT_HANDLE_UNKNOWN:
        return ", which no open transaction has";
    case GORSEPLUMB_HINT_NOT_RECEIVER:
        return ", which is open, but not offered to the caller";
    case GORSEPLUMB_HINT_NOT_LENT:
        return ", which is not a lend";
    case GORSEPLUMB_HINT_BITMAPS_UNCREATED:
        return ": FFA_NOTIFICATION_BITMAP_CREATE creates them";
    case GORSEPLUMB_HINT_NOTIFICATIONS_UNRECEIVED:
        return ": bit 3 of its properties is not set";
    case GORSEPLUMB_HINT_SECURE_TO_NORMAL:
        return ", which is secure and is sent to the normal world";
    case GORSEPLUMB_HINT_PAGES_OF_BOTH_WORLDS:
        return ", which is secure, but another page is not";
    default:
        return "";
    }
}

/* Puts a hint that names one endpoint. */
static inline void gorseplumb_put_endpoint_hint(struct gorseplumb_text *text, const struct gorseplumb_hint *hint) {
    switch (hint->kind) {
    case GORSEPLUMB_HINT_TX_PAGE:
        gorseplumb_put_endpoint(text, " is in TX of ", hint->numbers[0]);
        break;
    case GORSEPLUMB_HINT_RX_PAGE:
        gorseplumb_put_endpoint(text, " is in RX of ", hint->numbers[0]);
        break;
    case GORSEPLUMB_HINT_CALLER:
        gorseplumb_put_endpoint(text, ", and the caller is ", hint->numbers[0]);
        break;
    case GORSEPLUMB_HINT_SENDER:
        gorseplumb_put_endpoint(text, ", and the transaction's sender is ", hint->numbers[0]);
        break;
    case GORSEPLUMB_HINT_HOLDER:
        gorseplumb_put_endpoint(text, ", which ", hint->numbers[0]);
        gorseplumb_put(text, " holds");
        break;
    case GORSEPLUMB_HINT_REQUEST:
        gorseplumb_put_endpoint(text, ": it is processing a direct request from ", hint->numbers[0]);
        break;
    default:
        break;
    }
}

/* Puts a hint that names a right. */
static inline void gorseplumb_put_right_hint(struct gorseplumb_text *text, const struct gorseplumb_hint *hint) {
    switch (hint->kind) {
    case GORSEPLUMB_HINT_OWN_RIGHT:
        gorseplumb_put_right(text, ", and the owner's own right is ", hint->numbers[0]);
        break;
    case GORSEPLUMB_HINT_GRANTED:
        gorseplumb_put_right(text, ", where rw- is granted, but the owner's own right is ", hint->numbers[0]);
        break;
    case GORSEPLUMB_HINT_HELD:
        gorseplumb_put_right(text, ", which the caller holds with ", hint->numbers[0]);
        break;
    case GORSEPLUMB_HINT_ACCESS:
        gorseplumb_put_endpoint(text, ": ", hint->numbers[0]);
        gorseplumb_put_right(text, " has ", hint->numbers[1]);
        break;
    case GORSEPLUMB_HINT_RIGHT:
        gorseplumb_put_right(text, ", where ", hint->numbers[0]);
        gorseplumb_put_right(text, " is requested, and ", hint->numbers[1]);
        gorseplumb_put(text, " is the most allowed");
        break;
    default:
        break;
    }
}

/* Puts a hint that names a word, a size or an address. */
static inline void gorseplumb_put_number_hint(struct gorseplumb_text *text, const struct gorseplumb_hint *hint) {
    switch (hint->kind) {
    case GORSEPLUMB_HINT_ROOM:
        gorseplumb_put_room(text, hint->numbers[0]);
        break;
    case GORSEPLUMB_HINT_VALUE:
        gorseplumb_put_wanted(text, 8, hint->numbers[0]);
        break;
    case GORSEPLUMB_HINT_WORD:
        gorseplumb_put_word(text, ": ", hint->numbers[0], hint->numbers[1]);
        break;
    case GORSEPLUMB_HINT_MESSAGE:
        gorseplumb_put_word(text, ": ", 8, hint->numbers[0]);
        gorseplumb_put_word(text, ", and ", 16, hint->numbers[1]);
        gorseplumb_put_room(text, hint->numbers[2]);
        break;
    case GORSEPLUMB_HINT_OUTSIDE:
        gorseplumb_put(text, ": ");
        gorseplumb_put_address(text, hint->numbers[0]);
        gorseplumb_put(text, hint->numbers[0] >> 32 == 0 ? " is outside RAM" : " is above FFFFFFFF");
        break;
    case GORSEPLUMB_HINT_PENDING:
        gorseplumb_put(text, ": bit ");
        gorseplumb_put_short(text, hint->numbers[0]);
        break;
    default:
        break;
    }
}

/* The name of the form whose headers have this size of an access descriptor. */
static inline const char *gorseplumb_form_name(uint64_t size) {
    if (size == 0) return "the compact form";
    return size == 16 ? "version 1.1" : "version 1.2";
}

/* Puts a hint that compares a descriptor with a transaction or with a version. */
static inline void gorseplumb_put_descriptor_hint(struct gorseplumb_text *text, const struct gorseplumb_hint *hint) {
    switch (hint->kind) {
    case GORSEPLUMB_HINT_TAG:
        gorseplumb_put(text, ", whose tag is ");
        gorseplumb_put_hex(text, 16, hint->numbers[1]);
        gorseplumb_put(text, ", but the descriptor says ");
        gorseplumb_put_hex(text, 16, hint->numbers[0]);
        break;
    case GORSEPLUMB_HINT_KIND:
        gorseplumb_put_kind(text, ", whose kind is ", hint->numbers[1]);
        gorseplumb_put_kind(text, ", but the descriptor says ", hint->numbers[0]);
        break;
    case GORSEPLUMB_HINT_FORM:
        gorseplumb_put_wanted(text, 8, hint->numbers[1]);
        gorseplumb_put_endpoint(text, ", because ", hint->numbers[0]);
        gorseplumb_put(text, " uses ");
        gorseplumb_put(text, gorseplumb_form_name(hint->numbers[1]));
        break;
    default:
        break;
    }
}

/* Puts the end of the line: a run state, the allowed numbers, or a hint. */
static inline void gorseplumb_put_detail(struct gorseplumb_text *text, const struct gorseplumb_reason *reason) {
    gorseplumb_put_state(text, reason);
    gorseplumb_put_allowed(text, reason);
    gorseplumb_put(text, gorseplumb_hint_words(reason->hint.kind));
    gorseplumb_put_endpoint_hint(text, &reason->hint);
    gorseplumb_put_right_hint(text, &reason->hint);
    gorseplumb_put_number_hint(text, &reason->hint);
    gorseplumb_put_descriptor_hint(text, &reason->hint);
}

/* Ends a text with a byte of 0, if there is room for one, and returns the size of the whole text. */
static inline size_t gorseplumb_end_text(struct gorseplumb_text *text) {
    if (text->room != 0) text->to[text->size < text->room ? text->size : text->room - 1] = '\0';
    return text->size;
}

/* Writes why a call would be refused to `room` bytes from `to` on: the line without LF, and a byte of 0 after it. It
 * cuts the line after `room` - 1 bytes, as snprintf does, and writes nothing if `room` is 0. Returns the size of the
 * whole line without the byte of 0. If the call would be done, the line is empty and the size is 0. 320 bytes have room
 * for each line. Ask when you may ask gorseplumb_why_call. Like that function, it changes nothing of the machine.
 * gorseplumb_explain_load, gorseplumb_explain_store and gorseplumb_explain_fetch do the same for an access. */
static inline size_t gorseplumb_explain_call(const struct gorseplumb_machine *machine,
                                             const struct gorseplumb_registers *registers, char *to, size_t room) {
    struct gorseplumb_text text = {to, room, 0};
    struct gorseplumb_reason reason;
    if (gorseplumb_why_call(machine, registers, &reason)) {
        uint32_t function = (uint32_t)registers->x[0], number = gorseplumb_check_number(function, reason.check);
        const char *name = gorseplumb_call_name(function);
        gorseplumb_put(&text, name);
        gorseplumb_put(&text, *name == '\0' ? "check " : " check ");
        gorseplumb_put_decimal(&text, number);
        gorseplumb_put(&text, ": ");
        gorseplumb_put(&text, gorseplumb_check_name(reason.check));
        gorseplumb_put_about(&text, machine, function, &reason);
        gorseplumb_put_given(&text, registers, &reason);
        gorseplumb_put_detail(&text, &reason);
    }
    return gorseplumb_end_text(&text);
}

/* Writes the line of an access. `may_not` is the text for a permission fault. */
static inline size_t gorseplumb_explain_access(const struct gorseplumb_reason *reason, uint64_t address, uint32_t size,
                                               const char *may_not, char *to, size_t room) {
    struct gorseplumb_text text = {to, room, 0};
    gorseplumb_put_address(&text, address);
    switch (reason->fault) {
    case GORSEPLUMB_FAULT_TRANSLATION:
        if (reason->obstacle == GORSEPLUMB_OBSTACLE_NONE) gorseplumb_put(&text, " is above FFFFFFFF");
        else gorseplumb_put_obstacle(&text, reason);
        break;
    case GORSEPLUMB_FAULT_PERMISSION:
        gorseplumb_put(&text, may_not);
        break;
    case GORSEPLUMB_FAULT_ALIGNMENT:
        gorseplumb_put(&text, " is not a multiple of ");
        gorseplumb_put_decimal(&text, size);
        break;
    case GORSEPLUMB_FAULT_ACCESS_FLAG:
        gorseplumb_put(&text, " has no access flag");
        break;
    default:
        gorseplumb_put(&text, " leads out of RAM");
        break;
    }
    gorseplumb_put_detail(&text, reason);
    return gorseplumb_end_text(&text);
}

static inline size_t gorseplumb_explain_nothing(char *to, size_t room) {
    struct gorseplumb_text text = {to, room, 0};
    return gorseplumb_end_text(&text);
}

static inline size_t gorseplumb_explain_load(const struct gorseplumb_machine *machine, uint64_t address, uint32_t size,
                                             char *to, size_t room) {
    struct gorseplumb_reason reason;
    if (!gorseplumb_why_load(machine, address, size, &reason)) return gorseplumb_explain_nothing(to, room);
    return gorseplumb_explain_access(&reason, address, size, " may not be read", to, room);
}

static inline size_t gorseplumb_explain_store(const struct gorseplumb_machine *machine, uint64_t address, uint32_t size,
                                              char *to, size_t room) {
    struct gorseplumb_reason reason;
    if (!gorseplumb_why_store(machine, address, size, &reason)) return gorseplumb_explain_nothing(to, room);
    return gorseplumb_explain_access(&reason, address, size, " may not be written", to, room);
}

static inline size_t gorseplumb_explain_fetch(const struct gorseplumb_machine *machine, uint64_t address, char *to,
                                              size_t room) {
    struct gorseplumb_reason reason;
    if (!gorseplumb_why_fetch(machine, address, &reason)) return gorseplumb_explain_nothing(to, room);
    return gorseplumb_explain_access(&reason, address, 4, " may not be executed", to, room);
}

#endif
