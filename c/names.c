/* SPDX-License-Identifier: MIT OR Apache-2.0 */
/* Names as text: the standard's, what the program prints, and the version. tests/copies writes functions, checks and flaws of the
 * crates' tables, and tests/lists compares the others. What stands here asks for no function and has no pointer in its
 * data, so it is right at whichever address it is loaded. c/archive puts it into the archive, with a section for each
 * function and each table, so that a linker drops those that nobody asks. */
/* They are C because an export of the crate may not return a pointer, and a proof would say only that a text is this text. */
#include "gorseplumb.h"

#define CHECK(name) GORSEPLUMB_CHECK_##name

enum { MOST_CHECKS = 16 };

/* What the identifier of a 64-bit form has beside that of the 32-bit form. */
#define WIDE UINT32_C(0x40000000)

/* A function of the standard: its name, the identifier of its 32-bit form, whether it has a 64-bit form, and the checks
 * of its call in the order in which they are made, behind which stands 0. What is no call has the one check of what
 * isn't known. */
struct function {
    char name[32];
    uint32_t number;
    bool has_wide;
    uint8_t checks[MOST_CHECKS + 1];
};

#define SEND_CHECKS \
    CHECK(BUFFERS_MISSING), CHECK(FRAGMENTED), CHECK(DESCRIPTOR_TOO_LONG), CHECK(BUFFER_ADDRESS_GIVEN), \
    CHECK(BUFFER_PAGES_GIVEN), CHECK(DESCRIPTOR_MALFORMED), CHECK(SENDER_IS_ANOTHER), CHECK(RECEIVER_UNKNOWN), \
    CHECK(RANGE_OUTSIDE), CHECK(PAGE_UNSENDABLE), CHECK(GRANT_TOO_MUCH), CHECK(ZEROS_UNWRITABLE), \
    CHECK(WORLDS_MIXED), CHECK(TRANSACTIONS_FULL), CHECK(HANDLES_USED_UP)

static const struct function functions[] = {
    {"FFA_ERROR", 0x84000060, false, {CHECK(FUNCTION_UNKNOWN)}},
    {"FFA_SUCCESS", 0x84000061, true, {CHECK(FUNCTION_UNKNOWN)}},
    {"FFA_INTERRUPT", 0x84000062, false, {CHECK(FUNCTION_UNKNOWN)}},
    {"FFA_VERSION", 0x84000063, false, {0}},
    {"FFA_FEATURES", 0x84000064, false, {CHECK(FUNCTION_UNKNOWN)}},
    {"FFA_RX_RELEASE", 0x84000065, false, {CHECK(RX_EMPTY)}},
    {"FFA_RXTX_MAP", 0x84000066, true, {CHECK(BUFFERS_MAPPED), CHECK(BUFFER_PAGE_COUNT), CHECK(TX_MISPLACED),
      CHECK(RX_MISPLACED), CHECK(BUFFERS_OVERLAP), CHECK(TX_UNUSABLE), CHECK(RX_UNUSABLE)}},
    {"FFA_RXTX_UNMAP", 0x84000067, false, {CHECK(ENDPOINT_NOT_ZERO), CHECK(BUFFERS_MISSING)}},
    {"FFA_PARTITION_INFO_GET", 0x84000068, false, {CHECK(UUID_UNKNOWN), CHECK(BUFFERS_MISSING), CHECK(RX_FULL),
      CHECK(BUFFERS_NEEDED)}},
    {"FFA_ID_GET", 0x84000069, false, {0}},
    {"FFA_MSG_WAIT", 0x8400006B, false, {CHECK(NOT_RUN)}},
    {"FFA_YIELD", 0x8400006C, false, {CHECK(NOBODY_TO_YIELD_TO)}},
    {"FFA_RUN", 0x8400006D, false, {CHECK(NOT_NORMAL_WORLD), CHECK(TARGET_UNKNOWN), CHECK(CONTEXT_UNKNOWN),
      CHECK(TARGET_NOT_READY)}},
    {"FFA_MSG_SEND_DIRECT_REQ", 0x8400006F, true, {CHECK(SENDER_IS_ANOTHER), CHECK(FLAGS_RESERVED),
      CHECK(RECEIVER_UNKNOWN), CHECK(RECEIVER_IS_CALLER), CHECK(RECEIVER_IS_NORMAL_WORLD), CHECK(REQUESTS_UNSENT),
      CHECK(REQUESTS_UNRECEIVED), CHECK(RECEIVER_NOT_WAITING)}},
    {"FFA_MSG_SEND_DIRECT_RESP", 0x84000070, true, {CHECK(NO_REQUEST), CHECK(ANSWER_MISDIRECTED),
      CHECK(FLAGS_RESERVED)}},
    {"FFA_MEM_DONATE", 0x84000071, true, {SEND_CHECKS}},
    {"FFA_MEM_LEND", 0x84000072, true, {SEND_CHECKS}},
    {"FFA_MEM_SHARE", 0x84000073, true, {SEND_CHECKS}},
    {"FFA_MEM_RETRIEVE_REQ", 0x84000074, true, {CHECK(BUFFERS_MISSING), CHECK(FRAGMENTED), CHECK(DESCRIPTOR_TOO_LONG),
      CHECK(BUFFER_ADDRESS_GIVEN), CHECK(BUFFER_PAGES_GIVEN), CHECK(DESCRIPTOR_MALFORMED), CHECK(HANDLE_UNKNOWN),
      CHECK(NOT_RECEIVER), CHECK(TRANSACTION_SENDER_DIFFERS), CHECK(TAG_DIFFERS), CHECK(KIND_DIFFERS),
      CHECK(ALREADY_RETRIEVED), CHECK(RIGHT_TOO_MUCH), CHECK(RX_FULL), CHECK(RECEIVERS_DIFFER),
      CHECK(NOT_THE_SENDERS)}},
    {"FFA_MEM_RETRIEVE_RESP", 0x84000075, false, {CHECK(FUNCTION_UNKNOWN)}},
    {"FFA_MEM_RELINQUISH", 0x84000076, false, {CHECK(BUFFERS_MISSING), CHECK(DESCRIPTOR_MALFORMED),
      CHECK(ENDPOINT_IS_ANOTHER), CHECK(NOT_OFFERED), CHECK(NOT_HELD), CHECK(ZEROS_NOT_ALLOWED)}},
    {"FFA_MEM_RECLAIM", 0x84000077, false, {CHECK(FLAGS_RESERVED), CHECK(NOT_THE_SENDERS), CHECK(STILL_HELD),
      CHECK(ZEROS_UNWRITABLE)}},
    {"FFA_NOTIFICATION_BITMAP_CREATE", 0x8400007D, false, {CHECK(NOT_NORMAL_WORLD), CHECK(ENDPOINT_NOT_NORMAL_WORLD),
      CHECK(CONTEXT_COUNT), CHECK(BITMAPS_EXIST)}},
    {"FFA_NOTIFICATION_BITMAP_DESTROY", 0x8400007E, false, {CHECK(NOT_NORMAL_WORLD), CHECK(ENDPOINT_NOT_NORMAL_WORLD),
      CHECK(BITMAPS_MISSING), CHECK(BITS_PENDING)}},
    {"FFA_NOTIFICATION_BIND", 0x8400007F, false, {CHECK(RECEIVER_IS_ANOTHER), CHECK(SENDER_UNKNOWN),
      CHECK(SENDER_IS_CALLER), CHECK(FLAGS_RESERVED), CHECK(BITS_NONE), CHECK(BITMAPS_MISSING), CHECK(BITS_TAKEN)}},
    {"FFA_NOTIFICATION_UNBIND", 0x84000080, false, {CHECK(RECEIVER_IS_ANOTHER), CHECK(SENDER_UNKNOWN),
      CHECK(SENDER_IS_CALLER), CHECK(FLAGS_RESERVED), CHECK(BITS_NONE), CHECK(BITMAPS_MISSING),
      CHECK(BITS_NOT_THE_SENDERS)}},
    {"FFA_NOTIFICATION_SET", 0x84000081, false, {CHECK(SENDER_IS_ANOTHER), CHECK(RECEIVER_UNKNOWN),
      CHECK(RECEIVER_IS_CALLER), CHECK(FLAGS_RESERVED), CHECK(BITS_NONE), CHECK(BITS_NOT_THE_CALLERS)}},
    {"FFA_NOTIFICATION_GET", 0x84000082, false, {CHECK(RECEIVER_IS_ANOTHER), CHECK(CONTEXT_UNKNOWN),
      CHECK(CLASSES_UNKNOWN), CHECK(BITMAPS_MISSING)}},
    {"FFA_NOTIFICATION_INFO_GET", 0x84000083, true, {CHECK(FUNCTION_UNKNOWN), CHECK(NOTHING_TO_TELL)}},
    {"FFA_SPM_ID_GET", 0x84000085, false, {0}},
    {"FFA_MSG_SEND2", 0x84000086, false, {CHECK(BUFFERS_MISSING), CHECK(FLAGS_RESERVED), CHECK(HEADER_RESERVED),
      CHECK(SENDER_IS_ANOTHER), CHECK(RECEIVER_UNKNOWN), CHECK(RECEIVER_IS_CALLER), CHECK(MESSAGE_IN_HEADER),
      CHECK(MESSAGE_EMPTY), CHECK(MESSAGE_TOO_LONG), CHECK(MESSAGES_UNSENT), CHECK(MESSAGES_UNRECEIVED),
      CHECK(RECEIVER_BUFFERS_MISSING), CHECK(RECEIVER_RX_FULL), CHECK(RECEIVER_RX_SMALL)}},
};

/* Names one behind the other, each with its end. Those of error codes begin with that of -1. */
static const char error_names[] =
    "NOT_SUPPORTED\0"
    "INVALID_PARAMETERS\0"
    "NO_MEMORY\0"
    "BUSY\0"
    "INTERRUPTED\0"
    "DENIED\0"
    "RETRY\0"
    "ABORTED\0"
    "NO_DATA\0";

static const char fault_names[] =
    "translation\0"
    "permission\0"
    "alignment\0"
    "access-flag\0"
    "outside-ram\0";

static const char check_names[] =
    "the function is not supported\0"
    "the caller has no RX and TX\0"
    "a flag is set that must be 0\0"
    "the sender is not the caller\0"
    "the receiver is not the caller\0"
    "no endpoint has the receiver's identifier\0"
    "the receiver is the caller\0"
    "the caller is not the normal world\0"
    "the endpoint does not have this execution context\0"
    "the caller's RX is full\0"
    "no partition has the UUID\0"
    "the caller already has RX and TX\0"
    "a buffer has no pages, or too many\0"
    "TX is not page-aligned, or not entirely in RAM\0"
    "RX is not page-aligned, or not entirely in RAM\0"
    "RX and TX overlap\0"
    "a page of TX does not belong to the caller, is not writable, or is in an open transaction\0"
    "a page of RX does not belong to the caller, is not writable, or is in an open transaction\0"
    "the endpoint's identifier is not 0\0"
    "the caller has no RX and TX, or its RX is not full\0"
    "the receiver is the normal world\0"
    "the caller may not send direct requests (bit 1 of its properties is not set)\0"
    "the receiver does not accept direct requests (bit 0 of its properties is not set)\0"
    "the receiver is not waiting\0"
    "the caller is not processing a direct request\0"
    "the response does not go from the caller to the sender of the request\0"
    "no partition has the target's identifier\0"
    "the target is not waiting and has not yielded\0"
    "the caller is not processing an FFA_RUN\0"
    "the caller works for no endpoint that it may yield to\0"
    "a reserved field of the header is not 0\0"
    "the message begins inside its header\0"
    "the message is empty\0"
    "the message ends outside TX\0"
    "the caller may not send indirect messages (bit 2 of its properties is not set)\0"
    "the receiver does not accept indirect messages (bit 2 of its properties is not set)\0"
    "the receiver has no RX and TX\0"
    "the receiver's RX is full\0"
    "the message with its header is longer than the receiver's RX\0"
    "the endpoint is not the normal world\0"
    "the normal world cannot have this number of execution contexts\0"
    "the normal world already has notification bitmaps\0"
    "the endpoint has no notification bitmaps\0"
    "a notification bit of the normal world is pending\0"
    "no endpoint has the sender's identifier\0"
    "the sender is the caller\0"
    "no bit is selected\0"
    "one of the bits is bound to another sender, or is pending\0"
    "one of the bits is not bound to the sender, or is pending\0"
    "one of the bits is not bound to the caller\0"
    "the flags select an unknown class of notifications\0"
    "the fragment is not the whole descriptor\0"
    "the descriptor is longer than TX\0"
    "a buffer address is given, but only TX is supported\0"
    "a page count of a buffer is given, but only TX is supported\0"
    "the bytes in TX are not a descriptor of this call\0"
    "a range is not entirely in RAM\0"
    "a page does not belong to the caller, or is in an open transaction or a buffer\0"
    "a grant exceeds the owner's right to a page\0"
    "zeroing is requested for a page that its owner may not write to\0"
    "the caller has reached its limit of open transactions\0"
    "the caller has used up its handles\0"
    "no open transaction has the handle\0"
    "the caller is not a receiver of the transaction\0"
    "the sender differs from the transaction's\0"
    "the tag differs from the transaction's\0"
    "the kind differs from the transaction's\0"
    "the caller already holds the transaction\0"
    "the requested right exceeds the right that the caller may get\0"
    "the endpoint in the descriptor is not the caller\0"
    "no open transaction with the handle has the caller as a receiver\0"
    "the caller does not hold the transaction\0"
    "zeroing is requested, but the caller does not hold a lend with write access\0"
    "no open transaction from the caller has the handle\0"
    "a receiver still holds the transaction\0"
    "secure pages are sent to the normal world, or together with non-secure pages\0"
    "the endpoints in the descriptor are not the transaction's receivers\0"
    "the call needs RX and TX, and the caller has none\0"
    "the normal world has been told of all pending notifications\0";

static const char flaw_names[] =
    "the descriptor is shorter than its header\0"
    "the access descriptor size field is not 16, 32 in FF-A 1.2, or 0 in the compact form\0"
    "the offset of the access descriptors is not a multiple of 16\0"
    "the access descriptors begin inside the header\0"
    "the access descriptors end outside the descriptor\0"
    "reserved bytes at the end of the header are not 0\0"
    "the memory attributes are wrong for this call and this number of receivers\0"
    "a flag is set that this call does not allow\0"
    "the handle is not 0\0"
    "there is no receiver\0"
    "there are more receivers than this call allows\0"
    "this call does not allow these permissions\0"
    "the access descriptor has a flag that this call does not allow\0"
    "the access descriptor refers to a different composite than this call allows\0"
    "reserved bytes of the access descriptor are not 0\0"
    "the access descriptor names the sender\0"
    "the access descriptor names the same receiver as an earlier one\0"
    "the composite ends outside the descriptor, even without its ranges\0"
    "the offset of the composite is not a multiple of 16\0"
    "the composite begins before the access descriptors end\0"
    "the composite has no ranges\0"
    "the composite has more ranges than a transaction may have\0"
    "reserved bytes of the composite are not 0\0"
    "the ranges end outside the descriptor\0"
    "the page count of the composite is not the sum of the page counts of its ranges\0"
    "the range has no pages\0"
    "the range is not page-aligned\0"
    "the range ends above 2^48\0"
    "reserved bytes of the range are not 0\0"
    "the range overlaps an earlier range\0"
    "the memory attributes are neither 0 nor normal memory\0"
    "a flag is set that this call does not allow\0"
    "the number of access descriptors is not 1, or in FF-A 1.2 not one to four\0"
    "no access descriptor names the caller\0"
    "the data permission has a reserved value\0"
    "the instruction permission has a reserved value\0"
    "reserved bits of the permissions are not 0\0"
    "the flags of the access descriptor are not 0\0"
    "a composite is given\0"
    "reserved bytes of the access descriptor are not 0\0"
    "a field of a hypervisor's retrieve is not 0, and is not the handle\0"
    "the descriptor is shorter than 18 bytes\0"
    "a flag other than bit 0 is set\0"
    "the number of endpoints is not 1\0";

static const char answer_names[] =
    "done\0"
    "no memory\0"
    "M2 Toml\0"
    "M3 UnknownKey\0"
    "M4 MissingKey\0"
    "M5 WrongKind\0"
    "M6 RamBase\0"
    "M7 RamBlocks\0"
    "M8 EndpointCount\0"
    "M9 Uuid\0"
    "M10 Property\0"
    "M11 RegionCount\0"
    "M12 RegionOutside\0"
    "M13 RegionOverlap\0"
    "M14 Version\0"
    "there is already a machine, a list or a page\0"
    "there is no list\0"
    "there is no page in the slot, in the span or in the list\0"
    "the list has pages still\0"
    "there is no machine\0"
    "the list has more pages than the machine's RAM, or fewer\0"
    "the tables don't give what the runs say\0"
    "the machine's RAM is lent: gorseplumb_end gives it back\0"
    "RAM of this size cannot begin at this address\0"
    "there are more roots than endpoints of a machine, or a root is not a page of RAM\0"
    "M25 TablesOutside\0";

/* The name at a place, counted from 0, of names that have so many bytes; "" behind the last. */
static const char *name_at(const char *names, size_t bytes, uint32_t place) {
    size_t at = 0;
    for (; place > 0 && at < bytes; place--) {
        while (names[at] != '\0') at++;
        at++;
    }
    return &names[at < bytes ? at : bytes - 1];
}

/* The function with this identifier, of either form, or null. */
static const struct function *function_of(uint32_t number) {
    for (size_t i = 0; i < sizeof functions / sizeof functions[0]; i++) {
        const struct function *function = &functions[i];
        if (number == function->number || (function->has_wide && number == (function->number | WIDE))) return function;
    }
    return NULL;
}

/* Whoever compiles this file himself has no proof: c/archive alone defines GORSEPLUMB_PROVED, for what it proved. */
#ifdef GORSEPLUMB_PROVED
#define OF_PROOFS ""
#else
#define OF_PROOFS " (not proved)"
#endif

static const char version[] = "0.1.0" OF_PROOFS;

const char *gorseplumb_version(void) { return version; }

const char *gorseplumb_call_name(uint32_t function) {
    const struct function *found = function_of(function);
    return found != NULL ? found->name : "";
}

uint32_t gorseplumb_check_number(uint32_t function, uint32_t check) {
    const struct function *found = function_of(function);
    if (found == NULL) return check == CHECK(FUNCTION_UNKNOWN) ? 1 : 0;
    for (uint32_t place = 0; found->checks[place] != 0; place++) {
        if (found->checks[place] == check) return place + 1;
    }
    return 0;
}

const char *gorseplumb_error_name(int32_t error) { return name_at(error_names, sizeof error_names, ~(uint32_t)error); }

const char *gorseplumb_fault_name(uint32_t fault) { return name_at(fault_names, sizeof fault_names, fault - 1); }

const char *gorseplumb_check_name(uint32_t check) { return name_at(check_names, sizeof check_names, check - 1); }

const char *gorseplumb_flaw_name(uint32_t flaw) { return name_at(flaw_names, sizeof flaw_names, flaw - 1); }

const char *gorseplumb_answer_name(uint32_t answer) { return name_at(answer_names, sizeof answer_names, answer); }
