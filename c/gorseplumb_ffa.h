/* SPDX-License-Identifier: MIT OR Apache-2.0 */
/* FF-A's numbers by name, and short ways to make a call and to read an answer. You need this header if you write a test
 * bench, or firmware that has no header with these names. It is optional: gorseplumb.h does not need it. tests/copies
 * writes the identifiers from the crates' table, and tests/lists compares the other numbers. The functions are C, and
 * not proved. They put numbers into registers and take numbers out of them. They need no C library, and call only
 * gorseplumb_call of Gorseplumb's library. */
#ifndef GORSEPLUMB_FFA_H
#define GORSEPLUMB_FFA_H

#include "gorseplumb.h"

/* Function identifiers, which are in w0 of a call and of an answer (DEN0077A, 11 to 16). A name that ends in _64 is for
 * the 64-bit form of a call, which has one more bit: GORSEPLUMB_FFA_WIDE (DEN0028, 2). docs/CALLS.md and docs/MEMORY.md
 * say what the other registers hold. */
#define GORSEPLUMB_FFA_WIDE UINT32_C(0x40000000)

#define GORSEPLUMB_FFA_ERROR UINT32_C(0x84000060)
#define GORSEPLUMB_FFA_SUCCESS UINT32_C(0x84000061)
#define GORSEPLUMB_FFA_SUCCESS_64 UINT32_C(0xC4000061)
#define GORSEPLUMB_FFA_INTERRUPT UINT32_C(0x84000062)
#define GORSEPLUMB_FFA_VERSION UINT32_C(0x84000063)
#define GORSEPLUMB_FFA_FEATURES UINT32_C(0x84000064)
#define GORSEPLUMB_FFA_RX_RELEASE UINT32_C(0x84000065)
#define GORSEPLUMB_FFA_RXTX_MAP UINT32_C(0x84000066)
#define GORSEPLUMB_FFA_RXTX_MAP_64 UINT32_C(0xC4000066)
#define GORSEPLUMB_FFA_RXTX_UNMAP UINT32_C(0x84000067)
#define GORSEPLUMB_FFA_PARTITION_INFO_GET UINT32_C(0x84000068)
#define GORSEPLUMB_FFA_ID_GET UINT32_C(0x84000069)
#define GORSEPLUMB_FFA_MSG_WAIT UINT32_C(0x8400006B)
#define GORSEPLUMB_FFA_YIELD UINT32_C(0x8400006C)
#define GORSEPLUMB_FFA_RUN UINT32_C(0x8400006D)
#define GORSEPLUMB_FFA_MSG_SEND_DIRECT_REQ UINT32_C(0x8400006F)
#define GORSEPLUMB_FFA_MSG_SEND_DIRECT_REQ_64 UINT32_C(0xC400006F)
#define GORSEPLUMB_FFA_MSG_SEND_DIRECT_RESP UINT32_C(0x84000070)
#define GORSEPLUMB_FFA_MSG_SEND_DIRECT_RESP_64 UINT32_C(0xC4000070)
#define GORSEPLUMB_FFA_MEM_DONATE UINT32_C(0x84000071)
#define GORSEPLUMB_FFA_MEM_DONATE_64 UINT32_C(0xC4000071)
#define GORSEPLUMB_FFA_MEM_LEND UINT32_C(0x84000072)
#define GORSEPLUMB_FFA_MEM_LEND_64 UINT32_C(0xC4000072)
#define GORSEPLUMB_FFA_MEM_SHARE UINT32_C(0x84000073)
#define GORSEPLUMB_FFA_MEM_SHARE_64 UINT32_C(0xC4000073)
#define GORSEPLUMB_FFA_MEM_RETRIEVE_REQ UINT32_C(0x84000074)
#define GORSEPLUMB_FFA_MEM_RETRIEVE_REQ_64 UINT32_C(0xC4000074)
#define GORSEPLUMB_FFA_MEM_RETRIEVE_RESP UINT32_C(0x84000075)
#define GORSEPLUMB_FFA_MEM_RELINQUISH UINT32_C(0x84000076)
#define GORSEPLUMB_FFA_MEM_RECLAIM UINT32_C(0x84000077)
#define GORSEPLUMB_FFA_NOTIFICATION_BITMAP_CREATE UINT32_C(0x8400007D)
#define GORSEPLUMB_FFA_NOTIFICATION_BITMAP_DESTROY UINT32_C(0x8400007E)
#define GORSEPLUMB_FFA_NOTIFICATION_BIND UINT32_C(0x8400007F)
#define GORSEPLUMB_FFA_NOTIFICATION_UNBIND UINT32_C(0x84000080)
#define GORSEPLUMB_FFA_NOTIFICATION_SET UINT32_C(0x84000081)
#define GORSEPLUMB_FFA_NOTIFICATION_GET UINT32_C(0x84000082)
#define GORSEPLUMB_FFA_NOTIFICATION_INFO_GET UINT32_C(0x84000083)
#define GORSEPLUMB_FFA_NOTIFICATION_INFO_GET_64 UINT32_C(0xC4000083)
#define GORSEPLUMB_FFA_SPM_ID_GET UINT32_C(0x84000085)
#define GORSEPLUMB_FFA_MSG_SEND2 UINT32_C(0x84000086)

/* Error codes. FFA_ERROR has them in w2 as a number of 32 bits (DEN0077A, 11.2), and a struct gorseplumb_reason has
 * them in `error`. No call is answered INTERRUPTED, RETRY or ABORTED. Only FFA_NOTIFICATION_INFO_GET is answered
 * NO_DATA. gorseplumb_error_name returns their names. */
enum gorseplumb_error {
    GORSEPLUMB_ERROR_NOT_SUPPORTED = -1,
    GORSEPLUMB_ERROR_INVALID_PARAMETERS = -2,
    GORSEPLUMB_ERROR_NO_MEMORY = -3,
    GORSEPLUMB_ERROR_BUSY = -4,
    GORSEPLUMB_ERROR_INTERRUPTED = -5,
    GORSEPLUMB_ERROR_DENIED = -6,
    GORSEPLUMB_ERROR_RETRY = -7,
    GORSEPLUMB_ERROR_ABORTED = -8,
    GORSEPLUMB_ERROR_NO_DATA = -9
};

/* Properties of an endpoint: bits of `properties` in a struct gorseplumb_endpoint, which say in which messages the
 * endpoint takes part (DEN0077A, 6.2.2). The normal world may not have a property whose name has RECEIVES. Only a
 * partition with GORSEPLUMB_VERSION_1_2 may receive or send second direct requests. */
#define GORSEPLUMB_RECEIVES_DIRECT_REQUESTS 1
#define GORSEPLUMB_SENDS_DIRECT_REQUESTS 2
#define GORSEPLUMB_INDIRECT_MESSAGES 4
#define GORSEPLUMB_RECEIVES_NOTIFICATIONS 8
#define GORSEPLUMB_RECEIVES_SECOND_REQUESTS 0x200
#define GORSEPLUMB_SENDS_SECOND_REQUESTS 0x400

/* The form of an endpoint's descriptors: `version` in a struct gorseplumb_endpoint. In the form of FF-A 1.2, an access
 * descriptor has 32 bytes instead of 16. This form needs a machine with `ffa` GORSEPLUMB_FFA_1_2. */
#define GORSEPLUMB_VERSION_1_1 0
#define GORSEPLUMB_VERSION_COMPACT 1
#define GORSEPLUMB_VERSION_1_2 2

/* Two identifiers that are the same in each machine (DEN0077A, 6.1): the identifier of the normal world, and the
 * identifier of the manager, which is not an endpoint. */
#define GORSEPLUMB_NORMAL_WORLD 0
#define GORSEPLUMB_MANAGER 0x8000

/* Returns the identifier of the endpoint at a place in the manifest, counted from 0. */
static inline uint16_t gorseplumb_identifier(uint32_t place) {
    return (uint16_t)(place == 0 ? GORSEPLUMB_NORMAL_WORLD : GORSEPLUMB_MANAGER + place);
}

/* Makes a struct gorseplumb_registers from the identifier of a call, and from x1 and the next registers as far as you
 * give them. The other registers are zero. */
#ifdef __cplusplus
#define GORSEPLUMB_REGISTERS(...) (gorseplumb_registers{{__VA_ARGS__}})
#else
#define GORSEPLUMB_REGISTERS(...) ((struct gorseplumb_registers){{__VA_ARGS__}})
#endif

/* Does a call like gorseplumb_call, with registers that you pass by value. Returns what gorseplumb_call returns. */
static inline struct gorseplumb_outcome gorseplumb_make_call(struct gorseplumb_machine *machine,
                                                             struct gorseplumb_registers registers) {
    return gorseplumb_call(machine, &registers);
}

/* Does a call of the runner, from the identifier of the call and from the registers that GORSEPLUMB_REGISTERS takes:
 *
 *     GORSEPLUMB_CALL(&machine, GORSEPLUMB_FFA_RUN, gorseplumb_pair(0x8001, 0))
 *     GORSEPLUMB_CALL(&machine, GORSEPLUMB_FFA_MEM_RECLAIM, gorseplumb_low_half(handle), gorseplumb_high_half(handle))
 */
#define GORSEPLUMB_CALL(machine, ...) gorseplumb_make_call(machine, GORSEPLUMB_REGISTERS(__VA_ARGS__))

/* Returns w1 for two identifiers of endpoints, or for an endpoint and its execution context: the first number in bits
 * 31:16, and the second number in bits 15:0. */
static inline uint32_t gorseplumb_pair(uint16_t first, uint16_t second) { return (uint32_t)first << 16 | second; }

/* Returns bits 31:16 of w1: the first number of a pair. */
static inline uint16_t gorseplumb_pair_first(uint64_t x1) { return (uint16_t)(x1 >> 16); }

/* Returns bits 15:0 of w1: the second number of a pair. */
static inline uint16_t gorseplumb_pair_second(uint64_t x1) { return (uint16_t)x1; }

/* Returns the low half of a handle or of a word of notifications. Two registers hold such a number, and the first of
 * them holds the low half. */
static inline uint32_t gorseplumb_low_half(uint64_t whole) { return (uint32_t)whole; }

/* Returns the high half of a handle or of a word of notifications. Two registers hold such a number, and the second of
 * them holds the high half. */
static inline uint32_t gorseplumb_high_half(uint64_t whole) { return (uint32_t)(whole >> 32); }

/* Returns the handle or the word of notifications that two registers hold. */
static inline uint64_t gorseplumb_of_halves(uint64_t low, uint64_t high) { return high << 32 | (uint32_t)low; }

/* Returns the number that the runner sees in w0: a function identifier, or the version that FFA_VERSION answers.
 * Returns 0 if the outcome has no registers. */
static inline uint32_t gorseplumb_function_of(struct gorseplumb_outcome told) {
    return told.kind == GORSEPLUMB_KIND_REGISTERS ? (uint32_t)told.x[0] : 0;
}

/* Returns true if the answer is FFA_ERROR, which means that the call is refused. Only FFA_VERSION has another answer
 * for a version that is not served: NOT_SUPPORTED in w0. */
static inline bool gorseplumb_is_error(struct gorseplumb_outcome told) {
    return gorseplumb_function_of(told) == GORSEPLUMB_FFA_ERROR;
}

/* Returns the error code of an FFA_ERROR, an enum gorseplumb_error. Returns 0, which is no code, for every other
 * outcome. */
static inline int32_t gorseplumb_error_of(struct gorseplumb_outcome told) {
    return gorseplumb_is_error(told) ? (int32_t)(uint32_t)told.x[2] : 0;
}

/* Returns the handle in the FFA_SUCCESS of a share, a lend or a donate. Returns 0, which is no handle, for an outcome
 * that is not FFA_SUCCESS. */
static inline uint64_t gorseplumb_handle_of(struct gorseplumb_outcome told) {
    bool is_done = gorseplumb_function_of(told) == GORSEPLUMB_FFA_SUCCESS;
    return is_done ? gorseplumb_of_halves(told.x[2], told.x[3]) : 0;
}

#endif
