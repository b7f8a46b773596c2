# SPDX-License-Identifier: MIT OR Apache-2.0
"""The checks by which calls are refused, and the conditions that malformed descriptors break, each with its words.

Numbers count from 1, in the order of the core's own lists (ffa_model's `Refusal` and `Flaw`)."""
from __future__ import annotations

from .hexadecimal import Named


class _Worded(Named):
    """Numbers, each with its words, which are its `str`. A format of a number, as `{check:d}`, gives the number."""

    words: str

    def __new__(cls, number: int, words: str = "") -> _Worded:
        member = int.__new__(cls, number)
        member._value_ = number
        member.words = words
        return member

    def __str__(self) -> str:
        return self.words

    def __format__(self, spec: str) -> str:
        is_of_text = spec[-1:] == "s" or not spec[-1:].isalpha()
        return format(self.words if is_of_text else int(self), spec)


class Check(_Worded):
    """The check of a call that fails, by the library's number. Calls that check the same share it: its number in the
    manual's list of one call is `check_number` of a Reason."""

    FUNCTION_UNKNOWN = 1, "the function is not supported"
    BUFFERS_MISSING = 2, "the caller has no RX and TX"
    FLAGS_RESERVED = 3, "a flag is set that must be 0"
    SENDER_IS_ANOTHER = 4, "the sender is not the caller"
    RECEIVER_IS_ANOTHER = 5, "the receiver is not the caller"
    RECEIVER_UNKNOWN = 6, "no endpoint has the receiver's identifier"
    RECEIVER_IS_CALLER = 7, "the receiver is the caller"
    NOT_NORMAL_WORLD = 8, "the caller is not the normal world"
    CONTEXT_UNKNOWN = 9, "the endpoint does not have this execution context"
    RX_FULL = 10, "the caller's RX is full"
    UUID_UNKNOWN = 11, "no partition has the UUID"
    BUFFERS_MAPPED = 12, "the caller already has RX and TX"
    BUFFER_PAGE_COUNT = 13, "a buffer has no pages, or too many"
    TX_MISPLACED = 14, "TX is not page-aligned, or not entirely in RAM"
    RX_MISPLACED = 15, "RX is not page-aligned, or not entirely in RAM"
    BUFFERS_OVERLAP = 16, "RX and TX overlap"
    TX_UNUSABLE = 17, "a page of TX does not belong to the caller, is not writable, or is in an open transaction"
    RX_UNUSABLE = 18, "a page of RX does not belong to the caller, is not writable, or is in an open transaction"
    ENDPOINT_NOT_ZERO = 19, "the endpoint's identifier is not 0"
    RX_EMPTY = 20, "the caller has no RX and TX, or its RX is not full"
    RECEIVER_IS_NORMAL_WORLD = 21, "the receiver is the normal world"
    REQUESTS_UNSENT = 22, "the caller may not send direct requests (bit 1 of its properties is not set)"
    REQUESTS_UNRECEIVED = 23, "the receiver does not accept direct requests (bit 0 of its properties is not set)"
    RECEIVER_NOT_WAITING = 24, "the receiver is not waiting"
    NO_REQUEST = 25, "the caller is not processing a direct request"
    ANSWER_MISDIRECTED = 26, "the response does not go from the caller to the sender of the request"
    TARGET_UNKNOWN = 27, "no partition has the target's identifier"
    TARGET_NOT_READY = 28, "the target is not waiting and has not yielded"
    NOT_RUN = 29, "the caller is not processing an FFA_RUN"
    NOBODY_TO_YIELD_TO = 30, "the caller works for no endpoint that it may yield to"
    HEADER_RESERVED = 31, "a reserved field of the header is not 0"
    MESSAGE_IN_HEADER = 32, "the message begins inside its header"
    MESSAGE_EMPTY = 33, "the message is empty"
    MESSAGE_TOO_LONG = 34, "the message ends outside TX"
    MESSAGES_UNSENT = 35, "the caller may not send indirect messages (bit 2 of its properties is not set)"
    MESSAGES_UNRECEIVED = 36, "the receiver does not accept indirect messages (bit 2 of its properties is not set)"
    RECEIVER_BUFFERS_MISSING = 37, "the receiver has no RX and TX"
    RECEIVER_RX_FULL = 38, "the receiver's RX is full"
    RECEIVER_RX_SMALL = 39, "the message with its header is longer than the receiver's RX"
    ENDPOINT_NOT_NORMAL_WORLD = 40, "the endpoint is not the normal world"
    CONTEXT_COUNT = 41, "the normal world cannot have this number of execution contexts"
    BITMAPS_EXIST = 42, "the normal world already has notification bitmaps"
    BITMAPS_MISSING = 43, "the endpoint has no notification bitmaps"
    BITS_PENDING = 44, "a notification bit of the normal world is pending"
    SENDER_UNKNOWN = 45, "no endpoint has the sender's identifier"
    SENDER_IS_CALLER = 46, "the sender is the caller"
    BITS_NONE = 47, "no bit is selected"
    BITS_TAKEN = 48, "one of the bits is bound to another sender, or is pending"
    BITS_NOT_THE_SENDERS = 49, "one of the bits is not bound to the sender, or is pending"
    BITS_NOT_THE_CALLERS = 50, "one of the bits is not bound to the caller"
    CLASSES_UNKNOWN = 51, "the flags select an unknown class of notifications"
    FRAGMENTED = 52, "the fragment is not the whole descriptor"
    DESCRIPTOR_TOO_LONG = 53, "the descriptor is longer than TX"
    BUFFER_ADDRESS_GIVEN = 54, "a buffer address is given, but only TX is supported"
    BUFFER_PAGES_GIVEN = 55, "a page count of a buffer is given, but only TX is supported"
    DESCRIPTOR_MALFORMED = 56, "the bytes in TX are not a descriptor of this call"
    RANGE_OUTSIDE = 57, "a range is not entirely in RAM"
    PAGE_UNSENDABLE = 58, "a page does not belong to the caller, or is in an open transaction or a buffer"
    GRANT_TOO_MUCH = 59, "a grant exceeds the owner's right to a page"
    ZEROS_UNWRITABLE = 60, "zeroing is requested for a page that its owner may not write to"
    TRANSACTIONS_FULL = 61, "the caller has reached its limit of open transactions"
    HANDLES_USED_UP = 62, "the caller has used up its handles"
    HANDLE_UNKNOWN = 63, "no open transaction has the handle"
    NOT_RECEIVER = 64, "the caller is not a receiver of the transaction"
    TRANSACTION_SENDER_DIFFERS = 65, "the sender differs from the transaction's"
    TAG_DIFFERS = 66, "the tag differs from the transaction's"
    KIND_DIFFERS = 67, "the kind differs from the transaction's"
    ALREADY_RETRIEVED = 68, "the caller already holds the transaction"
    RIGHT_TOO_MUCH = 69, "the requested right exceeds the right that the caller may get"
    ENDPOINT_IS_ANOTHER = 70, "the endpoint in the descriptor is not the caller"
    NOT_OFFERED = 71, "no open transaction with the handle has the caller as a receiver"
    NOT_HELD = 72, "the caller does not hold the transaction"
    ZEROS_NOT_ALLOWED = 73, "zeroing is requested, but the caller does not hold a lend with write access"
    NOT_THE_SENDERS = 74, "no open transaction from the caller has the handle"
    STILL_HELD = 75, "a receiver still holds the transaction"
    WORLDS_MIXED = 76, "secure pages are sent to the normal world, or together with non-secure pages"
    RECEIVERS_DIFFER = 77, "the endpoints in the descriptor are not the transaction's receivers"
    BUFFERS_NEEDED = 78, "the call needs RX and TX, and the caller has none"
    NOTHING_TO_TELL = 79, "the normal world has been told of all pending notifications"


class Flaw(_Worded):
    """A condition of a descriptor that its bytes break. The first word of its name is the part of the descriptor."""

    HEADER_SHORT = 1, "the descriptor is shorter than its header"
    HEADER_ACCESS_SIZE = 2, "the access descriptor size field is not 16, 32 in FF-A 1.2, or 0 in the compact form"
    HEADER_ARRAY_UNALIGNED = 3, "the offset of the access descriptors is not a multiple of 16"
    HEADER_ARRAY_IN_HEADER = 4, "the access descriptors begin inside the header"
    HEADER_ARRAY_OUTSIDE = 5, "the access descriptors end outside the descriptor"
    HEADER_RESERVED = 6, "reserved bytes at the end of the header are not 0"
    SEND_ATTRIBUTES = 7, "the memory attributes are wrong for this call and this number of receivers"
    SEND_FLAGS = 8, "a flag is set that this call does not allow"
    SEND_HANDLE = 9, "the handle is not 0"
    SEND_NO_RECEIVER = 10, "there is no receiver"
    SEND_MANY_RECEIVERS = 11, "there are more receivers than this call allows"
    ACCESS_PERMISSIONS = 12, "this call does not allow these permissions"
    ACCESS_FLAGS = 13, "the access descriptor has a flag that this call does not allow"
    ACCESS_OTHER_COMPOSITE = 14, "the access descriptor refers to a different composite than this call allows"
    ACCESS_RESERVED = 15, "reserved bytes of the access descriptor are not 0"
    ACCESS_RECEIVER_IS_SENDER = 16, "the access descriptor names the sender"
    ACCESS_RECEIVER_TWICE = 17, "the access descriptor names the same receiver as an earlier one"
    COMPOSITE_OUTSIDE = 18, "the composite ends outside the descriptor, even without its ranges"
    COMPOSITE_UNALIGNED = 19, "the offset of the composite is not a multiple of 16"
    COMPOSITE_IN_ARRAY = 20, "the composite begins before the access descriptors end"
    COMPOSITE_NO_RANGE = 21, "the composite has no ranges"
    COMPOSITE_MANY_RANGES = 22, "the composite has more ranges than a transaction may have"
    COMPOSITE_RESERVED = 23, "reserved bytes of the composite are not 0"
    COMPOSITE_RANGES_OUTSIDE = 24, "the ranges end outside the descriptor"
    COMPOSITE_TOTAL = 25, "the page count of the composite is not the sum of the page counts of its ranges"
    RANGE_EMPTY = 26, "the range has no pages"
    RANGE_UNALIGNED = 27, "the range is not page-aligned"
    RANGE_TOO_HIGH = 28, "the range ends above 2^48"
    RANGE_RESERVED = 29, "reserved bytes of the range are not 0"
    RANGE_OVERLAP = 30, "the range overlaps an earlier range"
    RETRIEVE_ATTRIBUTES = 31, "the memory attributes are neither 0 nor normal memory"
    RETRIEVE_FLAGS = 32, "a flag is set that this call does not allow"
    RETRIEVE_ACCESS_COUNT = 33, "the number of access descriptors is not 1, or in FF-A 1.2 not one to four"
    RETRIEVE_RECEIVER_IS_ANOTHER = 34, "no access descriptor names the caller"
    RETRIEVE_DATA_PERMISSION = 35, "the data permission has a reserved value"
    RETRIEVE_INSTRUCTION_PERMISSION = 36, "the instruction permission has a reserved value"
    RETRIEVE_PERMISSIONS_RESERVED = 37, "reserved bits of the permissions are not 0"
    RETRIEVE_ACCESS_FLAGS = 38, "the flags of the access descriptor are not 0"
    RETRIEVE_COMPOSITE_TOLD = 39, "a composite is given"
    RETRIEVE_ACCESS_RESERVED = 40, "reserved bytes of the access descriptor are not 0"
    RETRIEVE_NOT_ZERO = 41, "a field of a hypervisor's retrieve is not 0, and is not the handle"
    RELINQUISH_SHORT = 42, "the descriptor is shorter than 18 bytes"
    RELINQUISH_FLAGS = 43, "a flag other than bit 0 is set"
    RELINQUISH_ENDPOINT_COUNT = 44, "the number of endpoints is not 1"
