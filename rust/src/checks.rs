// SPDX-License-Identifier: MIT OR Apache-2.0
//! The checks of calls, and the conditions of descriptors.
use crate::codes::codes;
use core::fmt;

codes! {
    /// The check that refuses a call. Calls that check the same share a variant. docs/CALLS.md and docs/MEMORY.md list
    /// the checks of each call in order.
    pub enum Check: u32 {
        1 FunctionUnknown "the function is not supported",
        2 BuffersMissing "the caller has no RX and TX",
        3 FlagsReserved "a flag is set that must be 0",
        4 SenderIsAnother "the sender is not the caller",
        5 ReceiverIsAnother "the receiver is not the caller",
        6 ReceiverUnknown "no endpoint has the receiver's identifier",
        7 ReceiverIsCaller "the receiver is the caller",
        8 NotNormalWorld "the caller is not the normal world",
        9 ContextUnknown "the endpoint does not have this execution context",
        10 RxFull "the caller's RX is full",
        11 UuidUnknown "no partition has the UUID",
        12 BuffersMapped "the caller already has RX and TX",
        13 BufferPageCount "a buffer has no pages, or too many",
        14 TxMisplaced "TX is not page-aligned, or not entirely in RAM",
        15 RxMisplaced "RX is not page-aligned, or not entirely in RAM",
        16 BuffersOverlap "RX and TX overlap",
        17 TxUnusable "a page of TX does not belong to the caller, is not writable, or is in an open transaction",
        18 RxUnusable "a page of RX does not belong to the caller, is not writable, or is in an open transaction",
        19 EndpointNotZero "the endpoint's identifier is not 0",
        20 RxEmpty "the caller has no RX and TX, or its RX is not full",
        21 ReceiverIsNormalWorld "the receiver is the normal world",
        22 RequestsUnsent "the caller may not send direct requests (bit 1 of its properties is not set)",
        23 RequestsUnreceived "the receiver does not accept direct requests (bit 0 of its properties is not set)",
        24 ReceiverNotWaiting "the receiver is not waiting",
        25 NoRequest "the caller is not processing a direct request",
        26 AnswerMisdirected "the response does not go from the caller to the sender of the request",
        27 TargetUnknown "no partition has the target's identifier",
        28 TargetNotReady "the target is not waiting and has not yielded",
        29 NotRun "the caller is not processing an FFA_RUN",
        30 NobodyToYieldTo "the caller works for no endpoint that it may yield to",
        31 HeaderReserved "a reserved field of the header is not 0",
        32 MessageInHeader "the message begins inside its header",
        33 MessageEmpty "the message is empty",
        34 MessageTooLong "the message ends outside TX",
        35 MessagesUnsent "the caller may not send indirect messages (bit 2 of its properties is not set)",
        36 MessagesUnreceived "the receiver does not accept indirect messages (bit 2 of its properties is not set)",
        37 ReceiverBuffersMissing "the receiver has no RX and TX",
        38 ReceiverRxFull "the receiver's RX is full",
        39 ReceiverRxSmall "the message with its header is longer than the receiver's RX",
        40 EndpointNotNormalWorld "the endpoint is not the normal world",
        41 ContextCount "the normal world cannot have this number of execution contexts",
        42 BitmapsExist "the normal world already has notification bitmaps",
        43 BitmapsMissing "the endpoint has no notification bitmaps",
        44 BitsPending "a notification bit of the normal world is pending",
        45 SenderUnknown "no endpoint has the sender's identifier",
        46 SenderIsCaller "the sender is the caller",
        47 BitsNone "no bit is selected",
        48 BitsTaken "one of the bits is bound to another sender, or is pending",
        49 BitsNotTheSenders "one of the bits is not bound to the sender, or is pending",
        50 BitsNotTheCallers "one of the bits is not bound to the caller",
        51 ClassesUnknown "the flags select an unknown class of notifications",
        52 Fragmented "the fragment is not the whole descriptor",
        53 DescriptorTooLong "the descriptor is longer than TX",
        54 BufferAddressGiven "a buffer address is given, but only TX is supported",
        55 BufferPagesGiven "a page count of a buffer is given, but only TX is supported",
        56 DescriptorMalformed "the bytes in TX are not a descriptor of this call",
        57 RangeOutside "a range is not entirely in RAM",
        58 PageUnsendable "a page does not belong to the caller, or is in an open transaction or a buffer",
        59 GrantTooMuch "a grant exceeds the owner's right to a page",
        60 ZerosUnwritable "zeroing is requested for a page that its owner may not write to",
        61 TransactionsFull "the caller has reached its limit of open transactions",
        62 HandlesUsedUp "the caller has used up its handles",
        63 HandleUnknown "no open transaction has the handle",
        64 NotReceiver "the caller is not a receiver of the transaction",
        65 TransactionSenderDiffers "the sender differs from the transaction's",
        66 TagDiffers "the tag differs from the transaction's",
        67 KindDiffers "the kind differs from the transaction's",
        68 AlreadyRetrieved "the caller already holds the transaction",
        69 RightTooMuch "the requested right exceeds the right that the caller may get",
        70 EndpointIsAnother "the endpoint in the descriptor is not the caller",
        71 NotOffered "no open transaction with the handle has the caller as a receiver",
        72 NotHeld "the caller does not hold the transaction",
        73 ZerosNotAllowed "zeroing is requested, but the caller does not hold a lend with write access",
        74 NotTheSenders "no open transaction from the caller has the handle",
        75 StillHeld "a receiver still holds the transaction",
        76 WorldsMixed "secure pages are sent to the normal world, or together with non-secure pages",
        77 ReceiversDiffer "the endpoints in the descriptor are not the transaction's receivers",
        78 BuffersNeeded "the call needs RX and TX, and the caller has none",
        79 NothingToTell "the normal world has been told of all pending notifications",
    }
}

impl fmt::Display for Check {
    fn fmt(&self, to: &mut fmt::Formatter<'_>) -> fmt::Result {
        to.write_str(self.words())
    }
}

codes! {
    /// The first condition of a descriptor that the bytes in TX break. The words do not say which access descriptor or
    /// which range.
    pub enum Flaw: u32 {
        1 HeaderShort "the descriptor is shorter than its header",
        2 HeaderAccessSize "the access descriptor size field is not 16, 32 in FF-A 1.2, or 0 in the compact form",
        3 HeaderArrayUnaligned "the offset of the access descriptors is not a multiple of 16",
        4 HeaderArrayInHeader "the access descriptors begin inside the header",
        5 HeaderArrayOutside "the access descriptors end outside the descriptor",
        6 HeaderReserved "reserved bytes at the end of the header are not 0",
        7 SendAttributes "the memory attributes are wrong for this call and this number of receivers",
        8 SendFlags "a flag is set that this call does not allow",
        9 SendHandle "the handle is not 0",
        10 SendNoReceiver "there is no receiver",
        11 SendManyReceivers "there are more receivers than this call allows",
        12 AccessPermissions "this call does not allow these permissions",
        13 AccessFlags "the access descriptor has a flag that this call does not allow",
        14 AccessOtherComposite "the access descriptor refers to a different composite than this call allows",
        15 AccessReserved "reserved bytes of the access descriptor are not 0",
        16 AccessReceiverIsSender "the access descriptor names the sender",
        17 AccessReceiverTwice "the access descriptor names the same receiver as an earlier one",
        18 CompositeOutside "the composite ends outside the descriptor, even without its ranges",
        19 CompositeUnaligned "the offset of the composite is not a multiple of 16",
        20 CompositeInArray "the composite begins before the access descriptors end",
        21 CompositeNoRange "the composite has no ranges",
        22 CompositeManyRanges "the composite has more ranges than a transaction may have",
        23 CompositeReserved "reserved bytes of the composite are not 0",
        24 CompositeRangesOutside "the ranges end outside the descriptor",
        25 CompositeTotal "the page count of the composite is not the sum of the page counts of its ranges",
        26 RangeEmpty "the range has no pages",
        27 RangeUnaligned "the range is not page-aligned",
        28 RangeTooHigh "the range ends above 2^48",
        29 RangeReserved "reserved bytes of the range are not 0",
        30 RangeOverlap "the range overlaps an earlier range",
        31 RetrieveAttributes "the memory attributes are neither 0 nor normal memory",
        32 RetrieveFlags "a flag is set that this call does not allow",
        33 RetrieveAccessCount "the number of access descriptors is not 1, or in FF-A 1.2 not one to four",
        34 RetrieveReceiverIsAnother "no access descriptor names the caller",
        35 RetrieveDataPermission "the data permission has a reserved value",
        36 RetrieveInstructionPermission "the instruction permission has a reserved value",
        37 RetrievePermissionsReserved "reserved bits of the permissions are not 0",
        38 RetrieveAccessFlags "the flags of the access descriptor are not 0",
        39 RetrieveCompositeTold "a composite is given",
        40 RetrieveAccessReserved "reserved bytes of the access descriptor are not 0",
        41 RetrieveNotZero "a field of a hypervisor's retrieve is not 0, and is not the handle",
        42 RelinquishShort "the descriptor is shorter than 18 bytes",
        43 RelinquishFlags "a flag other than bit 0 is set",
        44 RelinquishEndpointCount "the number of endpoints is not 1",
    }
}

impl fmt::Display for Flaw {
    fn fmt(&self, to: &mut fmt::Formatter<'_>) -> fmt::Result {
        to.write_str(self.words())
    }
}
