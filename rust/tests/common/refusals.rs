// SPDX-License-Identifier: MIT OR Apache-2.0
//! Each check of each call, with the smallest operation that fails it and what is done before. docs/CALLS.md and
//! docs/MEMORY.md list the checks; four of them nothing fails.
use gorseplumb::Check::{self, *};
use gorseplumb::{Endpoint, Ffa, Manifest, Properties, Region, Rights, Version};

/// A check that fails.
pub struct Row {
    /// The call, and the check's number in its list.
    pub check: (&'static str, usize),
    pub named: Check,
    /// The lines of a trace that are done before, by each of which something is done.
    pub before: String,
    /// The line that is refused.
    pub line: String,
}

const RAM: u32 = super::RAM as u32;

impl Row {
    /// Returns the machine on which the check fails. It serves FF-A 1.1 if the caller must use up its sends, because it
    /// has too many of them in FF-A 1.2.
    pub fn machine(&self) -> Manifest {
        match self.named {
            HandlesUsedUp => MACHINE.with_ffa(Ffa::V1_1),
            _ => MACHINE,
        }
    }
}

/// The normal world; 8001 and 8002, which take part in all; and 8003, which takes part in nothing, and has pages that
/// it may not write to. The machine serves FF-A 1.2.
pub const MACHINE: Manifest = Manifest::new(
    RAM,
    1,
    &[
        Endpoint::normal_world(
            Version::V1_1,
            Properties::SENDS_REQUESTS.union(Properties::INDIRECT_MESSAGES),
            &[Region::new(RAM + 0x10000, 32, Rights::Rw)],
        ),
        Endpoint::partition([1; 16], Version::V1_1, Properties::ALL, &[Region::new(RAM + 0x30000, 16, Rights::Rwx)]),
        Endpoint::partition([2; 16], Version::V1_1, Properties::ALL, &[Region::new(RAM + 0x40000, 16, Rights::Rw)]),
        Endpoint::partition(
            [3; 16],
            Version::V1_1,
            Properties::NONE,
            &[Region::new(RAM + 0x50000, 8, Rights::Ro), Region::new(RAM + 0x58000, 8, Rights::Rw)],
        ),
    ],
)
.with_ffa(Ffa::V1_2);

/// Checks that nothing fails: no partition is blocked while the normal world runs, a donate grants no right, and a
/// share that asks for zeros is no descriptor.
pub const NEVER: [(&str, usize); 4] = [
    ("FFA_RUN", 4),
    ("FFA_MEM_DONATE", 11),
    ("FFA_MEM_SHARE", 12),
    // Only a machine of FF-A 1.1 makes this check.
    ("FFA_PARTITION_INFO_GET", 2),
];

const WAIT: &str = "call 8400006B\n";
const YIELD: &str = "call 8400006C\n";
const RUN_1: &str = "call 8400006D 80010000\n";
const RUN_2: &str = "call 8400006D 80020000\n";
const RUN_3: &str = "call 8400006D 80030000\n";
const REQUEST_1: &str = "call 8400006F 8001\n";
const INFO: &str = "call 84000068\n"; // fills RX
const BITMAPS: &str = "call 8400007D 0 1\n"; // of the normal world
const BIND_1: &str = "call 8400007F 80010000 0 1\n"; // of the normal world's bit 0 to 8001

// The buffers of each endpoint.
const TX: u64 = 0x4001_E000;
const TX_1: u64 = 0x4003_E000;
const TX_2: u64 = 0x4004_E000;
const TX_3: u64 = 0x4005_E000;
const MAP: &str = "call 84000066 4001E000 4001F000 1\n";
const MAP_1: &str = "call 84000066 4003E000 4003F000 1\n";
const MAP_2: &str = "call 84000066 4004E000 4004F000 1\n";
const MAP_3: &str = "call 84000066 4005E000 4005F000 1\n";

/// Pages of the normal world, one of 8001, and one of 8003 that it may not write to.
const PAGE: u64 = 0x4001_0000;
const PAGE_1: u64 = 0x4003_0000;
const READ_ONLY: u64 = 0x4005_0000;

// Data permissions in a descriptor.
const NONE: u64 = 0;
const RO: u64 = 1;
const RW: u64 = 2;

fn row(call: &'static str, number: usize, named: Check, before: &[&str], line: &str) -> Row {
    Row { check: (call, number), named, before: before.concat(), line: line.trim_end().into() }
}

/// Stores of eight bytes at places in a buffer.
fn stores(tx: u64, words: &[(u64, u64)]) -> String {
    words.iter().map(|(place, word)| format!("store {:X} {word:016X}\n", tx + place)).collect()
}

/// A call that sends memory, and what a descriptor of its is made of.
#[derive(Clone, Copy)]
struct Send {
    call: &'static str,
    identifier: u64,
    attributes: u64,
    permission: u64,
    flags: u64,
}

const DONATE: Send =
    Send { call: "FFA_MEM_DONATE", identifier: 0x8400_0071, attributes: 0, permission: NONE, flags: 0 };
const LEND: Send = Send { call: "FFA_MEM_LEND", identifier: 0x8400_0072, attributes: 0, permission: RW, flags: 0 };
const SHARE: Send = Send { call: "FFA_MEM_SHARE", identifier: 0x8400_0073, attributes: 0x2F, permission: RW, flags: 0 };

impl Send {
    /// The descriptor of a page of a sender for a receiver.
    fn descriptor(&self, tx: u64, sender: u64, receiver: u64, page: u64) -> String {
        stores(
            tx,
            &[
                (0x00, sender | self.attributes << 16 | self.flags << 32),
                (0x18, 0x1_0000_0010),
                (0x20, 0x30),
                (0x30, receiver | self.permission << 16 | 0x40 << 32),
                (0x40, 0x1_0000_0001),
                (0x50, page),
                (0x58, 1),
            ],
        )
    }

    fn line(&self) -> String {
        format!("call {:X} 60 60\n", self.identifier)
    }

    /// A page of the normal world's that is sent to 8001, behind `MAP`. Its handle is 1.
    fn sent(&self) -> String {
        MAP.to_owned() + &self.descriptor(TX, 0, 0x8001, PAGE) + &self.line()
    }

    fn rows(&self) -> Vec<Row> {
        let call = |words: &str| format!("call {:X}{words}", self.identifier);
        let row = |number, named, before: &[&str], line: &str| row(self.call, number, named, before, line);
        let described = |sender, receiver, page| MAP.to_owned() + &self.descriptor(TX, sender, receiver, page);
        let of_8003 = |send: &Send| [RUN_3, MAP_3, &send.descriptor(TX_3, 0x8003, 0x8001, READ_ONLY)].concat();
        let sends = |count: u64| (0..count).map(|page| described_next(self, page)).collect::<String>();
        let line = self.line();
        let mut rows = vec![
            row(1, BuffersMissing, &[], &call("")),
            row(2, Fragmented, &[MAP], &call(" 1")),
            row(3, DescriptorTooLong, &[MAP], &call(" 1001 1001")),
            row(4, BufferAddressGiven, &[MAP], &call(" 0 0 1")),
            row(5, BufferPagesGiven, &[MAP], &call(" 0 0 0 1")),
            row(6, DescriptorMalformed, &[MAP], &call("")),
            row(7, SenderIsAnother, &[&described(0x8002, 0x8001, PAGE)], &line),
            row(8, ReceiverUnknown, &[&described(0, 1, PAGE)], &line),
            row(9, RangeOutside, &[&described(0, 0x8001, 0)], &line),
            row(10, PageUnsendable, &[&described(0, 0x8001, 0x4000_0000)], &line),
            row(13, WorldsMixed, &[RUN_1, MAP_1, &self.descriptor(TX_1, 0x8001, 0, PAGE_1)], &line),
            row(14, TransactionsFull, &[MAP, &sends(16), &self.descriptor(TX, 0, 0x8001, PAGE + 0x12000)], &line),
            row(15, HandlesUsedUp, &[MAP, &all_handles(), &self.descriptor(TX, 0, 0x8001, PAGE)], &line),
        ];
        if self.permission != NONE {
            rows.push(row(11, GrantTooMuch, &[&of_8003(self)], &line));
        }
        if self.attributes == 0 {
            let zeros = Send { flags: 1, permission: self.permission.min(RO), ..*self };
            rows.push(row(12, ZerosUnwritable, &[&of_8003(&zeros)], &line));
        }
        rows
    }
}

/// A send of the page at this place among the normal world's, which leaves out its buffers.
fn described_next(send: &Send, place: u64) -> String {
    let page = PAGE + 0x1000 * if place < 14 { place } else { place + 2 };
    send.descriptor(TX, 0, 0x8001, page) + &send.line()
}

/// As many sends as there may be in FF-A 1.1, each of which is reclaimed.
fn all_handles() -> String {
    let sends = (1..=65535).map(|handle| format!("{}call 84000077 {handle:X}\n", LEND.line()));
    LEND.descriptor(TX, 0, 0x8001, PAGE) + &sends.collect::<String>()
}

fn setup() -> Vec<Row> {
    let info = "FFA_PARTITION_INFO_GET";
    let map = "FFA_RXTX_MAP";
    vec![
        row("Every other identifier", 1, FunctionUnknown, &[], "call 0"),
        row("FFA_FEATURES", 1, FunctionUnknown, &[], "call 84000064"),
        row(info, 1, UuidUnknown, &[], "call 84000068 1"),
        row(info, 3, RxFull, &[MAP, INFO], "call 84000068"),
        row(info, 4, BuffersNeeded, &[], "call 84000068"),
        row(map, 1, BuffersMapped, &[MAP], "call 84000066"),
        row(map, 2, BufferPageCount, &[], "call 84000066"),
        row(map, 3, TxMisplaced, &[], "call 84000066 0 0 1"),
        row(map, 4, RxMisplaced, &[], "call 84000066 4001E000 0 1"),
        row(map, 5, BuffersOverlap, &[], "call 84000066 4001E000 4001E000 1"),
        row(map, 6, TxUnusable, &[], "call 84000066 40000000 4001F000 1"),
        row(map, 7, RxUnusable, &[], "call 84000066 4001E000 40000000 1"),
        row("FFA_RXTX_UNMAP", 1, EndpointNotZero, &[], "call 84000067 1"),
        row("FFA_RXTX_UNMAP", 2, BuffersMissing, &[], "call 84000067"),
        row("FFA_RX_RELEASE", 1, RxEmpty, &[], "call 84000065"),
    ]
}

fn runs() -> Vec<Row> {
    let request = "FFA_MSG_SEND_DIRECT_REQ";
    let response = "FFA_MSG_SEND_DIRECT_RESP";
    vec![
        row("FFA_RUN", 1, NotNormalWorld, &[RUN_1], "call 8400006D"),
        row("FFA_RUN", 2, TargetUnknown, &[], "call 8400006D"),
        row("FFA_RUN", 3, ContextUnknown, &[], "call 8400006D 80010001"),
        row("FFA_MSG_WAIT", 1, NotRun, &[], "call 8400006B"),
        row("FFA_YIELD", 1, NobodyToYieldTo, &[], "call 8400006C"),
        row(request, 1, SenderIsAnother, &[], "call 8400006F 10000"),
        row(request, 2, FlagsReserved, &[], "call 8400006F 0 1"),
        row(request, 3, ReceiverUnknown, &[], "call 8400006F 1"),
        row(request, 4, ReceiverIsCaller, &[], "call 8400006F"),
        row(request, 5, ReceiverIsNormalWorld, &[RUN_1], "call 8400006F 80010000"),
        row(request, 6, RequestsUnsent, &[RUN_3], "call 8400006F 80038001"),
        row(request, 7, RequestsUnreceived, &[], "call 8400006F 8003"),
        row(request, 8, ReceiverNotWaiting, &[RUN_1, YIELD], "call 8400006F 8001"),
        row(response, 1, NoRequest, &[], "call 84000070"),
        row(response, 2, AnswerMisdirected, &[REQUEST_1], "call 84000070"),
        row(response, 3, FlagsReserved, &[REQUEST_1], "call 84000070 80010000 1"),
    ]
}

/// The header of a message from TX, whose first and second field are 0.
fn header(tx: u64, sender: u64, receiver: u64, offset: u64, size: u64) -> String {
    stores(tx, &[(8, offset | receiver << 32 | sender << 48), (16, size)])
}

fn messages() -> Vec<Row> {
    let row = |number, named, before: &[&str]| row("FFA_MSG_SEND2", number, named, before, "call 84000086");
    let world = |receiver, offset, size| MAP.to_owned() + &header(TX, 0, receiver, offset, size);
    let to_8001 = header(TX, 0, 0x8001, 20, 1);
    let two_pages = ["call 84000066 4001C000 4001E000 2\n", &header(0x4001_C000, 0, 0x8001, 20, 4077)].concat();
    vec![
        row(1, BuffersMissing, &[]),
        row(2, FlagsReserved, &[MAP, "store 4001E000 01\n"]),
        row(3, HeaderReserved, &[MAP, "store 4001E004 01\n"]),
        row(4, SenderIsAnother, &[MAP, "store 4001E00E 01\n"]),
        row(5, ReceiverUnknown, &[MAP, "store 4001E00C 01\n"]),
        row(6, ReceiverIsCaller, &[MAP]),
        row(7, MessageInHeader, &[&world(0x8001, 0, 0)]),
        row(8, MessageEmpty, &[&world(0x8001, 20, 0)]),
        row(9, MessageTooLong, &[&world(0x8001, 20, 4077)]),
        row(10, MessagesUnsent, &[RUN_3, MAP_3, &header(TX_3, 0x8003, 0x8001, 20, 1)]),
        row(11, MessagesUnreceived, &[&world(0x8003, 20, 1)]),
        row(12, ReceiverBuffersMissing, &[&world(0x8001, 20, 1)]),
        row(13, ReceiverRxFull, &[MAP, RUN_1, MAP_1, WAIT, &to_8001, "call 84000086\n"]),
        row(14, ReceiverRxSmall, &[RUN_1, MAP_1, WAIT, &two_pages]),
    ]
}

fn notifications() -> Vec<Row> {
    let create = "FFA_NOTIFICATION_BITMAP_CREATE";
    let destroy = "FFA_NOTIFICATION_BITMAP_DESTROY";
    let set = "FFA_NOTIFICATION_SET";
    let get = "FFA_NOTIFICATION_GET";
    let info_get = "FFA_NOTIFICATION_INFO_GET";
    let set_0 = "call 84000081 80010000 0 1\n"; // by 8001, of the normal world's bit 0
    let mut rows = vec![
        row(create, 1, NotNormalWorld, &[RUN_1], "call 8400007D"),
        row(create, 2, EndpointNotNormalWorld, &[], "call 8400007D 1"),
        row(create, 3, ContextCount, &[], "call 8400007D"),
        row(create, 4, BitmapsExist, &[BITMAPS], "call 8400007D 0 1"),
        row(destroy, 1, NotNormalWorld, &[RUN_1], "call 8400007E"),
        row(destroy, 2, EndpointNotNormalWorld, &[], "call 8400007E 1"),
        row(destroy, 3, BitmapsMissing, &[], "call 8400007E"),
        row(destroy, 4, BitsPending, &[BITMAPS, BIND_1, RUN_1, set_0, WAIT], "call 8400007E"),
        row(set, 1, SenderIsAnother, &[], "call 84000081 10000"),
        row(set, 2, ReceiverUnknown, &[], "call 84000081 1"),
        row(set, 3, ReceiverIsCaller, &[], "call 84000081"),
        row(set, 4, FlagsReserved, &[], "call 84000081 8001 1"),
        row(set, 5, BitsNone, &[], "call 84000081 8001"),
        row(set, 6, BitsNotTheCallers, &[], "call 84000081 8001 0 1"),
        row(get, 1, ReceiverIsAnother, &[], "call 84000082 1"),
        row(get, 2, ContextUnknown, &[], "call 84000082 80000"),
        row(get, 3, ClassesUnknown, &[], "call 84000082 0 10"),
        row(get, 4, BitmapsMissing, &[], "call 84000082"),
        row(info_get, 1, FunctionUnknown, &[RUN_1], "call 84000083"),
        row(info_get, 2, NothingToTell, &[], "call C4000083"),
    ];
    let bound = "call 8400007F 80020000 0 1";
    let unbound = "call 84000080 80010000 0 1";
    for (call, identifier, last) in [
        ("FFA_NOTIFICATION_BIND", "8400007F", (BitsTaken, &[BITMAPS, BIND_1][..], bound)),
        ("FFA_NOTIFICATION_UNBIND", "84000080", (BitsNotTheSenders, &[BITMAPS], unbound)),
    ] {
        let line = |words: &str| format!("call {identifier}{words}");
        rows.extend([
            row(call, 1, ReceiverIsAnother, &[], &line(" 1")),
            row(call, 2, SenderUnknown, &[], &line(" 10000")),
            row(call, 3, SenderIsCaller, &[], &line("")),
            row(call, 4, FlagsReserved, &[], &line(" 80010000 1")),
            row(call, 5, BitsNone, &[], &line(" 80010000")),
            row(call, 6, BitmapsMissing, &[], &line(" 80010000 0 1")),
            row(call, 7, last.0, last.1, last.2),
        ]);
    }
    rows
}

/// A retrieve descriptor of a caller, by the fields that checks look at.
fn retrieve(tx: u64, caller: u64, sender: u64, handle: u64, tag: u64, kind: u64, permission: u64) -> String {
    let header = [(0x00, sender | kind << 35), (0x08, handle), (0x10, tag), (0x18, 0x1_0000_0010), (0x20, 0x30)];
    stores(tx, &header) + &stores(tx, &[(0x30, caller | permission << 16)])
}

fn retrieves() -> Vec<Row> {
    let row = |number, named, before: &[&str], words: &str| {
        row("FFA_MEM_RETRIEVE_REQ", number, named, before, &("call 84000074".to_owned() + words))
    };
    let lent = [&LEND.sent(), RUN_1, MAP_1].concat();
    let read_only = [&Send { permission: RO, ..LEND }.sent(), RUN_1, MAP_1].concat();
    let by_8002 = [&LEND.sent(), RUN_2, MAP_2, &retrieve(TX_2, 0x8002, 0, 1, 0, 0, NONE)].concat();
    let asks = |sender, tag, kind, permission| retrieve(TX_1, 0x8001, sender, 1, tag, kind, permission);
    let asked = asks(0, 0, 0, NONE);
    vec![
        row(1, BuffersMissing, &[], ""),
        row(2, Fragmented, &[MAP], " 1"),
        row(3, DescriptorTooLong, &[MAP], " 1001 1001"),
        row(4, BufferAddressGiven, &[MAP], " 0 0 1"),
        row(5, BufferPagesGiven, &[MAP], " 0 0 0 1"),
        row(6, DescriptorMalformed, &[MAP], ""),
        row(7, HandleUnknown, &[MAP, &retrieve(TX, 0, 0, 0, 0, 0, NONE)], " 40 40"),
        row(8, NotReceiver, &[&by_8002], " 40 40"),
        row(9, TransactionSenderDiffers, &[&lent, &asks(0x8002, 0, 0, NONE)], " 40 40"),
        row(10, TagDiffers, &[&lent, &asks(0, 1, 0, NONE)], " 40 40"),
        row(11, KindDiffers, &[&lent, &asks(0, 0, 1, NONE)], " 40 40"),
        row(12, AlreadyRetrieved, &[&lent, &asked, "call 84000074 40 40\n"], " 40 40"),
        row(13, RightTooMuch, &[&read_only, &asks(0, 0, 0, RW)], " 40 40"),
        row(14, RxFull, &[&lent, INFO, &asked], " 40 40"),
        row(15, ReceiversDiffer, &[&lent, &asked, "store 4003E01C 02\nstore 4003E040 8003\n"], " 50 50"),
        row(16, NotTheSenders, &[MAP, "store 4001E008 07\n"], " 30 30"),
    ]
}

/// A relinquish descriptor of an endpoint.
fn relinquish(tx: u64, endpoint: u64, handle: u64, flags: u64) -> String {
    stores(tx, &[(0, handle), (8, flags | 1 << 32), (16, endpoint)])
}

fn ends() -> Vec<Row> {
    let give_up = "FFA_MEM_RELINQUISH";
    let reclaim = "FFA_MEM_RECLAIM";
    let lent = [&LEND.sent(), RUN_1, MAP_1].concat();
    let retrieved = |send: Send| {
        [&send.sent(), RUN_1, MAP_1, &retrieve(TX_1, 0x8001, 0, 1, 0, 0, NONE), "call 84000074 40 40\n"].concat()
    };
    let read_only = Send { permission: RO, ..LEND };
    let of_8003 = [RUN_3, MAP_3, &read_only.descriptor(TX_3, 0x8003, 0x8001, READ_ONLY), &read_only.line()].concat();
    vec![
        row(give_up, 1, BuffersMissing, &[], "call 84000076"),
        row(give_up, 2, DescriptorMalformed, &[MAP], "call 84000076"),
        row(give_up, 3, EndpointIsAnother, &[MAP, &relinquish(TX, 1, 0, 0)], "call 84000076"),
        row(give_up, 4, NotOffered, &[MAP, &relinquish(TX, 0, 0, 0)], "call 84000076"),
        row(give_up, 5, NotHeld, &[&lent, &relinquish(TX_1, 0x8001, 1, 0)], "call 84000076"),
        row(give_up, 6, ZerosNotAllowed, &[&retrieved(read_only), &relinquish(TX_1, 0x8001, 1, 1)], "call 84000076"),
        row(reclaim, 1, FlagsReserved, &[], "call 84000077 0 0 2"),
        row(reclaim, 2, NotTheSenders, &[], "call 84000077"),
        row(reclaim, 3, StillHeld, &[&retrieved(LEND), WAIT], "call 84000077 1"),
        row(reclaim, 4, ZerosUnwritable, &[&of_8003], "call 84000077 1 8003 1"),
    ]
}

/// All rows.
pub fn rows() -> Vec<Row> {
    let groups = [setup(), runs(), messages(), notifications(), DONATE.rows(), LEND.rows(), SHARE.rows(), retrieves()];
    groups.into_iter().flatten().chain(ends()).collect()
}
