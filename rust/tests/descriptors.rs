// SPDX-License-Identifier: MIT OR Apache-2.0
//! Descriptors: the bytes that the manual has, each form, and the first condition that values or bytes break, which is
//! the one that a machine tells of the same bytes.
mod common;

use common::top;
use gorseplumb::Flaw::{self, *};
use gorseplumb::{
    registers, About, Check, DataAccess, DescriptorError, Endpoint, Ffa, Function, Handle, Id, InstructionAccess, Kind,
    Machine, Manifest, Offer, OfferRoom, PageRange, Properties, Receiver, Region, Relinquish, Retrieve,
    RetrieveResponse, Rights, Version, MOST_DESCRIPTOR, MOST_RANGES,
};
use std::fs;

const FORMS: [Version; 3] = [Version::V1_1, Version::Compact, Version::V1_2];
/// Each form, and the versions of FF-A of the machines that have it.
const SERVED: [(Version, Ffa); 5] = [
    (Version::V1_1, Ffa::V1_1),
    (Version::Compact, Ffa::V1_1),
    (Version::V1_1, Ffa::V1_2),
    (Version::Compact, Ffa::V1_2),
    (Version::V1_2, Ffa::V1_2),
];
const TO_ONE: &[Receiver] = &[Receiver::rw(Id(0x8002))];
const TO_TWO: &[Receiver] = &[Receiver::rw(Id(0x8002)), Receiver::ro(Id(0x8003))];
const LEND: Offer = Offer::new(Kind::Lend, Id(0x8001), TO_ONE, &[PageRange::new(0x4002_1000, 1)]);
const SHARE: Offer = Offer {
    tag: 0x1122_3344_5566_7788,
    ..Offer::new(Kind::Share, Id(0x8001), TO_TWO, &[PageRange::new(0x4002_1000, 2), PageRange::new(0x4002_8000, 1)])
};
const DONATE: Offer = Offer {
    zero: true,
    tag: 9,
    ..Offer::new(Kind::Donate, Id(1), &[Receiver::new(Id(2))], &[PageRange::new(4096, 3)])
};
const ASKED: Retrieve = Retrieve {
    tag: 4,
    kind: Some(Kind::Donate),
    ..Retrieve::new(Id(1), Handle(2), Receiver { instructions: InstructionAccess::X, ..Receiver::rw(Id(3)) })
};

fn flaw_of<T: std::fmt::Debug>(found: Result<T, DescriptorError>) -> (Flaw, u32) {
    let error = found.unwrap_err();
    (error.flaw, error.index)
}

/// The words of a descriptor that aren't zero, by their places.
fn words(bytes: &[u8]) -> Vec<(usize, u64)> {
    let word = |bytes: &[u8]| bytes.iter().rev().fold(0, |word, byte| word << 8 | u64::from(*byte));
    let all = bytes.chunks(8).enumerate().map(|(place, bytes)| (8 * place, word(bytes)));
    all.filter(|(_, word)| *word != 0).collect()
}

/// What docs/COMMANDS.md says that `ffaplay descriptor` prints of this lend.
#[test]
fn the_manuals_lend() {
    let page = fs::read_to_string(top().join("docs/COMMANDS.md")).unwrap();
    let behind = "`./ffaplay descriptor lend --tx 4002E000 --from 8001 --to 8002:rw --pages 40021000+1` prints\n\n";
    let told = &page[page.find(behind).expect("the page has the lend") + behind.len()..];
    let told: Vec<&str> = told.lines().take_while(|line| !line.is_empty()).map(str::trim).collect();
    let bytes = LEND.to_bytes(Version::V1_1).unwrap();
    let mut lines: Vec<String> = (0..bytes.len() / 8)
        .map(|place| {
            let word = u64::from_le_bytes(bytes[8 * place..][..8].try_into().unwrap());
            format!("store {:X} {word:016X}", 0x4002_E000 + 8 * place)
        })
        .collect();
    lines.push(format!("call {:X} {size:X} {size:X}", LEND.kind.function().number(), size = bytes.len()));
    assert_eq!(told, lines);
}

/// examples/sharing.trace stores those of their words that aren't zeros.
#[test]
fn descriptors_of_the_shared_page() {
    let to = [Receiver::ro(Id(0x8002))];
    let share = Offer::new(Kind::Share, Id(0x8001), &to, &[PageRange { address: 0x4002_8000, pages: 1 }]);
    let told = [
        (0x00, 0x0000_0000_002F_8001),
        (0x18, 0x0000_0001_0000_0010),
        (0x20, 0x0000_0000_0000_0030),
        (0x30, 0x0000_0040_0001_8002),
        (0x40, 0x0000_0001_0000_0001),
        (0x50, 0x0000_0000_4002_8000),
        (0x58, 0x0000_0000_0000_0001),
    ];
    let bytes = share.to_bytes(Version::V1_1).unwrap();
    assert_eq!((words(&bytes), bytes.len()), (told.to_vec(), 0x60));
    let retrieve = Retrieve::new(Id(0x8001), Handle(0x0000_8001_0000_0001), Receiver::new(Id(0x8002)));
    let told = [(0x00, 0x8001), (0x08, 0x0000_8001_0000_0001), (0x18, 0x1_0000_0010), (0x20, 0x30), (0x30, 0x8002)];
    let bytes = retrieve.to_bytes(Version::V1_1);
    assert_eq!((words(&bytes), bytes.len()), (told.to_vec(), 0x40));
    let given_up = Relinquish::new(Handle(0x0000_8001_0000_0001), Id(0x8002)).to_bytes();
    let told = [(0x00, 0x0000_8001_0000_0001), (0x08, 0x1_0000_0000), (0x10, 0x8002)];
    assert_eq!((words(&given_up), given_up.len()), (told.to_vec(), 18));
}

/// The tables of docs/MEMORY.md, byte by byte.
#[test]
fn the_compact_form() {
    let header = [0x01, 0x80, 0, 0, 0, 0, 0, 0, 0, 0, 0, 0, 0, 0, 0, 0, 0, 0, 0, 0, 0, 0, 0, 0, 0, 0, 0, 0, 1, 0, 0, 0];
    let access = [0x02, 0x80, 2, 0, 48, 0, 0, 0, 0, 0, 0, 0, 0, 0, 0, 0];
    let composite = [1, 0, 0, 0, 1, 0, 0, 0, 0, 0, 0, 0, 0, 0, 0, 0];
    let range = [0, 0x10, 0x02, 0x40, 0, 0, 0, 0, 1, 0, 0, 0, 0, 0, 0, 0];
    let told = [&header[..], &access, &composite, &range].concat();
    assert_eq!(&LEND.to_bytes(Version::Compact).unwrap()[..], told);
    let asked = ASKED.to_bytes(Version::Compact);
    assert_eq!(
        (asked.len(), words(&asked)),
        (48, vec![(0, 0x18_0000_0001), (8, 2), (16, 4), (24, 1 << 32), (32, 0xA_0003)])
    );
}

/// That of FF-A 1.2 has 32 in its header, and 24 zeros behind the offset of the composite.
#[test]
fn the_form_of_ffa_1_2() {
    let told = [
        (0x00, 0x8001),
        (0x18, 0x1_0000_0020),
        (0x20, 0x30),
        (0x30, 0x0000_0050_0002_8002),
        (0x50, 0x1_0000_0001),
        (0x60, 0x4002_1000),
        (0x68, 1),
    ];
    let bytes = LEND.to_bytes(Version::V1_2).unwrap();
    assert_eq!((words(&bytes), bytes.len()), (told.to_vec(), 0x70));
    let two = [
        (0x00, 0x2F_8001),
        (0x10, 0x1122_3344_5566_7788),
        (0x18, 0x2_0000_0020),
        (0x20, 0x30),
        (0x30, 0x0000_0070_0002_8002),
        (0x50, 0x0000_0070_0001_8003),
        (0x70, 0x2_0000_0003),
        (0x80, 0x4002_1000),
        (0x88, 2),
        (0x90, 0x4002_8000),
        (0x98, 1),
    ];
    let bytes = SHARE.to_bytes(Version::V1_2).unwrap();
    assert_eq!((words(&bytes), bytes.len()), (two.to_vec(), 0xA0));
    let asked = ASKED.to_bytes(Version::V1_2);
    let told = vec![(0, 0x18_0000_0001), (8, 2), (16, 4), (24, 0x1_0000_0020), (32, 0x30), (48, 0xA_0003)];
    assert_eq!((words(&asked), asked.len()), (told, 80));
}

/// Each of the 24 bytes has to be 0, those of the implementation too.
#[test]
fn the_rest_of_an_access_descriptor_of_ffa_1_2() {
    let (offer, asked) = (SHARE.to_bytes(Version::V1_2).unwrap(), ASKED.to_bytes(Version::V1_2));
    for at in 8..32 {
        for index in 0..2 {
            let mut bytes = offer.to_vec();
            bytes[48 + 32 * index + at] = 1;
            let flaw = flaw_of(Offer::read(&bytes, Kind::Share, Version::V1_2, &mut OfferRoom::new()));
            assert_eq!(flaw, (AccessReserved, index as u32));
        }
        let mut bytes = asked.to_vec();
        bytes[48 + at] = 1;
        assert_eq!(flaw_of(Retrieve::read(&bytes, Id(3), Version::V1_2)), (RetrieveAccessReserved, 0));
    }
}

/// A machine of FF-A 1.2 lets a lend say what memory it is, and not, and an offer name its own kind; one of FF-A 1.1 doesn't.
#[test]
fn what_ffa_1_2_allows() {
    for form in FORMS {
        let read = |bytes: &[u8], kind, ffa| {
            let mut room = OfferRoom::new();
            Offer::read_for(bytes, kind, form, ffa, &mut room).map(|offer| offer.zero).map_err(|error| error.flaw)
        };
        let older = |flaw| if form == Version::V1_2 { HeaderAccessSize } else { flaw };
        let lend_to_two = Offer { kind: Kind::Lend, zero: true, ..SHARE };
        for (offer, attributes) in [(LEND, 0x2F), (lend_to_two, 0)] {
            let mut bytes = offer.to_bytes(form).unwrap().to_vec();
            bytes[2] = attributes;
            assert_eq!(read(&bytes, Kind::Lend, Ffa::V1_2), Ok(offer.zero));
            assert_eq!(read(&bytes, Kind::Lend, Ffa::V1_1), Err(older(SendAttributes)));
            bytes[2] = 1;
            assert_eq!(read(&bytes, Kind::Lend, Ffa::V1_2), Err(SendAttributes));
        }
        for offer in [SHARE, LEND, lend_to_two, DONATE] {
            let mut bytes = offer.to_bytes(form).unwrap().to_vec();
            bytes[4] |= (offer.kind as u8) << 3;
            assert_eq!(read(&bytes, offer.kind, Ffa::V1_2), Ok(offer.zero));
            assert_eq!(read(&bytes, offer.kind, Ffa::V1_1), Err(older(SendFlags)));
            let other = offer.kind as u8 % 3 + 1;
            bytes[4] = bytes[4] & 7 | other << 3;
            assert_eq!(read(&bytes, offer.kind, Ffa::V1_2), Err(SendFlags));
        }
        let mut share = SHARE.to_bytes(form).unwrap().to_vec();
        (share[2], share[4]) = (0, 9);
        assert_eq!(read(&share, Kind::Share, Ffa::V1_2), Err(SendAttributes));
        share[2] = 0x2F;
        assert_eq!(read(&share, Kind::Share, Ffa::V1_2), Err(SendFlags));
    }
}

/// A machine of FF-A 1.1 has no endpoint of the form of FF-A 1.2.
#[test]
fn no_form_of_ffa_1_2_for_ffa_1_1() {
    let bytes = LEND.to_bytes(Version::V1_2).unwrap();
    let mut room = OfferRoom::new();
    let found = Offer::read_for(&bytes, Kind::Lend, Version::V1_2, Ffa::V1_1, &mut room);
    assert_eq!(
        found.unwrap_err().to_string(),
        "the access descriptor size field is not 16, 32 in FF-A 1.2, or 0 in the compact form"
    );
}

#[test]
fn what_is_written_is_read() {
    for form in FORMS {
        for offer in [LEND, SHARE, DONATE] {
            let bytes = offer.to_bytes(form).unwrap();
            assert_eq!(Offer::read(&bytes, offer.kind, form, &mut OfferRoom::new()), Ok(offer));
            for other in FORMS.into_iter().filter(|other| *other != form) {
                let flaw = flaw_of(Offer::read(&bytes, offer.kind, other, &mut OfferRoom::new()));
                assert_eq!(flaw, (HeaderAccessSize, 0));
            }
        }
        for kind in [None, Some(Kind::Share), Some(Kind::Lend), Some(Kind::Donate)] {
            for data in [DataAccess::Unspecified, DataAccess::Ro, DataAccess::Rw] {
                for instructions in [InstructionAccess::Unspecified, InstructionAccess::Nx, InstructionAccess::X] {
                    let receiver = Receiver { endpoint: Id(3), data, instructions };
                    let asked = Retrieve { kind, receiver, ..ASKED };
                    assert_eq!(Retrieve::read(&asked.to_bytes(form), Id(3), form), Ok(asked));
                }
            }
        }
    }
    for zero in [false, true] {
        let given_up = Relinquish { zero, ..Relinquish::new(Handle(0x0123_4567_89AB_CDEF), Id(6)) };
        assert_eq!(Relinquish::read(&[&given_up.to_bytes()[..], b"rest"].concat()), Ok(given_up));
    }
}

/// A response, as docs/MEMORY.md has it: of a lend by 1, with handle 2, zeroed, to 3 with `rw` and without fetches.
/// Bytes stand behind it.
fn response(form: Version) -> Vec<u8> {
    let front = [1, 0, 0x2F, 0, 0x11, 0, 0, 0, 2, 0, 0, 0, 0, 0, 0, 0, 4, 0, 0, 0, 0, 0, 0, 0];
    let (told, composite) = match form {
        Version::V1_1 => (&[16, 0, 0, 0, 1, 0, 0, 0, 48, 0, 0, 0, 0, 0, 0, 0, 0, 0, 0, 0, 0, 0, 0, 0][..], 64),
        Version::V1_2 => (&[32, 0, 0, 0, 1, 0, 0, 0, 48, 0, 0, 0, 0, 0, 0, 0, 0, 0, 0, 0, 0, 0, 0, 0][..], 80),
        Version::Compact => (&[0, 0, 0, 0, 1, 0, 0, 0][..], 48),
    };
    let mut access = vec![3, 0, 0b0110, 0, composite, 0, 0, 0, 0, 0, 0, 0, 0, 0, 0, 0];
    access.resize(if form == Version::V1_2 { 32 } else { 16 }, 0);
    let pages = [3, 0, 0, 0, 2, 0, 0, 0, 0, 0, 0, 0, 0, 0, 0, 0];
    let ranges = [0, 0x10, 0, 0, 0, 0, 0, 0, 1, 0, 0, 0, 0, 0, 0, 0, 0, 0x40, 0, 0, 1, 0, 0, 0, 2, 0, 0, 0, 0, 0, 0, 0];
    [&front[..], told, &access, &pages, &ranges, b"rest"].concat()
}

#[test]
fn responses() {
    for form in FORMS {
        let told = RetrieveResponse::read(&response(form), form).unwrap();
        assert_eq!(
            (told.kind, told.sender, told.handle, told.tag, told.zeroed),
            (Kind::Lend, Id(1), Handle(2), 4, true)
        );
        let holds = Receiver { instructions: InstructionAccess::Nx, ..Receiver::rw(Id(3)) };
        assert_eq!(told.receivers(), [holds]);
        assert_eq!(told.ranges(), [PageRange::new(4096, 1), PageRange::new(0x1_0000_4000, 2)]);
        let mut bytes = response(form);
        bytes[2] = 0x6F;
        let is_told = form != Version::Compact;
        assert!(!told.non_secure && RetrieveResponse::read(&bytes, form).unwrap().non_secure == is_told);
    }
}

#[test]
fn what_is_no_response() {
    let rows = [
        (4, 0, RetrieveFlags),
        (24, 0, HeaderAccessSize),
        (28, 0, RetrieveAccessCount),
        (28, 2, CompositeInArray), // where one access descriptor stands
        (50, 3, RetrieveDataPermission),
        (50, 12, RetrieveInstructionPermission),
        (52, 48, CompositeInArray),
        (52, 65, CompositeUnaligned),
        (68, 0, CompositeNoRange),
        (68, 65, CompositeManyRanges),
        (68, 3, CompositeRangesOutside),
    ];
    let full = response(Version::V1_1);
    for (at, value, flaw) in rows {
        let mut bytes = full.clone();
        bytes[at] = value;
        assert_eq!(flaw_of(RetrieveResponse::read(&bytes, Version::V1_1)).0, flaw);
    }
    for size in 0..full.len() - 4 {
        assert!(RetrieveResponse::read(&full[..size], Version::V1_1).is_err(), "{size}");
    }
}

/// Each condition that values break.
#[test]
fn offers_that_are_malformed() {
    let six: Vec<Receiver> = (0x8002..0x8008).map(|id| Receiver::ro(Id(id))).collect();
    let page = |place: u64| PageRange::new(4096 * place, 1);
    let pages: Vec<PageRange> = (0..65).map(page).collect();
    let half = 1 << 43; // bytes of 2^31 pages
    let executable = [Receiver { instructions: InstructionAccess::X, ..Receiver::rw(Id(2)) }];
    let rows = [
        (Offer { zero: true, ..SHARE }, SendFlags, 0),
        (Offer { receivers: &[], ..LEND }, SendNoReceiver, 0),
        (Offer { receivers: &six[..5], ..LEND }, SendManyReceivers, 0),
        (Offer { kind: Kind::Donate, ..SHARE }, SendManyReceivers, 0),
        (Offer { kind: Kind::Donate, ..LEND }, AccessPermissions, 0),
        (Offer { receivers: &[Receiver::ro(Id(1)), Receiver::new(Id(2))], ..LEND }, AccessPermissions, 1),
        (Offer { receivers: &executable, ..LEND }, AccessPermissions, 0),
        (Offer { receivers: &[Receiver::ro(Id(1)), Receiver::ro(Id(0x8001))], ..LEND }, AccessReceiverIsSender, 1),
        (Offer { receivers: &[six[0], six[1], six[2], six[1]], ..LEND }, AccessReceiverTwice, 3),
        (Offer { ranges: &[], ..LEND }, CompositeNoRange, 0),
        (Offer { ranges: &pages, ..LEND }, CompositeManyRanges, 0),
        (Offer { ranges: &[page(1), PageRange::new(8192, 0)], ..LEND }, RangeEmpty, 1),
        (Offer { ranges: &[page(1), page(2), PageRange::new(12289, 1)], ..LEND }, RangeUnaligned, 2),
        (Offer { ranges: &[PageRange::new((1 << 48) - 4096, 2)], ..LEND }, RangeTooHigh, 0),
        (Offer { ranges: &[PageRange::new(u64::MAX - 4095, u32::MAX)], ..LEND }, RangeTooHigh, 0),
        (Offer { ranges: &[page(5), PageRange::new(4096, 5)], ..LEND }, RangeOverlap, 1),
        (Offer { ranges: &[PageRange::new(0, 1 << 31), PageRange::new(half, 1 << 31)], ..LEND }, CompositeTotal, 0),
    ];
    for (offer, flaw, index) in rows {
        for form in FORMS {
            assert_eq!(flaw_of(offer.to_bytes(form)), (flaw, index), "{offer:?}");
        }
    }
}

#[test]
fn words_of_what_is_malformed() {
    let page = |place: u64| PageRange::new(4096 * place, 1);
    let words = |offer: Offer| offer.to_bytes(Version::V1_1).unwrap_err().to_string();
    assert_eq!(words(Offer { zero: true, ..SHARE }), "a flag is set that this call does not allow");
    assert_eq!(
        words(Offer { receivers: &[Receiver::rw(Id(0x8001))], ..LEND }),
        "access descriptor 0: the access descriptor names the sender"
    );
    assert_eq!(words(Offer { ranges: &[page(1), page(1)], ..LEND }), "range 1: the range overlaps an earlier range");
}

/// The largest offers are well formed.
#[test]
fn the_most_that_there_may_be() {
    let four: Vec<Receiver> = (0x8002..0x8006).map(|id| Receiver::ro(Id(id))).collect();
    let mut ranges: Vec<PageRange> = (1..64).map(|place| PageRange::new(8192 * place, 1)).collect();
    ranges.push(PageRange::new((1 << 48) - 4096, 1));
    assert_eq!(ranges.len(), MOST_RANGES);
    let share = Offer { receivers: &four, ranges: &ranges, ..SHARE };
    let sizes = FORMS.map(|form| share.to_bytes(form).unwrap().len());
    assert_eq!((sizes, MOST_DESCRIPTOR), ([1152, 1136, 1216], 1216));
    let whole = [PageRange::new(0, u32::MAX)];
    assert_eq!(Offer { ranges: &whole, ..LEND }.to_bytes(Version::Compact).map(|bytes| bytes.len()), Ok(80));
}

/// Each condition by a change of the share to two, whose composite is at 80: where, what is put there, and the flaw.
#[test]
fn the_first_condition_that_an_offer_breaks() {
    let rows: [(usize, &[u8], Flaw, u32); 26] = [
        (24, &[17], HeaderAccessSize, 0),
        (32, &[56], HeaderArrayUnaligned, 0),
        (32, &[32], HeaderArrayInHeader, 0),
        (28, &[7], HeaderArrayOutside, 0),
        (40, &[1], HeaderReserved, 0),
        (2, &[0], SendAttributes, 0),
        (4, &[1], SendFlags, 0),
        (8, &[1], SendHandle, 0),
        (28, &[0], SendNoReceiver, 0),
        (28, &[5], SendManyReceivers, 0),
        (66, &[0x0F], AccessPermissions, 1),
        (67, &[1], AccessFlags, 1),
        (68, &[96], AccessOtherComposite, 1),
        (72, &[1], AccessReserved, 1),
        (48, &[1, 0x80], AccessReceiverIsSender, 0),
        (64, &[2, 0x80], AccessReceiverTwice, 1),
        (84, &[0], CompositeNoRange, 0),
        (84, &[65], CompositeManyRanges, 0),
        (88, &[1], CompositeReserved, 0),
        (84, &[3], CompositeRangesOutside, 0),
        (80, &[4], CompositeTotal, 0),
        (104, &[0], RangeEmpty, 0),
        (96, &[0x21], RangeUnaligned, 0),
        (102, &[1], RangeTooHigh, 0),
        (108, &[1], RangeReserved, 0),
        (113, &[0x20], RangeOverlap, 1),
    ];
    let good = SHARE.to_bytes(Version::V1_1).unwrap();
    for (at, put, flaw, index) in rows {
        let mut bytes = good.to_vec();
        bytes[at..][..put.len()].copy_from_slice(put);
        assert_eq!(flaw_of(Offer::read(&bytes, Kind::Share, Version::V1_1, &mut OfferRoom::new())), (flaw, index));
    }
}

#[test]
fn where_no_composite_may_be() {
    for (composite, flaw) in [(0x1000_u32, CompositeOutside), (0x48, CompositeUnaligned), (0x30, CompositeInArray)] {
        let mut bytes = LEND.to_bytes(Version::V1_1).unwrap().to_vec();
        bytes[52..56].copy_from_slice(&composite.to_le_bytes());
        assert_eq!(flaw_of(Offer::read(&bytes, Kind::Lend, Version::V1_1, &mut OfferRoom::new())), (flaw, 0));
    }
}

#[test]
fn offers_that_are_cut() {
    for form in FORMS {
        let good = SHARE.to_bytes(form).unwrap();
        for size in 0..good.len() {
            let (flaw, _) = flaw_of(Offer::read(&good[..size], Kind::Share, form, &mut OfferRoom::new()));
            let is_in_header = size < if form == Version::Compact { 32 } else { 48 };
            assert_eq!(flaw == HeaderShort, is_in_header, "{size}");
        }
    }
}

#[test]
fn the_first_condition_that_others_break() {
    let rows = [
        (2, 1, RetrieveAttributes),
        (4, 1, RetrieveFlags),
        (28, 0, RetrieveAccessCount),
        (48, 3, RetrieveReceiverIsAnother),
        (50, 3, RetrieveDataPermission),
        (50, 0x0C, RetrieveInstructionPermission),
        (50, 0x10, RetrievePermissionsReserved),
        (51, 1, RetrieveAccessFlags),
        (52, 1, RetrieveCompositeTold),
        (56, 1, RetrieveAccessReserved),
    ];
    let good = Retrieve::new(Id(0x8001), Handle(1), Receiver::new(Id(0x8002))).to_bytes(Version::V1_1);
    for (at, value, flaw) in rows {
        let mut bytes = good.to_vec();
        bytes[at] = value;
        assert_eq!(flaw_of(Retrieve::read(&bytes, Id(0x8002), Version::V1_1)), (flaw, 0));
    }
    let good = Relinquish::new(Handle(1), Id(0x8002)).to_bytes();
    assert_eq!(flaw_of(Relinquish::read(&good[..17])).0, RelinquishShort);
    for (at, flaw) in [(8, RelinquishFlags), (12, RelinquishEndpointCount)] {
        let mut bytes = good.to_vec();
        bytes[at] = 2;
        assert_eq!(flaw_of(Relinquish::read(&bytes)).0, flaw);
    }
}

const TX: u64 = 0x4001_E000;

/// A machine of this version of FF-A, whose normal world has this form, and its buffers.
fn machine(form: Version, ffa: Ffa) -> Machine {
    const RAM: u32 = common::RAM as u32;
    let region = Region::new(RAM + 0x10000, 16, Rights::Rw);
    let manifest = Manifest::new(RAM, 1, &[Endpoint::normal_world(form, Properties::NONE, &[region])]);
    let mut machine = Machine::boot(&manifest.with_ffa(ffa)).unwrap();
    machine.call(&Function::RxtxMap.with([TX, TX + 0x1000, 1])).done().unwrap();
    machine
}

/// The flaw that a machine tells of these bytes in TX.
fn told(machine: &mut Machine, function: Function, bytes: &[u8]) -> Option<(Flaw, u32)> {
    machine.store_bytes(TX, bytes).unwrap();
    let call = match function {
        Function::MemRelinquish => registers([function.number().into()]),
        _ => function.with([bytes.len() as u64, bytes.len() as u64]),
    };
    let reason = machine.why_call(&call).filter(|reason| reason.check == Check::DescriptorMalformed)?;
    match reason.about {
        Some(About::Field { flaw, index, .. }) => Some((flaw, index)),
        about => panic!("{about:?} is no field"),
    }
}

/// The next number of an xorshift generator.
fn next(state: &mut u64) -> u64 {
    *state ^= *state << 13;
    *state ^= *state >> 7;
    *state ^= *state << 17;
    *state
}

/// Some bytes with up to four changes, and an end that may lack.
fn changed(good: &[u8], state: &mut u64) -> Vec<u8> {
    let mut bytes = good.to_vec();
    for _ in 0..next(state) % 4 {
        let at = next(state) as usize % bytes.len();
        let near = bytes[at] ^ 1 << (next(state) % 8);
        bytes[at] = [near, next(state) as u8, 0, 1, 2, 16, 32, 0x2F, bytes[at / 2]][next(state) as usize % 9];
    }
    if next(state) % 8 == 0 {
        bytes.truncate(next(state) as usize % (bytes.len() + 1));
    }
    bytes
}

/// The flaw of a retrieve of the normal world. On a machine of FF-A 1.2, one that names nobody is a hypervisor's.
fn retrieve_flaw(bytes: &[u8], form: Version, ffa: Ffa) -> Option<(Flaw, u32)> {
    let header = if form == Version::Compact { 32 } else { 48 };
    if ffa == Ffa::V1_2 && bytes.len() >= header && bytes[28..32] == [0; 4] {
        let is_alone = (0..header).all(|at| (8..16).contains(&at) || bytes[at] == 0);
        return (!is_alone).then_some((RetrieveNotZero, 0));
    }
    Retrieve::read_for(bytes, Id(0), form, ffa).err().map(|error| (error.flaw, error.index))
}

#[test]
fn a_machine_tells_the_same_of_changed_bytes() {
    let mut state = 0x9E37_79B9_7F4A_7C15;
    let mut seen = Vec::new();
    for (form, ffa) in SERVED {
        let mut machine = machine(form, ffa);
        for round in 0..20_000 {
            let offer = [LEND, SHARE, DONATE][round % 3];
            let mut bytes = offer.to_bytes(form).unwrap().to_vec();
            bytes[4] |= (next(&mut state) % 4 * (next(&mut state) % 2)) as u8 * 8; // the kind, or another
            let bytes = changed(&bytes, &mut state);
            let found = Offer::read_for(&bytes, offer.kind, form, ffa, &mut OfferRoom::new()).err();
            let found = found.map(|error| (error.flaw, error.index));
            assert_eq!(found, told(&mut machine, offer.kind.function(), &bytes), "{form:?} {ffa:?} {bytes:X?}");
            seen.extend(found.map(|(flaw, _)| flaw));

            let asked = Retrieve { receiver: Receiver::rw(Id(0)), ..ASKED };
            let bytes = changed(&asked.to_bytes(form), &mut state);
            let found = retrieve_flaw(&bytes, form, ffa);
            assert_eq!(found, told(&mut machine, Function::MemRetrieveReq, &bytes), "{form:?} {ffa:?} {bytes:X?}");
            seen.extend(found.map(|(flaw, _)| flaw));

            let mut bytes = changed(&Relinquish::new(Handle(5), Id(6)).to_bytes(), &mut state);
            bytes.resize(18, 0); // TX is never shorter
            let found = Relinquish::read(&bytes).err().map(|error| (error.flaw, error.index));
            assert_eq!(found, told(&mut machine, Function::MemRelinquish, &bytes), "{bytes:X?}");
            seen.extend(found.map(|(flaw, _)| flaw));
        }
    }
    let missing: Vec<&Flaw> = Flaw::ALL.iter().filter(|flaw| !seen.contains(flaw)).collect();
    assert_eq!(missing, [&RelinquishShort]);
}

/// Bytes of an offer by the tables of docs/MEMORY.md, whether or not they are well formed.
fn laid_out(offer: &Offer, form: Version) -> Vec<u8> {
    let (receivers, ranges) = (offer.receivers.len() as u32, offer.ranges.len() as u32);
    let is_open = offer.kind == Kind::Donate || (offer.kind == Kind::Lend && receivers == 1);
    let told = match form {
        Version::V1_1 => [&16_u32.to_le_bytes()[..], &receivers.to_le_bytes(), &[48], &[0; 15]].concat(),
        Version::V1_2 => [&32_u32.to_le_bytes()[..], &receivers.to_le_bytes(), &[48], &[0; 15]].concat(),
        Version::Compact => [[0; 4], receivers.to_le_bytes()].concat(),
    };
    let tag = offer.tag.to_le_bytes();
    let mut bytes = [&offer.sender.0.to_le_bytes()[..], &[if is_open { 0 } else { 0x2F }, 0]].concat();
    bytes.extend([&u32::from(offer.zero).to_le_bytes()[..], &[0; 8], &tag, &told].concat());
    let size = if form == Version::V1_2 { 32 } else { 16 };
    let composite = bytes.len() as u32 + size * receivers;
    for Receiver { endpoint, data, instructions } in offer.receivers {
        bytes.extend(endpoint.0.to_le_bytes());
        bytes.extend([*data as u8 + 4 * *instructions as u8, 0]);
        bytes.extend(composite.to_le_bytes());
        bytes.resize(bytes.len() + size as usize - 8, 0);
    }
    let total = offer.ranges.iter().fold(0, |total: u32, range| total.wrapping_add(range.pages));
    bytes.extend([&total.to_le_bytes()[..], &ranges.to_le_bytes(), &[0; 8]].concat());
    for PageRange { address, pages } in offer.ranges {
        bytes.extend([&address.to_le_bytes()[..], &pages.to_le_bytes(), &[0; 4]].concat());
    }
    bytes
}

/// Most of the time the first of some values, else any of them.
fn mostly<T: Copy>(state: &mut u64, values: &[T]) -> T {
    match next(state) % 8 {
        0 => values[next(state) as usize % values.len()],
        _ => values[0],
    }
}

/// Receivers of which most are good.
fn some_receivers(kind: Kind, state: &mut u64) -> Vec<Receiver> {
    let count = mostly(state, &[1, 0, 2, 3, 4, 5, 6]);
    let right = if kind == Kind::Donate { DataAccess::Unspecified } else { DataAccess::Rw };
    let receiver = |place: u16| Receiver {
        endpoint: Id(mostly(state, &[0x8002 + place, 0x8001, 0x8002])),
        data: mostly(state, &[right, DataAccess::Ro, DataAccess::Unspecified]),
        instructions: mostly(state, &[InstructionAccess::Unspecified, InstructionAccess::Nx]),
    };
    (0..count).map(receiver).collect()
}

/// Ranges of which most are good.
fn some_ranges(state: &mut u64) -> Vec<PageRange> {
    let count = mostly(state, &[1, 0, 2, 3, 64, 65]);
    let range = |place: u64| PageRange {
        address: mostly(state, &[8192 * place, 0, 1 << 43, (1 << 48) - 4096, u64::MAX - 4095, 24577]),
        pages: mostly(state, &[1, 0, 2, 3, 1 << 31, u32::MAX]),
    };
    (0..count).map(range).collect()
}

/// What an offer of values comes to is what a machine says of its bytes. The answer is its flaw, if it has one.
fn same_of_values(machine: &mut Machine, offer: &Offer, form: Version) -> Option<Flaw> {
    let bytes = laid_out(offer, form);
    let told = told(machine, offer.kind.function(), &bytes);
    match offer.to_bytes(form) {
        Ok(written) => {
            assert_eq!((&written[..], told), (&bytes[..], None), "{offer:?}");
            None
        }
        Err(DescriptorError { flaw, index }) => {
            assert_eq!(Some((flaw, index)), told, "{offer:?}");
            Some(flaw)
        }
    }
}

#[test]
fn a_machine_tells_the_same_of_values() {
    let mut state = 0x1234_5678_9ABC_DEF1;
    let mut seen = Vec::new();
    for (form, ffa) in SERVED {
        let mut machine = machine(form, ffa);
        for round in 0..20_000 {
            let kind = [Kind::Share, Kind::Lend, Kind::Donate][round % 3];
            let (receivers, ranges) = (some_receivers(kind, &mut state), some_ranges(&mut state));
            let zero = mostly(&mut state, &[false, true]);
            let offer = Offer { zero, ..Offer::new(kind, Id(0x8001), &receivers, &ranges) };
            seen.push(same_of_values(&mut machine, &offer, form));
        }
    }
    let good = seen.iter().filter(|flaw| flaw.is_none()).count();
    assert!(good > 5000, "{good}");
    let broken = [
        SendFlags,
        SendNoReceiver,
        SendManyReceivers,
        AccessPermissions,
        AccessReceiverIsSender,
        AccessReceiverTwice,
        CompositeNoRange,
        CompositeManyRanges,
        CompositeTotal,
        RangeEmpty,
        RangeUnaligned,
        RangeTooHigh,
        RangeOverlap,
    ];
    let has = |flaw: &&Flaw| seen.contains(&Some(**flaw));
    assert_eq!(Flaw::ALL.iter().filter(has).collect::<Vec<_>>(), broken.iter().collect::<Vec<_>>());
}
