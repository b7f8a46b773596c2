// SPDX-License-Identifier: MIT OR Apache-2.0
//! Each condition of a descriptor, broken by the smallest change of one that is good. docs/MEMORY.md has the forms.
mod common;

use common::refusals::MACHINE;
use gorseplumb::Flaw::{self, *};
use gorseplumb::{registers, About, Check, ErrorCode, Machine, Size};

const TX: u64 = 0x4001_E000;

/// Words of eight bytes, each behind its place.
type Words = &'static [(u64, u64)];

/// A descriptor of the normal world's: its call, its length where the call is told it, and its words by their places.
struct Descriptor {
    call: u64,
    length: u64,
    words: Words,
}

/// A lend of a page to 8001.
const LEND: Descriptor = Descriptor {
    call: 0x8400_0072,
    length: 0x60,
    words: &[
        (0x18, 0x1_0000_0010),
        (0x20, 0x30),
        (0x30, 0x40_0002_8001),
        (0x40, 0x1_0000_0001),
        (0x50, 0x4001_0000),
        (0x58, 1),
    ],
};

/// A lend to 8001 and 8002.
const TO_TWO: Descriptor = Descriptor {
    call: 0x8400_0072,
    length: 0x70,
    words: &[
        (0x00, 0x2F_0000),
        (0x18, 0x2_0000_0010),
        (0x20, 0x30),
        (0x30, 0x50_0002_8001),
        (0x40, 0x50_0002_8002),
        (0x50, 0x1_0000_0001),
        (0x60, 0x4001_0000),
        (0x68, 1),
    ],
};

/// A retrieve of what there isn't: the handle is looked at behind the descriptor.
const RETRIEVE: Descriptor =
    Descriptor { call: 0x8400_0074, length: 0x40, words: &[(0x18, 0x1_0000_0010), (0x20, 0x30)] };

/// A relinquish of what there isn't.
const RELINQUISH: Descriptor = Descriptor { call: 0x8400_0076, length: 0, words: &[(0x08, 0x1_0000_0000)] };

/// Each condition with what breaks it: words in the place of others, and the length.
const FLAWS: [(Flaw, &Descriptor, u64, Words); 43] = [
    (HeaderShort, &LEND, 0x2F, &[]),
    (HeaderAccessSize, &LEND, 0x60, &[(0x18, 0x1_0000_0011)]),
    (HeaderArrayUnaligned, &LEND, 0x60, &[(0x20, 0x31)]),
    (HeaderArrayInHeader, &LEND, 0x60, &[(0x20, 0x20)]),
    (HeaderArrayOutside, &LEND, 0x60, &[(0x20, 0x60)]),
    (HeaderReserved, &LEND, 0x60, &[(0x28, 1)]),
    (SendAttributes, &LEND, 0x60, &[(0x00, 0x1_0000)]),
    (SendFlags, &LEND, 0x60, &[(0x00, 0x2_0000_0000)]),
    (SendHandle, &LEND, 0x60, &[(0x08, 1)]),
    (SendNoReceiver, &TO_TWO, 0x70, &[(0x18, 0x10)]),
    (SendManyReceivers, &TO_TWO, 0x80, &[(0x18, 0x5_0000_0010)]),
    (AccessPermissions, &LEND, 0x60, &[(0x30, 0x40_000F_8001)]),
    (AccessFlags, &LEND, 0x60, &[(0x30, 0x40_0102_8001)]),
    (AccessOtherComposite, &TO_TWO, 0x70, &[(0x40, 0x60_0002_8002)]),
    (AccessReserved, &LEND, 0x60, &[(0x38, 1)]),
    (AccessReceiverIsSender, &LEND, 0x60, &[(0x30, 0x40_0002_0000)]),
    (AccessReceiverTwice, &TO_TWO, 0x70, &[(0x40, 0x50_0002_8001)]),
    (CompositeOutside, &LEND, 0x60, &[(0x30, 0x60_0002_8001)]),
    (CompositeUnaligned, &LEND, 0x60, &[(0x30, 0x41_0002_8001)]),
    (CompositeInArray, &LEND, 0x60, &[(0x30, 0x30_0002_8001)]),
    (CompositeNoRange, &LEND, 0x60, &[(0x40, 1)]),
    (CompositeManyRanges, &LEND, 0x60, &[(0x40, 0x41_0000_0001)]),
    (CompositeReserved, &LEND, 0x60, &[(0x48, 1)]),
    (CompositeRangesOutside, &LEND, 0x60, &[(0x40, 0x2_0000_0001)]),
    (CompositeTotal, &LEND, 0x60, &[(0x40, 0x1_0000_0002)]),
    (RangeEmpty, &LEND, 0x60, &[(0x58, 0)]),
    (RangeUnaligned, &LEND, 0x60, &[(0x50, 0x4001_0001)]),
    (RangeTooHigh, &LEND, 0x60, &[(0x50, 1 << 48)]),
    (RangeReserved, &LEND, 0x60, &[(0x58, 0x1_0000_0001)]),
    (RangeOverlap, &LEND, 0x70, &[(0x40, 0x2_0000_0002), (0x60, 0x4001_0000), (0x68, 1)]),
    (RetrieveAttributes, &RETRIEVE, 0x40, &[(0x00, 0x1_0000)]),
    (RetrieveFlags, &RETRIEVE, 0x40, &[(0x00, 0x1_0000_0000)]),
    (RetrieveAccessCount, &RETRIEVE, 0x50, &[(0x00, 0x400_0000_0000), (0x18, 0x2_0000_0010)]),
    (RetrieveReceiverIsAnother, &RETRIEVE, 0x40, &[(0x30, 0x8001)]),
    (RetrieveDataPermission, &RETRIEVE, 0x40, &[(0x30, 0x3_0000)]),
    (RetrieveInstructionPermission, &RETRIEVE, 0x40, &[(0x30, 0xC_0000)]),
    (RetrievePermissionsReserved, &RETRIEVE, 0x40, &[(0x30, 0x10_0000)]),
    (RetrieveAccessFlags, &RETRIEVE, 0x40, &[(0x30, 0x100_0000)]),
    (RetrieveCompositeTold, &RETRIEVE, 0x40, &[(0x30, 0x40_0000_0000)]),
    (RetrieveAccessReserved, &RETRIEVE, 0x40, &[(0x38, 1)]),
    (RetrieveNotZero, &RETRIEVE, 0x40, &[(0x18, 0x10)]),
    (RelinquishFlags, &RELINQUISH, 0, &[(0x08, 0x1_0000_0002)]),
    (RelinquishEndpointCount, &RELINQUISH, 0, &[(0x08, 0)]),
];

/// The flaw that a descriptor has behind these changes, if it has one.
fn flaw_of(descriptor: &Descriptor, length: u64, changes: Words) -> Option<Flaw> {
    let mut machine = Machine::boot(&MACHINE).unwrap();
    machine.call(&registers([0x8400_0066, TX, TX + 0x1000, 1])).done().unwrap();
    for (place, word) in descriptor.words.iter().chain(changes) {
        machine.store(TX + place, Size::B8, *word).unwrap();
    }
    let call = registers([descriptor.call, length, length]);
    let reason = machine.why_call(&call).filter(|reason| reason.check == Check::DescriptorMalformed)?;
    assert_eq!(machine.call(&call).error(), Some(ErrorCode::InvalidParameters));
    match reason.about {
        Some(About::Field { flaw, .. }) => Some(flaw),
        about => panic!("{about:?} is no field"),
    }
}

#[test]
fn each_flaw_is_told() {
    for (flaw, descriptor, length, changes) in FLAWS {
        assert_eq!(flaw_of(descriptor, length, changes), Some(flaw));
    }
}

#[test]
fn unchanged_descriptors_have_none() {
    for descriptor in [LEND, TO_TWO, RETRIEVE, RELINQUISH] {
        assert_eq!(flaw_of(&descriptor, descriptor.length, &[]), None);
    }
}

/// TX is never shorter than a relinquish descriptor, so that nothing breaks this condition.
#[test]
fn each_flaw_has_a_row() {
    let seen: Vec<Flaw> = FLAWS.iter().map(|row| row.0).collect();
    let missing: Vec<&Flaw> = Flaw::ALL.iter().filter(|flaw| !seen.contains(flaw)).collect();
    assert_eq!(missing, [&RelinquishShort]);
}
