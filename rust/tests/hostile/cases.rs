// SPDX-License-Identifier: MIT OR Apache-2.0
//! Cases whose answers are worked out by hand. They also check the oracle.
use crate::answers::{refusal, success, DENIED, FIRST, INVALID, LEND, NO_MEMORY, RELINQUISH, SECOND, SEND2, SHARE};
use crate::common::ram;
use crate::offers;
use crate::stage::{call, Stage, OFFERED, RECLAIM};
use gorseplumb::Size;

/// Each length of the lend is tried on a machine of its own, which has made no send.
#[test]
fn a_first_lend_of_each_length() {
    let mut pages = ram(1);
    for length in 0..=4097 {
        let mut stage = Stage::new(&mut pages);
        stage.put_words(&offers::LEND);
        let is_good = (96..=4096).contains(&length);
        let want = if is_good { success(1, FIRST) } else { refusal(INVALID) };
        stage.check(call(LEND, length, length), want, format_args!("length {length}"));
    }
}

/// The registers of a lend have two lengths, or one of its offsets or counts is bad. Then it is good.
#[test]
fn offsets_and_counts_that_are_none() {
    let mut pages = ram(1);
    let mut stage = Stage::new(&mut pages);
    stage.put_words(&offers::LEND);
    stage.check(call(LEND, 0x60, 0x5F), refusal(INVALID), "two lengths");
    let cases = [
        ("offset of the array", 32, 0xFFFF_FFF0),
        ("offset of the composite", 52, 0xFFFF_FFF0),
        ("receiver count", 28, 0),
        ("receiver count", 28, 5),
        ("receiver count", 28, 0xFFFF_FFFF),
        ("range count", 68, 0),
        ("range count", 68, 65),
        ("range count", 68, 0xFFFF_FFFF),
    ];
    for (name, at, value) in cases {
        stage.put_words(&offers::LEND);
        stage.put(at, Size::B4, value);
        stage.check(call(LEND, 96, 96), refusal(INVALID), format_args!("the {name} is {value:#X}"));
    }
    stage.put_words(&offers::LEND);
    stage.check(call(LEND, 96, 96), success(1, FIRST), "the good lend");
}

/// A range may end at 2^48, where no RAM is, but not above.
#[test]
fn ranges_at_the_last_address() {
    let mut pages = ram(1);
    let mut stage = Stage::new(&mut pages);
    stage.put_words(&offers::LEND);
    stage.put_words_at(80, &[0x0000_FFFF_FFFF_F000]);
    stage.check(call(LEND, 96, 96), refusal(DENIED), "the last page below 2^48");
    stage.put_words_at(64, &[0x1_0000_0002, 0, 0x0000_FFFF_FFFF_F000, 2]);
    stage.check(call(LEND, 96, 96), refusal(INVALID), "two pages around 2^48");
}

#[test]
fn messages_at_their_edges() {
    let mut pages = ram(1);
    let mut stage = Stage::new(&mut pages);
    let refused = [(19, 1), (20, 0xFFFF_FFEC), (4096, 0), (4096, 1), (20, 0)];
    for (offset, size) in refused {
        stage.put_words(&[0, 0x8001_8002_0000_0000 | offset, size]);
        stage.check(call(SEND2, 0, 0), refusal(INVALID), format_args!("offset {offset}, size {size:#X}"));
    }
    stage.put_words(&[0, 0x8001_8002_0000_0FFF, 1]);
    stage.check(call(SEND2, 0, 0), success(0, 0), "the last byte of the page");
}

/// A relinquish has one wrong field. Then it is good, and it is refused when nothing is held any more.
#[test]
fn relinquishes_that_are_none() {
    let mut pages = ram(1);
    let mut stage = Stage::with_an_offer(&mut pages);
    stage.turn_to(SECOND);
    stage.take();
    let handle = 0x8001_0000_0001;
    let refused = [
        ("no endpoint", [handle, 0, 0x8002]),
        ("two endpoints", [handle, 2 << 32, 0x8002]),
        ("flags of 2", [handle, 1 << 32 | 2, 0x8002]),
        ("the endpoint 8001", [handle, 1 << 32, 0x8001]),
        ("the endpoint 0", [handle, 1 << 32, 0]),
        ("the handle 0", [0, 1 << 32, 0x8002]),
    ];
    for (case, words) in refused {
        stage.put_words(&words);
        stage.check(call(RELINQUISH, 0, 0), refusal(INVALID), case);
    }
    stage.put_words(&[handle, 1 << 32, 0x8002]);
    stage.check(call(RELINQUISH, 0, 0), success(0, 0), "the good relinquish");
    stage.scene.open = Some(OFFERED);
    stage.check(call(RELINQUISH, 0, 0), refusal(DENIED), "nothing is held any more");
}

/// A sender makes as many sends as it may, and reclaims each. The next one is refused, though nothing is open. But its
/// descriptor is read first, and the other partition has a count of its own.
#[test]
fn as_many_sends_as_there_may_be() {
    let mut pages = ram(1);
    let mut stage = Stage::new(&mut pages);
    stage.put_words(&offers::SHARE);
    for number in 1..=65_535 {
        stage.check(call(SHARE, 112, 112), success(number, FIRST), format_args!("share {number}"));
        stage.expect(call(RECLAIM, number, FIRST), success(0, 0), format_args!("reclaim {number}"));
        stage.scene.sent = number;
    }
    stage.check(call(SHARE, 112, 112), refusal(NO_MEMORY), "one share too many");
    stage.put(32, Size::B4, 47);
    stage.check(call(SHARE, 112, 112), refusal(INVALID), "one share too many, which is no descriptor");
    stage.turn_to(SECOND);
    stage.put_words(&offers::DONATE);
    stage.put_words_at(48, &[0x40_0002_8001]);
    stage.check(call(LEND, 96, 96), success(1, SECOND), "the first lend of the other partition");
}
