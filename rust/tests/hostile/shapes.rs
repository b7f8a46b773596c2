// SPDX-License-Identifier: MIT OR Apache-2.0
//! Descriptors and messages that only several fields together make good or bad: other places and counts of their parts,
//! and transactions that are open in another way.
use crate::answers::{Open, DONATE, FIRST, LEND, RELINQUISH, RETRIEVE, SECOND, SEND2, SHARE};
use crate::common::{ram, RAM};
use crate::descriptors::Kind;
use crate::offers;
use crate::stage::{call, Stage, OFFERED};
use gorseplumb::Size;

/// Tries the bytes in TX as each kind of send.
fn try_sends(stage: &mut Stage, length: u64, case: &str) {
    for (name, function) in [("donate", DONATE), ("lend", LEND), ("share", SHARE)] {
        stage.compare(call(function, length, length), format_args!("{name}, {case}"));
    }
}

/// The array and the composite of a lend are at many places: in any order, next to each other, apart, or one in the
/// other.
#[test]
fn places_of_array_and_composite() {
    let mut pages = ram(1);
    let mut stage = Stage::new(&mut pages);
    for array in (0..=112).step_by(8) {
        for composite in (0..=160).step_by(8) {
            stage.fill();
            stage.put_words(&[FIRST, 0, 0, 0x1_0000_0010, array, 0]);
            stage.put_words_at(composite, &offers::LEND[8..]);
            stage.put_words_at(array, &[composite << 32 | 0x2_8002, 0]);
            stage.compare(call(LEND, 192, 192), format_args!("the array at {array}, the composite at {composite}"));
        }
    }
}

/// A send has no receiver to five receivers, of which three are no endpoints.
#[test]
fn counts_of_receivers() {
    let mut pages = ram(1);
    let mut stage = Stage::new(&mut pages);
    let receivers = [0, SECOND, 0x8003, 0x8004, 0x8005];
    for count in 0..=receivers.len() {
        for attributes in [0, 0x2F] {
            for permissions in 0..=2 {
                stage.fill();
                stage.put_words(&[attributes << 16 | FIRST, 0, 0, (count as u64) << 32 | 16, 0x30, 0]);
                for (at, receiver) in (48..).step_by(16).zip(&receivers[..count]) {
                    stage.put_words_at(at, &[128 << 32 | permissions << 16 | receiver, 0]);
                }
                stage.put_words_at(128, &offers::LEND[8..]);
                let case = format!("{count} receivers, attributes {attributes:#X}, permissions {permissions}");
                try_sends(&mut stage, 160, &case);
            }
        }
    }
}

/// A lend has no range to 66 ranges of one page. The caller may send the first fourteen pages, after which its buffers
/// are.
#[test]
fn counts_of_ranges() {
    let mut pages = ram(1);
    let mut stage = Stage::new(&mut pages);
    stage.fill();
    stage.put_words(&offers::LEND);
    for count in 0..=66 {
        stage.put_words_at(64, &[count << 32 | count, 0]);
        stage.put_words_at(80 + 16 * count, &[0x4002_0000 + 4096 * count, 1]);
        let length = 80 + 16 * count;
        stage.compare(call(LEND, length, length), format_args!("{count} ranges"));
    }
}

/// A lend has two ranges, each of no page to two pages.
#[test]
fn pages_of_two_ranges() {
    let mut pages = ram(1);
    let mut stage = Stage::new(&mut pages);
    stage.fill();
    stage.put_words(&offers::LEND);
    for (first, second) in (0..=2).flat_map(|first| (0..=2).map(move |second| (first, second))) {
        stage.put_words_at(64, &[2 << 32 | (first + second), 0, 0x4002_1000, first, 0x4002_3000, second]);
        stage.compare(call(LEND, 112, 112), format_args!("{first} pages and {second} pages"));
    }
}

/// A lend of each page of RAM, of the one below and of the one above.
#[test]
fn a_lend_of_each_page() {
    let mut pages = ram(1);
    let mut stage = Stage::with_an_offer(&mut pages);
    stage.put_words(&offers::LEND);
    for address in (RAM - 4096..=RAM + 512 * 4096).step_by(4096) {
        stage.put(80, Size::B8, address);
        stage.compare(call(LEND, 96, 96), format_args!("the page at {address:#X}"));
    }
}

#[test]
fn permissions_of_each_send() {
    let mut pages = ram(1);
    let mut stage = Stage::new(&mut pages);
    stage.put_words(&offers::LEND);
    for permissions in 0..=0xFF {
        stage.put(50, Size::B1, permissions);
        try_sends(&mut stage, 96, &format!("permissions {permissions:#X}"));
    }
}

#[test]
fn permissions_of_a_retrieve() {
    let mut pages = ram(1);
    let mut stage = Stage::with_an_offer(&mut pages);
    stage.turn_to(SECOND);
    stage.put_words(&stage.retrieve_words());
    for permissions in 0..=0xFF {
        stage.put(50, Size::B1, permissions);
        stage.compare(call(RETRIEVE, 64, 64), format_args!("permissions {permissions:#X}"));
    }
}

/// Tries relinquishes by the caller of what is open, with the flag that asks for zeros and without it.
fn try_relinquishes(stage: &mut Stage, case: &str) {
    for flags in [0, 1] {
        stage.put_words(&[OFFERED.handle, 1 << 32 | flags, stage.scene.caller]);
        stage.compare(call(RELINQUISH, 0, 0), format_args!("flags {flags}, {case}"));
    }
}

/// The sender of a lend may neither retrieve nor relinquish it, and its receiver relinquishes what it holds.
#[test]
fn a_lend_for_another() {
    let mut pages = ram(1);
    let mut stage = Stage::with_an_offer(&mut pages);
    stage.put_words(&stage.retrieve_words());
    stage.compare(call(RETRIEVE, 64, 64), "the sender retrieves");
    try_relinquishes(&mut stage, "the sender relinquishes");
    stage.turn_to(SECOND);
    try_relinquishes(&mut stage, "the receiver holds nothing");
    stage.take();
    try_relinquishes(&mut stage, "the receiver may write");
}

/// Only a receiver that may write to a lent page relinquishes it with zeros.
#[test]
fn relinquishes_with_zeros() {
    let header = |attributes: u64, permissions: u64| {
        let mut words = offers::LEND;
        words[0] |= attributes << 16;
        words[6] = 0x40_0000_8002 | permissions << 16;
        words
    };
    let page = 0x4002_1000;
    let lend = Open { tag: 0, most: 1, page, ..OFFERED };
    let share = Open { tag: 0, kind: Kind::Share, page, ..OFFERED };
    let offers =
        [("lent for reading", LEND, header(0, 1), lend), ("shared for writing", SHARE, header(0x2F, 2), share)];
    for (case, function, words, open) in offers {
        let mut pages = ram(1);
        let mut stage = Stage::new(&mut pages);
        stage.offer(call(function, 96, 96), &words, open);
        stage.turn_to(SECOND);
        stage.take();
        try_relinquishes(&mut stage, case);
    }
}

#[test]
fn a_message_to_its_sender() {
    let mut pages = ram(1);
    let mut stage = Stage::new(&mut pages);
    stage.put_words(&[0, 0x8001_8001_0000_0018, 8]);
    stage.compare(call(SEND2, 0, 0), "from 8001 to 8001");
}
