// SPDX-License-Identifier: MIT OR Apache-2.0
//! Each length of a descriptor, from 0 to one above the page.
use crate::answers::{DONATE, LEND, RETRIEVE, SECOND, SHARE};
use crate::common::ram;
use crate::offers;
use crate::stage::{call, Stage};

/// Tries a call with each length.
fn try_lengths(stage: &mut Stage, function: u64) {
    for length in 0..=4097 {
        stage.compare(call(function, length, length), format_args!("length {length}"));
    }
}

#[test]
fn lengths_of_a_lend() {
    let mut pages = ram(1);
    let mut stage = Stage::new(&mut pages);
    stage.fill();
    stage.put_words(&offers::LEND);
    try_lengths(&mut stage, LEND);
}

#[test]
fn lengths_of_a_share() {
    let mut pages = ram(1);
    let mut stage = Stage::new(&mut pages);
    stage.fill();
    stage.put_words(&offers::SHARE);
    try_lengths(&mut stage, SHARE);
}

#[test]
fn lengths_of_a_donate() {
    let mut pages = ram(1);
    let mut stage = Stage::new(&mut pages);
    stage.turn_to(SECOND);
    stage.fill();
    stage.put_words(&offers::DONATE);
    try_lengths(&mut stage, DONATE);
}

/// The range of the lend is the last 16 bytes of the page: its composite is at 4064.
#[test]
fn lengths_of_a_lend_that_ends_the_page() {
    let mut pages = ram(1);
    let mut stage = Stage::new(&mut pages);
    stage.fill();
    stage.put_words(&offers::LEND);
    stage.put_words_at(48, &[0x0FE0_0002_8002]);
    stage.put_words_at(4064, &[0x1_0000_0001, 0, 0x4002_1000, 1]);
    try_lengths(&mut stage, LEND);
}

#[test]
fn lengths_of_a_retrieve() {
    let mut pages = ram(1);
    let mut stage = Stage::with_an_offer(&mut pages);
    stage.turn_to(SECOND);
    stage.fill();
    stage.put_words(&stage.retrieve_words());
    try_lengths(&mut stage, RETRIEVE);
}
