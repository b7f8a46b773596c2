// SPDX-License-Identifier: MIT OR Apache-2.0
//! Each field of each descriptor and each register, one at a time: numbers of every length in bits, its limit, and one
//! above its limit.
use crate::answers::{Open, Registers, DONATE, LEND, RELINQUISH, RETRIEVE, SECOND, SEND2, SHARE, WIDE};
use crate::common::ram;
use crate::descriptors::{number, Kind};
use crate::offers;
use crate::stage::{call, Stage, OFFERED};
use gorseplumb::Size::{self, B1, B2, B4, B8};

/// A field in TX, and the greatest number that some good descriptor has there.
struct Field {
    name: &'static str,
    at: u64,
    size: Size,
    limit: u64,
}

impl Field {
    const fn new(name: &'static str, at: u64, size: Size, limit: u64) -> Field {
        Field { name, at, size, limit }
    }
}

/// The fields of a transaction's header.
const HEADER: [Field; 10] = [
    Field::new("sender", 0, B2, 0x8002),
    Field::new("attributes", 2, B2, 0x2F),
    Field::new("flags", 4, B4, 0x18),
    Field::new("handle", 8, B8, 0x8001_0000_0001),
    Field::new("tag", 16, B8, u64::MAX),
    Field::new("size of an access descriptor", 24, B4, 16),
    Field::new("receiver count", 28, B4, 4),
    Field::new("offset of the array", 32, B4, 48),
    Field::new("reserved word", 36, B4, 0),
    Field::new("reserved words", 40, B8, 0),
];

/// Returns the fields of an access descriptor at this place.
fn access(at: u64, composite: u64) -> [Field; 5] {
    [
        Field::new("receiver", at, B2, 0x8002),
        Field::new("permissions", at + 2, B1, 0x0A),
        Field::new("flags of a receiver", at + 3, B1, 0),
        Field::new("offset of the composite", at + 4, B4, composite),
        Field::new("reserved words of a receiver", at + 8, B8, 0),
    ]
}

/// Returns the fields of a composite at this place.
fn composite(at: u64) -> [Field; 3] {
    [
        Field::new("page count of the composite", at, B4, 16),
        Field::new("range count", at + 4, B4, 64),
        Field::new("reserved words of the composite", at + 8, B8, 0),
    ]
}

/// Returns the fields of a range at this place.
fn range(at: u64, address: u64) -> [Field; 3] {
    [
        Field::new("address", at, B8, address),
        Field::new("page count of a range", at + 8, B4, 16),
        Field::new("reserved word of a range", at + 12, B4, 0),
    ]
}

/// Returns all powers of two, all numbers whose lowest bits are ones and whose other bits are zeros, zero, one above
/// the limit, and the limit.
fn numbers(limit: u64) -> impl Iterator<Item = u64> {
    (0..64).flat_map(|bit| [1 << bit, u64::MAX >> bit]).chain([0, limit.wrapping_add(1), limit])
}

/// Tries fields one at a time, each in all of the calls.
fn try_fields(stage: &mut Stage, calls: &[Registers], fields: &[Field]) {
    for &Field { name, at, size, limit } in fields {
        let kept = number(&stage.tx, at, 8);
        for value in numbers(limit) {
            stage.put(at, size, value);
            for &x in calls {
                stage.compare(x, format_args!("the {name} at {at} is {value:#X}"));
            }
        }
        stage.put(at, size, kept);
    }
}

/// Tries the registers of a call one at a time, in its 32-bit form and in its 64-bit form.
fn try_registers(stage: &mut Stage, x: Registers) {
    for register in 1..x.len() {
        for value in numbers(x[register]) {
            let mut narrow = x;
            narrow[register] = value;
            let mut wide = narrow;
            wide[0] |= WIDE;
            stage.compare(narrow, format_args!("w{register} is {value:#X}"));
            stage.compare(wide, format_args!("x{register} is {value:#X}"));
        }
    }
}

/// Returns the three sends of a descriptor of this length.
fn sends(length: u64) -> [Registers; 3] {
    [DONATE, LEND, SHARE].map(|function| call(function, length, length))
}

/// Tries each field of a send of one range to one receiver.
fn try_send_to_one(stage: &mut Stage) {
    let calls = sends(96);
    try_fields(stage, &calls, &HEADER);
    try_fields(stage, &calls, &access(48, 64));
    try_fields(stage, &calls, &composite(64));
    try_fields(stage, &calls, &range(80, OFFERED.page));
}

/// One page is lent for reading and writing, and another is offered already. The descriptor is tried as each kind of
/// send.
#[test]
fn fields_of_a_send_to_one() {
    let mut pages = ram(1);
    let mut stage = Stage::with_an_offer(&mut pages);
    stage.fill();
    stage.put_words(&offers::LEND);
    try_send_to_one(&mut stage);
    try_registers(&mut stage, call(LEND, 96, 96));
}

/// Two ranges are offered to two endpoints for reading.
#[test]
fn fields_of_a_send_to_two() {
    let mut pages = ram(1);
    let mut stage = Stage::with_an_offer(&mut pages);
    stage.fill();
    stage.put_words(&offers::SHARE);
    stage.put_words_at(80, &[0x2_0000_0002, 0, 0x4002_4000, 1, 0x4002_2000, 1]);
    let calls = sends(128);
    try_fields(&mut stage, &calls, &HEADER);
    try_fields(&mut stage, &calls, &access(48, 80));
    try_fields(&mut stage, &calls, &access(64, 80));
    try_fields(&mut stage, &calls, &composite(80));
    try_fields(&mut stage, &calls, &range(96, 0x4002_2000));
    try_fields(&mut stage, &calls, &range(112, 0x4002_4000));
    try_registers(&mut stage, call(SHARE, 128, 128));
}

#[test]
fn fields_of_a_donate() {
    let mut pages = ram(1);
    let mut stage = Stage::with_an_offer(&mut pages);
    stage.turn_to(SECOND);
    stage.fill();
    stage.put_words(&offers::DONATE);
    try_send_to_one(&mut stage);
    try_registers(&mut stage, call(DONATE, 96, 96));
}

/// Tries each field of a retrieve of what is offered.
fn try_retrieve(stage: &mut Stage) {
    stage.turn_to(SECOND);
    stage.fill();
    stage.put_words(&stage.retrieve_words());
    let x = call(RETRIEVE, 64, 64);
    try_fields(stage, &[x], &HEADER);
    try_fields(stage, &[x], &access(48, 0));
    try_registers(stage, x);
}

#[test]
fn fields_of_a_retrieve() {
    let mut pages = ram(1);
    try_retrieve(&mut Stage::with_an_offer(&mut pages));
}

/// A page that is offered to two for reading may be neither written nor executed.
#[test]
fn fields_of_a_retrieve_for_reading() {
    let mut pages = ram(1);
    let mut stage = Stage::new(&mut pages);
    let open = Open { tag: 0, kind: Kind::Share, most: 1, may_execute: false, page: 0x4002_2000, ..OFFERED };
    stage.offer(call(SHARE, 112, 112), &offers::SHARE, open);
    try_retrieve(&mut stage);
}

/// An endpoint relinquishes what it holds, and may not retrieve it again before.
#[test]
fn fields_of_a_relinquish() {
    let mut pages = ram(1);
    let mut stage = Stage::with_an_offer(&mut pages);
    stage.turn_to(SECOND);
    stage.fill();
    stage.take();
    stage.put_words(&stage.retrieve_words());
    stage.compare(call(RETRIEVE, 64, 64), "a second retrieve");
    stage.put_words(&[OFFERED.handle, 1 << 32, SECOND]);
    let fields = [
        Field::new("handle", 0, B8, 0x8001_0000_0001),
        Field::new("flags", 8, B4, 1),
        Field::new("endpoint count", 12, B4, 1),
        Field::new("endpoint", 16, B2, 0x8002),
    ];
    try_fields(&mut stage, &[call(RELINQUISH, 0, 0)], &fields);
    try_registers(&mut stage, call(RELINQUISH, 0, 0));
}

#[test]
fn fields_of_a_message() {
    let mut pages = ram(1);
    let mut stage = Stage::new(&mut pages);
    stage.fill();
    stage.put_words(&[0, 0x8001_8002_0000_0018, 8]);
    let fields = [
        Field::new("flags", 0, B4, 0),
        Field::new("reserved word", 4, B4, 0),
        Field::new("offset of the message", 8, B4, 4088),
        Field::new("receiver", 12, B2, 0x8002),
        Field::new("sender", 14, B2, 0x8001),
        Field::new("size of the message", 16, B4, 4072),
    ];
    try_fields(&mut stage, &[call(SEND2, 0, 0)], &fields);
    try_registers(&mut stage, call(SEND2, 0, 0));
}
