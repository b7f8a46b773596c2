// SPDX-License-Identifier: MIT OR Apache-2.0
//! Operations in a list, and manifests that are read.
mod common;

use common::example;
use common::machines::{MACHINE, PARTITIONS};
use gorseplumb::{
    declarations, raw, registers, BootError, Cause, Endpoint, Fault, Id, Machine, Manifest, Operation, Outcome,
    Properties, Refusal, Region, Rights, Size, Told, Version,
};

const PLACE: u64 = 0x4001_0008;

#[test]
fn a_list_is_done_one_behind_the_other() {
    let run = registers([0x8400_006D, 0x8001_0000]);
    let list = [
        Operation::store(PLACE, Size::B8, 0x0123_4567_89AB_CDEF),
        Operation::load(PLACE, Size::B2),
        Operation::fetch(PLACE),
        Operation::call(run),
        Operation::load(PLACE, Size::B8),
        Operation::fetch(0x4002_0000),
    ];
    let mut machine = Machine::boot(&PARTITIONS).unwrap();
    let mut outcomes = [Outcome::NONE; 7];
    assert_eq!(machine.run(&list, &mut outcomes), 6);
    let answer = Machine::boot(&PARTITIONS).unwrap().call(&run);
    let told: Vec<Told> = outcomes.iter().map(Outcome::told).collect();
    let expected = [
        Told::Done,
        Told::Data(0xCDEF),
        Told::Fault(Fault::Permission),
        Told::Answer(answer),
        Told::Fault(Fault::Translation),
        Told::Data(0),
        Told::Done,
    ];
    assert_eq!(told, expected);
    assert_eq!(machine.runner(), Id(0x8001));
}

#[test]
fn as_many_as_both_lists_have() {
    let mut machine = Machine::boot(&PARTITIONS).unwrap();
    let list = [Operation::store(PLACE, Size::B1, 1), Operation::store(PLACE, Size::B1, 2)];
    assert_eq!(machine.run(&list, &mut [Outcome::NONE; 1]), 1);
    assert_eq!(machine.load(PLACE, Size::B1), Ok(1));
    assert_eq!((machine.run(&[], &mut [Outcome::NONE; 1]), machine.run(&list, &mut [])), (0, 0));
}

#[test]
fn texts_are_read_as_numbers() {
    assert_eq!(Manifest::read(example("machine.toml")), Ok(MACHINE));
    assert_eq!(Manifest::read(example("partitions.toml")), Ok(PARTITIONS));
    assert_eq!(Manifest::read("").err(), Some(BootError::Refused(Refusal::new(Cause::MissingKey))));
    assert_eq!(Manifest::read(b"\xFF").err().and_then(BootError::cause), Some(Cause::Toml));
}

/// The version is the endpoint's own, and changes nothing else.
#[test]
fn a_compact_endpoint() {
    let text = example("machine.toml").replacen("\"1.1\"", "\"compact\"", 1);
    let messages = Properties::SENDS_REQUESTS | Properties::INDIRECT_MESSAGES;
    let partition =
        |uuid: u128, region| Endpoint::partition(uuid.to_be_bytes(), Version::V1_1, Properties::ALL, &[region]);
    let endpoints = [
        Endpoint::normal_world(Version::Compact, messages, &[Region::new(0x4001_0000, 16, Rights::Rw)]),
        partition(0x00112233_4455_6677_8899_aabbccddeeff, Region::new(0x4002_0000, 16, Rights::Rwx)),
        partition(0x10112233_4455_6677_8899_aabbccddeeff, Region::new(0x4003_0000, 16, Rights::Rw)),
    ];
    assert_eq!(Manifest::read(text), Ok(Manifest::new(0x4000_0000, 1, &endpoints)));
}

#[test]
fn the_archive_is_of_these_declarations() {
    assert_eq!(declarations(), raw::DECLARATIONS);
}
