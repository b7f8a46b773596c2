// SPDX-License-Identifier: MIT OR Apache-2.0
//! What `Debug` shows: addresses, registers, identifiers and handles in hexadecimal, and each type by its name.
mod common;

use common::machines::MACHINE;
use common::play;
use gorseplumb::{
    registers, About, Check, CheckCause, ErrorCode, Flaw, Function, Grant, Handle, Hint, Id, Machine, Obstacle,
    Operation, Outcome, Part, Range, Side,
};
use gorseplumb::{
    AccessReason, CallReason, Endpoint, Fault, Manifest, Properties, Region, Rights, RunState, Settling, Size, Version,
};
use gorseplumb::{Kind, Offer, PageRange, Receiver, Relinquish, Retrieve, RetrieveResponse};

fn shows(what: impl std::fmt::Debug, text: &str) {
    assert_eq!(format!("{what:?}"), text);
}

#[test]
fn operations_and_what_they_give() {
    let mut machine = Machine::boot(&MACHINE).unwrap();
    shows(Id(0x8001), "Id(0x8001)");
    shows(&machine, "Machine { runner: Id(0x0), .. }");
    let list = [
        Operation::store(0x4001_0000, Size::B2, 0xABCD),
        Operation::load(0x4001_0000, Size::B1),
        Operation::fetch(0x4001_0000),
        Operation::call(registers([0x8400_0069])),
    ];
    shows(list[0], "Store { address: 0x40010000, size: 2, value: 0xABCD }");
    shows(list[1], "Load { address: 0x40010000, size: 1 }");
    shows(list[2], "Fetch { address: 0x40010000 }");
    shows(list[3], "Call([0x84000069, 0x0, 0x0, 0x0, 0x0, 0x0, 0x0, 0x0])");
    let mut outcomes = [Outcome::NONE; 4];
    assert_eq!(machine.run(&list, &mut outcomes), 4);
    shows(outcomes[0], "Done");
    shows(outcomes[1], "Data(0xCD)");
    shows(outcomes[2], "Fault(Permission)");
    let zeros = ", 0x0".repeat(7);
    shows(outcomes[3], &format!("Answer(Answer {{ runner: Id(0x0), registers: Some([0x84000061{zeros}]) }})"));
}

#[test]
fn what_is_told_of_pages() {
    let mut machine = Machine::boot(&MACHINE).unwrap();
    let lend = "call 84000066 4001E000 4001F000 1\nstore 4001E000 0000000000000000\n\
                  store 4001E018 0000000100000010\nstore 4001E020 0000000000000030\n\
                  store 4001E030 0000004000028001\nstore 4001E040 0000000100000001\n\
                  store 4001E050 0000000040010000\nstore 4001E058 0000000000000001\n";
    play(&mut machine, lend);
    machine.call(&registers([0x8400_0072, 0x60, 0x60])).done().unwrap();
    let change = machine.take_change().unwrap();
    shows(&change, "Change { endpoint: Id(0x0), ranges: [Range { address: 0x40010000, size: 0x1000 }] }");
    let run = machine.run_from(48).unwrap();
    let shown = "PageRun { first: 0x30, last: 0x3F, owner: Id(0x8002), transaction: None, \
                 access: [None, None, Some(Rw), None, None, None, None, None] }";
    shows(run, shown);
    let run = machine.run_from(16).unwrap();
    assert!(format!("{run:?}").contains(&format!("transaction: Some({:?})", run.transaction().unwrap())));
    shows(Range { address: 0x4001_0000, size: 0x2000 }, "Range { address: 0x40010000, size: 0x2000 }");
    let settling = Settling { endpoint: Id(0x8001), address: 0x4001_0000, size: 0x1000 };
    shows(settling, "Settling { endpoint: Id(0x8001), address: 0x40010000, size: 0x1000 }");
    shows(
        [Grant::Own, Grant::Shared(Handle(0xA)), Grant::Held(Handle(0x1_0000))],
        "[Own, Shared(Handle(0xA)), Held(Handle(0x10000))]",
    );
}

#[test]
fn manifests() {
    let regions = [Region::new(0x4001_0000, 16, Rights::Rw)];
    let world = Endpoint::normal_world(Version::V1_1, Properties::SENDS_REQUESTS, &regions);
    shows(
        Manifest::new(0x4000_0000, 1, &[world]),
        "Manifest { ram_base: 0x40000000, ram_blocks: 1, endpoints: [Endpoint { version: V1_1, \
         properties: Properties(2), uuid: 0x0, \
         regions: [Region { base: 0x40010000, pages: 16, rights: Rw }] }], ffa: V1_1, tables: 0 }",
    );
    let manifest = format!("{MACHINE:?}");
    assert!(manifest.contains("uuid: 0x112233445566778899AABBCCDDEEFF,"), "{manifest}");
    assert_eq!(manifest.matches("Endpoint {").count(), 3);
}

#[test]
fn reasons() {
    let about = About::Register { number: 2, value: 0x4001_0000, is_whole: false };
    shows(
        CallReason {
            check: Check::BuffersOverlap,
            number: Some(5),
            error: ErrorCode::InvalidParameters,
            about: Some(about),
            state: None,
            allowed: None,
            hint: None,
        },
        "CallReason { check: BuffersOverlap, number: Some(5), error: InvalidParameters, \
         about: Some(Register { number: 2, value: 0x40010000, is_whole: false }), state: None, allowed: None, \
         hint: None }",
    );
    shows(RunState::Blocked { awaits: Some(Id(0x8002)) }, "Blocked { awaits: Some(Id(0x8002)) }");
    hints();
    let obstacle = Some(Obstacle::InTransaction(Handle(0x1_0000)));
    let reason = AccessReason { address: 0x4001_0000, fault: Fault::Translation, obstacle, hint: None };
    let held = "InTransaction(Handle(0x10000))";
    let shown =
        format!("AccessReason {{ address: 0x40010000, fault: Translation, obstacle: Some({held}), hint: None }}");
    shows(reason, &shown);
    shows(
        About::Page { page: 16, address: 0x4001_0000, obstacle },
        "Page { page: 16, address: 0x40010000, obstacle: Some(InTransaction(Handle(0x10000))) }",
    );
    shows([Obstacle::OutsideRam, Obstacle::ManagersPage], "[OutsideRam, ManagersPage]");
    shows(Obstacle::OwnedBy(Id(0x8002)), "OwnedBy(Id(0x8002))");
    shows(About::Endpoint(Id(0x8002)), "Endpoint(Id(0x8002))");
    shows([About::Handle(Handle(0xAB)), About::Bit(12)], "[Handle(0xAB), Bit(12)]");
    shows(
        About::Field { flaw: Flaw::AccessPermissions, index: 0, first: 50, size: 1, value: Some(0xF) },
        "Field { flaw: AccessPermissions, index: 0, first: 50, size: 1, value: Some(0xF) }",
    );
}

fn hints() {
    let (endpoint, right) = (Id(0x8001), Rights::Rox);
    shows(Hint::Buffer { endpoint, side: Side::Tx }, "Buffer { endpoint: Id(0x8001), side: Tx }");
    shows([Hint::OwnRight(right), Hint::Granted(right), Hint::Held(right)], "[OwnRight(Rox), Granted(Rox), Held(Rox)]");
    shows(Hint::Access { endpoint, right }, "Access { endpoint: Id(0x8001), right: Rox }");
    shows([Hint::Caller(endpoint), Hint::Sender(endpoint)], "[Caller(Id(0x8001)), Sender(Id(0x8001))]");
    shows(Hint::Tag { found: 1, wanted: 0xAB }, "Tag { found: 0x1, wanted: 0xAB }");
    shows(Hint::Kind { found: Kind::Lend, wanted: Kind::Donate }, "Kind { found: Lend, wanted: Donate }");
    shows(Hint::Asked { asked: Rights::Rw, most: Rights::Ro }, "Asked { asked: Rw, most: Ro }");
    shows([Hint::Room(4096), Hint::Wanted(0xAB), Hint::Outside(0xAB)], "[Room(4096), Wanted(0xAB), Outside(0xAB)]");
    shows(Hint::Form { caller: endpoint, form: Version::Compact }, "Form { caller: Id(0x8001), form: Compact }");
    shows(Hint::Form { caller: endpoint, form: Version::V1_2 }, "Form { caller: Id(0x8001), form: V1_2 }");
    shows(Hint::Word { place: 12, value: 0xAB }, "Word { place: 12, value: 0xAB }");
    shows(Hint::Message { offset: 20, size: 1, room: 4096 }, "Message { offset: 20, size: 1, room: 4096 }");
    shows([Hint::Holder(endpoint), Hint::Request(endpoint)], "[Holder(Id(0x8001)), Request(Id(0x8001))]");
    shows([Hint::Run, Hint::Pending(12)], "[Run, Pending(12)]");
    shows(Hint::Cause(CheckCause::BitTaken), "Cause(BitTaken)");
    shows(Hint::End { part: Part::Header, end: 48, size: 47 }, "End { part: Header, end: 48, size: 47 }");
    let mut uuid = [0; 16];
    uuid[15] = 0xAB;
    shows([Hint::Uuid(uuid), Hint::NarrowOnly(Function::Run)], "[Uuid(0xAB), NarrowOnly(Run)]");
}

#[test]
fn descriptors() {
    let ranges = [PageRange::new(0x4001_0000, 16)];
    shows(ranges[0], "PageRange { address: 0x40010000, pages: 16 }");
    let to = [Receiver::ro(Id(0x8001))];
    let receiver = "Receiver { endpoint: Id(0x8001), data: Ro, instructions: Unspecified }";
    let range = "PageRange { address: 0x40010000, pages: 16 }";
    let offer = Offer { tag: 0xAB, ..Offer::new(Kind::Lend, Id(0), &to, &ranges) };
    let told =
        format!("kind: Lend, sender: Id(0x0), receivers: [{receiver}], ranges: [{range}], zero: false, tag: 0xAB");
    shows(offer, &format!("Offer {{ {told} }}"));
    let asked = Retrieve::new(Id(0), Handle(0x8001_0000_0001), to[0]);
    let told = format!("sender: Id(0x0), handle: Handle(0x800100000001), receiver: {receiver}, tag: 0x0, kind: None");
    shows(asked, &format!("Retrieve {{ {told} }}"));
    let given_up = Relinquish::new(Handle(0xA), Id(0x8001));
    shows(given_up, "Relinquish { handle: Handle(0xA), endpoint: Id(0x8001), zero: false }");
    let bytes = "0xA, 0x0, 0x0, 0x0, 0x0, 0x0, 0x0, 0x0, 0x0, 0x0, 0x0, 0x0, 0x1, 0x0, 0x0, 0x0, 0x1, 0x80";
    shows(given_up.to_bytes(), &format!("[{bytes}]"));
    // As docs/MEMORY.md lays a compact response out.
    let mut words = [0_u64; 10];
    words[..5].copy_from_slice(&[0x11_002F_0000, 0xA, 0, 0x1_0000_0000, 0x30_0006_8001]);
    words[6..9].copy_from_slice(&[0x1_0000_0010, 0, 0x4001_0000]);
    words[9] = 16;
    let response: Vec<u8> = words.iter().flat_map(|word| word.to_le_bytes()).collect();
    let receiver = "Receiver { endpoint: Id(0x8001), data: Rw, instructions: Nx }";
    let told = format!("receivers: [{receiver}], ranges: [{range}], zeroed: true, tag: 0x0, non_secure: false");
    let response = RetrieveResponse::read(&response, Version::Compact).unwrap();
    shows(response, &format!("RetrieveResponse {{ kind: Lend, sender: Id(0x0), handle: Handle(0xA), {told} }}"));
}
