// SPDX-License-Identifier: MIT OR Apache-2.0
//! Machines of FF-A 1.2, which tell non-secure memory from secure memory, by docs/MEMORY.md, "Worlds".
mod common;

use common::example;
use common::machines::MACHINE;
use gorseplumb::*;

const TX: u64 = 0x4001_E000;
const TX_1: u64 = 0x4002_E000;
const RX: u64 = 0x1000; // behind TX
const NORMAL: u64 = 0x4001_0000;
const SECURE: u64 = 0x4002_0000;
const FIRST: Id = Id(0x8001);
const FORM: Version = Version::V1_1;

/// What a share of a page by one endpoint with another answers: its handle, or the check that refuses it.
fn share(machine: &mut Machine, tx: u64, sender: Id, receiver: Id, page: u64) -> Result<Handle, (Check, ErrorCode)> {
    let (receivers, ranges) = ([Receiver::rw(receiver)], [PageRange::new(page, 1)]);
    match machine.send(&Offer::new(Kind::Share, sender, &receivers, &ranges), tx, FORM) {
        Ok(answer) => Ok(answer.handle().unwrap()),
        Err(SendError::Refused(refused)) => Err((refused.reason.unwrap().check, refused.error)),
        Err(other) => panic!("{other}"),
    }
}

/// The machine, in which 8001 runs, and whether it was told that what the normal world shared with it is non-secure.
fn boot(ffa: Ffa) -> (Machine, bool) {
    let mut machine = Machine::boot(&MACHINE.with_ffa(ffa)).unwrap();
    machine.call(&Function::RxtxMap.with([TX, TX + RX, 1])).done().unwrap();
    let handle = share(&mut machine, TX, Id::NORMAL_WORLD, FIRST, NORMAL).unwrap();
    machine.call(&Function::Run.with([0x8001_0000])).done().unwrap();
    machine.call(&Function::RxtxMap.with([TX_1, TX_1 + RX, 1])).done().unwrap();
    let asked = Retrieve::new(Id::NORMAL_WORLD, handle, Receiver::rw(FIRST));
    machine.send(&asked, TX_1, FORM).unwrap();
    let mut bytes = [0; 96];
    machine.load_bytes(TX_1 + RX, &mut bytes).unwrap();
    (machine, RetrieveResponse::read(&bytes, FORM).unwrap().non_secure)
}

/// What FFA_FEATURES tells of a retrieve, in both forms.
fn properties(machine: &mut Machine) -> [u64; 2] {
    [0x8400_0074, 0xC400_0074].map(|function| {
        let told = machine.call(&Function::Features.with([function]));
        told.done().unwrap();
        told.registers().unwrap()[2]
    })
}

/// As in tests/rows/ffa-1.2/a-hypervisor-*.trace.
#[test]
fn the_normal_world_reads_back_what_it_shared() {
    for (form, minor, asked_size, told_size) in
        [(Version::Compact, 0, 0x20, 0x60), (Version::V1_1, 1, 0x30, 0x70), (Version::V1_2, 2, 0x30, 0x90)]
    {
        let mut machine = Machine::boot(&MACHINE.with_ffa(Ffa::V1_2)).unwrap();
        machine.call(&Function::Version.with([0x1_0000 | minor]));
        machine.call(&Function::RxtxMap.with([TX, TX + RX, 1])).done().unwrap();
        let (receivers, ranges) = ([Receiver::rw(FIRST), Receiver::ro(Id(0x8002))], [PageRange::new(NORMAL, 1)]);
        let share = Offer { tag: 0x77, ..Offer::new(Kind::Share, Id::NORMAL_WORLD, &receivers, &ranges) };
        let handle = machine.send(&share, TX, form).unwrap().handle().unwrap();
        let asked = ReadBack { handle };
        let mut zeros = vec![0; asked_size];
        zeros[8] = 1;
        assert_eq!((handle, &asked.to_bytes(form)[..]), (Handle(1), &zeros[..]));
        let answer = machine.send(&asked, TX, form).unwrap();
        assert_eq!(answer.registers(), Some(&Function::MemRetrieveResp.with([told_size, told_size])));
        let mut bytes = vec![0; told_size as usize];
        machine.load_bytes(TX + RX, &mut bytes).unwrap();
        let told = RetrieveResponse::read(&bytes, form).unwrap();
        assert_eq!((told.kind, told.sender, told.handle), (Kind::Share, Id::NORMAL_WORLD, handle));
        assert_eq!((told.tag, told.receivers(), told.ranges()), (0x77, &receivers[..], &ranges[..]));
        assert_eq!((told.zeroed, told.non_secure), (false, form != Version::Compact));
        machine.call(&Function::RxRelease.with([])).done().unwrap();
        machine.call(&Function::MemReclaim.with([handle.0])).done().unwrap();
        match machine.send(&asked, TX, form).unwrap_err() {
            SendError::Refused(refused) => assert_eq!(refused.reason.unwrap().check, Check::NotTheSenders),
            other => panic!("{other}"),
        }
    }
}

#[test]
fn tells_worlds_apart() {
    let (mut machine, told) = boot(Ffa::V1_2);
    assert!(told);
    assert_eq!(properties(&mut machine), [2, 2]);
    assert_eq!(
        share(&mut machine, TX_1, FIRST, Id::NORMAL_WORLD, SECURE),
        Err((Check::WorldsMixed, ErrorCode::Denied))
    );
    assert_eq!(share(&mut machine, TX_1, FIRST, Id(0x8002), SECURE), Ok(Handle(0x0000_8001_0000_0001)));
}

#[test]
fn tells_nothing_unasked() {
    let (mut machine, told) = boot(Ffa::V1_1);
    assert!(!told);
    assert_eq!(properties(&mut machine), [0, 0]);
    assert_eq!(share(&mut machine, TX_1, FIRST, Id::NORMAL_WORLD, SECURE), Ok(Handle(0x0000_8001_0000_0001)));
}

#[test]
fn no_text_says_it() {
    let read = Manifest::read(&*example("machine.toml")).unwrap();
    assert_eq!([read.ffa(), MACHINE.ffa()], [Ffa::default(); 2]);
    assert_eq!(read, MACHINE);
    let told = read.with_ffa(Ffa::V1_2);
    assert_eq!(told.ffa(), Ffa::V1_2);
    assert_eq!(told.with_ffa(Ffa::V1_1), read);
}
