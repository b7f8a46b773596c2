// SPDX-License-Identifier: MIT OR Apache-2.0
//! Memory transactions by descriptors that are sent: from an offer to its end, in each form; and why one isn't sent.
mod common;

use common::machines::{MACHINE, PARTITIONS};
use common::{example, play};
use gorseplumb::*;

const TX: u64 = 0x4001_E000;
const TX_1: u64 = 0x4002_E000;
const RX: u64 = 0x1000; // behind TX
const PAGE: u64 = 0x4001_0000;
const WORLD: Id = Id::NORMAL_WORLD;
const FIRST: Id = Id(0x8001);
const V1_1: Version = Version::V1_1;
const V1_2: Version = Version::V1_2;
const FORMS: [Version; 3] = [V1_1, Version::Compact, V1_2];

/// A machine in which each of two endpoints has its version and its buffers. The normal world runs. It serves FF-A 1.2 if an
/// endpoint needs that.
fn machine(world: Version, partition: Version) -> Machine {
    let ffa = if [world, partition].contains(&V1_2) { Ffa::V1_2 } else { Ffa::V1_1 };
    machine_of(ffa, world, partition)
}

fn machine_of(ffa: Ffa, world: Version, partition: Version) -> Machine {
    const BASE: u32 = common::RAM as u32;
    let manifest = Manifest::new(
        BASE,
        1,
        &[
            Endpoint::normal_world(world, Properties::NONE, &[Region::new(BASE + 0x10000, 16, Rights::Rwx)]),
            Endpoint::partition([1; 16], partition, Properties::NONE, &[Region::new(BASE + 0x20000, 16, Rights::Rw)]),
        ],
    );
    let mut machine = Machine::boot(&manifest.with_ffa(ffa)).unwrap();
    run(&mut machine);
    map(&mut machine, TX_1);
    wait(&mut machine);
    map(&mut machine, TX);
    machine
}

fn map(machine: &mut Machine, tx: u64) {
    machine.call(&Function::RxtxMap.with([tx, tx + RX, 1])).done().unwrap();
}

/// 8001 runs.
fn run(machine: &mut Machine) {
    machine.call(&Function::Run.with([0x8001_0000])).done().unwrap();
    assert_eq!(machine.runner(), FIRST);
}

/// The normal world runs again.
fn wait(machine: &mut Machine) {
    machine.call(&Function::MsgWait.with([])).done().unwrap();
    assert_eq!(machine.runner(), WORLD);
}

fn reclaim(machine: &mut Machine, handle: Handle) -> Answer {
    machine.call(&encode(Function::MemReclaim, &[("handle", handle.into())]).unwrap())
}

/// What stands in 8001's RX behind a retrieve.
fn response(machine: &mut Machine, answer: Answer, form: Version) -> RetrieveResponse {
    assert_eq!(answer.function(), Some(Function::MemRetrieveResp));
    let mut bytes = vec![0; answer.registers().unwrap()[1] as usize];
    machine.load_bytes(TX_1 + RX, &mut bytes).unwrap();
    machine.call(&Function::RxRelease.with([])).done().unwrap();
    RetrieveResponse::read(&bytes, form).unwrap()
}

/// All bytes of RAM.
fn ram(machine: &Machine) -> Vec<u8> {
    let (mut bytes, mut page) = (Vec::new(), Page::ZERO);
    for number in 0.. {
        if !machine.read_page(number, &mut page) {
            break;
        }
        bytes.extend(page.0);
    }
    bytes
}

#[test]
fn a_share_up_to_its_reclaim() {
    for (world, partition) in FORMS.into_iter().flat_map(|world| FORMS.map(|partition| (world, partition))) {
        let mut machine = machine(world, partition);
        machine.store(PAGE, Size::B1, 42).unwrap();
        let (to, ranges) = ([Receiver::ro(FIRST)], [PageRange::new(PAGE + 0x3000, 1), PageRange::new(PAGE, 2)]);
        let share = Offer { tag: 7, ..Offer::new(Kind::Share, WORLD, &to, &ranges) };
        let handle = machine.send(&share, TX, world).unwrap().handle().unwrap();
        assert_eq!(handle, Handle(1)); // the sender above, and the count of its sends
        run(&mut machine);
        assert_eq!(machine.load(PAGE, Size::B1), Err(Fault::Translation));
        let asked = Retrieve { tag: 7, kind: Some(Kind::Share), ..Retrieve::new(WORLD, handle, Receiver::new(FIRST)) };
        let answer = machine.send(&asked, TX_1, partition).unwrap();
        let told = response(&mut machine, answer, partition);
        let holds = Receiver { instructions: InstructionAccess::Nx, ..Receiver::ro(FIRST) };
        assert_eq!((told.kind, told.sender, told.handle, told.tag), (Kind::Share, WORLD, handle, 7));
        assert_eq!((told.receivers(), told.ranges(), told.zeroed), (&[holds][..], &ranges[..], false));
        assert_eq!(told.non_secure, [world, partition].contains(&V1_2) && partition != Version::Compact);
        assert_eq!(machine.load(PAGE, Size::B1), Ok(42));
        assert_eq!(machine.store(PAGE, Size::B1, 1), Err(Fault::Permission));
        machine.send(&Relinquish::new(handle, FIRST), TX_1, partition).unwrap();
        assert_eq!(machine.load(PAGE, Size::B1), Err(Fault::Translation));
        wait(&mut machine);
        assert_eq!(reclaim(&mut machine, handle).error(), None);
        assert_eq!(reclaim(&mut machine, handle).error(), Some(ErrorCode::InvalidParameters));
    }
}

#[test]
fn a_lend_that_is_zeroed() {
    let mut machine = machine(V1_1, Version::Compact);
    machine.store(PAGE, Size::B1, 42).unwrap();
    let (to, ranges) = ([Receiver::rw(FIRST)], [PageRange::new(PAGE, 1)]);
    let lend = Offer { zero: true, ..Offer::new(Kind::Lend, WORLD, &to, &ranges) };
    let handle = machine.send(&lend, TX, V1_1).unwrap().handle().unwrap();
    assert_eq!(machine.load(PAGE, Size::B1), Err(Fault::Translation));
    run(&mut machine);
    let executable = Receiver { instructions: InstructionAccess::X, ..Receiver::rw(FIRST) };
    let answer = machine.send(&Retrieve::new(WORLD, handle, executable), TX_1, Version::Compact).unwrap();
    let told = response(&mut machine, answer, Version::Compact);
    assert_eq!((told.kind, told.receivers(), told.zeroed), (Kind::Lend, &[executable][..], true));
    assert_eq!(machine.load(PAGE, Size::B1), Ok(0));
    machine.store(PAGE, Size::B1, 43).unwrap();
    machine.send(&Relinquish { zero: true, ..Relinquish::new(handle, FIRST) }, TX_1, V1_1).unwrap();
    wait(&mut machine);
    reclaim(&mut machine, handle).done().unwrap();
    assert_eq!(machine.load(PAGE, Size::B1), Ok(0));
}

/// An endpoint changes its form by FFA_VERSION before it maps its buffers, and is told 1.2; a descriptor in the form that it had
/// is then none.
#[test]
fn the_form_of_a_version_that_was_asked_for() {
    let (to, ranges) = ([Receiver::rw(FIRST)], [PageRange::new(PAGE, 1)]);
    let lend = Offer::new(Kind::Lend, WORLD, &to, &ranges);
    let versions = [(0x1_0000, Version::Compact), (0x1_0001, V1_1), (0x1_0002, V1_2), (0x1_0003, V1_2)];
    for (version, form) in versions {
        for before in FORMS {
            let mut machine = machine_of(Ffa::V1_2, before, V1_1);
            machine.call(&Function::RxtxUnmap.with([])).done().unwrap();
            assert_eq!(machine.call(&Function::Version.with([version])).registers().unwrap()[0], 0x1_0002);
            map(&mut machine, TX);
            for other in FORMS.into_iter().filter(|other| *other != form) {
                assert_eq!(flaw_of(machine.send(&lend, TX, other)), Some(Flaw::HeaderAccessSize));
            }
            assert_eq!(machine.send(&lend, TX, form).unwrap().handle(), Some(Handle(1)));
        }
    }
}

/// The flaw for which a descriptor is refused.
fn flaw_of(sent: Result<Answer, SendError>) -> Option<Flaw> {
    match sent {
        Err(SendError::Refused(CallError {
            reason: Some(CallReason { about: Some(About::Field { flaw, .. }), .. }),
            ..
        })) => Some(flaw),
        _ => None,
    }
}

/// A machine of FF-A 1.1 has no endpoint with the form of FF-A 1.2, keeps none for its callers, and says why it refuses it.
#[test]
fn the_form_of_ffa_1_2_on_a_machine_of_ffa_1_1() {
    let mut machine = machine(V1_1, Version::Compact);
    machine.call(&Function::RxtxUnmap.with([])).done().unwrap();
    assert_eq!(machine.call(&Function::Version.with([0x1_0002])).registers().unwrap()[0], 0x1_0001);
    map(&mut machine, TX);
    let (to, ranges) = ([Receiver::rw(FIRST)], [PageRange::new(PAGE, 1)]);
    let refused = machine.send(&Offer::new(Kind::Lend, WORLD, &to, &ranges), TX, V1_2).unwrap_err();
    assert_eq!(
        refused.to_string(),
        "FFA_MEM_LEND is refused: INVALID_PARAMETERS: check 6: the bytes in TX are not a descriptor of this call: the access \
         descriptor size field is not 16, 32 in FF-A 1.2, or 0 in the compact form: bytes 18 to 1B are 00000020, and must be \
         00000010, because 0000 uses version 1.1"
    );
}

/// The program's words for a descriptor in the form of FF-A 1.1 of a caller that has that of FF-A 1.2.
#[test]
fn the_hint_of_ffa_1_2() {
    let mut machine = machine(V1_2, V1_1);
    let (to, ranges) = ([Receiver::rw(FIRST)], [PageRange::new(PAGE, 1)]);
    let refused = machine.send(&Offer::new(Kind::Lend, WORLD, &to, &ranges), TX, V1_1).unwrap_err();
    let said = "bytes 18 to 1B are 00000010, and must be 00000020, because 0000 uses version 1.2";
    assert!(refused.to_string().ends_with(said), "{refused}");
    let hint = match refused {
        SendError::Refused(CallError { reason: Some(reason), .. }) => reason.hint,
        _ => None,
    };
    assert_eq!(hint, Some(Hint::Form { caller: WORLD, form: V1_2 }));
}

#[test]
fn a_donate() {
    let mut machine = machine(V1_1, V1_1);
    let (to, ranges) = ([Receiver::new(FIRST)], [PageRange::new(PAGE, 1)]);
    let handle = machine.send(&Offer::new(Kind::Donate, WORLD, &to, &ranges), TX, V1_1).unwrap().handle().unwrap();
    run(&mut machine);
    machine.send(&Retrieve::new(WORLD, handle, Receiver::ro(FIRST)), TX_1, V1_1).unwrap();
    assert_eq!((machine.owner(16), machine.access(FIRST, 16)), (Some(FIRST), Some(Rights::Ro)));
}

/// What examples/sharing.trace does by stores and calls leaves the same bytes in all of RAM, and the same rights.
#[test]
fn the_manuals_sharing() {
    let mut traced = Machine::boot(&PARTITIONS).unwrap();
    let trace = example("sharing.trace");
    play(&mut traced, &trace[..trace.find("# 8001 ends the share").unwrap()]);

    let mut sent = Machine::boot(&PARTITIONS).unwrap();
    let second = Id(0x8002);
    play(&mut sent, "call 8400006D 80010000\ncall 84000066 4002E000 4002F000 1\nstore 40028000 2A");
    let (to, ranges) = ([Receiver::ro(second)], [PageRange::new(0x4002_8000, 1)]);
    let answer = sent.send(&Offer::new(Kind::Share, FIRST, &to, &ranges), 0x4002_E000, V1_1).unwrap();
    let handle = answer.handle().unwrap();
    assert_eq!(handle, Handle(0x0000_8001_0000_0001));
    assert_eq!(
        (handle.to_string(), format!("{handle:?}")),
        ("0000800100000001".into(), "Handle(0x800100000001)".into())
    );
    play(&mut sent, "store 40028000 2B\ncall 8400006B\ncall 8400006D 80020000\ncall 84000066 40206000 40207000 1");
    sent.send(&Retrieve::new(FIRST, handle, Receiver::new(second)), 0x4020_6000, V1_1).unwrap();
    sent.send(&Relinquish::new(handle, second), 0x4020_6000, V1_1).unwrap();
    play(&mut sent, "call 8400006B");
    assert!(ram(&traced) == ram(&sent));
    assert_eq!(play(&mut traced, "show"), play(&mut sent, "show"));
}

/// The longest response: 64 ranges, read out of a page of RX.
#[test]
fn ranges_of_the_longest_offer() {
    const BASE: u32 = common::RAM as u32;
    let regions = [Region::new(BASE + 0x10000, 160, Rights::Rw), Region::new(BASE + 0x10_0000, 4, Rights::Rw)];
    let manifest = Manifest::new(
        BASE,
        1,
        &[
            Endpoint::normal_world(V1_1, Properties::NONE, &regions[..1]),
            Endpoint::partition([1; 16], V1_1, Properties::NONE, &regions[1..]),
        ],
    );
    let mut machine = Machine::boot(&manifest).unwrap();
    let tx = 0x400A_0000;
    map(&mut machine, tx);
    let ranges: Vec<PageRange> = (0..64).map(|place| PageRange::new(PAGE + 0x2000 * place, 1)).collect();
    let to = [Receiver::rw(FIRST)];
    let handle = machine.send(&Offer::new(Kind::Lend, WORLD, &to, &ranges), tx, V1_1).unwrap().handle().unwrap();
    run(&mut machine);
    let tx = 0x4010_0000;
    map(&mut machine, tx);
    let answer = machine.send(&Retrieve::new(WORLD, handle, Receiver::new(FIRST)), tx, V1_1).unwrap();
    assert_eq!(answer.registers().unwrap()[1], 1104);
    let mut page = Page::ZERO;
    machine.load_bytes(tx + RX, &mut page.0).unwrap();
    assert_eq!(RetrieveResponse::read(&page.0, V1_1).unwrap().ranges(), ranges);
}

#[test]
fn what_is_not_sent_changes_nothing() {
    let mut machine = machine(V1_1, V1_1);
    let before = ram(&machine);
    let (to, ranges) = ([Receiver::rw(WORLD)], [PageRange::new(PAGE, 1)]);
    let malformed = machine.send(&Offer::new(Kind::Lend, WORLD, &to, &ranges), TX, V1_1).unwrap_err();
    let why = DescriptorError { flaw: Flaw::AccessReceiverIsSender, index: 0 };
    assert_eq!(malformed, SendError::Malformed(why));
    assert_eq!(
        malformed.to_string(),
        "the descriptor is malformed: access descriptor 0: the access descriptor names the sender"
    );
    let misplaced = machine.send(&Relinquish::new(Handle(1), WORLD), 0x4001_FFF8, V1_1).unwrap_err();
    let said = "the descriptor can't be stored: translation fault at 40020000: the page belongs to 8001";
    assert_eq!(misplaced.to_string(), said);
    assert!(matches!(misplaced, SendError::Store(AccessReason { address: 0x4002_0000, .. })));
    assert!(ram(&machine) == before);
    assert_eq!(machine.take_change(), None);
}

#[test]
fn what_is_refused_says_why() {
    let mut machine = machine(V1_1, V1_1);
    let to = [Receiver::rw(FIRST)];
    let elsewhere = [PageRange::new(0x4080_0000, 1)];
    let refused = machine.send(&Offer::new(Kind::Share, WORLD, &to, &elsewhere), TX, V1_1).unwrap_err();
    let (function, error) = (Function::MemShare.number(), ErrorCode::Denied);
    match refused {
        SendError::Refused(CallError { function: asked, error: told, reason: Some(reason) }) => {
            assert_eq!((asked, told, reason.check), (function, error, Check::RangeOutside));
        }
        other => panic!("{other:?}"),
    }
    let said = "FFA_MEM_SHARE is refused: DENIED: check 9: a range is not entirely in RAM";
    assert!(refused.to_string().starts_with(said), "{refused}");
    let unknown = machine.send(&Retrieve::new(FIRST, Handle(9), Receiver::new(WORLD)), TX, V1_1).unwrap_err();
    let said = "FFA_MEM_RETRIEVE_REQ is refused: INVALID_PARAMETERS: check 7: no open transaction has the handle: \
                handle 0000000000000009";
    assert_eq!(unknown.to_string(), said);
    // In the form of another version it is no descriptor.
    let other = machine.send(&Retrieve::new(FIRST, Handle(9), Receiver::new(WORLD)), TX, Version::Compact).unwrap_err();
    let check = |error: SendError| match error {
        SendError::Refused(CallError { reason, .. }) => reason.map(|reason| reason.check),
        _ => None,
    };
    assert_eq!(check(other), Some(Check::DescriptorMalformed));
    let bare = SendError::Refused(CallError { function, error, reason: None });
    assert_eq!(bare.to_string(), "FFA_MEM_SHARE is refused: DENIED");
    // Where TX isn't what is told, the call finds what is there.
    let mut machine = Machine::boot(&MACHINE).unwrap();
    let without = machine.send(&Relinquish::new(Handle(1), WORLD), TX, V1_1).unwrap_err();
    assert!(without.to_string().ends_with("the caller has no RX and TX"), "{without}");
}

#[test]
fn handles_of_answers() {
    let mut machine = Machine::boot(&MACHINE).unwrap();
    assert_eq!(machine.call(&Function::IdGet.with([])).handle(), Some(Handle(0)));
    assert_eq!(machine.call(&Function::RxRelease.with([])).handle(), None);
    run(&mut machine);
    assert_eq!(machine.call(&Function::IdGet.with([])).handle(), Some(Handle(0x8001)));
}

/// Sources of an error, as `std` wants them.
#[test]
fn errors_have_sources() {
    use std::error::Error;
    let why = DescriptorError { flaw: Flaw::RangeEmpty, index: 3 };
    assert_eq!(why.to_string(), "range 3: the range has no pages");
    assert_eq!(SendError::from(why).source().unwrap().to_string(), why.to_string());
    assert_eq!(why.source().unwrap().to_string(), "the range has no pages");
    let reason = AccessReason { address: 0, fault: Fault::Translation, obstacle: None, hint: None };
    assert_eq!(SendError::from(reason).source().unwrap().to_string(), reason.to_string());
    let refused = CallError { function: Function::MemLend.number(), error: ErrorCode::Busy, reason: None };
    assert_eq!(SendError::from(refused).source().unwrap().to_string(), "FFA_MEM_LEND is refused: BUSY");
    assert_eq!(refused.source().unwrap().to_string(), "BUSY");
}
