// SPDX-License-Identifier: MIT OR Apache-2.0
//! Worked descriptors, as words that stand in TX: what they say, or which condition they break. This crate reads them, and so
//! does a machine, which has a reader of its own: that of tests/rows, in which 8001 may be compact.
mod common;

use common::{top, RAM};
use gorseplumb::Flaw::{self, *};
use gorseplumb::*;

const WORLD: Id = Id::NORMAL_WORLD;
const FIRST: Id = Id(0x8001);
const SECOND: Id = Id(0x8002);
const PAGE: u64 = 0x4002_1000;
const HANDLE: Handle = Handle(0x0000_8001_0000_0001);
/// The form of each endpoint but, where that is said, 8001.
const FORM: Version = Version::V1_1;

/// A lend, a share and a donate, each of a page.
const LEND: Offer = Offer::new(Kind::Lend, FIRST, &[Receiver::rw(SECOND)], &[PageRange::new(PAGE, 1)]);
const SHARE: Offer =
    Offer::new(Kind::Share, FIRST, &[Receiver::ro(WORLD), Receiver::ro(SECOND)], &[PageRange::new(0x4002_2000, 1)]);
const DONATE: Offer = Offer::new(Kind::Donate, SECOND, &[Receiver::new(FIRST)], &[PageRange::new(0x4003_1000, 1)]);

/// So many bytes of words in hexadecimal.
fn bytes_of(words: &str, length: usize) -> Vec<u8> {
    let word = |word| u64::from_str_radix(word, 16).unwrap().to_le_bytes();
    words.split(' ').flat_map(word).take(length).collect()
}

/// Where TX of an endpoint begins, behind which RX stands: in the last pages that it has.
fn tx(endpoint: Id) -> u64 {
    let place = u64::from(endpoint.0 & !Id::MANAGER.0);
    RAM + 0x1_E000 + 0x1_0000 * place
}

fn rx(endpoint: Id) -> u64 {
    tx(endpoint) + 0x1000
}

fn enter<R: Ram>(machine: &mut Machine<R>, endpoint: Id) {
    if machine.runner() != WORLD {
        machine.call(&Function::MsgWait.with([])).done().unwrap();
    }
    if endpoint != WORLD {
        machine.call(&Function::Run.with([u64::from(endpoint.0) << 16])).done().unwrap();
    }
}

/// Each endpoint maps its buffers.
fn map_all(machine: &mut Machine) {
    for endpoint in [FIRST, SECOND, WORLD] {
        enter(machine, endpoint);
        machine.call(&Function::RxtxMap.with([tx(endpoint), rx(endpoint), 1])).done().unwrap();
    }
}

/// The machine in which 8001 has this form.
fn machine(form: Version) -> Machine {
    let name = if form == FORM { "machine.toml" } else { "first-compact.toml" };
    let mut machine = Machine::boot(&*std::fs::read(top().join("tests/rows").join(name)).unwrap()).unwrap();
    map_all(&mut machine);
    machine
}

/// The call of bytes that an endpoint has stored in its TX.
fn stored(machine: &mut Machine, endpoint: Id, function: Function, bytes: &[u8]) -> Registers {
    enter(machine, endpoint);
    machine.store_bytes(tx(endpoint), bytes).unwrap();
    match function {
        Function::MemRelinquish => function.with([]),
        _ => function.with([bytes.len() as u64, bytes.len() as u64]),
    }
}

/// Why an endpoint's call of these bytes is refused, as it is when it is made.
fn refused(machine: &mut Machine, endpoint: Id, function: Function, bytes: &[u8]) -> CallReason {
    let call = stored(machine, endpoint, function, bytes);
    let reason = machine.why_call(&call).expect("the call is refused");
    assert_eq!(machine.call(&call).error(), Some(reason.error));
    reason
}

/// The machine refuses these bytes for this condition, which they break.
fn breaks(machine: &mut Machine, endpoint: Id, function: Function, bytes: &[u8], error: DescriptorError) {
    let reason = refused(machine, endpoint, function, bytes);
    assert_eq!((reason.check, reason.error), (Check::DescriptorMalformed, ErrorCode::InvalidParameters));
    match reason.about {
        Some(About::Field { flaw, index, .. }) => assert_eq!(DescriptorError { flaw, index }, error),
        about => panic!("{about:?} is no field"),
    }
}

const fn flaw(flaw: Flaw) -> DescriptorError {
    DescriptorError { flaw, index: 0 }
}

/// A machine in which a sender has made an offer by these bytes, behind a store to its page; and the offer's handle.
fn offered(form: Version, offer: &Offer, bytes: &[u8]) -> (Machine, Handle) {
    let mut machine = machine(form);
    enter(&mut machine, offer.sender);
    machine.store(offer.ranges[0].address, Size::B1, 0x5A).unwrap();
    let call = stored(&mut machine, offer.sender, offer.kind.function(), bytes);
    let handle = machine.call(&call).handle().unwrap();
    (machine, handle)
}

/// Each receiver may retrieve what is offered by these bytes, and finds what the offer says; and nobody else may.
fn is_offered(form: Version, offer: &Offer, bytes: &[u8]) {
    for endpoint in [WORLD, FIRST, SECOND].into_iter().filter(|endpoint| *endpoint != offer.sender) {
        let (mut machine, handle) = offered(form, offer, bytes);
        let asked = Retrieve {
            tag: offer.tag,
            kind: Some(offer.kind),
            ..Retrieve::new(offer.sender, handle, Receiver::new(endpoint))
        };
        match offer.receivers.iter().find(|it| it.endpoint == endpoint) {
            Some(receiver) => is_retrieved(&mut machine, offer, receiver, &asked),
            None => {
                let reason = refused(&mut machine, endpoint, Function::MemRetrieveReq, &asked.to_bytes(FORM));
                assert_eq!(reason.check, Check::NotReceiver);
            }
        }
    }
}

/// A receiver retrieves an offer. A donate grants no right: the most is the owner's own.
fn is_retrieved(machine: &mut Machine, offer: &Offer, receiver: &Receiver, asked: &Retrieve) {
    let endpoint = receiver.endpoint;
    enter(machine, endpoint);
    machine.send(asked, tx(endpoint), FORM).unwrap();
    let mut bytes = [0; PAGE_SIZE];
    machine.load_bytes(rx(endpoint), &mut bytes).unwrap();
    let told = RetrieveResponse::read(&bytes, FORM).unwrap();
    let data = if offer.kind == Kind::Donate { DataAccess::Rw } else { receiver.data };
    assert_eq!((told.kind, told.sender, told.tag, told.zeroed), (offer.kind, offer.sender, offer.tag, offer.zero));
    assert_eq!((told.receivers()[0].data, told.ranges()), (data, offer.ranges));
    let byte = machine.load(offer.ranges[0].address, Size::B1);
    assert_eq!(byte, Ok(if offer.zero { 0 } else { 0x5A }));
}

/// What an endpoint's bytes are as an offer of this kind, to this crate and to a machine.
fn offers(form: Version, kind: Kind, length: usize, words: &str, told: Result<Offer, DescriptorError>) {
    let bytes = bytes_of(words, length);
    assert_eq!(Offer::read(&bytes, kind, form, &mut OfferRoom::new()), told, "{kind:?} {words}");
    match told {
        Ok(offer) => is_offered(form, &offer, &bytes),
        Err(error) => {
            let sender = Id(u16::from_le_bytes([bytes[0], bytes[1]]));
            breaks(&mut machine(form), sender, kind.function(), &bytes, error);
        }
    }
}

/// A byte too short, as another kind, and the lend with zeros and a tag, which is no share.
#[test]
fn offers_of_a_page() {
    let lend = "8001 0 0 100000010 30 0 4000028002 0 100000001 0 40021000 1";
    offers(FORM, Kind::Lend, 0x60, lend, Ok(LEND));
    offers(FORM, Kind::Lend, 0x5F, lend, Err(flaw(CompositeRangesOutside)));
    offers(FORM, Kind::Share, 0x60, lend, Err(flaw(SendAttributes)));
    offers(FORM, Kind::Donate, 0x60, lend, Err(flaw(AccessPermissions)));
    let zeroed = "100008001 0 1122334455667788 100000010 30 0 4000028002 0 100000001 0 40021000 1";
    offers(FORM, Kind::Lend, 0x60, zeroed, Ok(Offer { zero: true, tag: 0x1122_3344_5566_7788, ..LEND }));
    offers(FORM, Kind::Share, 0x60, zeroed, Err(flaw(SendAttributes)));
    let share = "2F8001 0 0 200000010 30 0 5000010000 0 5000018002 0 100000001 0 40022000 1";
    offers(FORM, Kind::Share, 0x70, share, Ok(SHARE));
    offers(FORM, Kind::Lend, 0x70, share, Ok(Offer { kind: Kind::Lend, ..SHARE }));
    let donate = "8002 0 0 100000010 30 0 4000008001 0 100000001 0 40031000 1";
    offers(FORM, Kind::Donate, 0x60, donate, Ok(DONATE));
}

/// A receiver that is named twice; ranges that overlap, and that have together 2^32 pages more than is told; and bytes
/// between the header and the access descriptors, which may hold anything.
#[test]
fn offers_whose_parts_do_not_fit() {
    let twice = "2F8001 0 0 200000010 30 0 5000018002 0 5000018002 0 100000001 0 40022000 1";
    offers(FORM, Kind::Lend, 0x70, twice, Err(DescriptorError { flaw: AccessReceiverTwice, index: 1 }));
    let overlap = "8001 0 0 100000010 30 0 4000028002 0 200000003 0 40022000 1 40021000 2";
    offers(FORM, Kind::Lend, 0x70, overlap, Err(DescriptorError { flaw: RangeOverlap, index: 1 }));
    let wrapped = "8001 0 0 100000010 30 0 4000028002 0 200000001 0 0 FFFFFFFF 100000000000 2";
    offers(FORM, Kind::Lend, 0x70, wrapped, Err(flaw(CompositeTotal)));
    let apart = "8001 0 0 100000010 40 0 1 0 5000028002 0 100000001 0 40021000 1";
    offers(FORM, Kind::Lend, 0x70, apart, Ok(LEND));
}

/// Two pages told where one is given, past the last address, and up to 2^48, where no RAM is.
#[test]
fn totals_and_ends() {
    let front = "2F8001 0 0 200000010 30 0 5000010000 0 5000018002 0 100000002 0";
    let share = |range: &str, told| offers(FORM, Kind::Share, 0x70, &format!("{front} {range}"), told);
    share("40022000 1", Err(flaw(CompositeTotal)));
    share("FFFFFFFFFFFFF000 2", Err(flaw(RangeTooHigh)));
    let bytes = bytes_of(&format!("{front} FFFFFFFFE000 2"), 0x70);
    let highest = Offer { ranges: &[PageRange::new((1 << 48) - 0x2000, 2)], ..SHARE };
    assert_eq!(Offer::read(&bytes, Kind::Share, FORM, &mut OfferRoom::new()), Ok(highest));
    let reason = refused(&mut machine(FORM), FIRST, Function::MemShare, &bytes);
    assert_eq!((reason.check, reason.error), (Check::RangeOutside, ErrorCode::Denied));
}

/// No form is the other, and bytes 3 and 24 to 27 are reserved.
#[test]
fn compact_offers() {
    let lend = |first: &str, count: &str| format!("{first} 0 0 {count} 3000028002 0 100000001 0 40021000 1");
    let compact = |words: &str, told| offers(Version::Compact, Kind::Lend, 0x50, words, told);
    compact(&lend("8001", "100000000"), Ok(LEND));
    offers(FORM, Kind::Lend, 0x50, &lend("8001", "100000000"), Err(flaw(HeaderAccessSize)));
    let other = "8001 0 0 100000010 30 0 4000028002 0 100000001 0 40021000 1";
    offers(Version::Compact, Kind::Lend, 0x60, other, Err(flaw(HeaderAccessSize)));
    compact(&lend("1008001", "100000000"), Err(flaw(SendAttributes)));
    for count in ["100000001", "100000100", "100010000", "101000000"] {
        compact(&lend("8001", count), Err(flaw(HeaderAccessSize)));
    }
}

/// A machine in which 8001 has lent its page to 8002 with this right.
fn lent(data: DataAccess) -> Machine {
    let mut machine = machine(FORM);
    enter(&mut machine, FIRST);
    let receivers = [Receiver { data, ..Receiver::new(SECOND) }];
    let answer = machine.send(&Offer { receivers: &receivers, ..LEND }, tx(FIRST), FORM).unwrap();
    assert_eq!(answer.handle(), Some(HANDLE));
    machine
}

/// The page's number, counted from RAM's first.
const NUMBER: u32 = ((PAGE - RAM) / 0x1000) as u32;

/// The access that a retrieve of 8002 by these bytes gives it to what is lent with a right: nothing where it asks for more.
fn given(data: DataAccess, bytes: &[u8]) -> Option<Rights> {
    let mut machine = lent(data);
    let call = stored(&mut machine, SECOND, Function::MemRetrieveReq, bytes);
    match machine.why_call(&call) {
        None => assert_eq!(machine.call(&call).function(), Some(Function::MemRetrieveResp)),
        Some(reason) => assert_eq!(reason.check, Check::RightTooMuch),
    }
    machine.access(SECOND, NUMBER)
}

/// Permissions, what they say, and what 8002 gets by them of a page that is lent `rw`, and of one that is lent `ro`.
#[test]
fn retrieves() {
    let words = |access: &str| format!("8001 800100000001 0 100000010 30 0 {access} 0");
    let (nothing, nx, x) = (DataAccess::Unspecified, InstructionAccess::Unspecified, InstructionAccess::X);
    let rows = [
        ("28002", DataAccess::Rw, nx, Some(Rights::Rw), None),
        ("8002", nothing, nx, Some(Rights::Rw), Some(Rights::Ro)),
        ("88002", nothing, x, Some(Rights::Rwx), Some(Rights::Rox)),
        ("58002", DataAccess::Ro, InstructionAccess::Nx, Some(Rights::Ro), Some(Rights::Ro)),
    ];
    for (access, data, instructions, of_rw, of_ro) in rows {
        let bytes = bytes_of(&words(access), 0x40);
        let receiver = Receiver { endpoint: SECOND, data, instructions };
        let asked = Retrieve::new(FIRST, HANDLE, receiver);
        assert_eq!(Retrieve::read(&bytes, SECOND, FORM), Ok(asked));
        assert_eq!((given(DataAccess::Rw, &bytes), given(DataAccess::Ro, &bytes)), (of_rw, of_ro), "{access}");
    }
}

/// A byte too short, of another, and permissions that are reserved.
#[test]
fn retrieves_that_are_none() {
    let rows = [
        (SECOND, 0x3F, "28002", HeaderArrayOutside),
        (FIRST, 0x40, "28002", RetrieveReceiverIsAnother),
        (SECOND, 0x40, "38002", RetrieveDataPermission),
        (SECOND, 0x40, "C8002", RetrieveInstructionPermission),
        (SECOND, 0x40, "108002", RetrievePermissionsReserved),
    ];
    for (endpoint, length, access, broken) in rows {
        let bytes = bytes_of(&format!("8001 800100000001 0 100000010 30 0 {access} 0"), length);
        assert_eq!(Retrieve::read(&bytes, endpoint, FORM), Err(flaw(broken)));
        breaks(&mut lent(DataAccess::Rw), endpoint, Function::MemRetrieveReq, &bytes, flaw(broken));
    }
}

/// The byte that 8001 finds in its page behind what 8002 gives up by these bytes.
fn given_up(bytes: &[u8]) -> u64 {
    let mut machine = lent(DataAccess::Rw);
    enter(&mut machine, SECOND);
    machine.send(&Retrieve::new(FIRST, HANDLE, Receiver::new(SECOND)), tx(SECOND), FORM).unwrap();
    machine.store(PAGE, Size::B1, 0x5A).unwrap();
    let call = stored(&mut machine, SECOND, Function::MemRelinquish, bytes);
    machine.call(&call).done().unwrap();
    assert_eq!(machine.access(SECOND, NUMBER), None);
    enter(&mut machine, FIRST);
    machine.call(&encode(Function::MemReclaim, &[("handle", HANDLE.into())]).unwrap()).done().unwrap();
    machine.load(PAGE, Size::B1).unwrap()
}

/// TX is never shorter than a relinquish: only this crate is asked of fewer bytes.
#[test]
fn relinquishes() {
    let bytes = |flags: &str| bytes_of(&format!("800100000001 {flags} 8002"), 0x12);
    for (flags, zero, left) in [("100000000", false, 0x5A), ("100000001", true, 0)] {
        let told = Relinquish { zero, ..Relinquish::new(HANDLE, SECOND) };
        assert_eq!((Relinquish::read(&bytes(flags)), given_up(&bytes(flags))), (Ok(told), left));
    }
    let bytes = bytes("100000002");
    assert_eq!(Relinquish::read(&bytes), Err(flaw(RelinquishFlags)));
    breaks(&mut lent(DataAccess::Rw), SECOND, Function::MemRelinquish, &bytes, flaw(RelinquishFlags));
    assert_eq!(Relinquish::read(&bytes[..0x11]), Err(flaw(RelinquishShort)));
}

/// What stands in the RX of 8002 where it retrieves the lend of 8001.
const LENT: [u64; 12] =
    [0x10_002f_8001, 0x8001_0000_0001, 0, 0x1_0000_0010, 0x30, 0, 0x40_0006_8002, 0, 0x1_0000_0001, 0, 0x4002_1000, 1];

/// What an endpoint offers another retrieves, and finds these words in RX, behind which all bytes stay.
fn answers(machine: &mut Machine, offer: &Offer, wanted: &[u64; 12]) {
    enter(machine, offer.sender);
    let handle = machine.send(offer, tx(offer.sender), FORM).unwrap().handle().unwrap();
    let endpoint = offer.receivers[0].endpoint;
    enter(machine, endpoint);
    machine.store_bytes(rx(endpoint), &[0xA5; PAGE_SIZE]).unwrap();
    machine.send(&Retrieve::new(offer.sender, handle, Receiver::new(endpoint)), tx(endpoint), FORM).unwrap();
    let mut page = Page::ZERO;
    assert!(machine.read_page(((rx(endpoint) - RAM) / 0x1000) as u32, &mut page));
    let (front, rest) = page.0.split_at(96);
    let words: Vec<u64> = front.chunks(8).map(|word| u64::from_le_bytes(word.try_into().unwrap())).collect();
    assert_eq!(words, wanted);
    assert!(rest.iter().all(|byte| *byte == 0xA5));
}

#[test]
fn responses() {
    let mut wanted = LENT;
    answers(&mut machine(FORM), &LEND, &wanted);
    wanted[0] = 0x11_002f_8001;
    answers(&mut machine(FORM), &Offer { zero: true, ..LEND }, &wanted);
    wanted[0] = 0x8_002f_8001;
    wanted[6] = 0x40_0005_8002;
    wanted[10] = 0x4002_2000;
    answers(&mut machine(FORM), &Offer { receivers: &[Receiver::ro(SECOND)], ..SHARE }, &wanted);
}

#[test]
fn response_to_a_donate() {
    let mut wanted = LENT;
    wanted[0] = 0x18_002f_8002;
    wanted[1] = 0x8002_0000_0001;
    wanted[6] = 0x40_0006_8001;
    wanted[10] = 0x4003_1000;
    answers(&mut machine(FORM), &DONATE, &wanted);
}

/// Bit 6 of the attributes says that memory is non-secure. The page is the normal world's at first, which donates it to
/// 8001, so that 8001 may share it.
#[test]
fn response_of_non_secure_memory() {
    let region = |at: u64, pages| Region::new(at as u32, pages, Rights::Rw);
    let endpoints = [
        Endpoint::normal_world(FORM, Properties::NONE, &[region(tx(WORLD), 2), region(PAGE, 1)]),
        Endpoint::partition([1; 16], FORM, Properties::NONE, &[region(tx(FIRST), 2)]),
        Endpoint::partition([2; 16], FORM, Properties::NONE, &[region(tx(SECOND), 2)]),
    ];
    let mut machine = Machine::boot(&Manifest::new(RAM as u32, 1, &endpoints).with_ffa(Ffa::V1_2)).unwrap();
    map_all(&mut machine);
    let (receivers, ranges) = ([Receiver::new(FIRST)], LEND.ranges);
    let donate = Offer::new(Kind::Donate, WORLD, &receivers, ranges);
    let handle = machine.send(&donate, tx(WORLD), FORM).unwrap().handle().unwrap();
    enter(&mut machine, FIRST);
    machine.send(&Retrieve::new(WORLD, handle, Receiver::new(FIRST)), tx(FIRST), FORM).unwrap();
    let mut wanted = LENT;
    wanted[0] = 0x8_006f_8001;
    answers(&mut machine, &Offer { kind: Kind::Share, ..LEND }, &wanted);
}
