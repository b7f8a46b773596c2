// SPDX-License-Identifier: MIT OR Apache-2.0
//! Machines in pages that are lent: what stands there before and afterwards, and a page that goes from hand to hand.
//! valgrind looks at this test, too.
mod common;

use common::machines::{MACHINE, PARTITIONS};
use common::{example, play_line, ram};
use gorseplumb::{registers, BootError, Id, Lent, Machine, Page, Range, Rights, Size};

const PLACE: u64 = 0x4001_0000;
const FIRST: Id = Id(0x8001);
const SECOND: Id = Id(0x8002);

#[test]
fn pages_come_back_with_their_bytes() {
    let mut pages = ram(1);
    pages[16].0[0] = 9;
    pages[511].0[4095] = 9;
    let mut machine = Machine::boot_lent(&MACHINE, &mut pages).unwrap();
    assert_eq!(machine.load(PLACE, Size::B1), Ok(0));
    machine.store(PLACE + 1, Size::B2, 0x1234).unwrap_err();
    machine.store(PLACE + 2, Size::B2, 0x1234).unwrap();
    drop(machine);
    assert_eq!(pages[16].0[..4], [0, 0, 0x34, 0x12]);
    assert_eq!(pages[511].0[4095], 0);
}

#[test]
fn held_regions_keep_their_bytes() {
    let mut pages = ram(2);
    pages.iter_mut().for_each(|page| page.0.fill(0x5A));
    let mut machine = Machine::boot_preloaded(&PARTITIONS, &mut pages).unwrap();
    assert_eq!(machine.load(PLACE, Size::B4), Ok(0x5A5A_5A5A));
    machine.call(&registers([0x8400_006D, 0x8001_0000])).done().unwrap();
    assert_eq!(machine.fetch(0x4002_0000), Ok(0x5A5A_5A5A)); // read and execute, and nobody may write there
    drop(machine);
    assert!(pages[32..48].iter().all(|page| page.0 == [0x5A; 4096]));
    assert!(pages[48..512].iter().all(|page| page.0 == [0; 4096]));
}

#[test]
fn a_list_boots_one_machine_after_another() {
    let mut pages = ram(1);
    let first: *const Page = pages.as_ptr();
    let mut lent = Lent::new(&mut pages).unwrap();
    let mut machine = lent.boot(&MACHINE).unwrap();
    machine.store(PLACE, Size::B1, 42).unwrap();
    drop(machine);
    let mut machine = lent.boot_preloaded(&MACHINE).unwrap();
    assert_eq!(machine.load(PLACE, Size::B1), Ok(42));
    machine.end();
    assert_eq!(lent.boot(&*example("partitions.toml")).err(), Some(BootError::WrongCount));
    assert_eq!(lent.boot(&MACHINE).unwrap().load(PLACE, Size::B1), Ok(0));
    let pages = lent.into_pages();
    assert_eq!((pages.as_ptr(), pages.len()), (first, 512));
    pages[16].0[0] = 1;
}

#[test]
fn an_ended_machine_gives_its_list_back() {
    let mut pages = ram(1);
    let mut machine = Machine::boot_lent(&MACHINE, &mut pages).unwrap();
    machine.store(PLACE, Size::B8, u64::MAX).unwrap();
    let pages = machine.end().into_pages();
    assert_eq!((pages.len(), pages[16].0[7], pages[16].0[8]), (512, 0xFF, 0));
}

#[test]
fn a_forgotten_machine_reaches_nothing() {
    let mut pages = ram(1);
    std::mem::forget(Machine::boot(&MACHINE).unwrap());
    let mut lent = Lent::new(&mut pages).unwrap();
    std::mem::forget(lent.boot(&MACHINE).unwrap());
    assert_eq!(lent.boot(&MACHINE).err(), Some(BootError::WrongCount)); // its pages are gone from the list
    drop(lent);
    pages[16].0[0] = 7;
    assert_eq!(Machine::boot_preloaded(&MACHINE, &mut pages).unwrap().load(PLACE, Size::B1), Ok(7));
}

#[test]
fn a_machine_goes_to_another_thread() {
    let mut pages = ram(1);
    let lent = Machine::boot_lent(&MACHINE, &mut pages).unwrap();
    let heap = Machine::boot(&MACHINE).unwrap();
    std::thread::scope(|scope| {
        let mut lent = lent;
        let mut heap = heap;
        scope.spawn(move || lent.store(PLACE, Size::B1, 1).unwrap());
        scope.spawn(move || heap.store(PLACE, Size::B1, 1).unwrap());
    });
    assert_eq!(pages[16].0[0], 1);
}

/// The shared page of docs/EXAMPLE.md: its retrieve and its relinquish change the borrower's access, each is told once,
/// and no other line changes anything.
#[test]
fn what_a_shared_page_changes() {
    let mut pages = ram(2);
    let mut machine = Machine::boot_lent(&PARTITIONS, &mut pages).unwrap();
    let page = Range { address: 0x4002_8000, size: 4096 };
    for line in example("sharing.trace").lines() {
        play_line(&mut machine, line);
        let change = machine.take_change().map(|change| (change.endpoint(), change.ranges().collect::<Vec<_>>()));
        let changes = line.starts_with("call 84000074") || line.starts_with("call 84000076");
        assert_eq!(change, changes.then(|| (SECOND, vec![page])), "{line}");
        assert_eq!(machine.take_change(), None);
    }
    drop(machine);
    assert_eq!(pages[40].0[0], 0x2B);
}

/// 8001 lets the normal world set a bit, which is pending from there to where 8001 gets it.
#[test]
fn what_is_pending() {
    let mut pages = ram(1);
    let mut machine = Machine::boot_lent(&MACHINE, &mut pages).unwrap();
    let mut pending = |line: &str| {
        let told = play_line(&mut machine, line);
        assert!(!told.contains(" 0000000084000060 "), "{line}: {told}");
        [Id(0), FIRST, SECOND, Id::MANAGER].map(|endpoint| machine.npi_pending(endpoint))
    };
    let none = [false; 4];
    assert_eq!(pending("call 8400006D 80010000"), none);
    assert_eq!(pending("call 8400007F 00008001 0 8"), none);
    assert_eq!(pending("call 8400006B"), none);
    assert_eq!(pending("call 84000081 00008001 0 8"), [false, true, false, false]);
    assert_eq!(pending("call 8400006D 80010000"), [false, true, false, false]);
    assert_eq!(pending("call 84000082 8001 2"), none);
}

#[test]
fn what_a_machine_is_asked() {
    let mut pages = ram(1);
    let mut machine = Machine::boot_lent(&MACHINE, &mut pages).unwrap();
    assert_eq!(machine.endpoints().collect::<Vec<_>>(), [Id::NORMAL_WORLD, FIRST, SECOND]);
    assert_eq!((machine.endpoints().len(), machine.runner()), (3, Id::NORMAL_WORLD));
    for page in 0..514 {
        let (owner, rights) = match page {
            16..=31 => (Some(Id(0)), Some(Rights::Rw)),
            32..=47 => (Some(FIRST), Some(Rights::Rwx)),
            48..=63 => (Some(SECOND), Some(Rights::Rw)),
            0..=511 => (Some(Id::MANAGER), None),
            _ => (None, None),
        };
        assert_eq!(machine.owner(page), owner);
        for endpoint in [Id(0), FIRST, SECOND, Id::MANAGER, Id(0x1234)] {
            assert_eq!(machine.access(endpoint, page), rights.filter(|_| owner == Some(endpoint)));
        }
    }
    machine.store(PLACE, Size::B8, 0x0123_4567_89AB_CDEF).unwrap();
    let mut bytes = Page([7; 4096]);
    assert!(!machine.read_page(512, &mut bytes) && !machine.read_page(u32::MAX, &mut bytes));
    assert_eq!(bytes.0, [7; 4096]);
    assert!(machine.read_page(16, &mut bytes));
    assert_eq!(bytes.0[..9], [0xEF, 0xCD, 0xAB, 0x89, 0x67, 0x45, 0x23, 0x01, 0]);
    assert_eq!(format!("{machine:?}"), "Machine { runner: Id(0x0), .. }");
}
