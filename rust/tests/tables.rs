// SPDX-License-Identifier: MIT OR Apache-2.0
//! Machines whose tables stand elsewhere than at RAM's start: RAM is a block, so each of three endpoints has three pages of them.
mod common;

use common::machines::MACHINE;
use common::{example, ram, RAM};
use gorseplumb::*;

const TABLES: u32 = 256;
const BEHIND: u32 = TABLES + 9;
const FIRST: Id = Id(0x8001);

const fn at(page: u32) -> u64 {
    RAM + 4096 * page as u64
}

/// The normal world has RAM's first pages, and 8001 those just behind the tables and those just before them.
const AROUND: Manifest = Manifest::new(
    RAM as u32,
    1,
    &[
        Endpoint::normal_world(Version::V1_1, Properties::NONE, &[Region::new(at(0) as u32, 16, Rights::Rw)]),
        Endpoint::partition(
            [1; 16],
            Version::V1_1,
            Properties::NONE,
            &[Region::new(at(BEHIND) as u32, 1, Rights::Rw), Region::new(at(TABLES - 1) as u32, 1, Rights::Ro)],
        ),
        Endpoint::partition([2; 16], Version::V1_1, Properties::NONE, &[Region::new(at(511) as u32, 1, Rights::Rw)]),
    ],
)
.with_tables(TABLES);

#[test]
fn stand_amid_ram() {
    let mut machine = Machine::boot(&AROUND).unwrap();
    for (place, id) in [(0, Id::NORMAL_WORLD), (1, FIRST), (2, Id(0x8002))] {
        assert_eq!(machine.root(id), Some(at(TABLES + 3 * place) as u32));
        assert!((TABLES..BEHIND).all(|page| machine.access(id, page).is_none()));
    }
    assert!((TABLES..BEHIND).all(|page| machine.owner(page) == Some(Id::MANAGER)));
    assert_eq!((machine.owner(TABLES - 1), machine.owner(BEHIND)), (Some(FIRST), Some(FIRST)));
    machine.store(at(0), Size::B1, 0x5A).unwrap();
    assert_eq!(machine.load(at(0), Size::B1), Ok(0x5A));
    assert_eq!(machine.load(at(TABLES), Size::B1), Err(Fault::Translation));
    assert_eq!(machine.audit(&machine.certificate().collect::<Vec<_>>()), Ok(()));
}

#[test]
fn keep_bytes_on_both_sides() {
    let mut pages = ram(1);
    pages.iter_mut().for_each(|page| page.0.fill(0x5A));
    let mut machine = Machine::boot_preloaded(&AROUND, &mut pages).unwrap();
    assert_eq!(machine.load(at(0), Size::B1), Ok(0x5A));
    drop(machine);
    for (page, byte) in [(15, 0x5A), (16, 0), (TABLES - 1, 0x5A), (BEHIND, 0x5A), (BEHIND + 1, 0), (511, 0x5A)] {
        assert!(pages[page as usize].0.iter().all(|it| *it == byte), "{page}");
    }
}

/// Tables of three endpoints have nine pages, and regions have pages 10 to 3F.
#[test]
fn where_tables_may_stand() {
    let machine = Machine::boot(&MACHINE.with_tables(0x40)).unwrap();
    assert_eq!((machine.root(Id::NORMAL_WORLD), machine.root(Id(0x8002))), (Some(0x4004_0000), Some(0x4004_6000)));
    let pages = |manifest: &Manifest| {
        let machine = Machine::boot(manifest).unwrap();
        (0..512).map(|page| (machine.owner(page), machine.access(FIRST, page))).collect::<Vec<_>>()
    };
    assert_eq!(pages(&MACHINE.with_tables(0x40)), pages(&MACHINE));
    let cause = |tables| Machine::boot(&MACHINE.with_tables(tables)).err().map(|error| error.cause().unwrap());
    let rows = [
        (7, None),
        (8, Some(Cause::RegionOutside)),
        (0x3F, Some(Cause::RegionOutside)),
        (503, None),
        (504, Some(Cause::TablesOutside)),
        (u32::MAX, Some(Cause::TablesOutside)),
    ];
    for (tables, wanted) in rows {
        assert_eq!(cause(tables), wanted, "{tables}");
    }
}

#[test]
fn no_text_says_it() {
    let read = Manifest::read(&*example("machine.toml")).unwrap();
    assert_eq!((read.tables(), MACHINE.tables(), AROUND.tables()), (0, 0, TABLES));
    assert_eq!(MACHINE.with_tables(100).with_tables(0), read);
    assert!(format!("{AROUND:?}").ends_with("tables: 256 }"));
}
