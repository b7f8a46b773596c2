// SPDX-License-Identifier: MIT OR Apache-2.0
//! The words of tables in RAM, by DDI 0487, D8.3: pages, blocks of 2 MiB, and which of the two stands where rights change.
mod common;

use common::machines::MACHINE;
use common::{example, play, ram, top, RAM};
use gorseplumb::*;

const BASE: u32 = RAM as u32;
const FORM: Version = Version::V1_1;
const WORLD: Id = Id::NORMAL_WORLD;
const FIRST: Id = Id(0x8001);

const fn at(page: u32) -> u32 {
    BASE + 4096 * page
}

/// The word at a place of a page of RAM.
fn word<R: Ram>(machine: &Machine<R>, page: u32, place: usize) -> u64 {
    let mut bytes = Page::ZERO;
    assert!(machine.read_page(page, &mut bytes));
    u64::from_le_bytes(bytes.0[8 * place..][..8].try_into().unwrap())
}

fn enter(machine: &mut Machine, endpoint: Id) {
    if machine.runner() != WORLD {
        machine.call(&Function::MsgWait.with([])).done().unwrap();
    }
    if endpoint != WORLD {
        machine.call(&Function::Run.with([u64::from(endpoint.0) << 16])).done().unwrap();
    }
}

/// An endpoint maps two pages that follow one another, TX first.
fn map(machine: &mut Machine, endpoint: Id, tx: u32) {
    enter(machine, endpoint);
    machine.call(&Function::RxtxMap.with([at(tx).into(), at(tx + 1).into(), 1])).done().unwrap();
}

/// An endpoint lends pages of its own to another, by its TX: the handle.
fn lend(machine: &mut Machine, tx: u32, from: Id, to: Receiver, pages: &[u32]) -> Handle {
    enter(machine, from);
    let ranges: Vec<PageRange> = pages.iter().map(|page| PageRange::new(at(*page).into(), 1)).collect();
    machine.send(&Offer::new(Kind::Lend, from, &[to], &ranges), at(tx).into(), FORM).unwrap().handle().unwrap()
}

fn reclaim(machine: &mut Machine, owner: Id, handle: Handle) {
    enter(machine, owner);
    machine.call(&encode(Function::MemReclaim, &[("handle", handle.into())]).unwrap()).done().unwrap();
}

/// A right, what of it an offer grants, what a retrieve asks for, and the word of the block at 0x40200000 that has it.
const BLOCKS: [(Rights, DataAccess, InstructionAccess, u64); 3] = [
    (Rights::Rw, DataAccess::Rw, InstructionAccess::Nx, 0x0040_0000_4020_07fd),
    (Rights::Rwx, DataAccess::Rw, InstructionAccess::X, 0x0000_0000_4020_07fd),
    (Rights::Ro, DataAccess::Ro, InstructionAccess::Nx, 0x0040_0000_4020_077d),
];

/// Where the normal world's buffers are, and those of 8001.
const TX: u32 = 18;
const TX_1: u32 = 20;

/// Two blocks of RAM, of which the normal world has a page of the first and all of the second with this right; beside
/// that, buffers in the first.
fn two_blocks(rights: Rights) -> Machine {
    let own = [Region::new(at(16), 1, rights), Region::new(at(512), 512, rights), Region::new(at(TX), 2, Rights::Rw)];
    let manifest = Manifest::new(
        BASE,
        2,
        &[
            Endpoint::normal_world(FORM, Properties::NONE, &own),
            Endpoint::partition([1; 16], FORM, Properties::NONE, &[Region::new(at(TX_1), 2, Rights::Rw)]),
        ],
    );
    let mut machine = Machine::boot(&manifest).unwrap();
    map(&mut machine, FIRST, TX_1);
    map(&mut machine, WORLD, TX);
    machine
}

#[test]
fn a_whole_block_is_one_word() {
    for (rights, _, _, block) in BLOCKS {
        let machine = two_blocks(rights);
        assert_eq!(word(&machine, 1, 0), 0x0000_0000_4000_2003);
        assert_eq!(word(&machine, 1, 1), block);
        assert_eq!(word(&machine, 5, 1), 0x0000_0000_4000_7003);
    }
}

/// The second page of the block goes to 8001 and comes back; meanwhile the last one is lent, too.
#[test]
fn blocks_are_split_and_joined() {
    for (rights, data, instructions, block) in BLOCKS {
        let mut machine = two_blocks(rights);
        let to = Receiver { data, ..Receiver::new(FIRST) };
        let second = lend(&mut machine, TX, WORLD, to, &[513]);
        enter(&mut machine, FIRST);
        let asked = Retrieve::new(WORLD, second, Receiver { data, instructions, ..to });
        machine.send(&asked, at(TX_1).into(), FORM).unwrap();
        assert_eq!((machine.access(WORLD, 513), machine.access(FIRST, 513)), (None, Some(rights)));
        assert_eq!(word(&machine, 1, 1), 0x0000_0000_4000_3003);
        assert_eq!(word(&machine, 3, 0), block ^ 2);
        assert_eq!(word(&machine, 3, 1), 0);
        assert_eq!(word(&machine, 5, 1), 0x0000_0000_4000_7003);
        assert_eq!(word(&machine, 7, 1), block ^ 0x1002);
        let last = lend(&mut machine, TX, WORLD, to, &[1023]);
        enter(&mut machine, FIRST);
        machine.send(&Relinquish::new(second, FIRST), at(TX_1).into(), FORM).unwrap();
        reclaim(&mut machine, WORLD, second);
        assert_eq!(word(&machine, 1, 1), 0x0000_0000_4000_3003);
        reclaim(&mut machine, WORLD, last);
        assert_eq!(word(&machine, 1, 1), block);
        assert_eq!(word(&machine, 7, 1), 0);
    }
}

/// The first page of the blocks that the endpoint at a place has in the largest machine: from 4 e + 1 to 4 e + 3.
const fn first_page(place: u32) -> u32 {
    512 * (4 * place + 1)
}

/// Whether the level 2 words of the largest machine are right: blocks where the endpoint has them and they are whole, and
/// tables elsewhere.
fn has_blocks(machine: &Machine, whole: bool) -> bool {
    (0..8).all(|place: u32| {
        (0..32).all(|block: u32| {
            let wanted = if whole && block / 4 == place && block % 4 > 0 {
                0x0040_0000_4000_07fd + 0x20_0000 * u64::from(block)
            } else {
                0x4000_0003 + 4096 * u64::from(34 * place + 2 + block)
            };
            word(machine, 34 * place + 1, block as usize) == wanted
        })
    })
}

/// Of each block that an endpoint has one page is lent, another in each, and comes back.
#[test]
fn blocks_of_the_largest_machine() {
    let endpoint = |place: u32| {
        let uuid = [place as u8; 16];
        Endpoint::partition(uuid, FORM, Properties::NONE, &[Region::new(at(first_page(place)), 3 * 512, Rights::Rw)])
    };
    let endpoints: Vec<Endpoint> = (0..8).map(endpoint).collect();
    let mut machine = Machine::boot(&Manifest::new(BASE, 32, &endpoints)).unwrap();
    assert!(has_blocks(&machine, true));
    let mut handles = Vec::new();
    for place in 0..8 {
        let (owner, other) = (Id::at(place as u16), Id::at((place as u16 + 1) % 8));
        map(&mut machine, owner, first_page(place));
        let pages = [1, 2, 3].map(|block| 519 * (4 * place + block));
        handles.push((owner, lend(&mut machine, first_page(place), owner, Receiver::rw(other), &pages)));
    }
    assert!(has_blocks(&machine, false));
    for (owner, handle) in handles {
        reclaim(&mut machine, owner, handle);
    }
    assert!(has_blocks(&machine, true));
}

/// The word of a page by its right. Tables begin at page 64 of RAM, so that its second page may be a region's.
#[test]
fn pages_by_their_rights() {
    let rows = [
        (Rights::Rwx, 0x0000_0000_4000_17ff),
        (Rights::Rw, 0x0040_0000_4000_17ff),
        (Rights::Ro, 0x0040_0000_4000_177f),
    ];
    for (rights, leaf) in rows {
        let endpoints = [
            Endpoint::normal_world(FORM, Properties::NONE, &[Region::new(at(1), 1, rights)]),
            Endpoint::partition([1; 16], FORM, Properties::NONE, &[Region::new(at(2), 1, Rights::Rw)]),
        ];
        let machine = Machine::boot(&Manifest::new(BASE, 1, &endpoints).with_tables(64)).unwrap();
        assert_eq!((word(&machine, 64 + 2, 1), word(&machine, 64 + 5, 1)), (leaf, 0), "{rights}");
    }
}

/// The first words of the tables of the normal world and 8001.
fn has_tables_of_two<R: Ram>(machine: &Machine<R>) {
    assert_eq!(word(machine, 0, 1), 0x0000_0000_4000_1003);
    assert_eq!(word(machine, 1, 0), 0x0000_0000_4000_2003);
    assert_eq!(word(machine, 1, 1), 0);
    assert_eq!(word(machine, 2, 16), 0x0040_0000_4001_07ff);
    assert_eq!(word(machine, 5, 32), 0x0000_0000_4002_07ff);
}

/// A boot writes them in RAM of the heap, and in lent RAM where something else stood.
fn boots_with_tables_of_two<D: Description + ?Sized>(description: &D) {
    let mut pages = ram(1);
    pages[1].0[8] = 3;
    has_tables_of_two(&Machine::boot(description).unwrap());
    has_tables_of_two(&Machine::boot_lent(description, &mut pages).unwrap());
}

#[test]
fn tables_at_first() {
    boots_with_tables_of_two(&MACHINE);
    let built_in = std::fs::read_to_string(top().join("tests/tables.d/built-in.toml")).unwrap();
    boots_with_tables_of_two(&*built_in);
}

/// The normal world lends the page at 40201000 to 8001.
const LEND: &str = "\
call 84000066 4001E000 4001F000 1
store 4001E018 0000000100000010
store 4001E020 0000000000000030
store 4001E030 0000004000028001
store 4001E040 0000000100000001
store 4001E050 0000000040201000
store 4001E058 0000000000000001
call 84000072 60 60
";

/// 8001 retrieves it.
const RETRIEVE: &str = "\
call 8400006D 80010000
call 84000066 4002E000 4002F000 1
store 4002E008 0000000000000001
store 4002E018 0000000100000010
store 4002E020 0000000000000030
store 4002E030 0000000000028001
call 84000074 40 40
";

/// 8001 relinquishes it, and the normal world reclaims it.
const GIVE_BACK: &str = "\
store 4002E000 0000000000000001
store 4002E008 0000000100000000
store 4002E010 8001
call 84000076
call 8400006B
call 84000077 1
";

/// The level 2 word of the normal world's block. It is whole with one right to all pages, which may be read and written.
const WHOLE: u64 = 0x0040_0000_4020_07fd;

fn splits_a_block<R: Ram>(mut machine: Machine<R>) {
    assert_eq!(word(&machine, 1, 1), WHOLE);
    play(&mut machine, LEND);
    assert_eq!(word(&machine, 1, 1), 0x0000_0000_4000_3003);
    assert_eq!(word(&machine, 3, 0), 0x0040_0000_4020_07ff);
    assert_eq!(word(&machine, 3, 1), 0, "the page that is lent");
    play(&mut machine, RETRIEVE);
    assert_eq!(word(&machine, 5, 1), 0x0000_0000_4000_7003);
    assert_eq!(word(&machine, 7, 1), 0x0040_0000_4020_17ff);
    play(&mut machine, GIVE_BACK);
    assert_eq!(word(&machine, 1, 1), WHOLE);
}

/// RAM of 4 MiB, whose second half is a block of the normal world's. Level 2 names a level 3 page while a page of the
/// block is lent, and the block again after the reclaim.
#[test]
fn a_lend_splits_a_block() {
    let region = "{ base = 0x40010000, pages = 16, rights = \"rw\" }";
    let both = region.to_owned() + ", { base = 0x40200000, pages = 512, rights = \"rw\" }";
    let text = example("machine.toml").replacen("ram_blocks = 1", "ram_blocks = 2", 1).replacen(region, &both, 1);
    splits_a_block(Machine::boot(&*text).unwrap());
    splits_a_block(Machine::boot_lent(&*text, &mut ram(2)).unwrap());
}
