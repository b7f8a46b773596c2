// SPDX-License-Identifier: MIT OR Apache-2.0
//! Machines in lent RAM whose regions keep the bytes that they had before the boot.
mod common;

use common::ram;
use common::steps::take_steps;
use gorseplumb::{Id, Machine, Page, PageRun};

/// 8001 has code that nobody may write, and data; 8002 has data that nobody may write.
const MANIFEST: &str = r#"
ram_base = 0x40000000
ram_blocks = 1
[[endpoint]]
version = "1.1"
properties = 6
regions = [{ base = 0x40010000, pages = 16, rights = "rw" }]
[[endpoint]]
version = "1.1"
uuid = "00112233-4455-6677-8899-aabbccddeeff"
properties = 15
regions = [{ base = 0x40020000, pages = 4, rights = "rox" }, { base = 0x40024000, pages = 4, rights = "rw" }]
[[endpoint]]
version = "1.1"
uuid = "10112233-4455-6677-8899-aabbccddeeff"
properties = 15
regions = [{ base = 0x40030000, pages = 4, rights = "ro" }]
"#;

/// The number of pages of tables: for each of three endpoints one of each level.
const TABLES: usize = 9;

/// The byte that fills the first and the last word of a page before a boot. It is not zero.
fn mark(page: usize) -> u8 {
    0x80 | (page % 0x80) as u8
}

/// A page with its mark in the first and in the last word.
fn marked(page: usize) -> Page {
    let mut bytes = Page::ZERO;
    bytes.0[..8].fill(mark(page));
    bytes.0[4088..].fill(mark(page));
    bytes
}

/// RAM with the mark of each page.
fn marked_ram() -> Vec<Page> {
    (0..512).map(marked).collect()
}

/// Tables have the bytes of a boot that clears RAM. Pages of regions keep their bytes, and all other pages are zeros.
#[test]
fn keeps_the_pages_of_regions() {
    let (mut pages, mut cleared) = (marked_ram(), ram(1));
    Machine::boot_lent(MANIFEST, &mut cleared).unwrap().end();
    let machine = Machine::boot_preloaded(MANIFEST, &mut pages).unwrap();
    let owners: Vec<Id> = (0..512).map(|page| machine.owner(page).unwrap()).collect();
    let runs: Vec<PageRun> = machine.certificate().collect();
    assert_eq!(machine.audit(&runs), Ok(()));
    drop(machine);
    for (page, bytes) in pages.iter().enumerate() {
        let is_right = if page < TABLES {
            *bytes == cleared[page]
        } else if owners[page] == Id::MANAGER {
            *bytes == Page::ZERO
        } else {
            *bytes == marked(page)
        };
        assert!(is_right, "page {page:X}");
    }
}

/// Endpoints load and fetch the bytes of their regions, and reach no others.
#[test]
fn loads_what_came_with_ram() {
    let mut pages = marked_ram();
    let mut machine = Machine::boot_preloaded(MANIFEST, &mut pages).unwrap();
    let steps = "\
load 40010000 8 -> data 9090909090909090
load 4001FFF8 8 -> data 9F9F9F9F9F9F9F9F
load 40000000 8 -> fault translation
load 40009000 8 -> fault translation
load 40020000 1 -> fault translation
load 00000000 8 -> fault translation
call 8400006D 80010000 -> 8001: 8400006D 80010000
fetch 40020000 -> data A0A0A0A0
load 40023FF8 8 -> data A3A3A3A3A3A3A3A3
store 40020000 00 -> fault permission
fetch 40024000 -> fault permission
store 40024000 5A -> done
load 40024000 2 -> data A45A
load 40030000 1 -> fault translation
call 8400006B -> 0: 8400006B 80010000
call 8400006D 80020000 -> 8002: 8400006D 80020000
load 40033FFC 4 -> data B3B3B3B3
store 40030000 00 -> fault permission
fetch 40030000 -> fault permission
";
    take_steps(&mut machine, steps);
}
