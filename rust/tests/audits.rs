// SPDX-License-Identifier: MIT OR Apache-2.0
//! Audits of machines of several sizes, and of tables with a bit flipped. An audit passes exactly if no walk changed.
mod common;

use common::machines::MACHINE;
use common::{ram, RAM};
use gorseplumb::{AuditError, Id, Lent, Machine, Page, PageRun, Ram, Rights};

// The pages of the normal world's tables, one of each level.
const ROOT: usize = 0;
const LEVEL_2: usize = 1;
const LEVEL_3: usize = 2;

/// The text of a manifest with this number of blocks of RAM, and of endpoints with 16 pages each, one after another.
fn manifest_text(blocks: u32, endpoints: u32) -> String {
    let endpoints = (0..endpoints).map(|place| {
        let uuid = match place {
            0 => String::new(),
            _ => format!("uuid = \"{place}0112233-4455-6677-8899-aabbccddeeff\"\n"),
        };
        let base = RAM + 0x10_0000 + 0x1_0000 * u64::from(place + 2);
        format!(
            "[[endpoint]]\nversion = \"1.1\"\nproperties = 6\n{uuid}\
             regions = [{{ base = {base:#X}, pages = 16, rights = \"rw\" }}]\n"
        )
    });
    format!("ram_base = {RAM:#X}\nram_blocks = {blocks}\n{}", endpoints.collect::<String>())
}

/// Returns a run that begins at another page, and in which the endpoint at a place has this right.
fn run_with(run: &PageRun, first: u32, place: usize, right: Option<Rights>) -> PageRun {
    let mut access: Vec<Option<Rights>> = (0..8).map(|place| run.access(place)).collect();
    access[place] = right;
    PageRun::new(first, run.last(), run.owner(), run.transaction(), &access).unwrap()
}

/// A machine passes an audit with its own certificate, which has a run for each endpoint, one before and one after these.
/// It fails if the last endpoint has a right to the first run, with a gap before the last run, and without the last run.
fn passes_with_its_own<R: Ram>(machine: &Machine<R>) {
    const NOT_CERTIFIED: Result<(), AuditError> = Err(AuditError::NotCertified);
    let mut runs: Vec<PageRun> = machine.certificate().collect();
    let endpoints = machine.endpoints().len();
    assert_eq!(runs.len(), endpoints + 2);
    assert_eq!(machine.audit(&runs), Ok(()));
    let first = runs[0];
    for right in [Rights::Ro, Rights::Rw, Rights::Rox, Rights::Rwx] {
        runs[0] = run_with(&first, 0, endpoints - 1, Some(right));
        assert_eq!(machine.audit(&runs), NOT_CERTIFIED, "{right}");
    }
    runs[0] = run_with(&first, 0, endpoints - 1, None);
    assert_eq!(machine.audit(&runs), Ok(()));
    let last = runs.pop().unwrap();
    runs.push(run_with(&last, last.first() + 1, 0, None));
    assert_eq!(machine.audit(&runs), NOT_CERTIFIED);
    runs.pop();
    assert_eq!(machine.audit(&runs), NOT_CERTIFIED);
}

#[test]
fn machines_of_every_size() {
    for (blocks, endpoints) in [(1, 1), (1, 8), (32, 1), (32, 8)] {
        let text = manifest_text(blocks, endpoints);
        passes_with_its_own(&Machine::boot(&*text).unwrap());
        passes_with_its_own(&Machine::boot_lent(&*text, &mut ram(blocks as usize)).unwrap());
    }
}

/// Boots a machine in these pages. Returns its certificate, and the normal world's access to each page.
fn booted(pages: &mut [Page]) -> (Vec<PageRun>, Vec<Option<Rights>>) {
    let machine = Machine::boot_lent(&MACHINE, pages).unwrap();
    let access = (0..512).map(|page| machine.access(Id::NORMAL_WORLD, page)).collect();
    (machine.certificate().collect(), access)
}

/// Whether the normal world's tables in these pages pass an audit with these runs.
fn passes(pages: &mut [Page], runs: &[PageRun]) -> bool {
    let base = RAM as u32;
    match Lent::new(pages).unwrap().audit_tables(base, &[base], runs) {
        Ok(()) => true,
        Err(AuditError::NotCertified) => false,
        Err(other) => panic!("{other}"),
    }
}

fn word(page: &Page, index: usize) -> u64 {
    u64::from_le_bytes(page.0[8 * index..8 * index + 8].try_into().unwrap())
}

fn flip(page: &mut Page, index: usize, bits: u64) {
    let flipped = word(page, index) ^ bits;
    page.0[8 * index..8 * index + 8].copy_from_slice(&flipped.to_le_bytes());
}

#[test]
fn tables_that_give_more() {
    let mut pages = ram(1);
    let (mut runs, _) = booted(&mut pages);
    assert!(passes(&mut pages, &runs));
    // The page at 40010000 may not be written any more.
    flip(&mut pages[LEVEL_3], 0x10, 1 << 7);
    assert!(!passes(&mut pages, &runs));
    flip(&mut pages[LEVEL_3], 0x10, 1 << 7);
    assert!(passes(&mut pages, &runs));
    // A block of 1 GiB for the addresses from 0 on.
    flip(&mut pages[ROOT], 0, 0x7FD);
    assert!(!passes(&mut pages, &runs));
    flip(&mut pages[ROOT], 0, 0x7FD);
    assert!(passes(&mut pages, &runs));
    // A block for all of RAM, where the runs give its first pages.
    flip(&mut pages[LEVEL_2], 0, 0x0040_0000_0000_27FE);
    runs[0] = run_with(&runs[0], 0, 0, Some(Rights::Rw));
    assert!(!passes(&mut pages, &runs));
}

/// Why a walk ends without a leaf.
#[derive(Clone, Copy, Debug, PartialEq)]
enum WalkFault {
    Translation,
    AccessFlag,
    /// The table is not in RAM.
    NoTable,
}

/// The address to which a walk leads and the rights there, as the numbers of `Rights`; or why it leads nowhere.
type Walked = Result<(u64, u32), WalkFault>;

/// The page of a word, and its index there.
type Place = (usize, usize);

/// Returns what the descriptor of a block or page of this size maps an address to.
fn leaf(word: u64, address: u64, size: u64) -> Walked {
    if word >> 10 & 1 == 0 {
        return Err(WalkFault::AccessFlag);
    }
    let output = word & 0x0000_FFFF_FFFF_F000 & !(size - 1);
    let execute = if word >> 54 & 1 == 0 { 4 } else { 0 };
    Ok((output + address % size, (word >> 6 & 3) as u32 | execute))
}

/// Walks the normal world's tables by the rules of stage 2 for the 4 KiB granule, from level 1 on (DDI 0487, D8). Adds each
/// word that it reads to a list.
fn walk(pages: &[Page], address: u64, read: &mut Vec<Place>) -> Walked {
    let mut table = RAM;
    for size in [1 << 30, 1 << 21, 1 << 12] {
        let page = table.checked_sub(RAM).ok_or(WalkFault::NoTable)? as usize / 4096;
        let index = (address / size % 512) as usize;
        let word = word(pages.get(page).ok_or(WalkFault::NoTable)?, index);
        read.push((page, index));
        let is_last = size == 1 << 12;
        match word & 3 {
            0b11 if is_last => return leaf(word, address, size),
            0b11 => table = word & 0x0000_FFFF_FFFF_F000,
            0b01 if !is_last => return leaf(word, address, size),
            _ => return Err(WalkFault::Translation),
        }
    }
    unreachable!("a word of level 3 is no table")
}

/// An address, what a walk of it must return, and the words that the walk reads before a bit is flipped.
struct Wanted {
    address: u64,
    walked: Walked,
    read: Vec<Place>,
}

/// Walks the address of each page of RAM, and one in each 2 MiB outside RAM, where there is no leaf.
fn wanted(pages: &[Page], access: &[Option<Rights>]) -> Vec<Wanted> {
    let inside = (RAM..).step_by(4096).zip(access.iter().copied());
    let outside = (0..2048).map(|block| block << 21).filter(|address| *address != RAM).map(|address| (address, None));
    let wanted = inside.chain(outside).map(|(address, right)| {
        let wanted = right.map_or(Err(WalkFault::Translation), |right| Ok((address, right as u32)));
        let mut read = Vec::new();
        let walked = walk(pages, address, &mut read);
        assert_eq!(walked, wanted, "{address:X}");
        Wanted { address, walked, read }
    });
    wanted.collect()
}

/// Counts the bits of a word that change no walk if one of them is flipped. An audit passes exactly with these.
///
/// A walk that does not read the word returns what it returned before, so this makes only the other walks again.
fn idle_bits(pages: &mut [Page], runs: &[PageRun], wanted: &[Wanted], (page, index): Place) -> usize {
    let readers: Vec<&Wanted> = wanted.iter().filter(|it| it.read.contains(&(page, index))).collect();
    assert!(!readers.is_empty(), "no walk reads word {index:X} of page {page}");
    let is_idle = |bit: &u32| {
        flip(&mut pages[page], index, 1 << bit);
        let is_idle = readers.iter().all(|it| walk(pages, it.address, &mut Vec::new()) == it.walked);
        assert_eq!(passes(pages, runs), is_idle, "bit {bit} of word {index:X} of page {page}");
        flip(&mut pages[page], index, 1 << bit);
        is_idle
    };
    (0..64).filter(is_idle).count()
}

/// Counts the bits that no walk uses: in the four words of the root, in some words of level 2, and in all words of level 3.
/// In level 3 they are all bits of the 496 words that map nothing, and 22 bits of each of the 16 others.
#[test]
fn single_bits_of_tables() {
    let mut pages = ram(1);
    let (runs, access) = booted(&mut pages);
    let wanted = wanted(&pages, &access);
    let mut idle = |page, indices: &mut dyn Iterator<Item = usize>| -> usize {
        indices.map(|index| idle_bits(&mut pages, &runs, &wanted, (page, index))).sum()
    };
    assert_eq!(idle(ROOT, &mut (0..4)), 215);
    assert_eq!(idle(LEVEL_2, &mut (0..512).step_by(73)), 467);
    assert_eq!(idle(LEVEL_3, &mut (0..512)), 496 * 64 + 16 * 22);
}
