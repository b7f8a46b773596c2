// SPDX-License-Identifier: MIT OR Apache-2.0
//! Copies of a machine: each is the same, and each its own from then on.
mod common;

use common::machines::{MACHINE, PARTITIONS};
use common::{example, play, play_line, ram};
use gorseplumb::{BootError, Id, Lent, Machine, Page, PageRun, Processor, Ram, Size};

const PLACE: u64 = 0x4001_0000;

/// Who runs on a processor, which stays the one that is selected.
fn runner<R: Ram>(machine: &mut Machine<R>, processor: Processor) -> Id {
    machine.select(processor);
    machine.runner()
}

/// What a machine tells where it is asked, and each byte of its RAM.
fn told<R: Ram>(machine: &mut Machine<R>) -> (Vec<Id>, Vec<PageRun>, Vec<Page>) {
    let pages = (0..512 * machine.ram_blocks()).map(|page| {
        let mut bytes = Page::ZERO;
        assert!(machine.read_page(page, &mut bytes));
        bytes
    });
    let (pages, runs) = (pages.collect(), machine.certificate().collect());
    let runners = Processor::all().map(|it| runner(machine, it)).collect();
    machine.select(Processor::FIRST);
    (runners, runs, pages)
}

/// Copies behind each line of a trace of a shared page are the machine, tell the change that it has to tell, and play the rest as it does.
fn copies_of_each_state<R: Ram>(machine: &mut Machine<R>, pages: &mut [Page]) {
    let trace = example("sharing.trace");
    let lines: Vec<&str> = trace.lines().collect();
    let mut copies = Vec::new();
    let mut lent = Lent::new(pages).unwrap();
    let mut outcomes = Vec::new();
    for line in &lines {
        copies.push(machine.try_clone().unwrap());
        outcomes.push(play_line(machine, line));
        let mut copied = lent.copy(machine).unwrap();
        assert_eq!(told(&mut copied), told(machine));
        assert_eq!(copied.take_change(), machine.take_change());
        assert_eq!(copied.audit(&machine.certificate().collect::<Vec<_>>()), Ok(()));
    }
    for (place, copied) in copies.iter_mut().enumerate() {
        assert_eq!(play(copied, &lines[place..].join("\n")), outcomes[place..].concat());
        assert_eq!(told(copied), told(machine));
    }
}

#[test]
fn of_the_heap() {
    copies_of_each_state(&mut Machine::boot(&PARTITIONS).unwrap(), &mut ram(2));
}

#[test]
fn of_lent_pages() {
    let mut pages = ram(2);
    copies_of_each_state(&mut Machine::boot_lent(&PARTITIONS, &mut pages).unwrap(), &mut ram(2));
}

#[test]
fn each_has_its_own() {
    let mut pages = ram(1);
    let mut machine = Machine::boot(&MACHINE).unwrap();
    machine.store(PLACE, Size::B1, 1).unwrap();
    let mut copied = machine.try_clone().unwrap();
    let mut lent = copied.try_clone_lent(&mut pages).unwrap();
    copied.store(PLACE, Size::B1, 2).unwrap();
    lent.store(PLACE, Size::B1, 3).unwrap();
    drop(copied);
    assert_eq!((machine.load(PLACE, Size::B1), lent.load(PLACE, Size::B1)), (Ok(1), Ok(3)));
    drop(machine);
    assert_eq!(lent.end().into_pages()[16].0[0], 3);
}

/// A machine in lent pages goes back to where it was, in these.
#[test]
fn a_checkpoint() {
    let mut pages = ram(1);
    let mut lent = Lent::new(&mut pages).unwrap();
    let mut machine = lent.boot(&MACHINE).unwrap();
    machine.store(PLACE, Size::B1, 1).unwrap();
    let saved = machine.try_clone().unwrap();
    machine.store(PLACE, Size::B1, 2).unwrap();
    drop(machine);
    let mut machine = lent.copy(&saved).unwrap();
    assert_eq!(machine.load(PLACE, Size::B1), Ok(1));
    machine.store(PLACE, Size::B1, 4).unwrap();
    drop(machine);
    assert_eq!(lent.into_pages()[16].0[0], 4);
    assert_eq!(saved.try_clone().unwrap().load(PLACE, Size::B1), Ok(1));
}

#[test]
fn more_or_fewer_pages_than_its_ram_has() {
    let mut pages = ram(2);
    pages.iter_mut().for_each(|page| page.0.fill(0x5A));
    let mut machine = Machine::boot(&MACHINE).unwrap();
    for count in [0, 1, 511, 513, 1024] {
        assert_eq!(machine.try_clone_lent(&mut pages[..count]).err(), Some(BootError::WrongCount));
    }
    assert!(pages.iter().all(|page| page.0.iter().all(|byte| *byte == 0x5A)));
    let mut lent = Lent::new(&mut pages[..512]).unwrap();
    let larger = Machine::boot(&PARTITIONS).unwrap();
    assert_eq!(lent.copy(&larger).err(), Some(BootError::WrongCount));
    assert_eq!(told(&mut lent.copy(&machine).unwrap()), told(&mut machine), "the list has its pages still");
}
