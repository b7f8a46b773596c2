// SPDX-License-Identifier: MIT OR Apache-2.0
//! Each piece of memory that a boot asks for is refused in turn, and all of it goes back, by the sizes that it was
//! asked for.
#![allow(clippy::declare_interior_mutable_const)] // clippy of 1.63 finds one in what `thread_local!` unfolds to

mod common;

use common::machines::MACHINE;
use common::{example, ram};
use gorseplumb::{registers, BootError, Lent, Machine, Ram, Size};
use gorseplumb::{Function, Handle, Id, Kind, Offer, OfferRoom, PageRange, Receiver, Version};
use std::alloc::{GlobalAlloc, Layout, System};
use std::cell::Cell;

/// The system's allocator, which counts the pieces of a thread, and refuses the one that the thread says.
struct Counting;

thread_local! {
    static ASKED: Cell<usize> = const { Cell::new(0) };
    static REFUSED: Cell<usize> = const { Cell::new(0) };
    static PIECES: Cell<isize> = const { Cell::new(0) };
    static BYTES: Cell<isize> = const { Cell::new(0) };
}

/// Whether the next piece is to be had.
fn asks() -> bool {
    ASKED.with(|asked| asked.set(asked.get() + 1));
    ASKED.with(Cell::get) != REFUSED.with(Cell::get)
}

/// Counts so many pieces more, and bytes.
fn counts(more: isize, size: isize) {
    PIECES.with(|pieces| pieces.set(pieces.get() + more));
    BYTES.with(|bytes| bytes.set(bytes.get() + size));
}

// SAFETY: each piece is the system's, and none is where it is refused.
unsafe impl GlobalAlloc for Counting {
    unsafe fn alloc(&self, layout: Layout) -> *mut u8 {
        if !asks() {
            return std::ptr::null_mut();
        }
        counts(1, layout.size() as isize);
        System.alloc(layout)
    }

    unsafe fn dealloc(&self, piece: *mut u8, layout: Layout) {
        counts(-1, -(layout.size() as isize));
        System.dealloc(piece, layout);
    }

    unsafe fn realloc(&self, piece: *mut u8, layout: Layout, size: usize) -> *mut u8 {
        if !asks() {
            return std::ptr::null_mut();
        }
        counts(0, size as isize - layout.size() as isize);
        System.realloc(piece, layout, size)
    }
}

#[global_allocator]
static ALLOCATOR: Counting = Counting;

/// Does it with the piece of this number refused, counted from 1, and says how many were asked for.
fn with_refused<T>(piece: usize, act: impl FnOnce() -> T) -> (T, usize) {
    ASKED.with(|asked| asked.set(0));
    REFUSED.with(|refused| refused.set(piece));
    let done = act();
    REFUSED.with(|refused| refused.set(0));
    (done, ASKED.with(Cell::get))
}

/// The pieces and bytes that this thread has.
fn held() -> (isize, isize) {
    (PIECES.with(Cell::get), BYTES.with(Cell::get))
}

/// Each piece refused in turn gives no machine and leaves no memory behind; the answer is how many there are.
fn refuses_each<R: Ram>(mut boot: impl FnMut() -> Result<Machine<R>, BootError>) -> usize {
    let before = held();
    for piece in 1.. {
        let (booted, asked) = with_refused(piece, &mut boot);
        match booted {
            Err(why) => assert_eq!((why, held()), (BootError::NoMemory, before)),
            Ok(machine) => {
                assert!(piece > asked, "piece {piece} of {asked} was refused, and there is a machine");
                drop(machine);
                assert_eq!(held(), before);
                return asked;
            }
        }
    }
    unreachable!("a boot asks for so many pieces")
}

#[test]
fn each_piece_of_memory() {
    let text = example("machine.toml");
    let mut pages = ram(1);
    assert!(refuses_each(|| Machine::boot(&MACHINE)) > 0);
    assert!(refuses_each(|| Machine::boot(&*text)) > 0);
    let machine = Machine::boot(&MACHINE).unwrap();
    assert!(refuses_each(|| machine.try_clone()) > 0);
    // A list takes all that a machine needs.
    let lent = |pages: &mut _| Lent::new(pages).map(drop);
    let (made, asked) = with_refused(0, || lent(&mut pages));
    assert_eq!(made, Ok(()));
    for piece in 1..=asked {
        assert_eq!(with_refused(piece, || lent(&mut pages)).0, Err(BootError::NoMemory), "piece {piece}");
    }
    let before = held();
    let mut lent = Lent::new(&mut pages).unwrap();
    assert_eq!(refuses_each_in(&mut lent, &machine), 0);
    drop(lent);
    assert_eq!(held(), before);
}

/// Boots from numbers in a list and copies ask for nothing, the first and the next one.
fn refuses_each_in(lent: &mut Lent<'_>, machine: &Machine) -> usize {
    let (_, copied) = with_refused(1, || assert!(lent.copy(machine).is_ok()));
    let (_, first) = with_refused(1, || assert!(lent.boot(&MACHINE).is_ok()));
    let (_, next) = with_refused(1, || assert!(lent.boot_preloaded(&MACHINE).is_ok()));
    copied + first + next
}

#[test]
fn an_operation_asks_for_nothing() {
    let mut machine = Machine::boot(&MACHINE).unwrap();
    let id_get = registers([0x8400_0069]);
    let (_, asked) = with_refused(1, || {
        machine.call(&id_get).done().unwrap();
        machine.store(0x4001_0000, Size::B1, 42).unwrap();
        machine.load(0x4001_0000, Size::B1).unwrap()
    });
    assert_eq!(asked, 0);
}

#[test]
fn a_descriptor_asks_for_nothing() {
    let mut machine = Machine::boot(&MACHINE).unwrap();
    let tx = 0x4001_E000;
    machine.call(&Function::RxtxMap.with([tx, tx + 0x1000, 1])).done().unwrap();
    let (receivers, ranges) = ([Receiver::rw(Id(0x8001))], [PageRange::new(0x4001_0000, 2)]);
    let (handle, asked) = with_refused(1, || {
        let lend = Offer::new(Kind::Lend, Id::NORMAL_WORLD, &receivers, &ranges);
        let bytes = lend.to_bytes(Version::Compact).unwrap();
        assert_eq!(Offer::read(&bytes, Kind::Lend, Version::Compact, &mut OfferRoom::new()), Ok(lend));
        machine.send(&lend, tx, Version::V1_1).unwrap().handle()
    });
    assert_eq!((handle, asked), (Some(Handle(1)), 0));
}
