// SPDX-License-Identifier: MIT OR Apache-2.0
//! The core in a program without Rust's std and without an allocator, as firmware has it: the library's memory is an
//! array, its RAM is lent, and what it asks to be settled is noted. A share of the normal world's page with the
//! partition, which gives it up again. Of C's library it takes what starts it, and `memcpy` and its like. It ends with
//! status 0, or with the number of the step that went otherwise.
#![no_std]
#![no_main]

mod memory;

use core::panic::PanicInfo;
use core::sync::atomic::{AtomicUsize, Ordering::Relaxed};
use gorseplumb::{
    settle_by, Endpoint, Function, Handle, Id, Kind, Lent, Machine, Manifest, Offer, Page, PageRange, Properties, Ram,
    Receiver, Region, Registers, Relinquish, Retrieve, RetrieveResponse, Rights, Settling, Size, Version,
};

#[link(name = "c")]
extern "C" {
    fn exit(status: i32) -> !;
}

const RAM: u32 = 0x4000_0000;
const PAGE: u64 = 0x4001_0000;
const TX: u64 = 0x4001_E000;
const PARTITIONS_TX: u64 = 0x4002_E000;
const PARTITIONS_RX: u64 = 0x4002_F000;
const PARTITION: Id = Id::at(1);

const MANIFEST: Manifest = Manifest::new(
    RAM,
    1,
    &[
        Endpoint::normal_world(
            Version::V1_1,
            Properties::SENDS_REQUESTS,
            &[Region::new(RAM + 0x10000, 16, Rights::Rw)],
        ),
        Endpoint::partition([1; 16], Version::V1_1, Properties::ALL, &[Region::new(RAM + 0x20000, 16, Rights::Rwx)]),
    ],
);

static mut PAGES: [Page; MANIFEST.pages()] = [Page::ZERO; MANIFEST.pages()];

/// How often a boot has pages settled: once in the tables of each endpoint.
const AT_BOOT: usize = 2;

/// How often pages were settled, and the first page of the last time.
static SETTLED: AtomicUsize = AtomicUsize::new(0);
static LAST: AtomicUsize = AtomicUsize::new(0);

fn settle(settling: Settling) {
    if settling.size != 0 {
        memory::count(&SETTLED);
        LAST.store(settling.address as usize, Relaxed);
    }
}

settle_by!(settle);

#[panic_handler]
fn stop(_: &PanicInfo<'_>) -> ! {
    // SAFETY: it takes a number.
    unsafe { exit(255) }
}

/// The core library is compiled to unwind and names this, which nothing here calls.
#[no_mangle]
extern "C" fn rust_eh_personality() {}

/// A call that is done, or nothing.
fn done<R: Ram>(machine: &mut Machine<R>, given: Registers) -> Option<()> {
    machine.call(&given).done().ok().map(drop)
}

/// The normal world shares a page, and the partition retrieves it. What is there is the handle.
fn share<R: Ram>(machine: &mut Machine<R>) -> Option<Handle> {
    done(machine, Function::RxtxMap.with([TX, TX + 0x1000, 1]))?;
    let (receivers, ranges) = ([Receiver::rw(PARTITION)], [PageRange::new(PAGE, 1)]);
    let offer = Offer::new(Kind::Share, Id::NORMAL_WORLD, &receivers, &ranges);
    let handle = machine.send(&offer, TX, Version::V1_1).ok()?.handle()?;
    done(machine, Function::Run.with([0x8001_0000]))?;
    done(machine, Function::RxtxMap.with([PARTITIONS_TX, PARTITIONS_RX, 1]))?;
    let asked = Retrieve::new(Id::NORMAL_WORLD, handle, Receiver::new(PARTITION));
    machine.send(&asked, PARTITIONS_TX, Version::V1_1).ok()?;
    machine.store(PAGE, Size::B1, 42).ok()?;
    Some(handle)
}

/// Whether the partition is told of the page in its RX.
fn is_told<R: Ram>(machine: &mut Machine<R>) -> bool {
    let mut bytes = [0; 96];
    if machine.load_bytes(PARTITIONS_RX, &mut bytes).is_err() {
        return false;
    }
    RetrieveResponse::read(&bytes, Version::V1_1).map_or(false, |told| told.ranges() == [PageRange::new(PAGE, 1)])
}

/// The step that went otherwise, if one did.
fn play(pages: &mut [Page]) -> Result<(), u8> {
    let mut lent = Lent::new(pages).map_err(|_| 1)?;
    let asked = memory::asked();
    let mut machine = lent.boot(&MANIFEST).map_err(|_| 2)?;
    let handle = share(&mut machine).ok_or(3)?;
    if SETTLED.load(Relaxed) != AT_BOOT || machine.access(PARTITION, 16) != Some(Rights::Rw) || !is_told(&mut machine) {
        return Err(4);
    }
    machine.send(&Relinquish::new(handle, PARTITION), PARTITIONS_TX, Version::V1_1).map_err(|_| 5)?;
    if SETTLED.load(Relaxed) != AT_BOOT + 1
        || LAST.load(Relaxed) as u64 != PAGE
        || machine.access(PARTITION, 16).is_some()
    {
        return Err(6);
    }
    drop(machine);
    if memory::asked() != asked {
        return Err(7);
    }
    let pages = lent.into_pages();
    if pages[16].0[0] == 42 && memory::given_back() {
        Ok(())
    } else {
        Err(8)
    }
}

#[no_mangle]
extern "C" fn main() -> i32 {
    // SAFETY: this is called once, and nobody else names these pages.
    let pages = unsafe { core::slice::from_raw_parts_mut(core::ptr::addr_of_mut!(PAGES).cast(), MANIFEST.pages()) };
    match play(pages) {
        Ok(()) => 0,
        Err(step) => step.into(),
    }
}
