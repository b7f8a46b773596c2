// SPDX-License-Identifier: MIT OR Apache-2.0
//! The library's memory, from an array: each block behind the last one. What is given back is counted and not used
//! again, which is enough for who lends pages once.
use core::cell::UnsafeCell;
use core::ffi::c_void;
use core::sync::atomic::{AtomicUsize, Ordering::Relaxed};
use gorseplumb::raw::Block;

const SIZE: usize = 0x40000;
const ALIGN: usize = 16;

#[repr(C, align(16))]
struct Memory(UnsafeCell<[u8; SIZE]>);

// SAFETY: this program has one thread, and each byte is in one block.
unsafe impl Sync for Memory {}

static MEMORY: Memory = Memory(UnsafeCell::new([0; SIZE]));
static USED: AtomicUsize = AtomicUsize::new(0);
static ASKED: AtomicUsize = AtomicUsize::new(0);
static GIVEN_BACK: AtomicUsize = AtomicUsize::new(0);

/// One more, in a program of one thread.
pub fn count(counter: &AtomicUsize) {
    counter.store(counter.load(Relaxed) + 1, Relaxed);
}

/// How many blocks were asked for.
pub fn asked() -> usize {
    ASKED.load(Relaxed)
}

/// Whether all of them were given back.
pub fn given_back() -> bool {
    asked() == GIVEN_BACK.load(Relaxed)
}

#[no_mangle]
extern "C" fn rattle_alloc(size: usize, align: usize) -> Block {
    let first = USED.load(Relaxed);
    let array: *mut u8 = MEMORY.0.get().cast();
    if align > ALIGN || size > SIZE - first {
        return Block { ok: false, at: array.cast() };
    }
    USED.store(SIZE.min(first + (size + ALIGN - 1) / ALIGN * ALIGN), Relaxed);
    count(&ASKED);
    // SAFETY: the block lies in the array.
    Block { ok: true, at: unsafe { array.add(first) }.cast() }
}

/// Nothing here grows a block: lists of pages are begun with room for all.
#[no_mangle]
extern "C" fn rattle_realloc(block: *mut c_void, _kept: usize, _size: usize, _align: usize) -> Block {
    Block { ok: false, at: block }
}

#[no_mangle]
extern "C" fn rattle_dealloc(_block: *mut c_void) {
    count(&GIVEN_BACK);
}
