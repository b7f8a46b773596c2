// SPDX-License-Identifier: MIT OR Apache-2.0
//! The three functions by which the library asks for memory, over the program's global allocator. That one is told a
//! block's size where it is given back, and the library tells none: so it stands in sixteen bytes in front of the
//! block.
use crate::raw::Block;
use alloc::alloc::{alloc, dealloc, realloc, Layout};
use core::ffi::c_void;

/// What each block is aligned to, and what its front takes.
const FRONT: usize = 16;

/// No memory, and a pointer that isn't null.
const NONE: Block = Block { ok: false, at: FRONT as *mut c_void };

/// A block of so many bytes with its front, if there may be one.
fn layout(size: usize, align: usize) -> Option<Layout> {
    if align > FRONT {
        return None;
    }
    Layout::from_size_align(size.checked_add(FRONT)?, FRONT).ok()
}

/// Writes the front of a block that the allocator gave, if it gave one.
///
/// # Safety
/// `front` is null, or points to memory of this layout that nobody else has.
unsafe fn block(front: *mut u8, layout: Layout) -> Block {
    if front.is_null() {
        return NONE;
    }
    // SAFETY: the memory has room for its front, and is aligned to more than a `usize`.
    unsafe {
        front.cast::<usize>().write(layout.size());
        Block { ok: true, at: front.add(FRONT).cast() }
    }
}

/// The front of a block, and the layout by which the allocator gave it.
///
/// # Safety
/// `block` is one that `block` gave, and wasn't given back.
unsafe fn front(block: *mut c_void) -> (*mut u8, Layout) {
    // SAFETY: the front stands before the block, and has the size of a layout that there was.
    unsafe {
        let front = block.cast::<u8>().sub(FRONT);
        (front, Layout::from_size_align_unchecked(front.cast::<usize>().read(), FRONT))
    }
}

#[no_mangle]
unsafe extern "C" fn rattle_alloc(size: usize, align: usize) -> Block {
    match layout(size, align) {
        // SAFETY: a layout has at least the sixteen bytes of its front.
        Some(layout) => unsafe { block(alloc(layout), layout) },
        None => NONE,
    }
}

#[no_mangle]
unsafe extern "C" fn rattle_realloc(old: *mut c_void, _kept: usize, size: usize, align: usize) -> Block {
    match layout(size, align) {
        // SAFETY: the library hands over a block that it has, which is gone only where another is given.
        Some(layout) => unsafe {
            let (front, before) = front(old);
            block(realloc(front, before, layout.size()), layout)
        },
        None => NONE,
    }
}

#[no_mangle]
unsafe extern "C" fn rattle_dealloc(old: *mut c_void) {
    // SAFETY: the library hands over a block that it has.
    unsafe {
        let (front, layout) = front(old);
        dealloc(front, layout);
    }
}
