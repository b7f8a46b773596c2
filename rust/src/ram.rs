// SPDX-License-Identifier: MIT OR Apache-2.0
//! Where a machine's RAM is: on the heap, or in pages that are lent.
use crate::codes::BootError;
use crate::machine::{made, Description, Machine};
use crate::raw;
use core::marker::PhantomData;
use core::ptr::NonNull;
use core::slice;

/// How many bytes a page has.
pub const PAGE_SIZE: usize = 4096;

/// The bytes of a page, at an address that is a multiple of their count.
#[derive(Clone, Debug, PartialEq, Eq)]
#[repr(C, align(4096))]
pub struct Page(pub [u8; PAGE_SIZE]);

impl Page {
    /// A page of zeros.
    pub const ZERO: Page = Page([0; PAGE_SIZE]);
}

impl Default for Page {
    fn default() -> Page {
        Page::ZERO
    }
}

pub(crate) mod sealed {
    use crate::raw;

    pub trait Ram {
        /// The list into which the machine's pages go back, which is none where it has RAM of the heap.
        fn list(&mut self) -> *mut raw::Lent;
    }
}

/// Where a machine's RAM is: [`Heap`], [`Lent`], or a list of lent pages that is borrowed.
pub trait Ram: sealed::Ram {}

impl<T: sealed::Ram> Ram for T {}

/// RAM of the heap, which the machine owns.
#[derive(Debug)]
pub struct Heap(pub(crate) raw::Lent);

impl sealed::Ram for Heap {
    fn list(&mut self) -> *mut raw::Lent {
        &mut self.0
    }
}

// SAFETY: there is no list, and nothing behind its pointer.
unsafe impl Send for Heap {}

/// Pages that are lent for `'ram`, in a list that takes all memory that a machine needs.
///
/// While it stands nobody else reaches the pages. When it is dropped they are the lender's again, with their bytes.
#[derive(Debug)]
pub struct Lent<'ram> {
    list: raw::Lent,
    first: NonNull<Page>,
    count: usize,
    pages: PhantomData<&'ram mut [Page]>,
}

// SAFETY: the list is this value's alone, as the pages are, and the library has no state beside what it is handed.
unsafe impl Send for Lent<'_> {}

impl<'ram> Lent<'ram> {
    /// Lends pages. The first one is to be RAM's first.
    ///
    /// # Errors
    /// [`BootError::NoMemory`], or [`BootError::WrongCount`] where there are 2^32 of them or more.
    pub fn new(pages: &'ram mut [Page]) -> Result<Lent<'ram>, BootError> {
        let count = pages.len();
        let told = u32::try_from(count).map_err(|_| BootError::WrongCount)?;
        let first = NonNull::from(&mut *pages).cast();
        let mut lent = Lent { list: raw::Lent::NONE, first, count, pages: PhantomData };
        let mut span = raw::Span { at: first.as_ptr().cast(), pages: count };
        // SAFETY: the list and the span are live and apart, and the pages are nobody else's for `'ram`.
        made(unsafe { raw::gorseplumb_begin_lending(&mut lent.list, told) })?;
        if count > 0 {
            // SAFETY: as above.
            made(unsafe { raw::gorseplumb_lend_span(&mut lent.list, &mut span) })?;
        }
        Ok(lent)
    }

    /// Boots a machine in these pages, which are back in the list when it ends; the next boot then asks for no memory.
    /// All pages but the tables' are zeros.
    ///
    /// # Errors
    /// As [`Machine::boot_lent`]. The list has its pages still, with their bytes.
    pub fn boot<D>(&mut self, description: &D) -> Result<Machine<&mut Lent<'ram>>, BootError>
    where
        D: Description + ?Sized,
    {
        Machine::boot_in(description, self)
    }

    /// The same, but pages of the manifest's regions keep their bytes.
    ///
    /// # Errors
    /// As [`Lent::boot`].
    pub fn boot_preloaded<D>(&mut self, description: &D) -> Result<Machine<&mut Lent<'ram>>, BootError>
    where
        D: Description + ?Sized,
    {
        Machine::boot_preloaded_in(description, self)
    }

    /// Copies a machine into these pages, as [`Machine::try_clone_lent`] does: so one gets back to where it was by a copy
    /// of a copy.
    ///
    /// # Errors
    /// As [`Machine::try_clone_lent`]. The list has its pages still.
    pub fn copy<R: Ram>(&mut self, original: &Machine<R>) -> Result<Machine<&mut Lent<'ram>>, BootError> {
        original.copied_in(self)
    }

    /// The list, for the library.
    pub(crate) fn raw(&mut self) -> *mut raw::Lent {
        &mut self.list
    }

    /// The pages, for as long as they were lent.
    #[must_use]
    pub fn into_pages(self) -> &'ram mut [Page] {
        let (first, count) = (self.first, self.count);
        drop(self);
        // SAFETY: these are the pages that were lent for `'ram`, and no list has them any more.
        unsafe { slice::from_raw_parts_mut(first.as_ptr(), count) }
    }
}

impl sealed::Ram for Lent<'_> {
    fn list(&mut self) -> *mut raw::Lent {
        &mut self.list
    }
}

impl sealed::Ram for &mut Lent<'_> {
    fn list(&mut self) -> *mut raw::Lent {
        &mut self.list
    }
}

impl Drop for Lent<'_> {
    fn drop(&mut self) {
        // SAFETY: the list is this value's, and the slot is live. Of a list that isn't there both answer so.
        unsafe {
            while raw::gorseplumb_lent_pages(&self.list) > 0 {
                let mut slot = raw::Slot::NONE;
                raw::gorseplumb_take_back(&mut self.list, &mut slot);
            }
            raw::gorseplumb_end_lending(&mut self.list);
        }
    }
}
