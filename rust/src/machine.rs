// SPDX-License-Identifier: MIT OR Apache-2.0
//! The machine: how it begins, what it does, and how it ends.
use crate::codes::{BootError, Cause, Fault};
use crate::hexadecimal::shown;
use crate::operation::{accessed, known, Answer, Registers, Size};
use crate::ram::{Heap, Lent, Page, Ram};
use crate::refusal::Refusal;
use crate::{raw, Id, Manifest};
use core::fmt;
use core::mem::ManuallyDrop;
use core::ptr;

mod sealed {
    use crate::raw;

    /// The library's boots, from one kind of description.
    ///
    /// # Safety
    /// Each function is called with pointers that are valid and apart.
    pub trait Description {
        unsafe fn boot(&self, machine: *mut raw::Machine) -> u32;
        unsafe fn boot_lent(&self, machine: *mut raw::Machine, lent: *mut raw::Lent) -> u32;
        unsafe fn boot_preloaded(&self, machine: *mut raw::Machine, lent: *mut raw::Lent) -> u32;
        unsafe fn why(&self, refusal: *mut raw::Refusal) -> u32;
    }
}

/// What a machine is booted from: a [`Manifest`] of numbers, or the text of one, as `str` or `[u8]`. A program that has
/// no text links nothing that reads one.
pub trait Description: sealed::Description {}

impl<T: sealed::Description + ?Sized> Description for T {}

// SAFETY, of all that follows: the text or the manifest is live, and as long as is said.
impl sealed::Description for [u8] {
    unsafe fn boot(&self, machine: *mut raw::Machine) -> u32 {
        unsafe { raw::gorseplumb_boot(machine, self.as_ptr(), self.len()) }
    }

    unsafe fn boot_lent(&self, machine: *mut raw::Machine, lent: *mut raw::Lent) -> u32 {
        unsafe { raw::gorseplumb_boot_lent(machine, lent, self.as_ptr(), self.len()) }
    }

    unsafe fn boot_preloaded(&self, machine: *mut raw::Machine, lent: *mut raw::Lent) -> u32 {
        unsafe { raw::gorseplumb_boot_preloaded(machine, lent, self.as_ptr(), self.len()) }
    }

    unsafe fn why(&self, refusal: *mut raw::Refusal) -> u32 {
        let mut no_words = [0; 0];
        unsafe { raw::gorseplumb_why_text(self.as_ptr(), self.len(), refusal, no_words.as_mut_ptr(), 0) }
    }
}

impl sealed::Description for str {
    unsafe fn boot(&self, machine: *mut raw::Machine) -> u32 {
        unsafe { self.as_bytes().boot(machine) }
    }

    unsafe fn boot_lent(&self, machine: *mut raw::Machine, lent: *mut raw::Lent) -> u32 {
        unsafe { self.as_bytes().boot_lent(machine, lent) }
    }

    unsafe fn boot_preloaded(&self, machine: *mut raw::Machine, lent: *mut raw::Lent) -> u32 {
        unsafe { self.as_bytes().boot_preloaded(machine, lent) }
    }

    unsafe fn why(&self, refusal: *mut raw::Refusal) -> u32 {
        unsafe { self.as_bytes().why(refusal) }
    }
}

impl sealed::Description for Manifest {
    unsafe fn boot(&self, machine: *mut raw::Machine) -> u32 {
        unsafe { raw::gorseplumb_boot_manifest(machine, self.raw()) }
    }

    unsafe fn boot_lent(&self, machine: *mut raw::Machine, lent: *mut raw::Lent) -> u32 {
        unsafe { raw::gorseplumb_boot_lent_manifest(machine, lent, self.raw()) }
    }

    unsafe fn boot_preloaded(&self, machine: *mut raw::Machine, lent: *mut raw::Lent) -> u32 {
        unsafe { raw::gorseplumb_boot_preloaded_manifest(machine, lent, self.raw()) }
    }

    unsafe fn why(&self, refusal: *mut raw::Refusal) -> u32 {
        unsafe { raw::gorseplumb_why_manifest(self.raw(), refusal) }
    }
}

/// What the answer of a list, or of a boot or a reading is here, without the place where a manifest is refused.
pub(crate) fn made(answer: u32) -> Result<(), BootError> {
    match answer {
        raw::OK => Ok(()),
        raw::NO_MEMORY => Err(BootError::NoMemory),
        raw::WRONG_COUNT => Err(BootError::WrongCount),
        cause => Err(BootError::Refused(Refusal::new(known(Cause::of(cause))))),
    }
}

/// The same with that place, which is asked for once more: where there is no memory for that, it isn't told.
pub(crate) fn booted<D: sealed::Description + ?Sized>(answer: u32, description: &D) -> Result<(), BootError> {
    made(answer).map_err(|error| {
        let mut told = raw::Refusal::NONE;
        // SAFETY: the struct is live.
        if error.cause().is_none() || unsafe { description.why(&mut told) } != answer {
            return error;
        }
        BootError::Refused(Refusal::of(&told))
    })
}

/// A machine, with RAM of its own on the heap (`Machine`), or in pages that are lent (`Machine<Lent<'_>>`).
///
/// There is always one: what has none is the error of a boot. It does one operation at a time, by `&mut self`, and is
/// asked by `&self`. It may go to another thread, and is shared with none. When it is dropped its RAM goes back to the
/// heap, or to whom it belongs.
// No `Sync`, which its pointer keeps it from: the header wants one call at a time, and no two questions either.
pub struct Machine<R: Ram = Heap> {
    at: raw::Machine,
    ram: R,
}

// SAFETY: what the pointer leads to is the machine's alone, and the library has no other state. It asks for memory from
// whichever thread has the machine, which a global allocator serves.
unsafe impl<R: Ram + Send> Send for Machine<R> {}

impl Machine {
    /// The machine of a manifest in its first state, with RAM of the heap.
    ///
    /// # Errors
    /// [`BootError::NoMemory`], or the cause for which the manifest is refused. Nothing has changed then.
    pub fn boot<D: Description + ?Sized>(description: &D) -> Result<Machine, BootError> {
        let mut at = raw::Machine::NONE;
        // SAFETY: the struct is live, and holds no machine.
        booted(unsafe { description.boot(&mut at) }, description)?;
        Ok(Machine { at, ram: Heap(raw::Lent::NONE) })
    }
}

impl<'ram> Machine<Lent<'ram>> {
    /// The machine of a manifest in its first state, in these pages, of which the first is RAM's first. All pages
    /// but the tables' are zeros.
    ///
    /// # Errors
    /// [`BootError::NoMemory`], a cause, or [`BootError::WrongCount`]. The pages keep their bytes then.
    pub fn boot_lent<D>(description: &D, pages: &'ram mut [Page]) -> Result<Machine<Lent<'ram>>, BootError>
    where
        D: Description + ?Sized,
    {
        Machine::boot_in(description, Lent::new(pages)?)
    }

    /// The same, but pages of the manifest's regions keep the bytes that they are lent with, as an image of a
    /// partition. All others but the tables' are zeros.
    ///
    /// # Errors
    /// As [`Machine::boot_lent`].
    pub fn boot_preloaded<D>(description: &D, pages: &'ram mut [Page]) -> Result<Machine<Lent<'ram>>, BootError>
    where
        D: Description + ?Sized,
    {
        Machine::boot_preloaded_in(description, Lent::new(pages)?)
    }
}

impl<R: Ram> Machine<R> {
    pub(crate) fn boot_in<D>(description: &D, mut ram: R) -> Result<Machine<R>, BootError>
    where
        D: Description + ?Sized,
    {
        let mut at = raw::Machine::NONE;
        // SAFETY: the struct is live and holds no machine, and the list is another's.
        booted(unsafe { description.boot_lent(&mut at, ram.list()) }, description)?;
        Ok(Machine { at, ram })
    }

    pub(crate) fn boot_preloaded_in<D>(description: &D, mut ram: R) -> Result<Machine<R>, BootError>
    where
        D: Description + ?Sized,
    {
        let mut at = raw::Machine::NONE;
        // SAFETY: as above.
        booted(unsafe { description.boot_preloaded(&mut at, ram.list()) }, description)?;
        Ok(Machine { at, ram })
    }

    /// The same machine once more, with RAM of the heap, whichever RAM this one has. Each operation gives the same in
    /// both from then on, and neither changes the other.
    ///
    /// # Errors
    /// [`BootError::NoMemory`].
    pub fn try_clone(&self) -> Result<Machine, BootError> {
        let mut at = raw::Machine::NONE;
        // SAFETY: the struct is live and holds no machine, and this machine is another, asked for this one call.
        made(unsafe { raw::gorseplumb_copy(&mut at, self.asked()) })?;
        Ok(Machine { at, ram: Heap(raw::Lent::NONE) })
    }

    /// The same in these pages, 512 for each of [`Machine::ram_blocks`], of which each byte is written.
    ///
    /// # Errors
    /// [`BootError::NoMemory`], or [`BootError::WrongCount`]. The pages keep their bytes then.
    pub fn try_clone_lent<'ram>(&self, pages: &'ram mut [Page]) -> Result<Machine<Lent<'ram>>, BootError> {
        self.copied_in(Lent::new(pages)?)
    }

    pub(crate) fn copied_in<T: Ram>(&self, mut ram: T) -> Result<Machine<T>, BootError> {
        let mut at = raw::Machine::NONE;
        // SAFETY: as above, and the list is a third one's.
        made(unsafe { raw::gorseplumb_copy_lent(&mut at, ram.list(), self.asked()) })?;
        Ok(Machine { at, ram })
    }

    /// A call of the endpoint that runs on the [selected processor](Machine::select), as all that follows.
    #[inline]
    pub fn call(&mut self, registers: &Registers) -> Answer {
        // SAFETY: the machine is borrowed for this one call, and eight registers are what C has in a struct.
        Answer::of(unsafe { raw::gorseplumb_call(&mut self.at, of(registers)) })
    }

    /// A load of the endpoint that runs, the lowest byte first.
    ///
    /// # Errors
    /// The fault by which it is refused. Nothing has changed then.
    #[inline]
    pub fn load(&mut self, address: u64, size: Size) -> Result<u64, Fault> {
        // SAFETY: the machine is borrowed for this one call.
        accessed(&unsafe { raw::gorseplumb_load(&mut self.at, address, size as u32) })
    }

    /// A store of the value's lowest bytes.
    ///
    /// # Errors
    /// As [`Machine::load`].
    #[inline]
    pub fn store(&mut self, address: u64, size: Size, value: u64) -> Result<(), Fault> {
        // SAFETY: as above.
        accessed(&unsafe { raw::gorseplumb_store(&mut self.at, address, size as u32, value) }).map(drop)
    }

    /// A fetch of one instruction.
    ///
    /// # Errors
    /// As [`Machine::load`].
    #[inline]
    pub fn fetch(&mut self, address: u64) -> Result<u32, Fault> {
        // SAFETY: as above.
        accessed(&unsafe { raw::gorseplumb_fetch(&mut self.at, address) }).map(|word| word as u32)
    }

    /// What the last call on memory that was done has changed of access, told once.
    pub fn take_change(&mut self) -> Option<Change> {
        let mut change = Change::NONE;
        // SAFETY: as above, and the change is live.
        unsafe { raw::gorseplumb_take_change(&mut self.at, &mut change.0) }.then_some(change)
    }

    /// Ends the machine, and gives back where its RAM is: of [`Lent`] pages the list, which has them all again.
    pub fn end(self) -> R {
        let mut machine = ManuallyDrop::new(self);
        machine.free();
        // SAFETY: the machine isn't dropped, and nobody uses what was taken out of it.
        unsafe { ptr::read(&machine.ram) }
    }

    fn free(&mut self) {
        // SAFETY: the machine is there and nobody else's, and the list is the one that its pages came from.
        let answer = unsafe { raw::gorseplumb_end(&mut self.at, self.ram.list()) };
        debug_assert_eq!(answer, raw::OK);
    }

    /// The machine, for an operation.
    pub(crate) fn place(&mut self) -> *mut raw::Machine {
        &mut self.at
    }

    /// The machine, for a question.
    #[inline]
    pub(crate) fn asked(&self) -> *const raw::Machine {
        &self.at
    }
}

impl<R: Ram> Drop for Machine<R> {
    fn drop(&mut self) {
        self.free();
    }
}

impl<R: Ram> fmt::Debug for Machine<R> {
    fn fmt(&self, to: &mut fmt::Formatter<'_>) -> fmt::Result {
        to.debug_struct("Machine").field("runner", &self.runner()).finish_non_exhaustive()
    }
}

/// Pages in a row.
#[derive(Clone, Copy, PartialEq, Eq, Hash)]
pub struct Range {
    /// The address of the first byte.
    pub address: u64,
    /// The bytes of all pages.
    pub size: u64,
}

shown! { Range { address: hexadecimal, size: hexadecimal } }

/// Whose access to which pages has changed. To each of them the endpoint had none before, or has none now.
#[derive(Clone, PartialEq, Eq)]
pub struct Change(raw::Change);

impl Change {
    const NONE: Change = Change(raw::Change {
        endpoint: 0,
        range_count: 0,
        ranges: [raw::Range { address: 0, size: 0 }; raw::MOST_RANGES],
    });

    /// Whose access.
    #[must_use]
    pub fn endpoint(&self) -> Id {
        Id(self.0.endpoint as u16)
    }

    /// To which pages.
    pub fn ranges(&self) -> impl Iterator<Item = Range> + '_ {
        let told = self.0.ranges.iter().take(self.0.range_count as usize);
        told.map(|range| Range { address: range.address, size: range.size })
    }
}

impl fmt::Debug for Change {
    fn fmt(&self, to: &mut fmt::Formatter<'_>) -> fmt::Result {
        let ranges = Ranges(self);
        to.debug_struct("Change").field("endpoint", &self.endpoint()).field("ranges", &ranges).finish()
    }
}

/// The ranges of a change, for `Debug`.
struct Ranges<'change>(&'change Change);

impl fmt::Debug for Ranges<'_> {
    fn fmt(&self, to: &mut fmt::Formatter<'_>) -> fmt::Result {
        to.debug_list().entries(self.0.ranges()).finish()
    }
}

/// Registers as C has them: a struct of nothing but the array.
#[inline]
pub(crate) fn of(registers: &Registers) -> *const raw::Registers {
    let registers: *const Registers = registers;
    registers.cast()
}
