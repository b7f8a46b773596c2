// SPDX-License-Identifier: MIT OR Apache-2.0
//! Gorseplumb: a proved partition manager core of FF-A 1.1, as a machine that does one operation at a time.
//!
//! The core is a static archive, which this crate links; what is proved of it is said in the repository's README.md,
//! and the crate is tested, not proved.
//!
//! ```
//! use gorseplumb::*;
//!
//! const RAM: u32 = 0x4000_0000;
//! const MANIFEST: Manifest = Manifest::new(RAM, 1, &[
//!     Endpoint::normal_world(
//!         Version::V1_1,
//!         Properties::SENDS_REQUESTS,
//!         &[Region::new(RAM + 0x10000, 16, Rights::Rw)],
//!     ),
//!     Endpoint::partition(
//!         0x00112233_4455_6677_8899_aabbccddeeff_u128.to_be_bytes(),
//!         Version::V1_1,
//!         Properties::ALL,
//!         &[Region::new(RAM + 0x20000, 16, Rights::Rwx)],
//!     ),
//! ]);
//!
//! # fn main() -> Result<(), BootError> {
//! let mut machine = Machine::boot(&MANIFEST)?;
//! assert_eq!(machine.store(0x4001_0000, Size::B1, 42), Ok(()));
//! assert_eq!(machine.load(0x4001_0000, Size::B1), Ok(42));
//! assert_eq!(machine.load(0x4002_0000, Size::B1), Err(Fault::Translation)); // the partition's
//!
//! let answer = machine.call(&Function::Run.with([0x8001_0000]));
//! assert_eq!(answer.runner(), Id(0x8001));
//! let answer = machine.call(&registers([0x8400_007A])); // a call that isn't served
//! assert_eq!(answer.error(), Some(ErrorCode::NotSupported));
//! # Ok(()) }
//! ```
//!
//! # What the program has to have
//!
//! The archive calls seven functions, by these names. With a C library, and the features `heap` and `unsettled`, which
//! are on, a program has them all.
//!
//! - `rattle_alloc`, `rattle_realloc`, `rattle_dealloc`: the feature `heap` has them over the program's global
//!   allocator; without it the program has to, as `rust/bare/src/memory.rs` does.
//! - `memcpy`, `memmove`, `memset`: a C library has them, and for targets without one (`*-none`) Rust itself.
//! - `gorseplumb_settle`: the feature `unsettled` has one that does nothing, for a program in which no processor walks
//!   the tables. Where one does, firmware leaves that feature off and defines it by [`settle_by!`]; else it isn't linked.
//!
//! To check a crate or to read its pages takes no archive; to build a program or a test does.
//!
//! # What the types ask
//!
//! Lent pages can't be reached while a machine stands in them:
//!
//! ```compile_fail,E0503
//! # use gorseplumb::*;
//! # fn f(manifest: &Manifest, ram: &mut [Page]) -> Result<(), BootError> {
//! let mut machine = Machine::boot_lent(manifest, ram)?;
//! let byte = ram[16].0[0];
//! machine.call(&registers([0x8400_0069]));
//! # Ok(()) }
//! ```
//!
//! They outlive it:
//!
//! ```compile_fail,E0597
//! # use gorseplumb::*;
//! # fn f(manifest: &Manifest) -> Result<(), BootError> {
//! let machine = {
//!     let mut ram = vec![Page::ZERO; 512];
//!     Machine::boot_lent(manifest, &mut ram)?
//! };
//! machine.runner();
//! # Ok(()) }
//! ```
//!
//! A list has one machine at a time:
//!
//! ```compile_fail,E0499
//! # use gorseplumb::*;
//! # fn f(manifest: &Manifest, lent: &mut Lent) -> Result<(), BootError> {
//! let first = lent.boot(manifest)?;
//! let second = lent.boot(manifest)?;
//! first.runner();
//! # Ok(()) }
//! ```
//!
//! No operation is done by who may only ask:
//!
//! ```compile_fail,E0596
//! # use gorseplumb::*;
//! fn ask(machine: &Machine) {
//!     machine.runner();
//!     let _ = machine.load(0x4001_0000, Size::B1);
//! }
//! ```
//!
//! No two threads have one machine:
//!
//! ```compile_fail,E0277
//! # use gorseplumb::*;
//! fn share<T: Sync>() {}
//! share::<Machine>();
//! ```
//!
//! A machine that has ended is gone:
//!
//! ```compile_fail,E0382
//! # use gorseplumb::*;
//! # fn f(machine: Machine) {
//! machine.end();
//! machine.runner();
//! # }
//! ```
#![no_std]
#![deny(missing_docs, unsafe_op_in_unsafe_fn)]

#[cfg(feature = "heap")]
extern crate alloc;
#[cfg(feature = "std")]
extern crate std;

mod allowed;
mod bytes;
mod certificate;
mod checks;
mod codes;
mod descriptors;
mod explaining;
mod functions;
#[cfg(feature = "heap")]
mod heap;
mod hexadecimal;
mod hints;
mod layout;
mod lists;
mod machine;
mod manifest;
mod named;
mod names;
mod operation;
mod processors;
mod questions;
mod ram;
pub mod raw;
mod reasons;
mod refusal;
mod sending;
mod settling;

pub use allowed::Allowed;
pub use certificate::{AuditError, Grant, PageRun};
pub use checks::{Check, Flaw};
pub use codes::{BootError, Cause, ErrorCode, Fault};
pub use descriptors::{
    DataAccess, DescriptorError, InstructionAccess, Kind, Offer, OfferRoom, PageRange, ReadBack, Receiver, Relinquish,
    Retrieve, RetrieveResponse, MOST_DESCRIPTOR, MOST_RANGES, MOST_RECEIVERS,
};
pub use explaining::CallError;
pub use functions::Function;
pub use hints::{CheckCause, Hint, Part, Side};
pub use layout::DescriptorBytes;
pub use lists::{Operation, Outcome, Told};
pub use machine::{Change, Description, Machine, Range};
pub use manifest::{
    CountError, Endpoint, Ffa, Manifest, Properties, Region, Rights, Version, MOST_BLOCKS, MOST_ENDPOINTS, MOST_REGIONS,
};
pub use named::{decode, encode, encode_words, ArgumentError, Named};
pub use names::{call_name, declarations, version};
pub use operation::{registers, Answer, Registers, Size};
pub use processors::Processor;
pub use ram::{Heap, Lent, Page, Ram, PAGE_SIZE};
pub use reasons::{About, AccessReason, CallReason, Obstacle, RunState};
pub use refusal::Refusal;
pub use sending::{Descriptor, SendError};
pub use settling::Settling;

use core::fmt;

/// The identifier of an endpoint, or of the manager.
#[derive(Clone, Copy, PartialEq, Eq, PartialOrd, Ord, Hash)]
pub struct Id(pub u16);

/// In hexadecimal, as `Id(0x8001)`.
impl fmt::Debug for Id {
    fn fmt(&self, to: &mut fmt::Formatter<'_>) -> fmt::Result {
        to.debug_tuple("Id").field(&hexadecimal::Hexadecimal(self.0)).finish()
    }
}

impl Id {
    /// The manifest's first endpoint.
    pub const NORMAL_WORLD: Id = Id(0);

    /// Who owns what no endpoint owns. It never runs.
    pub const MANAGER: Id = Id(0x8000);

    /// That of the endpoint at a place in the manifest, from 0.
    #[must_use]
    pub const fn at(place: u16) -> Id {
        match place {
            0 => Id::NORMAL_WORLD,
            _ => Id(0x8000 + place),
        }
    }
}

/// The handle of a memory transaction.
#[derive(Clone, Copy, PartialEq, Eq, PartialOrd, Ord, Hash)]
pub struct Handle(pub u64);

/// In hexadecimal, as `Handle(0x800100000001)`.
impl fmt::Debug for Handle {
    fn fmt(&self, to: &mut fmt::Formatter<'_>) -> fmt::Result {
        to.debug_tuple("Handle").field(&hexadecimal::Hexadecimal(self.0)).finish()
    }
}

/// The handle in sixteen digits, as the program prints it.
impl fmt::Display for Handle {
    fn fmt(&self, to: &mut fmt::Formatter<'_>) -> fmt::Result {
        write!(to, "{:016X}", self.0)
    }
}

/// As an argument by name has it.
impl From<Handle> for u128 {
    fn from(handle: Handle) -> u128 {
        handle.0.into()
    }
}

/// The identifier in four digits, as a trace prints it.
impl fmt::Display for Id {
    fn fmt(&self, to: &mut fmt::Formatter<'_>) -> fmt::Result {
        write!(to, "{:04X}", self.0)
    }
}
