// SPDX-License-Identifier: MIT OR Apache-2.0
//! Operations in a list, and the text of a manifest as numbers.
use crate::codes::{BootError, Fault};
use crate::hexadecimal::{All, Hexadecimal};
use crate::machine::{booted, Machine};
use crate::manifest::Manifest;
use crate::operation::{accessed, Answer, Registers, Size};
use crate::ram::Ram;
use crate::raw;
use core::fmt;

/// An operation of the endpoint that runs.
#[derive(Clone, Copy, PartialEq, Eq)]
#[repr(transparent)]
pub struct Operation(raw::Operation);

impl Operation {
    const NONE: raw::Operation = raw::Operation { kind: raw::OPERATION_CALL, size: 0, address: 0, value: 0, x: [0; 8] };

    /// A call.
    #[must_use]
    pub const fn call(registers: Registers) -> Operation {
        Operation(raw::Operation { x: registers, ..Operation::NONE })
    }

    /// A load.
    #[must_use]
    pub const fn load(address: u64, size: Size) -> Operation {
        Operation(raw::Operation { kind: raw::OPERATION_LOAD, size: size as u32, address, ..Operation::NONE })
    }

    /// A store of the value's lowest bytes.
    #[must_use]
    pub const fn store(address: u64, size: Size, value: u64) -> Operation {
        Operation(raw::Operation { kind: raw::OPERATION_STORE, size: size as u32, address, value, ..Operation::NONE })
    }

    /// A fetch of one instruction.
    #[must_use]
    pub const fn fetch(address: u64) -> Operation {
        Operation(raw::Operation { kind: raw::OPERATION_FETCH, address, ..Operation::NONE })
    }
}

impl fmt::Debug for Operation {
    fn fmt(&self, to: &mut fmt::Formatter<'_>) -> fmt::Result {
        let raw::Operation { kind, size, address, value, ref x } = self.0;
        let address = Hexadecimal(address);
        match kind {
            raw::OPERATION_LOAD => to.debug_struct("Load").field("address", &address).field("size", &size).finish(),
            raw::OPERATION_STORE => to
                .debug_struct("Store")
                .field("address", &address)
                .field("size", &size)
                .field("value", &Hexadecimal(value))
                .finish(),
            raw::OPERATION_FETCH => to.debug_struct("Fetch").field("address", &address).finish(),
            _ => to.debug_tuple("Call").field(&All(x)).finish(),
        }
    }
}

/// The place of an outcome in a list.
#[derive(Clone, Copy, PartialEq, Eq)]
#[repr(transparent)]
pub struct Outcome(raw::Outcome);

/// What an operation gives.
#[derive(Clone, Copy, PartialEq, Eq)]
pub enum Told {
    /// A call's answer.
    Answer(Answer),
    /// What was loaded or fetched, the lowest byte first.
    Data(u64),
    /// A store was done.
    Done,
    /// An access is refused.
    Fault(Fault),
}

impl fmt::Debug for Told {
    fn fmt(&self, to: &mut fmt::Formatter<'_>) -> fmt::Result {
        match self {
            Told::Answer(answer) => to.debug_tuple("Answer").field(answer).finish(),
            Told::Data(value) => to.debug_tuple("Data").field(&Hexadecimal(*value)).finish(),
            Told::Done => to.write_str("Done"),
            Told::Fault(fault) => to.debug_tuple("Fault").field(fault).finish(),
        }
    }
}

impl Outcome {
    /// A place to which no operation has written yet: as if a store was done.
    pub const NONE: Outcome = Outcome(raw::Outcome { kind: raw::KIND_DONE, runner: 0, value: 0, x: [0; 8] });

    /// What the operation gave.
    #[must_use]
    pub fn told(&self) -> Told {
        match self.0.kind {
            raw::KIND_REGISTERS | raw::KIND_RESUMED => Told::Answer(Answer::of(self.0)),
            raw::KIND_DONE => Told::Done,
            _ => accessed(&self.0).map_or_else(Told::Fault, Told::Data),
        }
    }
}

impl fmt::Debug for Outcome {
    fn fmt(&self, to: &mut fmt::Formatter<'_>) -> fmt::Result {
        self.told().fmt(to)
    }
}

impl<R: Ram> Machine<R> {
    /// Does operations one behind the other, as many as both lists have places, and says how many.
    ///
    /// ```
    /// # use gorseplumb::*;
    /// # const RAM: u32 = 0x4000_0000;
    /// # const WORLD: Endpoint =
    /// #     Endpoint::normal_world(Version::V1_1, Properties::NONE, &[Region::new(RAM + 0x10000, 16, Rights::Rw)]);
    /// # let mut machine = Machine::boot(&Manifest::new(RAM, 1, &[WORLD]))?;
    /// let list = [Operation::store(0x4001_0000, Size::B1, 42), Operation::load(0x4001_0000, Size::B1)];
    /// let mut outcomes = [Outcome::NONE; 2];
    /// assert_eq!(machine.run(&list, &mut outcomes), 2);
    /// assert_eq!(outcomes.map(|outcome| outcome.told()), [Told::Done, Told::Data(42)]);
    /// # Ok::<(), BootError>(())
    /// ```
    pub fn run(&mut self, operations: &[Operation], outcomes: &mut [Outcome]) -> usize {
        let (given, places) = (operations.as_ptr().cast(), outcomes.as_mut_ptr().cast());
        // SAFETY: the machine and the outcomes are borrowed for this one call, and both lists are as long as is said.
        unsafe { raw::gorseplumb_run(self.place(), given, operations.len(), places, outcomes.len()) }
    }
}

impl Manifest {
    /// The manifest of a text, as numbers. A machine boots from one as from the other.
    ///
    /// ```
    /// # use gorseplumb::*;
    /// let text = r#"
    ///     ram_base = 0x40000000
    ///     ram_blocks = 1
    ///     [[endpoint]]
    ///     version = "1.1"
    ///     properties = 2
    ///     regions = [{ base = 0x40010000, pages = 16, rights = "rw" }]
    /// "#;
    /// const DATA: Region = Region::new(0x4001_0000, 16, Rights::Rw);
    /// const WORLD: Endpoint = Endpoint::normal_world(Version::V1_1, Properties::SENDS_REQUESTS, &[DATA]);
    /// assert_eq!(Manifest::read(text), Ok(Manifest::new(0x4000_0000, 1, &[WORLD])));
    /// assert_eq!(Manifest::read(""), Err(BootError::Refused(Refusal::new(Cause::MissingKey))));
    /// ```
    ///
    /// # Errors
    /// [`BootError::NoMemory`], or the cause for which the text is refused.
    pub fn read(text: impl AsRef<[u8]>) -> Result<Manifest, BootError> {
        let text = text.as_ref();
        let mut manifest = Manifest::EMPTY;
        // SAFETY: the text is as long as is said, and the manifest is live.
        booted(unsafe { raw::gorseplumb_read_manifest(text.as_ptr(), text.len(), manifest.raw_mut()) }, text)?;
        Ok(manifest)
    }

    /// Why a text is refused, in the words of the program's `check --verbose`, as far as `room` has place for them, with a
    /// byte behind them. Nothing where the text describes a machine, or there is no memory.
    ///
    /// ```
    /// # use gorseplumb::*;
    /// let mut room = [0; 256];
    /// let said = Manifest::why("rambase = 1", &mut room);
    /// assert_eq!(said, Some("unknown key 'rambase': did you mean 'ram_base'?"));
    /// ```
    pub fn why(text: impl AsRef<[u8]>, room: &mut [u8]) -> Option<&str> {
        let text = text.as_ref();
        let mut told = raw::Refusal::NONE;
        // SAFETY: the text and the room are as long as is said, and the struct is live.
        unsafe { raw::gorseplumb_why_text(text.as_ptr(), text.len(), &mut told, room.as_mut_ptr(), room.len()) };
        if told.cause == 0 {
            return None;
        }
        let words = &room[..usize::try_from(told.words).ok()?.min(room.len().saturating_sub(1))];
        // (words that are cut may end inside a character)
        match core::str::from_utf8(words) {
            Ok(words) => Some(words),
            Err(error) => core::str::from_utf8(&words[..error.valid_up_to()]).ok(),
        }
    }
}
