// SPDX-License-Identifier: MIT OR Apache-2.0
//! Operations whose errors say why, for `?` and for whoever reads it.
use crate::codes::{ErrorCode, Fault};
use crate::functions::Function;
use crate::hexadecimal::shown;
use crate::machine::Machine;
use crate::operation::{Answer, Registers, Size};
use crate::ram::Ram;
use crate::reasons::{AccessReason, CallReason};
use core::fmt;

/// Which call is refused, by which code, and why.
#[derive(Clone, Copy, PartialEq, Eq, Hash)]
pub struct CallError {
    /// What w0 of the call holds.
    pub function: u32,
    /// What FFA_ERROR tells.
    pub error: ErrorCode,
    /// Why, as the machine says behind the call. None: the call's descriptor in lent pages was written to meanwhile.
    pub reason: Option<CallReason>,
}

shown! { CallError { function: hexadecimal, error, reason } }

/// The call's name, or its number where it has none; the code; the check's number and words, and what it is about.
impl fmt::Display for CallError {
    fn fmt(&self, to: &mut fmt::Formatter<'_>) -> fmt::Result {
        match Function::of(self.function) {
            Some(function) => function.fmt(to)?,
            None => write!(to, "call {:08X}", self.function)?,
        }
        write!(to, " is refused: {}", self.error)?;
        self.reason.map_or(Ok(()), |reason| write!(to, ": {reason}"))
    }
}

#[cfg(feature = "std")]
impl std::error::Error for CallError {
    fn source(&self) -> Option<&(dyn std::error::Error + 'static)> {
        Some(&self.error)
    }
}

impl<R: Ram> Machine<R> {
    /// A call, as [`Machine::call`] does it, which is done or says why it isn't.
    ///
    /// ```
    /// # use gorseplumb::*;
    /// # const RAM: u32 = 0x4000_0000;
    /// # const WORLD: Endpoint =
    /// #     Endpoint::normal_world(Version::V1_1, Properties::NONE, &[Region::new(RAM + 0x10000, 16, Rights::Rw)]);
    /// # let mut machine = Machine::boot(&Manifest::new(RAM, 1, &[WORLD]))?;
    /// let error = machine.call_or_why(&Function::MemReclaim.with([1])).unwrap_err();
    /// assert_eq!(
    ///     error.to_string(),
    ///     "FFA_MEM_RECLAIM is refused: INVALID_PARAMETERS: check 2: no open transaction from the caller has the handle: \
    ///      handle 0000000000000001, which no open transaction has",
    /// );
    /// # Ok::<(), BootError>(())
    /// ```
    ///
    /// # Errors
    /// [`CallError`]. Nothing has changed then.
    pub fn call_or_why(&mut self, registers: &Registers) -> Result<Answer, CallError> {
        let answer = self.call(registers);
        match answer.error() {
            None => Ok(answer),
            Some(error) => Err(CallError { function: registers[0] as u32, error, reason: self.why_call(registers) }),
        }
    }

    /// A load, as [`Machine::load`] does it, whose error says the address and what stands in the way.
    ///
    /// ```
    /// # use gorseplumb::*;
    /// # const RAM: u32 = 0x4000_0000;
    /// # const WORLD: Endpoint =
    /// #     Endpoint::normal_world(Version::V1_1, Properties::NONE, &[Region::new(RAM + 0x10000, 16, Rights::Rw)]);
    /// # let mut machine = Machine::boot(&Manifest::new(RAM, 1, &[WORLD]))?;
    /// let error = machine.load_or_why(0x4000_0000, Size::B8).unwrap_err();
    /// assert_eq!(error.to_string(), "translation fault at 40000000: the page belongs to the manager");
    /// # Ok::<(), BootError>(())
    /// ```
    ///
    /// # Errors
    /// [`AccessReason`]. Nothing has changed then.
    pub fn load_or_why(&mut self, address: u64, size: Size) -> Result<u64, AccessReason> {
        self.load(address, size).map_err(|fault| told(address, fault, self.why_load(address, size)))
    }

    /// A store, as [`Machine::store`] does it.
    ///
    /// # Errors
    /// As [`Machine::load_or_why`].
    pub fn store_or_why(&mut self, address: u64, size: Size, value: u64) -> Result<(), AccessReason> {
        self.store(address, size, value).map_err(|fault| told(address, fault, self.why_store(address, size)))
    }

    /// A fetch, as [`Machine::fetch`] does it.
    ///
    /// # Errors
    /// As [`Machine::load_or_why`].
    pub fn fetch_or_why(&mut self, address: u64) -> Result<u32, AccessReason> {
        self.fetch(address).map_err(|fault| told(address, fault, self.why_fetch(address)))
    }
}

/// What a machine says of a fault just behind it.
fn told(address: u64, fault: Fault, reason: Option<AccessReason>) -> AccessReason {
    reason.unwrap_or(AccessReason { address, fault, obstacle: None, hint: None })
}
