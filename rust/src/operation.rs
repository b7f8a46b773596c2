// SPDX-License-Identifier: MIT OR Apache-2.0
//! What an operation is given, and what comes of it.
use crate::codes::{ErrorCode, Fault};
use crate::hexadecimal::All;
use crate::{raw, Handle, Id};
use core::fmt;

/// x0 to x7.
pub type Registers = [u64; 8];

/// Registers of which the first are given, and the others are zero.
///
/// ```
/// assert_eq!(gorseplumb::registers([0x8400_0069, 1]), [0x8400_0069, 1, 0, 0, 0, 0, 0, 0]);
/// ```
///
/// There are eight, and more aren't compiled:
///
/// ```compile_fail,E0080
/// const NINE: gorseplumb::Registers = gorseplumb::registers([0; 9]);
/// # let _ = NINE;
/// ```
#[must_use]
pub const fn registers<const N: usize>(given: [u64; N]) -> Registers {
    assert!(N <= 8, "there are eight registers");
    let mut all = [0; 8];
    let mut place = 0;
    while place < N {
        all[place] = given[place];
        place += 1;
    }
    all
}

/// How many bytes a load or a store has.
#[derive(Clone, Copy, Debug, PartialEq, Eq, Hash)]
#[repr(u32)]
pub enum Size {
    /// One byte.
    B1 = 1,
    /// Two bytes.
    B2 = 2,
    /// Four bytes.
    B4 = 4,
    /// Eight bytes.
    B8 = 8,
}

impl Size {
    /// The size of so many bytes, if there is one.
    #[must_use]
    pub const fn of(bytes: usize) -> Option<Size> {
        match bytes {
            1 => Some(Size::B1),
            2 => Some(Size::B2),
            4 => Some(Size::B4),
            8 => Some(Size::B8),
            _ => None,
        }
    }
}

/// What a call gives: who runs next, and the registers that it sees. Of a partition that goes on where an interrupt stopped
/// it these are its own, and none are told.
#[derive(Clone, Copy, PartialEq, Eq)]
#[repr(transparent)]
pub struct Answer(raw::Outcome);

const FFA_ERROR: u32 = 0x8400_0060;
const FFA_SUCCESS: u32 = 0x8400_0061;

impl Answer {
    /// Who runs next. It may be another than who called.
    #[inline]
    #[must_use]
    pub fn runner(&self) -> Id {
        Id(self.0.runner as u16)
    }

    /// The registers that it sees. None: a partition that an interrupt had stopped goes on where it was, with its own.
    #[inline]
    #[must_use]
    pub fn registers(&self) -> Option<&Registers> {
        (self.0.kind == raw::KIND_REGISTERS).then_some(&self.0.x)
    }

    /// What FFA_ERROR tells, where the call is refused.
    #[inline]
    #[must_use]
    pub fn error(&self) -> Option<ErrorCode> {
        let [w0, _, w2, ..] = self.0.x;
        (w0 as u32 == FFA_ERROR).then(|| known(ErrorCode::of(w2 as i32)))
    }

    /// The handle in w2 and w3, where an offer of memory is answered. None: this is no FFA_SUCCESS.
    #[inline]
    #[must_use]
    pub fn handle(&self) -> Option<Handle> {
        let [w0, _, w2, w3, ..] = self.0.x;
        (w0 as u32 == FFA_SUCCESS).then_some(Handle(u64::from(w2 as u32) | w3 << 32))
    }

    /// The answer to a call that was done, or the code of one that is refused.
    ///
    /// # Errors
    /// The code that FFA_ERROR tells. Nothing has changed then.
    #[inline]
    pub fn done(self) -> Result<Answer, ErrorCode> {
        self.error().map_or(Ok(self), Err)
    }

    #[inline]
    pub(crate) fn of(outcome: raw::Outcome) -> Answer {
        debug_assert!(matches!(outcome.kind, raw::KIND_REGISTERS | raw::KIND_RESUMED));
        Answer(outcome)
    }
}

impl fmt::Debug for Answer {
    fn fmt(&self, to: &mut fmt::Formatter<'_>) -> fmt::Result {
        let registers = self.registers().map(|registers| All(registers));
        to.debug_struct("Answer").field("runner", &self.runner()).field("registers", &registers).finish()
    }
}

/// The answer as a trace prints it: `regs`, the runner in four digits and each register in sixteen, or `resumed` and the
/// partition that goes on.
impl fmt::Display for Answer {
    fn fmt(&self, to: &mut fmt::Formatter<'_>) -> fmt::Result {
        let Some(registers) = self.registers() else {
            return write!(to, "resumed {}", self.runner());
        };
        write!(to, "regs {}", self.runner())?;
        registers.iter().try_for_each(|register| write!(to, " {register:016X}"))
    }
}

/// The value of an access, or the fault by which it is refused.
#[inline]
pub(crate) fn accessed(outcome: &raw::Outcome) -> Result<u64, Fault> {
    match outcome.kind {
        raw::KIND_DATA | raw::KIND_DONE => Ok(outcome.value),
        _ => Err(known(Fault::of(outcome.value as u32))),
    }
}

/// A number of the library's, in the enum that has all of them.
pub(crate) fn known<T>(found: Option<T>) -> T {
    found.expect("the archive answers by a number that this crate doesn't know: they are of different versions")
}
