// SPDX-License-Identifier: MIT OR Apache-2.0
//! Several processors, and interrupts.
use crate::machine::Machine;
use crate::operation::Answer;
use crate::ram::Ram;
use crate::raw;
use core::fmt;

/// One of the processors that may run endpoints of a machine.
///
/// ```
/// # use gorseplumb::Processor;
/// const SECOND: Processor = Processor::new(1);
/// assert_eq!(Processor::all().nth(1), Some(SECOND));
/// assert_eq!(Processor::try_new(8), None);
/// ```
///
/// There are eight, and others aren't compiled:
///
/// ```compile_fail,E0080
/// const NINTH: gorseplumb::Processor = gorseplumb::Processor::new(8);
/// # let _ = NINTH;
/// ```
#[derive(Clone, Copy, PartialEq, Eq, PartialOrd, Ord, Hash)]
pub struct Processor(u32);

impl Processor {
    /// The one that is selected when a machine has booted.
    pub const FIRST: Processor = Processor(0);

    /// The processor of this number, from 0.
    ///
    /// # Panics
    /// There is no such processor: in a constant the program isn't compiled.
    #[must_use]
    pub const fn new(number: u32) -> Processor {
        match Processor::try_new(number) {
            Some(processor) => processor,
            None => panic!("a machine has 8 processors, and they are counted from 0"),
        }
    }

    /// The processor of this number, if there is one.
    #[must_use]
    pub const fn try_new(number: u32) -> Option<Processor> {
        if number < raw::MOST_PROCESSORS {
            Some(Processor(number))
        } else {
            None
        }
    }

    /// All that there are.
    pub fn all() -> impl ExactSizeIterator<Item = Processor> {
        (0..raw::MOST_PROCESSORS).map(Processor)
    }

    /// Its number.
    #[must_use]
    pub const fn number(self) -> u32 {
        self.0
    }
}

impl fmt::Debug for Processor {
    fn fmt(&self, to: &mut fmt::Formatter<'_>) -> fmt::Result {
        to.debug_tuple("Processor").field(&self.0).finish()
    }
}

/// The number.
impl fmt::Display for Processor {
    fn fmt(&self, to: &mut fmt::Formatter<'_>) -> fmt::Result {
        self.0.fmt(to)
    }
}

impl<R: Ram> Machine<R> {
    /// Selects a processor: operations, interrupts and questions are of whoever runs there, until another one is selected. At
    /// first it is [`Processor::FIRST`]. A partition that another processor runs is busy.
    ///
    /// ```
    /// # use gorseplumb::*;
    /// # const RAM: u32 = 0x4000_0000;
    /// # const WORLD: Endpoint =
    /// #     Endpoint::normal_world(Version::V1_1, Properties::NONE, &[Region::new(RAM + 0x10000, 16, Rights::Rw)]);
    /// # const FIRST: Endpoint =
    /// #     Endpoint::partition([1; 16], Version::V1_1, Properties::NONE, &[Region::new(RAM + 0x20000, 16, Rights::Rw)]);
    /// # let mut machine = Machine::boot(&Manifest::new(RAM, 1, &[WORLD, FIRST]))?;
    /// machine.select(Processor::new(1));
    /// machine.call(&Function::Run.with([0x8001_0000]));
    /// assert_eq!(machine.runner(), Id(0x8001));
    /// machine.select(Processor::FIRST);
    /// assert_eq!(machine.runner(), Id::NORMAL_WORLD);
    /// # Ok::<(), BootError>(())
    /// ```
    #[inline]
    pub fn select(&mut self, processor: Processor) {
        // SAFETY: the machine is borrowed for this one call.
        let is_selected = unsafe { raw::gorseplumb_select(self.place(), processor.0) };
        debug_assert!(is_selected);
    }

    /// An interrupt that the selected processor takes, and that the normal world is to handle: a partition that runs there
    /// stops where it is, and the normal world sees FFA_INTERRUPT, which names it. None: the normal world runs there already,
    /// and takes it by itself.
    #[inline]
    pub fn interrupt(&mut self) -> Option<Answer> {
        // SAFETY: as above.
        let outcome = unsafe { raw::gorseplumb_interrupt(self.place()) };
        (outcome.kind == raw::KIND_REGISTERS).then(|| Answer::of(outcome))
    }
}
