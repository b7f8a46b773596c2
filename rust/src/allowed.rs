// SPDX-License-Identifier: MIT OR Apache-2.0
//! The numbers that a register or a field of a descriptor may have instead of a refused one.
use crate::hexadecimal::shown;
use crate::raw;
use crate::reasons::About;
use core::fmt;

/// The numbers that a refused register or field may have instead: from the least to the greatest, in equal steps.
#[derive(Clone, Copy, PartialEq, Eq, Hash)]
pub struct Allowed {
    /// The least number.
    pub least: u64,
    /// The greatest number, which may be the least one.
    pub most: u64,
    /// The distance from one number to the next, which is never 0.
    pub step: u64,
}

shown! { Allowed { least: hexadecimal, most: hexadecimal, step: hexadecimal } }

impl Allowed {
    pub(crate) fn of(told: &raw::Reason) -> Option<Allowed> {
        let raw::Reason { least, most, step, .. } = *told;
        (step != 0).then_some(Allowed { least, most, step })
    }

    /// Whether a number is allowed.
    ///
    /// ```
    /// # use gorseplumb::*;
    /// # const RAM: u32 = 0x4000_0000;
    /// # const WORLD: Endpoint =
    /// #     Endpoint::normal_world(Version::V1_1, Properties::NONE, &[Region::new(RAM + 0x10000, 16, Rights::Rw)]);
    /// # let machine = Machine::boot(&Manifest::new(RAM, 1, &[WORLD]))?;
    /// let map = registers([0x8400_0066, 0x4001_0000, 0x4001_1000, 5]); // FFA_RXTX_MAP of five pages
    /// let reason = machine.why_call(&map).unwrap();
    /// let pages = reason.allowed.unwrap();
    /// assert!(pages.contains(4) && !pages.contains(5));
    /// assert!(reason.to_string().ends_with(", and must be 00000001 to 00000004"));
    /// # Ok::<(), BootError>(())
    /// ```
    #[must_use]
    pub fn contains(&self, number: u64) -> bool {
        (self.least..=self.most).contains(&number) && (number - self.least) % self.step == 0
    }

    /// Writes the allowed numbers as the program does, after what a check is about.
    pub(crate) fn put(&self, to: &mut fmt::Formatter<'_>, about: Option<About>) -> fmt::Result {
        let digits = match about {
            Some(About::Field { size, .. }) => 2 * size.min(8) as usize,
            _ => 8,
        };
        let Allowed { least, most, step } = self;
        match step {
            _ if least == most => write!(to, ", and must be {least:0digits$X}"),
            1 => write!(to, ", and must be {least:0digits$X} to {most:0digits$X}"),
            _ if most - least == *step => write!(to, ", and must be {least:0digits$X} or {most:0digits$X}"),
            _ => write!(to, ", and must be {least:0digits$X} to {most:0digits$X} in steps of {step:0digits$X}"),
        }
    }
}
